"""Graphs of queries for `bench/places`: read from a text that is a query, or drawn by chance.

A graph knows no refusal but a taken name and a size, which end a statement that is drawn.
"""
import re

from places_reading import COMPARISONS, OPERATIONS, parts_of

TOKEN = re.compile(r'"[^"]*"|\w+|==|!=|<=|>=|[(),=<>+\-*&|]')
WORDS = ["filter", "select", "select", "concat", "concat", "join", "join", "group", "group", "group", "distinct"]
MOST_ROWS, MOST_COLUMNS, MOST_CELLS = 65_536, 32, 4_194_304


class Unfit(Exception):
    """A statement that has a taken name or is too large."""


class Words:
    """The words of a line, taken one after the other."""

    def __init__(self, line):
        self.left = TOKEN.findall(line.split("#")[0])

    def take(self):
        return self.left.pop(0)

    def takes(self, *words):
        """Whether these words stand here; then they are taken."""
        if tuple(self.left[:len(words)]) != words:
            return False
        del self.left[:len(words)]
        return True

    def number(self, *words):
        """The number behind these words, if they stand here."""
        return int(self.take()) if self.takes(*words) else None

    def parties(self, word):
        """The parties behind this word, if it stands here."""
        found = set()
        if self.takes(word):
            while self.left and self.left[0] in "123":
                found.add(int(self.take()))
        return found

    def listed(self, one):
        """What `one` takes, between parentheses, separated by commas."""
        self.takes("(")
        found = [one()]
        while self.takes(","):
            found.append(one())
        self.takes(")")
        return found


class Node:
    """A node of a graph: sources and columns by number, an operand that is a constant as None."""

    def __init__(self, name, word, line):
        self.name, self.word, self.line = name, word, line
        self.sources, self.columns, self.rows = [], [], 0
        self.owner, self.trusted = None, []
        self.tests, self.items, self.keys, self.aggregates = [], [], [], []
        self.at_most = self.parts_at_most = self.via = self.clear_at = None


class Graph:
    def __init__(self):
        self.nodes, self.outputs, self.lines = [], [], []

    @staticmethod
    def read(text):
        graph = Graph()
        for line in text.splitlines():
            graph.add(line)
        return graph

    def text(self):
        return "".join(line + "\n" for line in self.lines)

    def number(self, name):
        return [node.name for node in self.nodes].index(name)

    def add(self, line):
        """Adds the statement of a line, or raises Unfit and adds nothing."""
        words, place = Words(line), len(self.lines) + 1
        if words.takes("output"):
            self.outputs.append((self.number(words.take()), words.parties("to")))
        elif words.takes("relation"):
            self.push(self.relation(words, place))
        elif words.left:
            name = words.take()
            words.takes("=")
            node = Node(name, words.take(), place)
            getattr(self, "read_" + node.word)(node, words)
            node.parts_at_most = words.number("parts", "at", "most")
            node.at_most = words.number("at", "most")
            node.via, node.clear_at = words.number("via"), words.number("clear", "at")
            node.rows = min(self.unbounded_rows(node), node.at_most or MOST_ROWS ** 2)
            self.push(node)
        self.lines.append(line)

    def push(self, node):
        names = [name for name, _ in node.columns]
        if len(set(names)) < len(names) or node.name in [other.name for other in self.nodes]:
            raise Unfit
        cells = sum(other.rows * (len(other.columns) + 1) for other in self.nodes + [node])
        if node.rows > MOST_ROWS or len(names) > MOST_COLUMNS or cells > MOST_CELLS:
            raise Unfit
        self.nodes.append(node)

    def relation(self, words, place):
        node = Node(words.take(), "relation", place)
        node.owner, node.rows = words.number("of"), words.number("rows")
        found = words.listed(lambda: (words.take(), words.take(), words.parties("trust")))
        node.columns = [(name, kind) for name, kind, _ in found]
        node.trusted = [parties | {node.owner} for _, _, parties in found]
        return node

    def take_source(self, node, words):
        node.sources.append(self.number(words.take()))
        return self.nodes[node.sources[-1]].columns

    def read_filter(self, node, words):
        node.columns = self.take_source(node, words)
        words.takes("where")
        while True:
            left, cmp, right = words.take(), words.take(), words.take()
            node.tests.append((cmp, [column_of(node.columns, word) for word in (left, right)]))
            if not words.takes("and"):
                return

    def read_select(self, node, words):
        columns = self.take_source(node, words)

        def item():
            name = words.take()
            operands, op = [words.take() if words.takes("=") else name], None
            if words.left[0] in OPERATIONS:
                op = words.take()
                operands.append(words.take())
            node.items.append((op, [column_of(columns, word) for word in operands]))
            return name, kind_of(columns, op, operands[0])

        node.columns = words.listed(item)

    def read_concat(self, node, words):
        while words.left:
            node.columns = self.take_source(node, words)

    def read_join(self, node, words):
        left, right = self.take_source(node, words), self.take_source(node, words)
        words.takes("on")
        names = [words.take()]
        while words.takes(","):
            names.append(words.take())
        node.keys = [(column_of(left, name), column_of(right, name)) for name in names]
        others = [column for column in left + right if column[0] not in names]
        node.columns = [left[key] for key, _ in node.keys] + others

    def read_group(self, node, words):
        columns = self.take_source(node, words)
        if words.takes("by"):
            names = [words.take()]
            while words.takes(","):
                names.append(words.take())
            node.keys = [column_of(columns, name) for name in names]

        def aggregate():
            name = words.take()
            words.takes("=")
            word = words.take()
            column = None if word == "count" else column_of(columns, words.take())
            node.aggregates.append((word, column))
            return name, columns[column][1] if word in ("least", "greatest") else "num"

        made = words.listed(aggregate)
        node.columns = [columns[key] for key in node.keys] + made

    def read_distinct(self, node, words):
        node.columns = self.take_source(node, words)

    def unbounded_rows(self, node):
        rows = [self.nodes[source].rows for source in node.sources]
        if node.word == "concat":
            return sum(rows)
        if node.word == "join":
            return rows[0] * rows[1]
        if node.word == "group":
            return min(rows[0], 3 * (node.parts_at_most or MOST_ROWS)) if node.keys else 1
        return rows[0]

    @staticmethod
    def drawn(draw):
        graph = Graph()
        owners = draw.sample((1, 2, 3), 3)
        for number in range(draw.randint(2, 4)):
            graph.add(drawn_relation(draw, f"r{number}", owners[number % 3]))
        for number, word in enumerate(["concat"] + draw.choices(WORDS, k=draw.randint(2, 9)) + [draw.choice(WORDS + ["select"] * 8)]):
            try:
                graph.add(drawn_node(draw, graph, word, f"n{number}"))
            except Unfit:
                continue
        used = {source for node in graph.nodes for source in node.sources}
        ends = [number for number in range(len(graph.nodes)) if number not in used] + [draw.choice(range(len(graph.nodes)))]
        for number in sorted(set(draw.sample(ends, min(len(ends), draw.randint(1, 3))))):
            parties = sorted(draw.sample((1, 2, 3), draw.randint(1, 3)))
            graph.add(f"output {graph.nodes[number].name} to {' '.join(map(str, parties))}")
        return graph


def column_of(columns, word):
    """The number of a column, or None for a constant."""
    names = [name for name, _ in columns]
    return names.index(word) if word in names else None


def kind_of(columns, op, operand):
    if op is not None:
        return "num" if op in "+-*" else "flag"
    column = column_of(columns, operand)
    if column is not None:
        return columns[column][1]
    return "text" if operand.startswith('"') else "flag" if operand in ("true", "false") else "num"


# Queries by chance.

def drawn_relation(draw, name, owner):
    columns = draw.choice((("k num", "x num"),) * 3 + (("k num", "x num", "t text"),))
    shown = [column + draw.choice(("", "", " trust 1", " trust 3", " trust 1 2", " trust 2 3", " trust 1 2 3")) for column in columns]
    return f"relation {name} of {owner} rows {draw.choice((1, 2, 3, 5, 8, 17, 60, 300, 1500))} ({', '.join(shown)})"


def drawn_node(draw, graph, word, name):
    lately = list(zip(graph.nodes, parts_of(graph.nodes)))[-5:]
    weights = [1 if len(parts) == 1 and parts[0][0] is not None else 5 for _, parts in lately]
    source = draw.choices([node for node, _ in lately], weights)[0]
    line, bounded, helped = globals()["drawn_" + word](draw, graph, source)
    if line is None:
        raise Unfit
    if word == "group" and bounded and draw.random() < 0.25:
        line += f" parts at most {draw.choice((1, 2, 4, 30))}"
        ends = [f" via {draw.randint(1, 3)}"]
    else:
        ends = [f" via {draw.randint(1, 3)}"] * helped + [f" clear at {draw.randint(1, 3)}"] * (word != "concat")
    if bounded and draw.random() < 0.12:
        line += f" at most {draw.choice((1, 4, 7, 50))}"
    if ends and draw.random() < 0.15:
        line += draw.choice(ends)
    return f"{name} = {line}"


def drawn_filter(draw, graph, source):
    tests = []
    for _ in range(draw.randint(1, 2)):
        name, kind = draw.choice(source.columns)
        cmp = draw.choice(list(COMPARISONS))
        tests.append(f"{name} {cmp} {constant_of(kind)}")
    return f"filter {source.name} where {' and '.join(tests)}", True, False


def constant_of(kind):
    return {"num": "5", "text": '"a b"', "flag": "true"}[kind]


def drawn_select(draw, graph, source):
    """Mostly a select that copies each column, as one that is up does."""
    kept = [column for column in source.columns if draw.random() < 0.9]
    items = [name if draw.random() < 0.7 else f"{name}{name} = {name}" for name, _ in kept]
    numbers = [name for name, kind in source.columns if kind == "num"]
    if numbers and (not items or draw.random() < 0.6):
        op = draw.choice([op for op in OPERATIONS if op not in "&|"])
        items.append(f"y{len(graph.nodes)} = {draw.choice(numbers)} {op} {draw.choice(numbers + ['3'])}")
    flags = [name for name, kind in source.columns if kind == "flag"]
    if flags and draw.random() < 0.5:
        items.append(f"z{len(graph.nodes)} = {draw.choice(flags)} {draw.choice('&|')} {draw.choice(flags + ['true'])}")
    return (f"select {source.name} ({', '.join(items)})" if items else None), False, False


def drawn_concat(draw, graph, source):
    same = [node.name for node in graph.nodes if node.columns == source.columns]
    names = [draw.choice(same) for _ in range(draw.randint(1, 2))] + [source.name]
    draw.shuffle(names)
    return f"concat {' '.join(names)}", False, False


def drawn_join(draw, graph, source):
    other = draw.choice(graph.nodes)
    shared = [column[0] for column in source.columns if column in other.columns]
    if not shared:
        return None, False, False
    return f"join {source.name} {other.name} on {', '.join(shared)}", True, True


def drawn_group(draw, graph, source):
    names = [name for name, _ in source.columns]
    keys = draw.sample(names, draw.randint(0, min(2, len(names))))
    numbers = [name for name, kind in source.columns if kind == "num"]
    made = [f"s{len(graph.nodes)} = {draw.choice(('sum', 'least', 'greatest'))} {draw.choice(numbers)}"] if numbers else []
    if not made or draw.random() < 0.5:
        made.append(f"c{len(graph.nodes)} = count")
    by = f" by {', '.join(keys)}" if keys else ""
    return f"group {source.name}{by} ({', '.join(made)})", bool(keys), bool(keys)


def drawn_distinct(draw, graph, source):
    return f"distinct {source.name}", True, False
