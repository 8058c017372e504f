"""The plan of a graph by the rules on trust, parts, places and cost, read a second time, apart from the crates.

`plan_of` gives a graph's plan, or the first bound that no party counts, or the sum that is above the most.
"""

COMPARISONS = {"==": 6, "!=": 6, "<": 13, "<=": 13, ">": 13, ">=": 13}
OPERATIONS = COMPARISONS | {"+": 13, "-": 13, "*": 883, "&": 1, "|": 1}
MOST_WORDS = 8_388_608


# Who may know what: of each node the parties of its rows, and of each column.

def trust_of(nodes):
    known = []
    for node in nodes:
        sources = [known[source] for source in node.sources]
        known.append(globals()["trust_" + node.word](node, sources))
    return known


def trust_relation(node, sources):
    return set().union(*node.trusted), node.trusted


def meet(parties, source, columns):
    for column in columns:
        if column is not None:
            parties = parties & source[1][column]
    return parties


def trust_filter(node, sources):
    rows = meet(sources[0][0], sources[0], [column for _, operands in node.tests for column in operands])
    return rows, [column & rows for column in sources[0][1]]


def trust_select(node, sources):
    rows = sources[0][0]
    return rows, [meet(rows, sources[0], operands) for _, operands in node.items]


def trust_concat(node, sources):
    return set.intersection(*[rows for rows, _ in sources]), [set.intersection(*column) for column in zip(*[columns for _, columns in sources])]


def trust_join(node, sources):
    left, right = sources
    rows = meet(left[0] & right[0], left, [key for key, _ in node.keys])
    rows = meet(rows, right, [key for _, key in node.keys])
    others = [column for number, column in enumerate(left[1]) if number not in [key for key, _ in node.keys]]
    others += [column for number, column in enumerate(right[1]) if number not in [key for _, key in node.keys]]
    return rows, [rows] * len(node.keys) + [column & rows for column in others]


def trust_group(node, sources):
    rows = meet(sources[0][0], sources[0], node.keys)
    return rows, [rows] * len(node.keys) + [meet(rows, sources[0], [column]) for _, column in node.aggregates]


def trust_distinct(node, sources):
    rows = meet(sources[0][0], sources[0], range(len(node.columns)))
    return rows, [rows] * len(node.columns)


# Parts: of each node the pairs of a party, or None for a joint part, and rows.

def parts_of(nodes):
    parts = []
    for node in nodes:
        below = [part for source in node.sources for part in parts[source]]
        parties = {party for party, _ in below}
        together = parties.pop() if len(parties) == 1 else None
        if node.clear_at is not None:
            parts.append([(node.clear_at, node.rows)])
        elif node.word == "relation":
            parts.append([(node.owner, node.rows)])
        elif node.word in ("filter", "select"):
            parts.append(below if len(below) > 1 else [(below[0][0], node.rows)])
        elif node.word == "concat" and together is None:
            parts.append(below)
        else:
            parts.append([(together, node.rows)])
    return parts


def ups_of(graph, parts):
    """From the last node on, since a select may be up for one behind it."""
    ups = [False] * len(graph.nodes)
    for number in range(len(graph.nodes) - 1, -1, -1):
        node = graph.nodes[number]
        users = [user for user, other in enumerate(graph.nodes) for source in other.sources if source == number]
        outputs = [output for output, _ in graph.outputs if output == number]
        if node.word != "select" or node.clear_at is not None or len(users) + len(outputs) != 1:
            continue
        copied = {operands[0] for op, operands in node.items if op is None}
        joint = any(party is None for party, _ in parts[node.sources[0]])
        complete = copied >= set(range(len(graph.nodes[node.sources[0]].columns)))
        ups[number] = joint and complete and all(ups[user] for user in users)
    return ups


# Places and AND words.

def levels(rows):
    level = 0
    while 2 ** level < rows:
        level += 1
    return level


def place_of(node, parts, up, known):
    if up:
        return "up"
    if len(parts) > 1:
        return "split"
    if parts[0][0] is not None:
        return f"clear {parts[0][0]}"
    if node.word == "join" or (node.word == "group" and node.keys):
        helper = node.via if node.via is not None else min(known[0], default=None)
        if helper is not None:
            return f"hybrid {helper}"
    return "shared"


def words_of(nodes, parts, number, place):
    node, own = nodes[number], parts[number]
    rows = [nodes[source].rows for source in node.sources]
    joint = sum(rows for party, rows in own if party is None)
    n, k, a, c = (rows or [0])[0], len(node.keys), len(node.aggregates), len(node.columns)
    if node.word == "group" and node.parts_at_most is not None:
        n = min(n, 3 * node.parts_at_most)
    if place.startswith("clear") and node.clear_at is not None:
        return sum(rows * len(nodes[source].columns) for source in node.sources for party, rows in parts[source] if party is None)
    if node.word in ("relation", "concat") or place == "up" or place.startswith("clear"):
        return 0
    if node.word == "filter":
        return joint * sum(COMPARISONS[cmp] + 1 for cmp, _ in node.tests)
    if node.word == "select":
        return joint * sum(OPERATIONS.get(op, 0) for op, _ in node.items)
    if node.word == "distinct":
        return n * n * (7 * c + 4)
    if node.word == "join" and place == "shared":
        return rows[0] * rows[1] * (7 * k + 2)
    if node.word == "join":
        return (rows[0] + rows[1] + node.rows * (levels(node.rows) + 1)) * (c + 2)
    if place == "shared":
        return n * n * (7 * k + 4 + 17 * a) if k else n * (17 * a + 4)
    return (levels(n) + 2) * n * (17 * a + k + 2)


def output_words(graph, parts, ups, number):
    while ups[number]:
        number = graph.nodes[number].sources[0]
    node, own = graph.nodes[number], parts[number]
    return 0 if len(own) == 1 and own[0][0] is not None else node.rows * len(node.columns)


# The text.

def set_text(parties):
    return "".join(map(str, sorted(parties))) or "-"


def counters_of(node, parts):
    """The parties that count the bound on parts of a node, or None where nobody does."""
    below = parts[node.sources[0]]
    return sorted({party for party, _ in below}) if len(below) > 1 and all(party for party, _ in below) else None


def place_text(node, parts, number, place):
    if place == "split":
        return "split " + " ".join("s" if party is None else str(party) for party, _ in parts[number])
    if node.parts_at_most is not None:
        return place + " parts " + " ".join(map(str, counters_of(node, parts)))
    return place


def node_text(node, place, words, known):
    columns = "".join(f" {name} {set_text(parties)}" for (name, _), parties in zip(node.columns, known[1]))
    return f"{node.name} {node.word} rows {node.rows} place {place} and {words} know {set_text(known[0])}{columns}\n"


def plan_of(graph):
    nodes, parts, known = graph.nodes, parts_of(graph.nodes), trust_of(graph.nodes)
    ups = ups_of(graph, parts)
    places = [place_of(node, parts[i], ups[i], known[i]) for i, node in enumerate(nodes)]
    for number, (node, place) in enumerate(zip(nodes, places)):
        counted = node.at_most is None or place.startswith(("clear", "hybrid"))
        if not counted or (node.parts_at_most is not None and counters_of(node, parts) is None):
            return f"uncounted {number} on line {node.line}\n"
    words = [words_of(nodes, parts, i, places[i]) for i in range(len(nodes))]
    opened = [output_words(graph, parts, ups, number) for number, _ in graph.outputs]
    total = sum(words) + sum(opened)
    if total > MOST_WORDS:
        return f"words {total}\n"
    text = "".join(node_text(node, place_text(node, parts, i, places[i]), words[i], known[i]) for i, node in enumerate(nodes))
    for (number, recipients), cost in zip(graph.outputs, opened):
        text += f"output {nodes[number].name} to {set_text(recipients)} rows {nodes[number].rows} and {cost}\n"
    return text + f"total and {total}\n"
