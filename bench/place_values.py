#!/usr/bin/env python3
"""Where each node of a query is worked and how many AND words it takes, worked out apart from the program.

`place_values.py TEXT` reads a query from a file, and `place_values.py seed N` makes one of 20 nodes on two columns from a
seed. Both print the text, then for each node its place and AND words, then the sum with the outputs, or the first line
with a bound that no party counts. The test `seeded_queries_are_as_the_script` of tests_query has those of the seeds 9 and 18.
A reading of docs/QUERY.md that knows nothing of the crates: sets of parties are Python's, a part is its party, or 0 for a
joint one, and its rows.
"""
import random
import re
import sys

COMPARE = {"==": 6, "!=": 6, "<": 13, "<=": 13, ">": 13, ">=": 13}
OPERATION = {**COMPARE, "+": 13, "-": 13, "*": 883, "&": 1, "|": 1}


def levels(count):
    level = 0
    while 2**level < count:
        level += 1
    return level


def number_after(word, line):
    found = re.search(r"(?<!parts )\b%s (\d+)" % word, line)
    return int(found.group(1)) if found else None


class Node:
    def __init__(self, line, nodes):
        self.line = line
        words = line.split()
        self.kind = "relation" if words[0] == "relation" else words[2]
        self.name = words[1] if self.kind == "relation" else words[0]
        self.at_most = number_after("at most", line)
        parts_bound = re.search(r"parts at most (\d+)", line)
        self.parts_bound = int(parts_bound.group(1)) if parts_bound else None
        self.via = number_after("via", line)
        self.clear_at = number_after("clear at", line)
        list_text = re.search(r"\((.*)\)", line)
        self.items = [i.strip() for i in list_text.group(1).split(",")] if list_text else []
        self.sources = self.read_sources(words, nodes)
        getattr(self, "read_" + self.kind)(line)
        if self.at_most is not None:
            self.rows = min(self.rows, self.at_most)
        self.parts = self.find_parts()

    def read_sources(self, words, nodes):
        if self.kind == "relation":
            return []
        if self.kind == "concat":
            return [nodes[w] for w in words[3:]]
        return [nodes[w] for w in words[3 : 5 if self.kind == "join" else 4]]

    def read_relation(self, line):
        self.owner, self.rows = int(line.split()[3]), int(line.split()[5])
        self.trust = {}
        for item in self.items:
            words = item.split()
            self.trust[words[0]] = {self.owner} | {int(w) for w in words[3:]}
        self.known = set().union(*self.trust.values())

    def narrow(self, source, columns):
        self.known = source.known.intersection(*[source.trust[c] for c in columns])

    def read_filter(self, line):
        source = self.sources[0]
        tests = re.search(r"where (.*?)( at most| clear at|$)", line).group(1).split(" and ")
        words = [w for t in tests for w in t.split() if w in source.trust]
        self.row = sum(COMPARE[t.split()[1]] + 1 for t in tests)
        self.rows = source.rows
        self.narrow(source, words)
        self.trust = {c: t & self.known for c, t in source.trust.items()}

    def read_select(self, line):
        source = self.sources[0]
        self.rows, self.known, self.trust, self.row, self.copied = source.rows, source.known, {}, 0, set()
        for item in self.items:
            name, _, value = item.partition(" = ")
            words = (value or name).split()
            used = [w for w in words if w in source.trust]
            self.trust[name] = self.known.intersection(*[source.trust[c] for c in used])
            self.row += OPERATION[words[1]] if len(words) == 3 else 0
            if len(words) == 1:
                self.copied |= set(used)

    def read_concat(self, line):
        self.rows = sum(s.rows for s in self.sources)
        self.known = set.intersection(*[s.known for s in self.sources])
        self.trust = {c: set.intersection(*[s.trust[c] for s in self.sources]) for c in self.sources[0].trust}

    def read_join(self, line):
        left, right = self.sources
        self.keys = [k.strip(",") for k in re.search(r" on (.*?)( at most| via| clear at|$)", line).group(1).split()]
        self.rows = left.rows * right.rows
        sets = [s.trust[k] for s in self.sources for k in self.keys]
        self.known = (left.known & right.known).intersection(*sets)
        self.trust = {k: set(self.known) for k in self.keys}
        for source in self.sources:
            for column, known in source.trust.items():
                self.trust.setdefault(column, known & self.known)

    def read_group(self, line):
        source = self.sources[0]
        keys = re.search(r" by ([^(]*)\(", line)
        self.keys = [k.strip(",") for k in keys.group(1).split()] if keys else []
        self.rows = source.rows if self.keys else 1
        self.worked = source.rows
        if self.parts_bound is not None:
            self.rows = self.worked = min(source.rows, 3 * self.parts_bound)
        self.narrow(source, self.keys)
        self.trust = {k: set(self.known) for k in self.keys}
        for item in self.items:
            name, _, value = item.partition(" = ")
            words = value.split()
            self.trust[name] = self.known & source.trust[words[1]] if len(words) == 2 else set(self.known)

    def read_distinct(self, line):
        source = self.sources[0]
        self.rows = source.rows
        self.narrow(source, source.trust)
        self.trust = {c: set(self.known) for c in source.trust}

    def find_parts(self):
        if self.kind == "relation":
            return [(self.owner, self.rows)]
        if self.clear_at:
            return [(self.clear_at, self.rows)]
        parts = [p for s in self.sources for p in s.parts]
        if self.kind in ("filter", "select"):
            return parts if len(parts) > 1 else [(parts[0][0], self.rows)]
        parties = {p[0] for p in parts}
        if len(parties) == 1 and 0 not in parties:
            return [(parties.pop(), self.rows)]
        return parts if self.kind == "concat" else [(0, self.rows)]

    def find_place(self):
        if self.up:
            return "up"
        if len(self.parts) > 1:
            return "split"
        if self.parts[0][0]:
            return "clear %d" % self.parts[0][0]
        if self.kind == "join" or self.kind == "group" and self.keys:
            helper = self.via or min(self.known, default=None)
            if helper:
                return "hybrid %d" % helper
        return "shared"

    def find_words(self):
        if self.place == "up" or self.kind in ("relation", "concat"):
            return 0
        if self.place.startswith("clear"):
            opened = [sum(r for p, r in s.parts if p == 0) * len(s.trust) for s in self.sources]
            return sum(opened) if self.clear_at else 0
        if self.kind in ("filter", "select"):
            return self.row * sum(r for p, r in self.parts if p == 0)
        hybrid, width = self.place.startswith("hybrid"), len(self.trust)
        if self.kind == "join":
            n, m, k = self.sources[0].rows, self.sources[1].rows, self.rows
            return (n + m + k * (levels(k) + 1)) * (width + 2) if hybrid else n * m * (7 * len(self.keys) + 2)
        if self.kind == "distinct":
            return self.sources[0].rows ** 2 * (7 * width + 4)
        n, k, a = self.worked, len(self.keys), 17 * len(self.items)
        if hybrid:
            return (levels(n) + 2) * n * (a + k + 2)
        return n * n * (7 * k + 4 + a) if k else n * (a + 4)

    def is_counted(self):
        rows = self.at_most is None or self.place.split()[0] in ("clear", "hybrid")
        parts = self.sources[0].parts if self.parts_bound is not None else [(1, 0), (2, 0)]
        return rows and len(parts) > 1 and all(p for p, _ in parts)


def read(text):
    nodes, outputs, order = {}, [], []
    for number, line in enumerate(text.splitlines(), 1):
        if line.startswith("output"):
            outputs.append(nodes[line.split()[1]])
        else:
            node = Node(line, nodes)
            node.number = number
            nodes[node.name] = node
            order.append(node)
    for node in reversed(order):
        users = [u for u in order for s in u.sources if s is node]
        shown = [o for o in outputs if o is node] + [u for u in users if getattr(u, "up", False)]
        node.up = node.kind == "select" and node.clear_at is None and len(users) + outputs.count(node) == 1 and bool(shown)
        node.up = node.up and any(p == 0 for p, _ in node.sources[0].parts) and node.copied == set(node.sources[0].trust)
    for node in order:
        node.place = node.find_place()
        node.words = node.find_words()
    return order, outputs


def opened_words(node):
    while node.up:
        node = node.sources[0]
    return 0 if len(node.parts) == 1 and node.parts[0][0] else node.rows * len(node.trust)


def report(text):
    order, outputs = read(text)
    print(text)
    for node in order:
        print(node.name, node.place, node.words)
    uncounted = [n.number for n in order if not n.is_counted()]
    total = sum(n.words for n in order) + sum(map(opened_words, outputs))
    print("line %d" % uncounted[0] if uncounted else "total %d" % total)


def made(seed):
    draw = random.Random(seed)
    lines, names = [], []

    def trust():
        return draw.choice(["", " trust 1", " trust 2 3", " trust 3"])

    for number in range(20):
        name = "n%d" % number
        a, b = (draw.choice(names[-12:]), draw.choice(names[-12:])) if names else ("", "")
        end = draw.choice(["", "", "", " via %d" % draw.randint(1, 3), ""] + [" clear at %d" % draw.randint(1, 3)])
        clear = end if "clear" in end else ""
        line = "relation %s of %d rows %d (x num%s, y num%s)" % (name, number % 3 + 1, draw.randint(1, 6), trust(), trust())
        if number > 3:
            line = draw.choice(
                [
                    "%s = filter %s where x %s 1" % (name, a, draw.choice(list(COMPARE))) + clear,
                    "%s = filter %s where x == y and y < 3" % (name, a) + clear,
                    "%s = select %s (x, y = x %s y)" % (name, a, draw.choice("+-*")) + clear,
                    "%s = select %s (x = y, y = x)" % (name, a),
                    "%s = concat %s %s" % (name, a, b),
                    "%s = concat %s %s" % (name, a, b),
                    "%s = join %s %s on x, y at most %d" % (name, a, b, draw.randint(2, 9)) + end,
                    "%s = group %s by x (y = sum y)" % (name, a) + end,
                    "%s = group %s by x, y (n = count)" % (name, a) + end,
                    "%s = group %s (x = sum x, y = count)" % (name, a) + clear,
                    "%s = distinct %s" % (name, a) + clear,
                ]
            )
            if "join" in line and "via" not in line and "clear" not in line:
                line = line.split(" at most")[0]
        if "n = count" not in line:
            names.append(name)
        lines.append(line)
    return "\n".join(lines + ["output %s to 1" % n for n in names[-3:]])


if __name__ == "__main__":
    report(made(int(sys.argv[2])) if sys.argv[1] == "seed" else open(sys.argv[1]).read().strip())
