#!/usr/bin/env python3
"""Larger files for the studies, drawn from a fixed seed: writes larger/scores, larger/comorbidity and larger/medication
beside this script, each with its query, its files and the answer that is due, as python computes it.

    python3 examples/larger.py && (cd examples/larger/scores && ../../../conclave plain q.txt | cmp - answer.txt)

A join of m and n declared rows has m times n, and 65,536 is the limit, so the joined files have 256 rows each.
"""
import collections
import pathlib
import random

HERE = pathlib.Path(__file__).resolve().parent
WORD = 2**64


def write(folder, name, columns, rows):
    lines = [",".join(columns)] + [",".join(str(cell) for cell in row) for row in rows]
    (folder / f"{name}.csv").write_text("\n".join(lines) + "\n")


def study(name, sizes):
    """The study's folder under larger/, with its query for files of these sizes."""
    folder = HERE / "larger" / name
    folder.mkdir(parents=True, exist_ok=True)
    lines = []
    for line in (HERE / name / "q.txt").read_text().splitlines():
        words = line.split(" ")
        if words[0] == "relation":
            words[words.index("rows") + 1] = str(sizes[words[1]])
        lines.append(" ".join(words))
    (folder / "q.txt").write_text("\n".join(lines) + "\n")
    return folder


def answer(folder, node, columns, rows):
    lines = [node, ",".join(columns)] + [",".join(str(cell) for cell in row) for row in sorted(rows)]
    (folder / "answer.txt").write_text("\n".join(lines) + "\n")


def scores(draw):
    folder = study("scores", {"people": 256, "scores2": 128, "scores3": 128})
    zips = [f"{draw.randrange(100000):05d}" for _ in range(12)]
    people = [(1000 + i, draw.choice(zips)) for i in range(256)]
    agencies = [[(1000 + draw.randrange(300), draw.randrange(300, 851)) for _ in range(128)] for _ in range(2)]
    write(folder, "people", ("ssn", "zip"), people)
    write(folder, "scores2", ("ssn", "score"), agencies[0])
    write(folder, "scores3", ("ssn", "score"), agencies[1])
    home, found = dict(people), collections.defaultdict(list)
    for ssn, score in agencies[0] + agencies[1]:
        if ssn in home:
            found[home[ssn]].append(score)
    answer(folder, "byzip", ("zip", "total", "n"), [(z, sum(s) % WORD, len(s)) for z, s in found.items()])


def comorbidity(draw):
    folder = study("comorbidity", {"north": 20000, "south": 20000})
    codes = [f"{draw.choice('EIJKM')}{number:02d}" for number in range(100)]
    books = [[(draw.randrange(5000), draw.choice(codes)) for _ in range(20000)] for _ in range(2)]
    write(folder, "north", ("patient", "code"), books[0])
    write(folder, "south", ("patient", "code"), books[1])
    answer(folder, "bycode", ("code", "cases"), collections.Counter(code for _, code in books[0] + books[1]).items())


def medication(draw):
    folder = study("medication", {"diagnoses": 256, "medications": 256})
    diagnoses = [(draw.randrange(120), draw.randrange(100), draw.choice(("I21", "I10", "E11"))) for _ in range(256)]
    given = [(draw.randrange(120), draw.randrange(100), draw.choice(("aspirin", "heparin"))) for _ in range(256)]
    write(folder, "diagnoses", ("patient", "day", "code"), diagnoses)
    write(folder, "medications", ("patient", "given", "drug"), given)
    found = {p for p, day, code in diagnoses for q, when, drug in given
             if p == q and code == "I21" and drug == "aspirin" and when >= day}
    answer(folder, "number", ("patients",), [(len(found),)] if found else [])


def main():
    draw = random.Random(2019)
    for make in (scores, comorbidity, medication):
        make(draw)


if __name__ == "__main__":
    main()
