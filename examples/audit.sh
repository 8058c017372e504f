#!/bin/sh
# What a stranger can check of an audit: for each party, a run over one world with the tapes and a run over another world with
# the twin in place of the tape that the party doesn't hold give the party the very same bytes.
# Usage: examples/audit.sh. It works in a new folder; CONCLAVE names another program than the one beside this folder.
set -e
here=$(cd "$(dirname "$0")" && pwd)
conclave=${CONCLAVE:-$here/../conclave}
work=$(mktemp -d)
trap 'rm -rf "$work"' EXIT
cd "$work"

mkdir a
cp "$here"/scores/*.csv a
cp "$here"/scores/q.txt .
"$conclave" tape q.txt 7 t

# Party 1 gets the answer, so the other world has other rows of party 2 and the same answer. The parties 2 and 3 get none,
# so there nobody else's file has to be as it was.
for party in 1 2 3; do
    mkdir "b$party"
    cp a/*.csv "b$party"
done
printf 'ssn,score\n102,600\n101,700\n100,650\n' > b1/scores2.csv
for party in 2 3; do
    printf 'ssn,zip\n1,a\n' > "b$party/people.csv"
done

(cd a && cp ../t.[123] . && "$conclave" run ../q.txt t)
for party in 1 2 3; do
    unseen=$(((party + 1) % 3 + 1))
    "$conclave" audit q.txt "$party" a "b$party" t
    cd "b$party"
    cp ../t.[123] .
    cp "../t.twin.$unseen" "t.$unseen"
    "$conclave" run ../q.txt t > /dev/null
    cd ..
    cmp "a/t.view.$party" "b$party/t.view.$party"
    if cmp -s "t.$unseen" "t.twin.$unseen"; then
        echo "party $party: the twin is the tape"
        exit 1
    fi
    echo "party $party: the same view over two worlds, under tape $unseen and its twin"
done
