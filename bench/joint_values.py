#!/usr/bin/env python3
"""Three parties on one list with every kind of step, worked out apart from the program, by docs/PROTOCOL.md.

Each party keeps the two shares that it holds, its slots and its two tapes, and nothing else; what it learns from another
party comes over a link. The tapes are those of a seed, as in tape_values.py. Prints the words on the six links, the slots
of each party and the flag that stopped them, as the test `every_kind_of_step_is_as_the_scripts` of tests_steps has them
for the seed 7: `joint_values.py 7`. On the way it checks that both holders of a share have the same one, and that the
shares stand for the open words, which a second, plain run works out.
"""
import sys

from tape_values import key_of, word

MASK = (1 << 64) - 1
FIRST = {1: [[0x1111, 0x2222, 0x3334], [0]], 2: [[2, 0x5555, 0x6667], [1]], 3: []}
LIST = [
    ("share", 1, 0),
    ("const", [7, 8, 9]),
    ("and", 0, 1),
    ("share", 2, 0),
    ("and", 2, 3),
    ("xor", 0, 3),
    ("not", 5),
    ("left", 6, 3),
    ("right", 7, 60),
    ("mask", 6, 0xFF00FF),
    ("spread", 0),
    ("gather", [9, 4], [5, 0, 2]),
    ("turns", 2, 0),
    ("steer", 2, 2, [11, 10]),
    ("reveal", 3, [12, 13], [1, 0]),
    ("doubles", 3, 1),
    ("tell", 3, 1, 2),
    ("flag", 1, 1),
    ("share", 1, 2),
    ("reveal", 1, [16], [0]),
    ("flag", 2, 1),
    ("tell", 2, 3, 0),
]


def after(party):
    return party % 3 + 1


def before(party):
    return (party + 1) % 3 + 1


def moved_by(order, words):
    return [words[place] for place in order]


def behind(order, drawn):
    """The order that comes behind a drawn one, so that both together are the first."""
    back = [drawn.index(place) for place in range(len(drawn))]
    return [back[place] for place in order]


def linear(step, words, first):
    """What an operation makes of the lists of one share; Not turns the bits of the first share alone."""
    kind, given = step[0], [words(register) for register in (step[1] if step[0] == "gather" else step[1:2])]
    if kind == "xor":
        return [x ^ y for x, y in zip(given[0], words(step[2]))]
    if kind == "not":
        return [x ^ MASK if first else x for x in given[0]]
    if kind == "left":
        return [x << step[2] & MASK for x in given[0]]
    if kind == "right":
        return [x >> step[2] for x in given[0]]
    if kind == "mask":
        return [x & step[2] for x in given[0]]
    if kind == "spread":
        return [MASK * (x & 1) for x in given[0]]
    return moved_by(step[2], sum(given, []))


def worked(step, words):
    if step[0] == "doubles":
        return [x * 2 & MASK for x in words]
    return [(place + words[0]) % len(words) for place in range(len(words))]


class Tape:
    """One holder's reader of a tape: word d of the tape's key for words, or the numbers sorted by the key of draw d."""

    def __init__(self, seed, number):
        self.seed, self.number, self.place = seed, number, 0

    def words(self, count):
        key, start = key_of(self.seed, self.number, 0), self.place
        self.place += count
        return [word(key, index) for index in range(start, self.place)]

    def order(self, count):
        key = key_of(self.seed, self.number, self.place + 1)
        self.place += 1
        return sorted(range(count), key=lambda index: (word(key, index), index))


class Party:
    def __init__(self, number, seed, links):
        self.number, self.links = number, links
        self.tapes = {tape: Tape(seed, tape) for tape in (number, after(number))}
        self.registers, self.slots = [], [list(words) for words in FIRST[number]]
        self.read = {other: 0 for other in (1, 2, 3)}

    def send(self, target, words):
        self.links[self.number, target] += words

    def take(self, source, count):
        start = self.read[source]
        self.read[source] += count
        words = self.links[source, self.number][start:start + count]
        assert len(words) == count
        return words

    def keep(self, shares):
        self.registers.append({share: shares[share] for share in (self.number, after(self.number))})


def xor(*lists):
    return [xor_of(words) for words in zip(*lists)]


def xor_of(words):
    result = 0
    for one in words:
        result ^= one
    return result


def do_and(parties, left, right):
    made = {}
    for me in parties.values():
        mine, its = me.number, after(me.number)
        s, t = me.registers[left], me.registers[right]
        masks = [me.tapes[tape].words(len(s[mine])) for tape in (mine, its)]
        made[mine] = [
            (a & c) ^ (a & d) ^ (b & c) ^ r ^ q
            for a, b, c, d, r, q in zip(s[mine], s[its], t[mine], t[its], *masks)
        ]
        me.send(before(mine), made[mine])
    for me in parties.values():
        its = after(me.number)
        me.keep({me.number: made[me.number], its: me.take(its, len(made[its]))})


def do_share(parties, number, slot):
    owner, following, earlier = parties[number], parties[after(number)], parties[before(number)]
    words = owner.slots[slot]
    own = owner.tapes[number].words(len(words))
    its = owner.tapes[after(number)].words(len(words))
    given = xor(words, own, its)
    owner.send(following.number, given)
    owner.send(earlier.number, given)
    owner.keep({number: own, after(number): its})
    drawn = following.tapes[following.number].words(len(words))
    following.keep({following.number: drawn, earlier.number: following.take(number, len(words))})
    drawn = earlier.tapes[number].words(len(words))
    earlier.keep({earlier.number: earlier.take(number, len(words)), number: drawn})


def phase(parties, number, order, shares):
    """Phase (number, order) on what each party holds of the moved registers: lists of two shares for each party."""
    one, two, other = parties[before(number)], parties[number], parties[after(number)]
    a, b = before(number), after(number)
    made = {party: [] for party in (1, 2, 3)}
    for place in range(len(shares[number])):
        count = len(order)
        first = one.tapes[a].words(count)
        one.send(number, xor(moved_by(order, xor(*shares[a][place].values())), first))
        second = two.tapes[b].words(count)
        two.send(a, xor(moved_by(order, shares[number][place][b]), second))
        assert other.tapes[a].words(count) == first and other.tapes[b].words(count) == second
        made[other.number].append({b: second, a: first})
        to_two, to_one = two.take(a, count), one.take(number, count)
        there_at_one = xor(moved_by(order, xor(*shares[a][place].values())), first)
        back_at_two = xor(moved_by(order, shares[number][place][b]), second)
        made[number].append({number: xor(to_two, back_at_two), b: second})
        made[a].append({a: first, number: xor(there_at_one, to_one)})
    return made


def held(parties, moved):
    return {number: [me.registers[register] for register in moved] for number, me in parties.items()}


def keep_all(parties, shares):
    for number, me in parties.items():
        for register in shares[number]:
            me.keep(register)


def do_reveal(parties, to, moved, shown):
    shares = held(parties, moved)
    count = len(shares[1][0][1])
    for number in (1, 2, 3):
        order = parties[number].tapes[number].order(count)
        assert parties[before(number)].tapes[number].order(count) == order
        shares = phase(parties, number, order, shares)
    for place in shown:
        missing = before(to)
        parties[after(to)].send(to, shares[after(to)][place][missing])
        got = parties[to].take(after(to), count)
        parties[to].slots.append(xor(got, *shares[to][place].values()))
    keep_all(parties, shares)
    return count


def do_steer(parties, by, slot, moved):
    shares = held(parties, moved)
    private = parties[by].slots[slot]
    drawn = parties[by].tapes[after(by)].order(len(private))
    assert parties[after(by)].tapes[after(by)].order(len(private)) == drawn
    order = behind(private, drawn)
    parties[by].send(before(by), order)
    assert parties[before(by)].take(by, len(order)) == order
    shares = phase(parties, after(by), drawn, shares)
    keep_all(parties, phase(parties, by, order, shares))


def run_parties(seed):
    links = {(source, target): [] for source in (1, 2, 3) for target in (1, 2, 3) if source != target}
    parties = {number: Party(number, seed, links) for number in (1, 2, 3)}
    flags = 0
    for step in LIST:
        kind = step[0]
        if kind == "share":
            do_share(parties, *step[1:])
        elif kind == "const":
            for me in parties.values():
                me.keep({share: step[1] if share == 1 else [0] * len(step[1]) for share in (1, 2, 3)})
        elif kind == "and":
            do_and(parties, *step[1:])
        elif kind in ("turns", "doubles"):
            me = parties[step[1]]
            me.slots.append(worked(step, me.slots[step[2]]))
        elif kind == "steer":
            do_steer(parties, *step[1:])
        elif kind == "reveal":
            do_reveal(parties, *step[1:])
        elif kind == "tell":
            parties[step[1]].send(step[2], parties[step[1]].slots[step[3]])
            parties[step[2]].slots.append(parties[step[2]].take(step[1], len(parties[step[1]].slots[step[3]])))
        elif kind == "flag":
            me = parties[step[1]]
            for other in (after(step[1]), before(step[1])):
                me.send(other, me.slots[step[2]])
                parties[other].take(step[1], 1)
            if me.slots[step[2]] != [0]:
                return parties, links, flags
            flags += 1
        else:
            for me in parties.values():
                me.keep({share: linear(step, lambda r, i=share: me.registers[r][i], share == 1)
                         for share in me.tapes})
    return parties, links, None


def run_plain(seed):
    """The open words of each register; of a Reveal only the bag of rows, in the order that the parties gave it."""
    registers, slots = [], {number: [list(words) for words in FIRST[number]] for number in FIRST}
    parties, _, _ = run_parties(seed)
    for step in LIST:
        kind = step[0]
        if kind == "share":
            registers.append(list(slots[step[1]][step[2]]))
        elif kind == "const":
            registers.append(step[1])
        elif kind == "and":
            registers.append([x & y for x, y in zip(registers[step[1]], registers[step[2]])])
        elif kind in ("turns", "doubles"):
            slots[step[1]].append(worked(step, slots[step[1]][step[2]]))
        elif kind == "steer":
            registers += [moved_by(slots[step[1]][step[2]], registers[register]) for register in step[3]]
        elif kind == "reveal":
            start = len(registers)
            made = [opened(parties, start + place) for place in range(len(step[2]))]
            rows = sorted(zip(*(registers[register] for register in step[2])))
            assert sorted(zip(*made)) == rows, "the rows of a Reveal are the same bag"
            registers += made
            slots[step[1]] += [made[place] for place in step[3]]
        elif kind == "tell":
            slots[step[2]].append(slots[step[1]][step[3]])
        elif kind == "flag":
            if slots[step[1]][step[2]] != [0]:
                break
        else:
            registers.append(linear(step, lambda r: registers[r], True))
    return registers, slots


def opened(parties, register):
    shares = {}
    for me in parties.values():
        for share, words in me.registers[register].items():
            assert shares.setdefault(share, words) == words, "both holders have the same share"
    return xor(*shares.values())


def spelled(words):
    return "&[" + ", ".join(f"0x{one:X}" if one > 9 else str(one) for one in words) + "],"


def main():
    seed = int(sys.argv[1])
    parties, links, stopped = run_parties(seed)
    registers, slots = run_plain(seed)
    for number, words in enumerate(registers):
        assert opened(parties, number) == words, f"register {number}"
    for (source, target), words in sorted(links.items()):
        print(f"// {source} to {target}\n{spelled(words)}")
    for number, me in parties.items():
        assert me.slots == slots[number]
        print(f"// the slots of {number}")
        for words in me.slots:
            print(spelled(words))
    print("// stopped at", stopped)


if __name__ == "__main__":
    main()
