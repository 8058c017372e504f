#!/usr/bin/env python3
"""Tapes from a seed, worked out apart from the program, by the description of ChaCha20.

Prints, for a seed and the needs word, order of 3, word on each of the three tapes, the draws.
The test `tapes_of_a_seed_are_the_scripts` of the crate tapes holds what `tape_values.py 7` prints.
"""
import sys

MASK = 0xFFFFFFFF


def rotate(word, count):
    return ((word << count) | (word >> (32 - count))) & MASK


def quarter_round(state, a, b, c, d):
    for first, second, third, count in ((a, b, d, 16), (c, d, b, 12), (a, b, d, 8), (c, d, b, 7)):
        state[first] = (state[first] + state[second]) & MASK
        state[third] = rotate(state[third] ^ state[first], count)


def block(key, counter):
    """The 16 words of a block: four constants, the key, a counter of 64 bits, stream number 0."""
    start = [0x61707865, 0x3320646E, 0x79622D32, 0x6B206574]
    start += [int.from_bytes(key[4 * i:4 * i + 4], "little") for i in range(8)]
    start += [counter & MASK, counter >> 32, 0, 0]
    state = list(start)
    for _ in range(10):
        for column in range(4):
            quarter_round(state, column, 4 + column, 8 + column, 12 + column)
        for column in range(4):
            quarter_round(state, column, 4 + (column + 1) % 4, 8 + (column + 2) % 4, 12 + (column + 3) % 4)
    return [(x + y) & MASK for x, y in zip(state, start)]


def word(key, index):
    """Word number `index` of 64 bits: two words of the stream, the first as the high half."""
    halves = [block(key, place // 16)[place % 16] for place in (2 * index, 2 * index + 1)]
    return halves[0] << 32 | halves[1]


def key_of(seed, tape, number):
    return seed.to_bytes(8, "big") + bytes([tape]) + number.to_bytes(8, "big") + bytes(15)


def tape(seed, number, needs):
    draws = []
    for place, need in enumerate(needs):
        if need is None:
            draws.append(word(key_of(seed, number, 0), place))
        else:
            key = key_of(seed, number, place + 1)
            draws.append(sorted(range(need), key=lambda i: (word(key, i), i)))
    return draws


def main():
    assert word(bytes(32), 0) == 0xADE0B876903DF1A0, "the published first words of the zero key"
    seed = int(sys.argv[1])
    for number in (1, 2, 3):
        for draw in tape(seed, number, [None, 3, None]):
            print(number, hex(draw) if isinstance(draw, int) else draw)


if __name__ == "__main__":
    main()
