#!/usr/bin/env python3
"""A generated transaction as the text of a binlog, from PCG's published definition.

The generator is pcg32 of O'Neill's "PCG: A Family of Simple Fast Space-Efficient Statistically
Good Algorithms for Random Number Generation" and of the C code at pcg-random.org: 64 bits of state,
the multiplier 6364136223846793005, the output XSH RR. The program stands on nothing of this
repository, so that the tests of clone_workload have values that its code did not make.

    pcg.py SEED WRITER INDEX TABLES
"""

import sys

MASK = (1 << 64) - 1
MULTIPLIER = 6364136223846793005


class Pcg32:
    def __init__(self, state, stream):
        """pcg32_srandom_r of the C code."""
        self.increment = ((stream << 1) | 1) & MASK
        self.state = 0
        self.next()
        self.state = (self.state + state) & MASK
        self.next()

    def next(self):
        """pcg32_random_r of the C code."""
        old = self.state
        self.state = (old * MULTIPLIER + self.increment) & MASK
        shifted = (((old >> 18) ^ old) >> 27) & 0xFFFFFFFF
        turn = old >> 59
        return ((shifted >> turn) | (shifted << (-turn & 31))) & 0xFFFFFFFF


def transaction(seed, writer, index, tables):
    """The changes, each as table, key, and value or None."""
    words = Pcg32(seed, writer * 1048576 + index)
    changes = []
    for _ in range(1 + words.next() % 8):
        table = 1 + words.next() % tables
        key = words.next() % 4096
        value = None
        if words.next() % 8 != 0:
            value = bytes(words.next() % 256 for _ in range(words.next() % 65))
        changes.append((table, key, value))
    return changes


def demo():
    """The first words of the generator of PCG's own demonstration."""
    words = Pcg32(42, 54)
    return [words.next() for _ in range(6)]


def main():
    published = [0xA15C02B7, 0x7B47F409, 0xBA1D3330, 0x83D2F293, 0xBFA4784B, 0xCBED606E]
    assert demo() == published
    seed, writer, index, tables = (int(word) for word in sys.argv[1:5])
    changes = transaction(seed, writer, index, tables)
    print("commit", writer, index, len(changes))
    for table, key, value in changes:
        print(table, key, "none" if value is None else value.hex() or "-")


if __name__ == "__main__":
    main()
