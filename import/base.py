#!/usr/bin/env python3
"""Reads a file of bounds as docs/FORMATS.md tells it, without the program.

    import/base.py FILE "24 23 / 24 23"        prints the lines of pairs that `show` prints
    Base(FILE).pair((24, 23), (24, 23), 0)     is the lower and the upper bound, in units of 2^-32 of a point

Places are 0 for off, 1 to 24, and 25 for the bar, in any order; a kind is its place, from 0, in `kinds()`.
Looked at are the file's first bytes, its version and length, and the digest of each page that is read. Not looked at are
the other fields of the head, its digest and start pairs, other pages, and whether words are in range and in order.
"""

import functools
import hashlib
import itertools
import math
import os
import struct
import sys


@functools.cache
def layouts(checkers):
    """The places of a side's checkers, from the bar down, by rising rank."""
    return sorted(it[::-1] for it in itertools.combinations_with_replacement(range(26), checkers))


def held(mover):
    """The points that the mover holds, as the other side counts them."""
    return {25 - place for place in mover if 1 <= place <= 24}


@functools.cache
def first_ranks(checkers):
    """The live rank of the first position of each layout of the mover's."""
    sides = layouts(checkers)
    lives = (any(it) and math.comb(25 - len(held(it)) + checkers, checkers) - 1 for it in sides)
    return dict(zip(sides, itertools.accumulate(lives, initial=0)))


def live_rank(mover, other):
    mover, other = (tuple(sorted(side, reverse=True)) for side in (mover, other))
    sides, firsts = layouts(len(mover)), first_ranks(len(mover))
    if not (mover in firsts and other in firsts and any(mover) and any(other) and held(mover).isdisjoint(other)):
        raise ValueError(f"no live position has the places {mover} and {other}")
    return firsts[mover] + sum(map(held(mover).isdisjoint, sides[1 : sides.index(other)]))


class Base:
    def __init__(self, path):
        self.file = open(path, "rb")
        head = self.file.read(64)
        if len(head) < 64 or head[:8] != b"HYPGAMMN" or head[8:12] not in (b"\0\0\0\1", b"\0\0\0\2", b"\0\0\0\3"):
            raise ValueError(f"{path} is no file of bounds of version 1, 2 or 3")
        self.version, self.checkers, self.stakes, *fields, self.positions, _ = struct.unpack(">10I2Q", head[8:])
        self.near, self.far, self.phase, _, self.kind_count, _, starts = fields
        self.word = 8 if self.version == 1 else 5
        self.row = self.kind_count * 2 * self.word
        self.pages = 64 + starts * 2 * self.word + 32
        self.file.seek(self.pages - 32)
        self.digest = self.file.read(32)
        due = self.pages + self.positions * self.row + math.ceil(self.positions / 1024) * 32
        if os.path.getsize(path) != due:
            raise ValueError(f"{path} has {os.path.getsize(path)} bytes, and by its head {due}")

    def page(self, number):
        """The pairs of a page, counted from 0, as bytes."""
        self.file.seek(self.pages + number * (1024 * self.row + 32))
        pairs = self.file.read(min(1024, self.positions - number * 1024) * self.row)
        # In version 3 a page is bound to the digest of the head and to its number.
        binding = self.digest + number.to_bytes(8, "big") if self.version == 3 else b""
        if hashlib.sha256(binding + pairs).digest() != self.file.read(32):
            raise ValueError(f"{self.file.name}: the digest of page {number}, counted from 0, differs")
        return pairs

    def units(self, pairs):
        return tuple(int.from_bytes(pairs[at : at + self.word], "big") - 2**36 for at in range(0, len(pairs), self.word))

    def pair(self, mover, other, kind):
        """The lower and the upper bound of a state in units."""
        if not len(mover) == len(other) == self.checkers or kind not in range(self.kind_count):
            raise ValueError(f"{self.file.name} is of {self.checkers} checkers a side and {self.kind_count} kinds")
        page, place = divmod(live_rank(mover, other), 1024)
        at = place * self.row + kind * 2 * self.word
        return self.units(self.page(page)[at : at + 2 * self.word])

    def kinds(self):
        """The texts of the kinds in their order."""
        if self.stakes != 3:
            return ["centred", "mine", "theirs"] if self.stakes else ["alone"]
        sides = (("near", self.near, self.far), ("far", self.far, self.near))
        cubes = (2, 4, 8) if self.phase != 1 else ()
        owned = ((cube, side) for cube in cubes for side, own, other in sides if other > cube // 2 and own > cube // 4)
        return [f"{mover}:{cube}:{owner}" for cube, owner in ((1, "centred"), *owned) for mover in ("near", "far")]


def read_places(text):
    try:
        return tuple(int({"bar": 25, "off": 0}.get(word, word)) for word in text.split())
    except ValueError:
        raise ValueError(f"{text.strip()}: a place is bar, off or a number from 1 to 24")


def decimal(millionths):
    return f"{'-' * (millionths < 0)}{abs(millionths) // 10**6}.{abs(millionths) % 10**6:06}"


def lines(base, position):
    """The lines of `show` behind its heading."""
    mover, other = map(read_places, position.split("/"))
    for number, kind in enumerate(base.kinds()):
        lower, upper = base.pair(mover, other, number)
        yield f"{kind} {decimal(lower * 10**6 >> 32)} {decimal(-(-upper * 10**6 >> 32))} {lower} {upper}"


if __name__ == "__main__":
    if len(sys.argv) != 3 or sys.argv[2].count("/") != 1:
        sys.exit('expected: import/base.py FILE "24 23 / 24 23"')
    try:
        print(*lines(Base(sys.argv[1]), sys.argv[2]), sep="\n")
    except (OSError, ValueError) as error:
        sys.exit(str(error))
