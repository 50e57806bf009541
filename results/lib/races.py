"""Counts the races of so many checkers a side by the turns that they may still take at most: results/lib/races.py CHECKERS

A line for each number of turns: the checkers, the turns, how many races have it, and the first of them by live rank."""

import functools
import itertools
import sys

HOME = 6
ROLLS = tuple((high, low) for high in range(1, 7) for low in range(1, high + 1))


def layouts(checkers):
    """The places of a side's checkers, from the highest down, by rising rank: in a race none stands on the bar."""
    return sorted(it[::-1] for it in itertools.combinations_with_replacement(range(25), checkers))


def moved(side, die):
    """The sides after one move by a die: nobody is in the way. A checker goes off where all are at home, by a higher die from the highest place."""
    for place in set(side) - {0}:
        if place > die or side[0] <= HOME and (place == die or place == side[0]):
            left = list(side)
            left.remove(place)
            yield tuple(sorted((*left, max(place - die, 0)), reverse=True))


def ends(side, dice):
    """The sides after these dice, in their order. Some move can be made by each, as long as a checker is left."""
    found = {side}
    for die in dice:
        found = {end for it in found for end in (moved(it, die) if any(it) else [it])}
    return found


@functools.cache
def most_turns(side):
    """How many turns a side may take at most until its last checker is off."""
    if not any(side):
        return 0
    orders = ([roll * 2] if roll[0] == roll[1] else [roll, roll[::-1]] for roll in ROLLS)
    return 1 + max(most_turns(end) for of_roll in orders for dice in of_roll for end in ends(side, dice))


def text(side):
    return " ".join(str(it or "off") for it in side)


def main(checkers):
    sides = [(it, most_turns(it)) for it in layouts(checkers) if any(it)]
    counts, first = {}, {}
    for (mover, own), (other, others) in itertools.product(sides, sides):
        if mover[0] + other[0] < 25:
            # The mover has the first turn, and the last one where he may be off no later.
            turns = 2 * own - 1 if own <= others else 2 * others
            counts[turns] = counts.get(turns, 0) + 1
            first.setdefault(turns, f"{text(mover)} / {text(other)}")
    for turns in sorted(counts):
        print(checkers, turns, counts[turns], first[turns], sep="\t")


main(int(sys.argv[1]))
