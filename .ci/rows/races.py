"""Races, some of which rounds solve too."""

from rows.steps import Ask, Begins, FailPut, Keep, Put, Row, ThenKept, apart, in_order

# From 1 each roll bears the last checker off, which wins a gammon. From 6 there are 27 rolls of 36 that do; after the other 9 the other side wins
# one. From 5 there are 31; with a checker of each side off each win counts one point.
ROWS = (
    Row(
        "race, 1, 1 / 1",
        0,
        "position 1 / 1\n"
        "turns 1\n"
        "alone 2.000000 2.000000 8589934592 8589934592\n",
    ),
    Row(
        "race, 1, 6 / 1",
        0,
        "position 6 / 1\n"
        "turns 2\n"
        "alone 1.000000 1.000000 4294967296 4294967296\n",
    ),
    Row(
        "race, 2, 5 off / 1 off",
        0,
        "position 5 off / 1 off\n"
        "turns 2\n"
        "alone 0.722222 0.722223 3101920824 3101920825\n",
    ),
    Row(
        "race, 1, 1 / 23",
        0,
        "position 1 / 23\n"
        "turns 1\n"
        "alone 3.000000 3.000000 12884901888 12884901888\n",
    ),
    Row("race, 1, 13 / 13", 12, "refused 12 contact\n"),
    Row("race, 1, 13 / 12", 2, "refused 2 position 4\n"),
    Row("race, 1, 1 / bar", 12, "refused 12 contact\n"),
    Row("race, 2, 24 1 / 2 2", 12, "refused 12 contact\n"),
    Row("race, 1, 5 off / 1 off", 10, "refused 10 base wanted checkers 2 found checkers 1 stakes cubeless\n"),
    Row("race, 2, 13 / 13", 10, "refused 10 base wanted checkers 1 found checkers 2 stakes cubeless\n"),
    Row("race, 1, 1 / 24", 2, "refused 2 position 4\n"),
    Row("race, 3, off / 1", 2, "refused 2 position 5\n"),
    Row("race, 0, 6 / 1", 1, "refused 1 words value 1\n"),
    Row("race, 4, x", 1, "refused 1 words value 1\n"),
    Row("race, 1", 1, "refused 1 words form 0\n"),
    Row("race, 1, 2, 6 / 1", 1, "refused 1 words form 0\n"),
    Row("race, 1, --", 1, "refused 1 words word 2\n"),
)

LAST = "race, 1, 1 / 1"

PUTS = (
    FailPut(1, 0),
    Row(LAST, 7, "refused 7 write\n"),
    FailPut(1, 17),
    Row(LAST, 7, "position 1 / 1\nturefused 7 write\n"),
    FailPut(2, 0),
    Row(
        LAST,
        0,
        "position 1 / 1\n"
        "turns 1\n"
        "alone 2.000000 2.000000 8589934592 8589934592\n",
    ),
)

# Races of one checker, each with its most turns: the shortest roll is 21, which brings a side three pips nearer. After as many rounds `bound` finds
# the same pair.
OF_ONE = tuple(
    (
        Ask(f"race, 1, {position}", 0),
        Put(Begins(f"position {position}\nturns {turns}\n")),
        Keep(f"\nturns {turns}\n"),
        Ask(f"bound, 1, {turns}, {position}", 0),
        Put(ThenKept(f"position {position}\nrounds {turns}\n")),
    )
    for position, turns in (("1 / 23", 1), ("4 / 1", 2), ("4 / 20", 3), ("7 / 10", 5), ("12 / 12", 7), ("13 / 11", 8))
)

TESTS = {
    "each line has its answer": in_order(ROWS),
    "a failing output is told": in_order(PUTS),
    "races of one checker agree with rounds": apart((), OF_ONE),
}
