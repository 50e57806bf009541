"""Plans of matches."""

from rows.steps import Ask, Begins, Encloses, FailCall, FailPut, Finder, Has, Lines, Make, Put, Row, Text, Times, apart, in_order

TO_TWO = (Ask("ladder, L, --checkers=1, --length=2, --rounds=4, --workers=2", 0),)

# One point is won by whoever wins at all. In the Crawford game nobody doubles, and where a side needs one point a gammon wins it no more.
PLANNED = (
    Ask("plan, L, --length, 2", 0),
    Put(Lines(9)),
    Put(Has("1.1.p near take none price 0.000000 0.000000\n")),
    Put(Has("1.1.p far take none price 0.000000 0.000000\n")),
    Put(Has("1.2.c near take none price 0.000000 0.000000\n")),
    Put(Has("1.2.c far take none price ")),
    Put(Has("2.2.n near take ")),
)

REFUSED = (
    Make("E.4.4.n", Text("empty")),
    Row("plan, L", 3, "refused 3 missing L.3.3.n\n"),
    Row("plan, L, --length=3", 3, "refused 3 missing L.3.3.n\n"),
    Row("plan, L, --length=5", 3, "refused 3 missing L.5.5.n\n"),
    Row("plan, M, --length=2", 3, "refused 3 missing M.2.2.n\n"),
    # the first game of a match to one point is the last game of a longer one, too
    Row("plan, L, --length=1", 10, "refused 10 base wanted stakes match 1 1.1.p found checkers 1 stakes match 2 1.1.p\n"),
    Row("plan, E, --length=4", 4, "refused 4 file short 5\n"),
    Row("plan, L, --length=6", 1, "refused 1 words value 2\n"),
    Row("plan", 1, "refused 1 words form 0\n"),
)

OTHER_GAME = (
    Ask("solve, C.2.2.n, --checkers=1, --stakes=cubeless, --rounds=1", 0),
    Row("plan, C, --length=2", 10, "refused 10 base wanted stakes match 2 2.2.n found checkers 1 stakes cubeless\n"),
)

PLAN = "plan, L, --length=2"

# A whole file is asked for its size, and then read.
FAULTS = (
    (FailCall("stat", 1), Row(PLAN, 6, "refused 6 read\n")),
    (FailCall("read", 1), Row(PLAN, 6, "refused 6 read\n")),
    (FailCall("read", 2), Row(PLAN, 6, "refused 6 read\n")),
)

STOP = (FailPut(1, 12), Row(PLAN, 7, "1.1.p start refused 7 write\n"))

# What a plain program in floating point finds of a match to three points with one checker a side, in millionths, from what the near side has before
# the first play: 0.455064132 at 1-3 in the Crawford game, 0.122514962 at 2-3, and 0 at all other scores.
FOUND = (
    # a pass leaves an even game, and what is played for at 2 is the match
    ("\n2.2.n near take ", 500_000),
    ("\n1.2.p near take ", 500_000),
    # -0.455064132 for a pass, an even game for two points won
    ("\n2.3.n far take ", 544_936),
    # -0.122514962 for a pass, 0.455064132 for two points either way
    ("\n3.3.n near take ", 365_387),
    ("\n3.3.n far take ", 365_387),
)

ROUNDED = Finder(parts=1, rounded=1, width=5_000)

TO_THREE = (Ask("ladder, m, --checkers=1, --rounds=12, --workers=2", 0), Ask("plan, m", 0), Put(Lines(21)), Put(Encloses(ROUNDED, FOUND)))

# No take point have both sides at 1-1 and in the four Crawford games, and the far side in the three games after it.
TO_FIVE = (
    Ask("ladder, five, --checkers=1, --length=5, --rounds=2", 0),
    Ask("plan, five, --length=5", 0),
    Put(Lines(54)),
    Put(Times(" take none ", 13)),
    Put(Begins("1.1.p start ")),
    Put(Has("\n5.5.n start ")),
)

TESTS = {
    "a match to two points is planned": in_order(TO_TWO, PLANNED),
    "plans are refused": in_order(TO_TWO, REFUSED),
    "a file of another game is refused": in_order(OTHER_GAME),
    "a read that fails is told": apart(TO_TWO, FAULTS),
    "a plan that is not put is told": in_order(TO_TWO, STOP),
    "plans enclose what a plain program finds": in_order(TO_THREE),
    "a match to five points is planned": in_order(TO_FIVE),
}
