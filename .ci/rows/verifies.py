"""Files whose words are checked: solved ones, ones of the widest pairs, and ones with a word that is too tight."""

from rows.steps import (
    Ask, At, Change, CopyOf, EachPair, FailCall, FailPut, File, Make, POINT, Pair, Row, Something, apart, in_order,
)

SOLVED = (Ask("solve, c1, --checkers=1, --stakes=cubeless, --rounds=8", 0),)

VERIFY = "verify, c1"

YES = "consistent checkers 1 stakes cubeless rounds 8 positions 601\n"

# From 6, 27 rolls of 36 win a gammon, and after the others the other side wins one from 1: a point.
MORE = (
    Row(VERIFY, 0, YES),
    File("c1", At(1296, b"\x11\0\0\0\0\x11\0\0\0\0")),
    Change("c1", Pair(120, POINT + 1, POINT + 1)),
    Make("copy", CopyOf("c1")),
    Row(VERIFY, 9, "refused 9 inconsistent lower alone 4294967297 4294967296 6 / 1\n"),
    File("c1", CopyOf("copy")),
)

THREE = "refused 9 inconsistent lower alone 12884901888 8589934592 1 / 1\n"

# Each pair is the widest one, which says nothing and is true. From 1 each roll wins a gammon, so three points are too many.
WIDE = (
    Make("wide", CopyOf("c1")),
    Change("wide", EachPair(-3 * POINT, 3 * POINT)),
    Make("c1", CopyOf("wide")),
    Change("c1", Pair(0, 3 * POINT, 3 * POINT)),
    Row("verify, wide, --workers=1", 0, YES),
    Row("verify, c1, --workers=1", 9, THREE),
    Row("verify, wide, --workers=3", 0, YES),
    Row("verify, c1, --workers=3", 9, THREE),
    Row("verify, wide, --workers=64", 0, YES),
    Row("verify, c1, --workers=64", 9, THREE),
    Row("verify, c1, --workers=4", 9, THREE),
)

# Each of five kinds of stakes, of one checker and of two.
STAKES = tuple(
    (
        Ask(f"solve, c1, --checkers={checkers}, --rounds={rounds}, --workers={workers}, --stakes={stakes}", 0),
        File("c1", Something()),
        Ask(f"verify, c1, --workers={workers}", 0),
    )
    for stakes in ("cubeless", "money", "jacoby", "money-beavers", "jacoby-beavers")
    for checkers, rounds, workers in ((1, 4, 3), (2, 1, 4))
)

# The file's size, its front and its page are read: each call fails in turn, and then none.
FAULTS = (
    (Make("copy", CopyOf("c1")), FailCall("stat", 1), Row(VERIFY, 6, "refused 6 read\n"), File("c1", CopyOf("copy"))),
    (Make("copy", CopyOf("c1")), FailCall("read", 1), Row(VERIFY, 6, "refused 6 read\n"), File("c1", CopyOf("copy"))),
    (Make("copy", CopyOf("c1")), FailCall("read", 2), Row(VERIFY, 6, "refused 6 read\n"), File("c1", CopyOf("copy"))),
    (Make("copy", CopyOf("c1")), FailCall("read", 3), Row(VERIFY, 0, YES), File("c1", CopyOf("copy"))),
)

# A put that fails at its first call, after so many bytes, of a yes and of a no.
STOPS = (
    Make("no", CopyOf("c1")),
    Change("no", Pair(0, 3 * POINT, 3 * POINT)),
    FailPut(1, 10),
    Row(VERIFY, 7, "consistentrefused 7 write\n"),
    FailPut(1, 9),
    Row("verify, no", 9, "refused 9"),
)

TESTS = {
    "a unit more is found": in_order(SOLVED, MORE),
    "the widest pairs pass": in_order(SOLVED, WIDE),
    "solved games pass": apart((), STAKES),
    "a failing read is told": apart(SOLVED, FAULTS),
    "a failing output is told": in_order(SOLVED, STOPS),
}
