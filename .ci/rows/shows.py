"""Pairs that are shown."""

from rows.steps import Ask, Bit, Change, Cubeless, Cut, FailCall, File, Length, Make, Row, ShortReads, apart, in_order

# Words that solve a game, each within a second. Of the file of two checkers a bit of the last page is turned.
SOLVES = (
    Ask("solve, g1, --checkers=1, --stakes=cubeless, --rounds=1", 0),
    Ask("solve, j1, --checkers=1, --rounds=2", 0),
    Ask("solve, j2, --checkers=2, --rounds=1, --workers=4", 0),
    File("j2", Length(3_200_016)),
    Change("j2", Bit(3_199_983)),
)

# The pair of `12 / 9` was tightened in the same round as those that it rests on.
SHOWS = (
    Row(
        "show, g1, 12 / 9",
        0,
        "position 12 / 9\n"
        "checkers 1 stakes cubeless rounds 1\n"
        "alone -0.631180 0.978356 -2710895827 4202003325\n",
    ),
    Row(
        "show, j1, 1 / 1",
        0,
        "position 1 / 1\n"
        "checkers 1 stakes jacoby rounds 2\n"
        "centred 1.000000 1.000000 4294967296 4294967296\n"
        "mine 2.000000 2.000000 8589934592 8589934592\n"
        "theirs 2.000000 2.000000 8589934592 8589934592\n",
    ),
    Row(
        "show, g1, 12 / 9, --board",
        0,
        "O: 9 pips\n"
        "+13-14-15-16-17-18------19-20-21-22-23-24-+\n"
        "|          O       |   |                  |\n"
        "|                  |   |                  |\n"
        "|                  |   |                  |\n"
        "|                  |BAR|                  |\n"
        "|                  |   |                  |\n"
        "|                  |   |                  |\n"
        "| X                |   |                  |\n"
        "+12-11-10--9--8--7-------6--5--4--3--2--1-+\n"
        "X to move: 12 pips\n"
        "position 12 / 9\n"
        "checkers 1 stakes cubeless rounds 1\n"
        "alone -0.631180 0.978356 -2710895827 4202003325\n",
    ),
    Row("show, g1, 1 / 24", 2, "refused 2 position 4\n"),
    Row("show, g2, 1 / 1", 3, "refused 3 missing g2\n"),
    Row("show, g1, 6 off / 1 off", 10, "refused 10 base wanted checkers 2 found checkers 1 stakes cubeless\n"),
    Row("show, j2, bar bar / bar bar", 4, "refused 4 file page-digest 3199984\n"),
    Ask("show, j2, 6 off / 1 off", 0),
)

SHOW = "show, c1, 6 / 1"

SHOWN = """\
position 6 / 1
checkers 1 stakes cubeless rounds 8
alone -1.000000 1.000000 -4294967296 4294967296
"""

SLOW = (Make("c1", Cubeless(3)), ShortReads())

# How many bytes of the file are kept, what stands behind them, and what is put.
LENGTHS = (
    (Change("c1", Cut(6137, b"")), Row(SHOW, 4, "refused 4 file short 6137\n")),
    (Change("c1", Cut(6138, b"\0")), Row(SHOW, 4, "refused 4 file long 6138\n")),
    (Change("c1", Cut(6137, b"\0")), Row(SHOW, 4, "refused 4 file page-digest 6106\n")),
    (Change("c1", Cut(6138, b"")), Row(SHOW, 0, SHOWN)),
)

WHOLE = (Make("c1", Cubeless(3)),)

# The size, the front and the page are read: each call fails in turn, and then none.
FAULTS = (
    (FailCall("stat", 1), Row(SHOW, 6, "refused 6 read\n")),
    (FailCall("read", 1), Row(SHOW, 6, "refused 6 read\n")),
    (FailCall("read", 2), Row(SHOW, 6, "refused 6 read\n")),
    (FailCall("read", 3), Row(SHOW, 0, SHOWN)),
)

TESTS = {
    "solved games are shown": in_order(SOLVES, SHOWS),
    "a damaged file is not shown": apart(SLOW, LENGTHS),
    "a failing read is told": apart(WHOLE, FAULTS),
}
