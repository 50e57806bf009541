"""Analyses of a recorded game by a file of bounds."""

from rows.steps import (
    Ask, Bit, Change, Cubeless, EachLine, FailCall, FailPut, File, Filled, Length, Make, Put, Row, Text, apart, in_order,
)

# A game of one checker, with a hit and a double.
GAME = """\
hypergammon record 1
checkers 1
stakes jacoby
game 1
A 31 24/21 21/20
B 64 24/18 18/14
A 63 20/14 14/11*
B 61 bar/19 19/18
A 32 11/8 8/6
B 44 18/14 14/10 10/6 6/2
A double
B take
A 21 6/4 4/3
B 51 2/1 1/off
end B 2
close
"""

# The same, whose last line but one tells too few points.
ONE_POINT = GAME.replace("end B 2", "end B 1")

# A game whose first roll can be played in one way alone, and then is left.
FORCED = """\
hypergammon record 1
checkers 1
stakes jacoby
game 1
A 31 24/21 21/20
stop
close
"""

FORCED_TEXT = """\
1 5 A play 0.000000 0.000000
A decisions 1 loss 0.000000 0.000000
B decisions 0 loss 0.000000 0.000000
"""

# A game of a match of two points.
IN_MATCH = """\
hypergammon record 1
checkers 1
stakes match 2
game 1 away 2 2
A 21 24/22 22/21
B double
A pass
end B 1
close
"""

# A game of two checkers.
OF_TWO = """\
hypergammon record 1
checkers 2
stakes jacoby
game 1
A 41 24/20 23/22
stop
close
"""

# A solved game with a cube, one without a cube, and the records.
FILES = (
    Ask("solve, j1, --checkers=1, --stakes=jacoby, --rounds=8", 0),
    Make("c1", Cubeless(3)),
    Make("game", Text(GAME)),
    Make("point", Text(ONE_POINT)),
    Make("forced", Text(FORCED)),
    Make("match", Text(IN_MATCH)),
    Make("two", Text(OF_TWO)),
    Make("none", Text("hypergammon record 2\n")),
)

# How each line begins and ends. Each play is the only one or loses nothing against any other. At line 11 not doubling is worth 0.5, a take 2 and a
# pass 1: the double loses nothing, and the take a point.
LINES = (
    ("1 5 A play", " 0.000000 0.000000"),
    ("1 6 B offer ", ""),
    ("1 6 B play", " 0.000000 0.000000"),
    ("1 7 A offer ", ""),
    ("1 7 A play", " 0.000000 0.000000"),
    ("1 8 B offer ", ""),
    ("1 8 B play", " 0.000000 0.000000"),
    ("1 9 A offer ", ""),
    ("1 9 A play", " 0.000000 0.000000"),
    ("1 10 B offer ", ""),
    ("1 10 B play", " 0.000000 0.000000"),
    ("1 11 A offer", " 0.000000 0.000000"),
    ("1 12 B answer", " 1.000000 1.000000"),
    ("1 13 A play", " 0.000000 0.000000"),
    ("1 14 B offer", " 0.000000 0.000000"),
    ("1 14 B play", " 0.000000 0.000000"),
    ("A decisions 7 loss ", ""),
    ("B decisions 9 loss ", ""),
)

ANALYSED = (Ask("analyse, j1, game", 0), Put(EachLine(LINES)))

ROWS = (
    Row("analyse, j1, forced", 0, FORCED_TEXT),
    Row("analyse, c1, game", 10, "refused 10 base wanted checkers 1 stakes jacoby found checkers 1 stakes cubeless\n"),
    Row("analyse, j1, two", 10, "refused 10 base wanted checkers 2 stakes jacoby found checkers 1 stakes jacoby\n"),
    # For a match the file of a score is looked at.
    Row("analyse, c1, match", 3, "refused 3 missing c1.2.2.n\n"),
    Row("analyse, j1, none", 5, "refused 5 record 1 shape\n"),
    Row("analyse, x, point", 5, "refused 5 record 15 score-wrong\n"),
    Row("analyse, x, y", 3, "refused 3 missing y\n"),
    Row("analyse, x, game", 3, "refused 3 missing x\n"),
    Row("analyse, game, game", 4, "refused 4 file magic 0\n"),
    Row("analyse, j1", 1, "refused 1 words form 0\n"),
)

# What is best is looked up of an only play too. The digest of the page stands behind 601 positions of three kinds.
DAMAGED = (
    File("j1", Length(18_158)),
    Change("j1", Bit(100)),
    Row("analyse, j1, forced", 4, "refused 4 file page-digest 18126\n"),
    Row("analyse, j1, game", 4, "refused 4 file page-digest 18126\n"),
)

# Without a cube. The last play can hit on its way or not, and by a file in which each position lies between a point lost and a point won it may lose
# up to two points.
CHOSEN = """\
hypergammon record 1
checkers 1
stakes cubeless
game 1
A 65 24/18 18/13
B 43 24/20 20/17
A 51 13/8* 8/7
stop
close
"""

CHOSEN_TEXT = """\
1 5 A play 0.000000 0.000000
1 6 B play 0.000000 0.000000
1 7 A play 0.000000 2.000000
A decisions 2 loss 0.000000 2.000000
B decisions 1 loss 0.000000 0.000000
"""

CHOICE = (Make("c1", Cubeless(3)), Make("game", Text(CHOSEN)))

ANALYSE = "analyse, c1, game"

READ = "refused 6 read\n"

SAME = File("c1", Cubeless(3))

# The files' call that fails, and what is put: size and text of the record, and size, front and page of the other file are read.
FAULTS = (
    (FailCall("stat", 1), Row(ANALYSE, 6, READ), SAME),
    (FailCall("read", 1), Row(ANALYSE, 6, READ), SAME),
    (FailCall("stat", 3), Row(ANALYSE, 6, READ), SAME),
    (FailCall("read", 2), Row(ANALYSE, 6, READ), SAME),
    (FailCall("read", 3), Row(ANALYSE, 6, READ), SAME),
    (FailCall("read", 4), Row(ANALYSE, 0, CHOSEN_TEXT), SAME),
)

# The same with positions, and of those that lost most first the one that may have lost, then the earlier of the others.
CHOSEN_FULL = """\
1\t5\tA\tplay\t24 / 24\talone\t-\t65\t13 / 24\t0.000000\t0.000000\t24/18 18/13\t-1.000000\t1.000000
1\t6\tB\tplay\t24 / 13\talone\t-\t43\t17 / 13\t0.000000\t0.000000\t24/20 20/17\t-1.000000\t1.000000
1\t7\tA\tplay\t13 / 17\talone\t-\t51\t7 / bar\t0.000000\t2.000000\t13/8* 8/7\t-1.000000\t1.000000
A decisions 2 loss 0.000000 2.000000
B decisions 1 loss 0.000000 0.000000
"""

CHOSEN_WORST = """\
1\t7\tA\tplay\t13 / 17\talone\t-\t51\t7 / bar\t0.000000\t2.000000\t13/8* 8/7\t-1.000000\t1.000000
1\t5\tA\tplay\t24 / 24\talone\t-\t65\t13 / 24\t0.000000\t0.000000\t24/18 18/13\t-1.000000\t1.000000
A decisions 2 loss 0.000000 2.000000
B decisions 1 loss 0.000000 0.000000
"""

# What may have lost most stands below its board.
CHOSEN_DRAWN = """\
O: 17 pips
+13-14-15-16-17-18------19-20-21-22-23-24-+
| X                |   |                  |
|                  |   |                  |
|                  |   |                  |
|                  |BAR|                  |
|                  |   |                  |
|                  |   |                  |
|             O    |   |                  |
+12-11-10--9--8--7-------6--5--4--3--2--1-+
X to move: 13 pips
1\t7\tA\tplay\t13 / 17\talone\t-\t51\t7 / bar\t0.000000\t2.000000\t13/8* 8/7\t-1.000000\t1.000000
A decisions 2 loss 0.000000 2.000000
B decisions 1 loss 0.000000 0.000000
"""

SHOWN = (
    Row("analyse, c1, game, --full", 0, CHOSEN_FULL),
    Row("analyse, c1, game, --worst, 2", 0, CHOSEN_WORST),
    Row("analyse, c1, game, --worst=1, --board", 0, CHOSEN_DRAWN),
    Row("analyse, --worst=100, c1, y", 3, "refused 3 missing y\n"),
    Row("analyse, c1, game, --worst=0", 1, "refused 1 words value 3\n"),
    Row("analyse, c1, game, --worst=101", 1, "refused 1 words value 3\n"),
    Row("study, --full, game, --worst=1", 1, "refused 1 words value 4\n"),
)

# A file of more than 1,048,576 bytes is refused by its size, so that a failing read isn't met.
LONG = (Make("long", Filled(b"\n", 1_048_577)), FailCall("read", 1), Row("analyse, x, long", 5, "refused 5 record 0 too-long\n"))

# The output's call that fails after eight bytes: a line of a decision, or the totals. Behind the front of the report stands the refusal.
STOPS = (
    FailPut(1, 8),
    Row("analyse, j1, forced", 7, "1 5 A plrefused 7 write\n"),
    FailPut(2, 8),
    Row("analyse, j1, forced", 7, "1 5 A play 0.000000 0.000000\nA decisirefused 7 write\n"),
    FailPut(3, 8),
    Row("analyse, j1, forced", 0, FORCED_TEXT),
)

TESTS = {
    "a recorded game is analysed": in_order(FILES, ANALYSED),
    "analyses are refused in order": in_order(FILES, ROWS),
    "a damaged page counts where a loss rests on it": in_order(FILES, DAMAGED),
    "decisions are shown with their positions": in_order(CHOICE, SHOWN),
    "a failing read is told of an analysis": apart(CHOICE, FAULTS),
    "a record that is too long is not read": in_order(LONG),
    "a failing output is told of an analysis": in_order(FILES, STOPS),
}
