"""Advice on the cube and on plays, with a cube and without one."""

from rows.steps import Ask, Bit, Change, Cubeless, FailCall, FailPut, File, Length, Make, Row, apart, in_order

# Words that solve a game, each within a second. Of the file of two checkers a bit of the last page is turned, on which no advice here rests.
SOLVES = (
    Ask("solve, m1, --checkers=1, --stakes=money, --rounds=2", 0),
    Ask("solve, j1, --checkers=1, --rounds=2", 0),
    Ask("solve, j2, --checkers=2, --rounds=1, --workers=4", 0),
    Ask("solve, jb, --checkers=1, --stakes=jacoby-beavers, --rounds=2", 0),
    File("j2", Length(3_200_016)),
    Change("j2", Bit(3_199_983)),
)

# Words, the status and all that is put, each worked out by hand.
ADVICE = (
    Row(
        "advise, m1, 6 / 1, --kind, mine",
        0,
        "position 6 / 1\n"
        "kind mine\n"
        "no-double 1.000000 1.000000\n"
        "double-take 2.000000 2.000000\n"
        "double-pass 1.000000 1.000000\n"
        "offer no-double loss 0.000000\n"
        "answer pass loss 0.000000\n",
    ),
    Row(
        "advise, j1, 6 / 1, --kind=centred",
        0,
        "position 6 / 1\n"
        "kind centred\n"
        "no-double 0.500000 0.500000\n"
        "double-take 2.000000 2.000000\n"
        "double-pass 1.000000 1.000000\n"
        "offer double loss 0.000000\n"
        "answer pass loss 0.000000\n",
    ),
    # The first kind is taken where none is given.
    Row(
        "advise, j1, 6 / 1",
        0,
        "position 6 / 1\n"
        "kind centred\n"
        "no-double 0.500000 0.500000\n"
        "double-take 2.000000 2.000000\n"
        "double-pass 1.000000 1.000000\n"
        "offer double loss 0.000000\n"
        "answer pass loss 0.000000\n",
    ),
    Row(
        "advise, j1, 6 / 1, --kind=theirs",
        0,
        "position 6 / 1\n"
        "kind theirs\n"
        "no-double 1.000000 1.000000\n"
        "no cube action\n",
    ),
    Row(
        "advise, j2, 6 off / 1 off, --kind=mine",
        0,
        "position 6 off / 1 off\n"
        "kind mine\n"
        "no-double 0.500000 0.500000\n"
        "double-take 1.000000 1.000000\n"
        "double-pass 1.000000 1.000000\n"
        "offer double loss 0.000000\n"
        "answer take loss 0.000000\n",
    ),
    Row(
        "advise, jb, 8 / 1, --kind, centred",
        0,
        "position 8 / 1\n"
        "kind centred\n"
        "no-double -0.055556 -0.055555\n"
        "double-take -0.222223 -0.222222\n"
        "double-beaver -0.444445 -0.444444\n"
        "double-pass 1.000000 1.000000\n"
        "offer no-double loss 0.000000\n"
        "answer beaver loss 0.000000\n",
    ),
)

PLAY_TEXT = """\
position 2 / 24
roll 21 kind alone
1 3.000000 3.000000 2/1* 1/off
best 1 loss 0.000000
"""

# Without a cube. A play, and what is refused.
UNCUBED = (
    Ask("solve, c1, --checkers=1, --stakes=cubeless, --rounds=8", 0),
    Row(
        "advise, c1, 2 / 24, --roll, 21",
        0,
        "position 2 / 24\n"
        "roll 21 kind alone\n"
        "1 3.000000 3.000000 2/1* 1/off\n"
        "best 1 loss 0.000000\n",
    ),
    Row("advise, c1, 6 / 1, --kind, mine", 10, "refused 10 base wanted kind mine found checkers 1 stakes cubeless\n"),
    Row("advise, c1, 6 off / 1 off, --kind, mine", 10, "refused 10 base wanted checkers 2 found checkers 1 stakes cubeless\n"),
    Row("advise, c1, 2/24, --roll, 1-2", 0, PLAY_TEXT),
    Row("advise, c1, 6 / 1, --roll, 7", 2, "refused 2 roll 1\n"),
    Row("advise, c1, 1 / 24, --roll, 12", 2, "refused 2 position 4\n"),
    Row("advise, x, 6 / 1", 3, "refused 3 missing x\n"),
    Row("advise, c1, 6 / 1, --kind=our", 1, "refused 1 words value 3\n"),
    Row("advise, c1", 1, "refused 1 words form 0\n"),
)

CUBE = "advise, c1, 6 / 1"

PLAY = "advise, c1, 2 / 24, --roll, 21"

# Of 36 ways of the dice 27 win two points, and in the file all else is worth something from -1 to 1.
CUBE_TEXT = """\
position 6 / 1
kind alone
no-double 1.250000 1.750000
no cube action
"""

READ = "refused 6 read\n"

# A play that ends the game rests on no page, so that one with a turned bit counts only for the other advice.
DAMAGED = (Make("c1", Cubeless(3)), Change("c1", Bit(100)), Row(PLAY, 0, PLAY_TEXT), Row(CUBE, 4, "refused 4 file page-digest 6106\n"))

SOLVED = (Make("c1", Cubeless(3)),)

SAME = File("c1", Cubeless(3))

# The files' call that fails, and all that is put: size, front and, where it counts, the page are read.
FAULTS = (
    (FailCall("stat", 1), Row(CUBE, 6, READ), SAME),
    (FailCall("read", 1), Row(CUBE, 6, READ), SAME),
    (FailCall("read", 2), Row(CUBE, 6, READ), SAME),
    (FailCall("read", 3), Row(CUBE, 0, CUBE_TEXT), SAME),
    (FailCall("stat", 1), Row(PLAY, 6, READ), SAME),
    (FailCall("read", 1), Row(PLAY, 6, READ), SAME),
    (FailCall("read", 2), Row(PLAY, 0, PLAY_TEXT), SAME),
)

# The first call of the output fails after so many bytes, and then the line of the refusal is put.
STOPS = ((FailPut(1, 8), Row(CUBE, 7, "positionrefused 7 write\n")), (FailPut(1, 8), Row(PLAY, 7, "positionrefused 7 write\n")))

TESTS = {
    "advice is as worked by hand": in_order(SOLVES, ADVICE),
    "advice without a cube is as worked by hand": in_order(UNCUBED),
    "a damaged page counts where advice rests on it": in_order(DAMAGED),
    "a failing read is told of advice": apart(SOLVED, FAULTS),
    "a failing output is told of advice": apart(SOLVED, STOPS),
}
