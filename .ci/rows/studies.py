"""Studies of recorded games, and records that are made."""

from rows.analyses import GAME, IN_MATCH, LINES, ONE_POINT
from rows.steps import (
    Ask, Begins, EachLine, Ends, EndsKept, FailCall, FailPut, File, Keep, Make, Nothing, Put, Row, Text, apart, in_order,
)

# The game is solved by eight rounds and four workers on the way, and no file of bounds is there.
STUDIED = (Make("game", Text(GAME)), Ask("study, game, --rounds, 8, --workers=4", 0), Put(EachLine(LINES)))

# A game that is left after a beaver.
BEAVERED = """\
hypergammon record 1
checkers 1
stakes jacoby-beavers
game 1
A 21 24/22 22/21
B double
A beaver
stop
close
"""

# The same by stakes that have no beavers.
UNBEAVERED = BEAVERED.replace("jacoby-beavers", "jacoby")

# A match of two points in which A doubles in the Crawford game.
IN_CRAWFORD = """\
hypergammon record 1
checkers 1
stakes match 2
game 1 away 2 2
A 21 24/22 22/21
B double
A pass
end B 1
game 2 away 2 1
B 21 24/22 22/21
A double
B pass
end A 1
close
"""

STUDY = "study, game, --rounds=2"

# The record, the status, and what is put or its first line.
RECORDS = (
    (Make("game", Text(IN_MATCH)), Ask(STUDY, 0), Put(Begins("1 5 A play 0.000000 0.000000\n1 6 B offer "))),
    (Make("game", Text(IN_CRAWFORD)), Row(STUDY, 5, "refused 5 record 11 illegal-cube\n")),
    (Make("game", Text(ONE_POINT)), Row(STUDY, 5, "refused 5 record 15 score-wrong\n")),
    (Make("game", Text("hypergammon record 2\n")), Row(STUDY, 5, "refused 5 record 1 shape\n")),
    (Make("game", Text("")), Row(STUDY, 5, "refused 5 record 1 unended\n")),
    (Make("game", Text(UNBEAVERED)), Row(STUDY, 5, "refused 5 record 7 illegal-cube\n")),
    (Make("game", Text(BEAVERED)), Ask(STUDY, 0), Put(Begins("1 5 A play 0.000000 0.000000\n1 6 B offer "))),
    (Row("study, game", 3, "refused 3 missing game\n"),),
)

LEFT = (Make("game", Text(BEAVERED)),)

# Three decisions are told, a play and an offer and an answer, and then both totals.
BEAVER = (
    Ask(STUDY, 0),
    Put(
        EachLine((
            ("1 5 A play ", ""),
            ("1 6 B offer ", ""),
            ("1 7 A answer ", ""),
            ("A decisions 2 loss ", ""),
            ("B decisions 1 loss ", ""),
        )),
    ),
)

ONCE = "study, game, --rounds=1"

SAME = File("game", Text(BEAVERED))

# The files' call that fails: the record's size and text are read, and no other file.
FAULTS = (
    (FailCall("stat", 1), Row(ONCE, 6, "refused 6 read\n"), SAME),
    (FailCall("read", 1), Row(ONCE, 6, "refused 6 read\n"), SAME),
    (FailCall("read", 2), Ask(ONCE, 0), SAME),
)

# The output's call that fails, after two bytes: each line of a decision is one call, and both totals are another.
STOPS = (
    FailPut(1, 2),
    Ask(ONCE, 7),
    Put(Ends("refused 7 write\n")),
    FailPut(2, 2),
    Ask(ONCE, 7),
    Put(Ends("refused 7 write\n")),
    FailPut(3, 2),
    Ask(ONCE, 7),
    Put(Ends("refused 7 write\n")),
    FailPut(4, 2),
    Ask(ONCE, 7),
    Put(Ends("refused 7 write\n")),
)

# What is made is read back, and a study of it by as many rounds tells the same totals, which stand behind the first line.
MADE = (
    Ask("make, 7, 1, seven.rec", 0),
    Put(Begins("made lines ")),
    Keep("\n"),
    File("seven.rec", Begins(b"hypergammon record 1\ncheckers 1\nstakes jacoby\ngame 1\n")),
    File("seven.rec", Ends(b"\nclose\n")),
    Ask("study, seven.rec, --rounds, 8", 0),
    Put(EndsKept()),
)

MAKE = "make, 7, 1, r"

# What stands where the record is to be written.
KEPT = """\
hypergammon record 1
old"""

OLD = (Make("r", Text(KEPT)),)

# The files' call that fails: the file is begun, what stands there is looked at, the text is appended, the report is put, and the file is brought to
# the disk and to its place. The old one stays.
CUTS = (
    (FailCall("open-to-write", 1), Row(MAKE, 7, "refused 7 write\n"), File("r", Text(KEPT))),
    (FailCall("read", 1), Row(MAKE, 6, "refused 6 read\n"), File("r", Text(KEPT))),
    (FailCall("write", 1), Row(MAKE, 7, "refused 7 write\n"), File("r", Text(KEPT))),
    (FailCall("sync", 1), Ask(MAKE, 7), File("r", Text(KEPT))),
    (FailCall("rename", 1), Ask(MAKE, 7), File("r", Text(KEPT))),
)

OTHER = (Make("r", Text("hypergammon record 2\n")), Row(MAKE, 13, "refused 13 other r\n"), File("r", Text("hypergammon record 2\n")))

# The report fails after five bytes, before the file takes its place.
UNTOLD = (FailPut(1, 5), Row(MAKE, 7, "made refused 7 write\n"), File("r", Nothing()))

TESTS = {
    "a recorded game is studied": in_order(STUDIED),
    "each record has its answer": apart((), RECORDS),
    "a beaver is a decision": in_order(LEFT, BEAVER),
    "a failing read is told of a study": apart(LEFT, FAULTS),
    "a failing output is told of a study": in_order(LEFT, STOPS),
    "what is made can be studied": in_order(MADE),
    "a record that can't be written is told": apart(OLD, CUTS),
    "no record is made over another text": in_order(OTHER),
    "a report that can't be put is told": in_order(UNTOLD),
}
