"""Records of a match, studied and analysed."""

from rows.steps import Ask, Bit, Change, CopyOf, EachLine, Make, Put, Row, Text, apart, in_order

# A game of a match of two points in which the first double is passed.
ONE_GAME = """\
hypergammon record 1
checkers 1
stakes match 2
game 1 away 2 2
A 21 24/22 22/21
B double
A pass
end B 1
close
"""

# The same with the first play of the Crawford game behind it.
TWO_GAMES = """\
hypergammon record 1
checkers 1
stakes match 2
game 1 away 2 2
A 21 24/22 22/21
B double
A pass
end B 1
game 2 away 2 1
B 21 24/22 22/21
stop
close
"""

# How each line begins and ends: a play that is the only one loses nothing.
LINES = (
    ("1 5 A play", " 0.000000 0.000000"),
    ("1 6 B offer ", ""),
    ("1 7 A answer ", ""),
    ("A decisions 2 loss ", ""),
    ("B decisions 1 loss ", ""),
)

STUDIED = (Make("r", Text(ONE_GAME)), Ask("study, r, --rounds, 4", 0), Put(EachLine(LINES)))

# The files of a solved match to two points, and the records of one and of two games.
FILES = (
    Ask("ladder, M, --checkers, 1, --length, 2, --rounds, 4, --workers, 2", 0),
    Make("r", Text(ONE_GAME)),
    Make("s", Text(TWO_GAMES)),
)

ANALYSED = (
    Ask("analyse, M, r", 0),
    Put(EachLine(LINES)),
    Ask("analyse, M, s", 0),
    Put(
        EachLine((
            ("1 5 A play", " 0.000000 0.000000"),
            ("1 6 B offer ", ""),
            ("1 7 A answer ", ""),
            ("2 10 B play", " 0.000000 0.000000"),
            ("A decisions 2 loss ", ""),
            ("B decisions 2 loss ", ""),
        )),
    ),
)

# Some files of the match stand under the names of another, also under those of other scores. The digest of the one page of the last score ends its
# file of 36,208 bytes.
CASES = (
    (
        Make("L.1.1.p", CopyOf("M.1.1.p")),
        Make("L.1.2.c", CopyOf("M.1.2.c")),
        Row("analyse, L, r", 3, "refused 3 missing L.2.2.n\n"),
    ),
    # Files of the first games come first.
    (Row("analyse, L, s", 3, "refused 3 missing L.2.2.n\n"),),
    # What stands before pages comes before them, in all files.
    (Make("L.2.2.n", CopyOf("M.2.2.n")), Change("L.2.2.n", Bit(20_000)), Row("analyse, L, s", 3, "refused 3 missing L.1.2.c\n")),
    (
        Make("L.2.2.n", CopyOf("M.2.2.n")),
        Change("L.2.2.n", Bit(20_000)),
        Row("analyse, L, r", 4, "refused 4 file page-digest 36176\n"),
    ),
    # The file of another score is none of this one.
    (
        Make("L.2.2.n", CopyOf("M.1.2.c")),
        Row(
            "analyse, L, r",
            10,
            "refused 10 base wanted checkers 1 stakes match 2 2.2.n found checkers 1 stakes match 2 1.2.c\n",
        ),
    ),
    (Make("L.2.2.n", CopyOf("r")), Row("analyse, L, r", 4, "refused 4 file magic 0\n")),
)

TESTS = {
    "a recorded match is studied": in_order(STUDIED),
    "a recorded match is analysed": in_order(FILES, ANALYSED),
    "matches are refused in order": apart(FILES, CASES),
}
