"""Matches that are solved, and their files."""

from rows.steps import (
    Ask, Begins, EachLine, Encloses, Ends, FailCall, FailPut, File, Finder, Has, Length, Lines, Make, Nothing, Put, Text, apart,
    in_order,
)

TO_TWO = "ladder, L, --checkers, 1, --length, 2, --rounds, 4, --workers, 2"

# The files of a match to two points, in the order in which they are written, and how many bytes they have: 96 for header and digest, 10 for each
# score before, 10 for each of 601 positions in each kind, and 32 for the digest of the one page.
FIRST = File("L.1.1.p", Length(12148))

SECOND = File("L.1.2.c", Length(12158))

THIRD = File("L.2.2.n", Length(36208))

SOLVED = (
    Ask(TO_TWO, 0),
    FIRST,
    SECOND,
    THIRD,
    Put(Lines(4)),
    Put(Begins("score 1.1.p start ")),
    Put(Has("\nscore 1.2.c start ")),
    Put(Has("\nscore 2.2.n start ")),
)

END = (Put(Ends("\nladder checkers 1 length 2 rounds 4 workers 2\n")),)

# With a checker on 6 against one on 1, 27 of 36 rolls win a gammon at once and the others lose one, which is the match for either side.
ANSWERS = (
    Ask(TO_TWO, 0),
    Ask("advise, L.2.2.n, 6 / 1, --kind, near:1:centred", 0),
    Put(
        Begins(
            "position 6 / 1\n"
            "kind near:1:centred\n"
            "no-double 0.500000 0.500000\n"
            "double-take 0.500000 0.500000\n",
        ),
    ),
    Put(Has("\noffer no-double loss 0.000000\n")),
    Ask("advise, L, 6 / 1, --away, 2-1, --crawford", 0),
    Put(
        Begins(
            "position 6 / 1\n"
            "kind far:1:centred\n"
            "no-double 0.500000 0.500000\n"
            "no cube action\n",
        ),
    ),
    Ask("verify, L.1.1.p, --workers, 2", 0),
    Put(Begins("consistent checkers 1 stakes match 2 1.1.p rounds 4 positions 601\n")),
    Ask("verify, L.1.2.c", 0),
    Put(Begins("consistent checkers 1 stakes match 2 1.2.c rounds 4 positions 601\n")),
    Ask("verify, L.2.2.n", 0),
    Put(Begins("consistent checkers 1 stakes match 2 2.2.n rounds 4 positions 601\n")),
)

# Each of three files has a front, a page and a digest, so the first part of the second file is the fourth that is written.
CUT = (
    FailCall("write", 4),
    Ask(TO_TWO, 7),
    FIRST,
    File("L.1.2.c", Nothing()),
    File("L.2.2.n", Nothing()),
    Put(Lines(2)),
    Put(Begins("score 1.1.p start ")),
    Put(Ends("\nrefused 7 write\n")),
)

# The put that fails, of which five bytes are kept; which of the files are there; and what the output ends with. A score's file takes its place behind
# its line.
STOPS = (
    (
        FailPut(1, 5),
        Ask(TO_TWO, 7),
        File("L.1.1.p", Nothing()),
        File("L.1.2.c", Nothing()),
        File("L.2.2.n", Nothing()),
        Put(Ends("scorerefused 7 write\n")),
    ),
    (
        FailPut(2, 5),
        Ask(TO_TWO, 7),
        FIRST,
        File("L.1.2.c", Nothing()),
        File("L.2.2.n", Nothing()),
        Put(Ends("\nscorerefused 7 write\n")),
    ),
    (FailPut(3, 5), Ask(TO_TWO, 7), FIRST, SECOND, File("L.2.2.n", Nothing()), Put(Ends("\nscorerefused 7 write\n"))),
    (FailPut(4, 5), Ask(TO_TWO, 7), FIRST, SECOND, THIRD, Put(Ends("\nladderefused 7 write\n"))),
)

# The last file can't be begun: that is told before any is written.
UNBEGUN = (
    FailCall("open-to-write", 3),
    Ask(TO_TWO, 7),
    File("L.1.1.p", Nothing()),
    File("L.1.2.c", Nothing()),
    Put(Has("refused 7 write\n")),
)

# A file of another kind stands where the second one is to be.
OTHER_KIND = (
    Make("L.1.2.c", Text("old")),
    Ask(TO_TWO, 13),
    File("L.1.1.p", Nothing()),
    File("L.1.2.c", Text("old")),
    Put(Has("refused 13 other L.1.2.c\n")),
)

# Two files are none of the match.
OTHERS = (
    Make("L", Text("kept")),
    Make("L.1.2.p", Text("kept too")),
    Make("L.1.2.c", Text("")),
    Ask(TO_TWO, 0),
    File("L", Text("kept")),
    File("L.1.2.p", Text("kept too")),
    SECOND,
)

# What the near side has before the first play of a game of a match to three points with one checker a side, in units of 10^-9 of the match: as a
# plain program in floating point finds it, which repeats turns over all positions until nothing changes.
STARTS = (
    ("score 1.1.p start ", 0),
    ("score 1.2.p start ", 0),
    ("score 1.2.c start ", 0),
    ("score 1.3.c start ", 455_064_132),
    ("score 2.2.n start ", 0),
    ("score 2.3.n start ", 122_514_962),
    ("score 3.3.n start ", 0),
)

EXACT = Finder(parts=1000, rounded=0, width=20_000)

TO_THREE = (
    Ask("ladder, m, --checkers=1, --rounds=12, --workers=2", 0),
    Put(
        EachLine((
            ("score 1.1.p start ", ""),
            ("score 1.2.p start ", ""),
            ("score 1.2.c start ", ""),
            ("score 1.3.c start ", ""),
            ("score 2.2.n start ", ""),
            ("score 2.3.n start ", ""),
            ("score 3.3.n start ", ""),
            ("ladder checkers 1 length 3 rounds 12 workers 2", ""),
        )),
    ),
    Put(Encloses(EXACT, STARTS)),
)

LONGER = (
    (Ask("ladder, five, --checkers=1, --length=5, --rounds=2", 0), Put(Lines(19))),
    (Ask("ladder, two, --checkers=2, --rounds=1, --workers=2", 0), Put(Lines(8))),
)

TESTS = {
    "a match to two points is solved": in_order(SOLVED, END),
    "files of a match are asked": in_order(ANSWERS),
    "a failing file leaves the scores before": in_order(CUT),
    "a failing line leaves the files of the scores before": apart((), STOPS),
    "files are tried before any is written": apart((), (UNBEGUN, OTHER_KIND)),
    "no other file changes": in_order(OTHERS),
    "starts enclose what a plain program finds": in_order(TO_THREE),
    "longer matches are solved": apart((), LONGER),
}
