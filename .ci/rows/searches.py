"""Searches for states of a file."""

from rows.steps import (
    Ask, Begins, Bit, Change, Cubeless, Ends, FailCall, FailPut, File, Keep, Length, Lines, Make, Put, Row, Text, ThenKept, apart,
    in_order,
)

SOLVED = (Ask("solve, c1, --checkers=1, --stakes=cubeless, --rounds=8", 0),)

# From 1 each roll bears the last checker off, and whoever then has one on his point 19 or higher loses three points. After eight rounds the bounds of
# these positions have met; the other side can't stand on its point 24, where the mover does.
ROWS = (
    Row(
        "scan, c1, pips=1 lower=12884901888, --workers, 3",
        0,
        "alone 1 / 19 3.000000 3.000000\n"
        "alone 1 / 20 3.000000 3.000000\n"
        "alone 1 / 21 3.000000 3.000000\n"
        "alone 1 / 22 3.000000 3.000000\n"
        "alone 1 / 23 3.000000 3.000000\n"
        "alone 1 / bar 3.000000 3.000000\n"
        "found 6 of 601\n",
    ),
    Row(
        "scan, c1, pips=1 opips=18 | opips=18 pips=2",
        0,
        "alone 1 / 18 2.000000 2.000000\n"
        "alone 2 / 18 2.000000 2.000000\n"
        "found 2 of 601\n",
    ),
    Row("scan, c1, !pips>1 width>0", 0, "found 0 of 601\n"),
    Row("scan, --workers=64, c1, kind=1", 0, "found 0 of 601\n"),
)

# A file of one checker in which each pair is from a point lost to a point won, and one that is too short.
FILES = (Make("c1", Cubeless(3)), Make("E", Text("empty")))

# The condition is read before the file is asked for.
WRONG = (
    Row("scan, c1, pips=1 |", 11, "refused 11 condition 2\n"),
    Row("scan, x, pips=1 |", 11, "refused 11 condition 2\n"),
    Row("scan, E,  ", 11, "refused 11 condition 0\n"),
)

REFUSED = (
    Row("scan, x, pips=1", 3, "refused 3 missing x\n"),
    Row("scan, E, pips=1", 4, "refused 4 file short 5\n"),
    Row("scan, c1, x, --workers=65", 1, "refused 1 words value 3\n"),
    Row("scan, c1", 1, "refused 1 words form 0\n"),
)

BARS = "scan, c1, bar=1 | obar=1"

# Of the 601 live positions 25 have the mover on the bar and 25 the other side, and one both. All that one worker puts is kept.
CREWS = (
    Ask(BARS, 0),
    Put(Lines(50)),
    Put(Begins("alone 1 / bar -1.000000 1.000000\nalone 2 / bar ")),
    Put(Ends("alone bar / bar -1.000000 1.000000\nfound 49 of 601\n")),
    Keep(""),
    Ask("scan, c1, bar=1 | obar=1, --workers=3", 0),
    Put(ThenKept("")),
    Ask("scan, c1, bar=1 | obar=1, --workers=4", 0),
    Put(ThenKept("")),
    Ask("scan, c1, bar=1 | obar=1, --workers=64", 0),
    Put(ThenKept("")),
)

# Of two checkers a side 106,552 positions are live, 1,024 on a page, so that there are 105 pages. A page has 10 bytes for each position, and 32 for
# its digest; the first begins at 96. Of either side 11 layouts have from 1 to 5 pips.
PAGES = (
    Ask("solve, c2, --checkers=2, --stakes=cubeless, --rounds=1, --workers=4", 0),
    File("c2", Length(1_068_976)),
    Ask("scan, c2, pips<6 opips<6, --workers=1", 0),
    Put(Ends("\nfound 121 of 106552\n")),
    Keep(""),
    Ask("scan, c2, pips<6 opips<6, --workers=4", 0),
    Put(ThenKept("")),
    Ask("verify, c2, --workers=4", 0),
)

# A bit is turned of two pages that are looked at by different workers. The digest of the earlier one stands behind 51 pages but for 32 bytes.
TURNED = (
    Change("c2", Bit(924_581)),
    Change("c2", Bit(513_701)),
    Row("scan, c2, pips<6 opips<6, --workers=1", 4, "refused 4 file page-digest 523936\n"),
    Row("scan, c2, pips<6 opips<6, --workers=4", 4, "refused 4 file page-digest 523936\n"),
    Row("verify, c2, --workers=1", 4, "refused 4 file page-digest 523936\n"),
    Row("verify, c2, --workers=4", 4, "refused 4 file page-digest 523936\n"),
)

# A whole file is asked for its size, and then its head and its page are read.
FAULTS = (
    (FailCall("stat", 1), Row(BARS, 6, "refused 6 read\n")),
    (FailCall("read", 1), Row(BARS, 6, "refused 6 read\n")),
    (FailCall("read", 2), Row(BARS, 6, "refused 6 read\n")),
)

# The first call of the files fails, so the run that is refused makes none.
UNASKED = (FailCall("open-to-read", 1), Ask("scan, c1, pips", 11), Ask("scan, c1, pips=1", 6))

TWO = "scan, c1, pips=2 opips<3"

# A search that finds two states. Their lines are put together, and then their number, of which so many bytes are put.
PUTS = (
    FailPut(1, 5),
    Row(TWO, 7, "alonerefused 7 write\n"),
    FailPut(1, 36),
    Row(TWO, 7, "alone 2 / 1 -1.000000 1.000000\nalonerefused 7 write\n"),
    FailPut(2, 5),
    Row(
        TWO,
        7,
        "alone 2 / 1 -1.000000 1.000000\n"
        "alone 2 / 2 -1.000000 1.000000\n"
        "foundrefused 7 write\n",
    ),
    Row(
        TWO,
        0,
        "alone 2 / 1 -1.000000 1.000000\n"
        "alone 2 / 2 -1.000000 1.000000\n"
        "found 2 of 601\n",
    ),
)

TESTS = {
    "states of a solved file are found": in_order(SOLVED, ROWS),
    "wrong conditions are refused": in_order(FILES, WRONG),
    "searches are refused": in_order(FILES, REFUSED),
    "any number of workers puts the same": in_order(FILES, CREWS),
    "four workers load as one does": in_order(PAGES, TURNED),
    "a read that fails is told": apart(FILES, FAULTS),
    "a wrong condition asks for no file": in_order(FILES, UNASKED),
    "a line that is not put is told": in_order(FILES, PUTS),
}
