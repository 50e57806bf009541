"""Games that are solved."""

from rows.steps import Ask, At, Begins, Ends, FailCall, File, Length, Make, Put, Row, Text, apart, in_order

# A game of one checker.
SOLVE = "solve, c1, --checkers=1, --stakes, cubeless, --rounds, 8, --workers=4"

# How wide the widest pair is no one reckoned by hand. In the file stands the pair of `1 / 1`: every play wins a gammon.
SOLVED = (
    Ask(SOLVE, 0),
    Put(Begins("solved checkers 1 stakes cubeless rounds 8 workers 4\npositions 601 kinds 1 widest ")),
    Put(Ends("\nfile c1 bytes 6138\n")),
    File("c1", Length(6138)),
    File("c1", Begins(b"HYPGAMMN\0\0\0\x03\0\0\0\x01")),
    File("c1", At(96, b"\x12\0\0\0\0\x12\0\0\0\0")),
)

# The widest pair of this game has 0.782189 points after 4 rounds of one worker, and 0.016477 after 8: so many rounds may be the last ones.
NARROW = (
    Ask("solve, n1, --checkers=1, --stakes, cubeless, --width, 0.02", 0),
    Put(
        Begins((
            "solved checkers 1 stakes cubeless rounds 5 workers 1\n",
            "solved checkers 1 stakes cubeless rounds 6 workers 1\n",
            "solved checkers 1 stakes cubeless rounds 7 workers 1\n",
            "solved checkers 1 stakes cubeless rounds 8 workers 1\n",
        )),
    ),
)

# What stands where the file is to be written.
KEPT = "HYPGAMMN, and no more of a file of bounds"

OLD = (Make("c1", Text(KEPT)),)

# The files' call that fails: the file is begun, what stands there is looked at, front and page are appended, the report is put, and the file is
# brought to the disk and to its place. The old one stays.
STOPS = (
    (FailCall("open-to-write", 1), Row(SOLVE, 7, "refused 7 write\n"), File("c1", Text(KEPT))),
    (FailCall("read", 1), Row(SOLVE, 6, "refused 6 read\n"), File("c1", Text(KEPT))),
    (FailCall("write", 1), Row(SOLVE, 7, "refused 7 write\n"), File("c1", Text(KEPT))),
    (FailCall("write", 2), Row(SOLVE, 7, "refused 7 write\n"), File("c1", Text(KEPT))),
    (FailCall("sync", 1), Ask(SOLVE, 7), File("c1", Text(KEPT))),
    (FailCall("rename", 1), Ask(SOLVE, 7), File("c1", Text(KEPT))),
)

OTHER = (Make("c1", Text("notes")), Row(SOLVE, 13, "refused 13 other c1\n"), File("c1", Text("notes")))

TESTS = {
    # Over files that never fail.
    "a game is solved": apart((), (SOLVED, NARROW)),
    "a failing file is told": apart(OLD, STOPS),
    "a file of another kind is left alone": in_order(OTHER),
}
