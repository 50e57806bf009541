"""Files that are written anew in the latest version."""

from rows.steps import Ask, Byte, Change, Cubeless, FailCall, File, Length, Make, Nothing, Opening, Row, apart, in_order

MIGRATE = "migrate, old, new"

OLD = (Make("old", Opening(1)),)

WRITTEN = (
    File("old", Length(9744)),
    Row(MIGRATE, 0, "migrated checkers 1 stakes cubeless rounds 8\nfile new bytes 6138\n"),
    File("new", Opening(3)),
    File("old", Opening(1)),
)

# Version 2 and the latest, with two workers.
VERSIONS = (
    (Make("old", Opening(2)), Ask("migrate, old, new, --workers=2", 0), File("new", Opening(3))),
    (Make("old", Opening(3)), Ask(MIGRATE, 0), File("new", Opening(3))),
)

# The mover at `1 / 1` wins two points at once, which the upper word doesn't hold.
UNHELD = (
    Make("old", Cubeless(2)),
    Row(MIGRATE, 9, "refused 9 inconsistent upper alone 4294967296 8589934592 1 / 1\n"),
    File("new", Nothing()),
)

# A byte of the old file, what it becomes, and the line.
DAMAGES = (
    (Change("old", Byte(11, 4)), Row(MIGRATE, 4, "refused 4 file version 8\n"), File("new", Nothing())),
    (Change("old", Byte(19, 4)), Row(MIGRATE, 4, "refused 4 file head 16\n"), File("new", Nothing())),
    (Change("old", Byte(9711, 1)), Row(MIGRATE, 4, "refused 4 file page-digest 9712\n"), File("new", Nothing())),
)

# The call that fails, the status, and the new file then: none, or the whole one. The file is begun, and what stands there is looked at; size, front
# and page of the old one are read; then front and page are appended, and it is brought to the disk and to its place.
FAULTS = (
    (FailCall("open-to-write", 1), Ask(MIGRATE, 7), File("new", Nothing())),
    (FailCall("open-to-read", 1), Ask(MIGRATE, 6), File("new", Nothing())),
    (FailCall("stat", 1), Ask(MIGRATE, 6), File("new", Nothing())),
    (FailCall("read", 1), Ask(MIGRATE, 6), File("new", Nothing())),
    (FailCall("read", 2), Ask(MIGRATE, 6), File("new", Nothing())),
    (FailCall("write", 1), Ask(MIGRATE, 7), File("new", Nothing())),
    (FailCall("write", 2), Ask(MIGRATE, 7), File("new", Nothing())),
    (FailCall("sync", 1), Ask(MIGRATE, 7), File("new", Nothing())),
    (FailCall("rename", 1), Ask(MIGRATE, 7), File("new", Nothing())),
    (FailCall("read", 3), Ask(MIGRATE, 0), File("new", Length(6138))),
    (FailCall("write", 3), Ask(MIGRATE, 0), File("new", Length(6138))),
)

TESTS = {
    "a file is written anew": in_order(OLD, WRITTEN),
    "each version is written as the latest": apart((), VERSIONS),
    "words that are not consistent are refused": in_order(UNHELD),
    "a damaged file is refused": apart(OLD, DAMAGES),
    "a failing call is told": apart(OLD, FAULTS),
}
