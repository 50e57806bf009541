"""Runs on a real system: words that are no text, a terminal, large files; boards; a reader of files; and tables of words, records and files."""

import csv
import filecmp
import os
import pty
import re
import select
import subprocess
from typing import NamedTuple
from xml.etree import ElementTree

import base_file
from base import Base, lines, live_rank, read_places
from command_words import try_command_words
from damaged_files import try_damaged_files
from decision_pages import try_decision_pages
from documents import large_files
from imports import try_imports
from mistakes import try_mistakes
from plays import try_plays
from record_lines import try_record_lines
from tally import PROGRAM, SCRIPT, SECONDS, TOP, old_file, run
from turns import try_turns
from worked import try_worked

# What the script `hypergammon` asks for, where the program itself is run, many times.
LARGE_PAGES = {**os.environ, "GLIBC_TUNABLES": "glibc.malloc.hugetlb=1"}
# A file of one checker by the Jacoby rule, which stands in results/files.tsv with its SHA-256.
SMALL = "1-jacoby.base"
KINDS = len(base_file.KINDS)
# Where the digest of its one page stands.
PAGE_DIGEST = base_file.file_length(1, KINDS) - base_file.DIGEST

BOUND = b"""\
position 24 / 24
rounds 1
alone -2.833334 3.000000 -12169074006 12884901888
"""

# Files of older versions, which are made of SMALL, and what makes them.
OLDER_VERSIONS = {"old.base": base_file.as_version_one, "older.base": base_file.as_version_two}
# What is answered of a file of version 1 or 2.
OLDER = (4, b"refused 4 file version 8\n")

OF_FEWER = b"refused 10 base wanted checkers 2 found checkers 1 stakes jacoby\n"


class Case(NamedTuple):
    name: str
    words: tuple
    status: int
    output: bytes


# What docs/FORMATS.md says of these words. `damaged.base` differs from `1-jacoby.base` in a byte of its one page.
CASES = (
    Case("a right run", (b"bound", b"1", b"1", b"24 / 24"), 0, BOUND),
    Case("a word that isn't text", (b"bound", b"1", b"1", b"6 / \xff"), 1, b"refused 1 words word 0\n"),
    Case("a first word that isn't text", (b"\xff",), 1, b"refused 1 words word 0\n"),
    Case("an argument too few", (b"bound", b"1", b"1"), 1, b"refused 1 words form 0\n"),
    Case("a point that both sides hold", (b"bound", b"1", b"1", b"6 / 19"), 2, b"refused 2 position 4\n"),
    Case("a roll of one die", (b"advise", SMALL, b"24 / 24", b"--roll", b"7"), 2, b"refused 2 roll 1\n"),
    Case("no such file", (b"show", b"none.base", b"24 / 24"), 3, b"refused 3 missing none.base\n"),
    Case("a damaged page", (b"show", b"damaged.base", b"24 / 24"), 4, b"refused 4 file page-digest %d\n" % PAGE_DIGEST),
    Case("a file that is no record", (b"study", SMALL), 5, b"refused 5 record 1 shape\n"),
    Case("a file of fewer checkers", (b"show", SMALL, b"24 23 / 24 23"), 10, OF_FEWER),
    Case("a condition that ends too early", (b"scan", SMALL, b"pips=1 |"), 11, b"refused 11 condition 2\n"),
    Case("a race with contact", (b"race", b"1", b"13 / 13"), 12, b"refused 12 contact\n"),
    Case("a file of another kind", (b"make", b"1", b"1", SMALL), 13, b"refused 13 other %s\n" % SMALL.encode()),
)

# With one checker either order of 3 and 1 ends on the same point, so the play loses nothing.
RECORD = b"""\
hypergammon record 1
checkers 1
stakes jacoby
game 1
A 31 24/21 21/20
stop
close
"""


STUDIED = b"""\
1 5 A play 0.000000 0.000000
A decisions 1 loss 0.000000 0.000000
B decisions 0 loss 0.000000 0.000000
"""

# Two checkers a side, of which both go the same way.
PLAYED = b"""\
hypergammon record 1
checkers 2
stakes jacoby
game 1
A 31 24/21 21/20
B 21 24/22 23/22
A 66 20/14 14/8 23/17 17/11
B 55 22/17* 17/12 22/17 17/12
stop
close
"""


class Reading(NamedTuple):
    """A record as it may be written, the plain one as which it is read, and how many lines more stand before the first roll."""

    name: str
    text: bytes
    plain: bytes
    more: int = 0


READINGS = (
    Reading("carriage returns", RECORD.replace(b"\n", b"\r\n"), RECORD),
    Reading("no last line feed", RECORD[:-1], RECORD),
    Reading("remarks", b"# by hand\n" + RECORD.replace(b"A 31", b"# A begins\nA 31"), RECORD, 2),
    Reading("empty lines", b"\n" + RECORD.replace(b"A 31", b" \t\n\r\nA 31"), RECORD, 3),
    Reading("a checker that goes on", RECORD.replace(b"24/21 21/20", b"24/21/20"), RECORD),
    Reading("checkers that go on", PLAYED.replace(b"20/14 14/8 23/17 17/11", b"20/14/8 23/17/11"), PLAYED),
    Reading("two that go on", PLAYED.replace(b"22/17* 17/12 22/17 17/12", b"22/17*/12(2)"), PLAYED),
    Reading("two twice", PLAYED.replace(b"22/17* 17/12 22/17 17/12", b"22/17*(2) 17/12(2)"), PLAYED),
    Reading("a wrong line", b"# by hand\n\n" + RECORD.replace(b"21/20", b"21/19"), RECORD.replace(b"21/20", b"21/19"), 2),
    Reading("no end", b"\n" + RECORD[:-6], RECORD[:-6], 1),
)

SOLVED = b"""\
solved checkers 1 stakes jacoby rounds 64 workers 1
positions 601 kinds 3 widest %s
file 1-jacoby.base bytes %s
"""

VERIFIED = b"consistent checkers 1 stakes jacoby rounds 64 positions 601\n"

SOLVED_THREE = rb"""solved checkers 3 stakes jacoby rounds 1 workers 4
positions 7953353 kinds 3 widest [1-6]\.\d{6}
file three.base bytes %d
"""

VERIFIED_THREE = b"consistent checkers 3 stakes jacoby rounds 1 positions 7953353\n"

# Whose last checker goes off at once wins a point, whatever is done with the cube.
WON = b"""\
position 1 off off / 1 off off
checkers 3 stakes jacoby rounds 1
centred 1.000000 1.000000 4294967296 4294967296
mine 1.000000 1.000000 4294967296 4294967296
theirs 1.000000 1.000000 4294967296 4294967296
"""


class Board(NamedTuple):
    """A position, and at which numbers of the drawn board the checkers of both sides stand."""

    position: str
    mine: tuple
    theirs: tuple


# Worked out by hand: the other side's point p is the mover's point 25 - p.
BOARDS = (
    Board("24 19 19 / 24 18 16", ("19", "19", "24"), ("1", "7", "9")),
    Board("bar 6 off / 2 2 off", ("6", "bar", "off"), ("23", "23", "off")),
)

# The numbers of a board from the left, each above and below: the mover's home is at the lower right.
COLUMNS = "13 12,14 11,15 10,16 9,17 8,18 7,bar,19 6,20 5,21 4,22 3,23 2,24 1,off".split(",")

DRAW = TOP / "results/draw"
MOST_OF_A_BOARD = 2500
SHARED = b"draw: both sides hold the mover's point 19, which is the other side's point 6\n"


# For so many seconds nothing comes to a terminal that has got all.
QUIET = 0.5


class Shown(NamedTuple):
    """A run on a terminal over a file that stands there."""

    words: tuple
    rounds: int
    report: bytes
    file: str
    # What the file holds before the run, and the SHA-256 of what it has to hold behind it.
    before: bytes
    after: str


# Matches of two points, which have three scores, on a terminal, and all rounds that are made.
SEVERAL = (
    (("ladder", "t", "--checkers", "1", "--length", "2", "--rounds", "4"), 12),
    (("study", "points.rec", "--rounds", "2"), 6),
)


def shown_cases(folder):
    """The runs on a terminal."""
    row = large_files()[SMALL]
    small = (folder / SMALL).read_bytes()
    solved = SOLVED % (row["widest"].encode(), row["bytes"].encode())
    solve = ("solve", SMALL, "--checkers", "1")
    yield Shown(solve, 64, solved, SMALL, old_file("solve"), row["sha256"])
    yield Shown(("verify", SMALL), 1, VERIFIED, SMALL, small, row["sha256"])
    yield Shown(("study", "game.rec"), 64, STUDIED, "game.rec", RECORD, base_file.digest(RECORD).hex())


def ask(words, folder):
    """Runs the program, and answers its status and its output."""
    ran = run([SCRIPT, *words], folder)
    return ran.status, ran.output


def on_terminal(words, folder):
    """Runs the program with standard error on a terminal: its status, its output, and what the terminal got."""
    terminal, end = pty.openpty()
    ran = subprocess.Popen([SCRIPT, *words], cwd=folder, stdin=subprocess.DEVNULL, stdout=subprocess.PIPE, stderr=end)
    output, _ = ran.communicate(timeout=SECONDS)
    # A terminal whose other end nobody holds any more may lose what was written last.
    got = b""
    while select.select([terminal], [], [], QUIET)[0]:
        got += os.read(terminal, 4096)
    os.close(end)
    os.close(terminal)
    return ran.returncode, output, got


def differences(what, found, due):
    return [] if found == due else [f"{what} {found}, due is {due}"]


def try_words(tally, folder):
    damaged = bytearray((folder / SMALL).read_bytes())
    damaged[PAGE_DIGEST // 2] ^= 1
    (folder / "damaged.base").write_bytes(damaged)
    for case in CASES:
        status, output = ask(case.words, folder)
        tally.note(case.name, differences("status", status, case.status) + differences("output", output, case.output))


def study(text, folder):
    (folder / "read.rec").write_bytes(text)
    return ask(("study", "read.rec", "--rounds", "2"), folder)


def try_readings(tally, folder):
    """A record that is written otherwise gives what the plain one does, with its own lines."""
    for reading in READINGS:
        status, output = study(reading.plain, folder)
        due = re.sub(rb"(?m)^(\d|refused 5 record) (\d+)", lambda it: b"%s %d" % (it[1], int(it[2]) + reading.more), output)
        tally.note(f"a record with {reading.name}", differences("answer", study(reading.text, folder), (status, due)))


def faults_of_terminal(got, rounds):
    """A terminal has to get lines of progress that tell how many rounds there are, each with nothing in its place before anything is put."""
    line = rb"\r\x1b\[\?7lround \d+ of %d, \d+ %%, \d+ s gone(, \d+ s left)?\x1b\[K\x1b\[\?7h" % rounds
    if not re.fullmatch(rb"((%s)+\r\x1b\[K)+" % line, got):
        yield f"the terminal got {got}, due are lines of progress of {rounds} rounds"


def try_terminal(tally, folder):
    for words, rounds in SEVERAL:
        status, _, got = on_terminal(words, folder)
        tally.note(f"on a terminal: {' '.join(words)}", differences("status", status, 0) + list(faults_of_terminal(got, rounds)))
    for shown in shown_cases(folder):
        (folder / shown.file).write_bytes(shown.before)
        status, output, got = on_terminal(shown.words, folder)
        faults = differences("status", status, 0) + differences("output", output, shown.report)
        faults += faults_of_terminal(got, shown.rounds)
        digest = base_file.digest((folder / shown.file).read_bytes()).hex()
        faults += differences("the file's SHA-256 is", digest, shown.after)
        tally.note(f"on a terminal: {' '.join(shown.words)}", faults)


def numbers_of(picture):
    """The numbers around a board with their places, from the left and from above."""
    rows = picture.iterfind("{*}g[@class='numbers']")
    heights = ((row, int(re.fullmatch(r"translate\(0 (\d+)\)", row.get("transform"))[1])) for row in rows)
    return sorted((int(it.get("x")), y, it.text) for row, y in heights for it in row.iterfind("{*}text"))


def read_off(picture, side):
    """The numbers at which a side's checkers stand: of those in the same column the nearest."""
    numbers = numbers_of(picture)
    circles = picture.iterfind(f"{{*}}g[@class='{side}']/{{*}}circle")
    centres = {(int(it.get("cx")), int(it.get("cy"))) for it in circles}
    nearest = (min((abs(y - row), text) for column, row, text in numbers if column == x) for x, y in centres)
    return tuple(sorted(text for _, text in nearest))


def faults_of_board(board, svg):
    picture = ElementTree.fromstring(svg)
    numbers = numbers_of(picture)
    columns = sorted({column for column, _, _ in numbers})
    read = [" ".join(text for column, _, text in numbers if column == it) for it in columns]
    yield from differences("the numbers are", read, COLUMNS)
    yield from differences("the mover's checkers are at", read_off(picture, "mine"), board.mine)
    yield from differences("the other side's checkers are at", read_off(picture, "theirs"), board.theirs)


def try_boards(tally, folder):
    """Boards as whoever looks at them reads them."""
    ran = run([DRAW, "24 19 19 / 24 18 6"], folder)
    faults = differences("status", ran.status, 1) + differences("it tells", (ran.output, ran.told), (b"", SHARED))
    tally.note("a board of a point that both sides hold", faults)
    for board in BOARDS:
        ran = run([DRAW, board.position], folder)
        faults = differences("status", ran.status, 0) or list(faults_of_board(board, ran.output))
        tally.note(f"the board of {board.position}", faults)
    ran = run([DRAW, "--compare"], folder)
    tally.note("the boards of the pages", differences("they are other ones", (ran.status, ran.output), (0, b"")))
    large = [it.name for it in (TOP / "results/boards").iterdir() if it.stat().st_size > MOST_OF_A_BOARD]
    tally.note("the size of the boards", differences("too large are", large, []))


def try_help(tally, folder):
    """The pages of help and the completions are those of the grammar."""
    ran = run([TOP / "bench/help_matches"], folder)
    tally.note("help and completions", differences("what differs is", (ran.status, ran.output + ran.told), (0, b"")))


def same_bytes(name, other, folder):
    return [] if filecmp.cmp(folder / name, folder / other, shallow=False) else [f"{name} and {other} differ"]


def try_migrate(tally, folder, name):
    """A file of the latest version that is written anew has the same bytes."""
    status, _ = ask(("migrate", name, "new.base"), folder)
    tally.note(f"migrate {name}", differences("status", status, 0) or same_bytes(name, "new.base", folder))


def try_older_versions(tally, folder):
    """A file of an older version is written as that of the latest one from which it was made, and all else refuses it."""
    text = (folder / SMALL).read_bytes()
    for name, older in OLDER_VERSIONS.items():
        (folder / name).write_bytes(older(text, KINDS))
        status, _ = ask(("migrate", name, "new.base", "--workers", "2"), folder)
        tally.note(f"migrate {name}", differences("status", status, 0) or same_bytes(SMALL, "new.base", folder))
        for words in (("show", name, "6 / 1"), ("verify", name), ("scan", name, "pips=1"), ("reply", name, "6 / 1")):
            tally.note(f"{words[0]} {name}", differences("answer", ask(words, folder), OLDER))


def try_pages(tally, folder):
    """A page of another place or of another file is damage, whatever stands in it."""
    text, length = (folder / "two.base").read_bytes(), base_file.page_length(KINDS)
    swapped = base_file.with_page_of(text, 0, text, 1, KINDS)
    (folder / "swapped.base").write_bytes(base_file.with_page_of(swapped, 1, text, 0, KINDS))
    ask(("solve", "money.base", "--checkers", "2", "--stakes", "money", "--rounds", "4"), folder)
    other = (folder / "money.base").read_bytes()
    (folder / "mixed.base").write_bytes(base_file.with_page_of(text, 0, other, 0, KINDS))
    due = b"refused 4 file page-digest %d\n" % (base_file.HEAD + length)
    for name in ("swapped.base", "mixed.base"):
        for words in (("show", name, "1 off / 1 off"), ("verify", name), ("migrate", name, "new.base")):
            tally.note(f"{words[0]} {name}", differences("answer", ask(words, folder), (4, due)))


def starts_of_three():
    """What the start of three checkers is worth by the Jacoby rule, by the places of the cube."""
    with open(TOP / "results/starts.tsv", newline="") as file:
        rows = list(csv.DictReader(file, delimiter="\t"))
    rows = [row for row in rows if (row["checkers"], row["stakes"]) == ("3", "jacoby")]
    return {row["kind"]: (float(row["lower"]), float(row["upper"])) for row in rows}


def faults_of_start(output):
    """The lines of the places of the cube have to enclose what the start is worth."""
    position, game, *lines = output.decode().splitlines()
    yield from differences("line", position, "position 24 23 22 / 24 23 22")
    yield from differences("line", game, "checkers 3 stakes jacoby rounds 1")
    pairs = {kind: (float(lower), float(upper)) for kind, lower, upper, *_ in map(str.split, lines)}
    starts = starts_of_three()
    yield from differences("places of the cube", list(pairs), list(base_file.KINDS))
    for kind in starts.keys() & pairs.keys():
        if not (-3 <= pairs[kind][0] <= starts[kind][0] and starts[kind][1] <= pairs[kind][1] <= 3):
            yield f"{kind} {pairs[kind]}, which doesn't enclose {starts[kind]}"


def try_three_checkers(tally, folder):
    """The real game, solved by one round, whose file is far larger than what is read or written at once."""
    length = base_file.file_length(3, KINDS)
    status, output = ask(("solve", "three.base", "--rounds", "1", "--workers", "4"), folder)
    faults = differences("status", status, 0)
    if not re.fullmatch(SOLVED_THREE % length, output):
        faults.append(f"output {output}")
    tally.note("three checkers: solve", faults)
    if status == 0:
        try_file_of_three(tally, folder, "three.base", length)


def try_file_of_three(tally, folder, name, length):
    tally.note("three checkers: the file's length", differences("length", (folder / name).stat().st_size, length))
    is_sealed = base_file.is_sealed(memoryview((folder / name).read_bytes()), KINDS)
    tally.note("three checkers: the file's digests", [] if is_sealed else ["a digest is wrong"])
    status, output = ask(("show", name, "24 23 22 / 24 23 22"), folder)
    tally.note("three checkers: show", differences("status", status, 0) or list(faults_of_start(output)))
    status, output = ask(("show", name, "1 off off / 1 off off"), folder)
    faults = differences("status", status, 0) + differences("output", output, WON)
    tally.note("three checkers: show a win", faults)
    status, output = ask(("verify", name, "--workers", "4"), folder)
    faults = differences("status", status, 0) + differences("output", output, VERIFIED_THREE)
    tally.note("three checkers: verify", faults)
    try_migrate(tally, folder, name)


def try_migrations(tally, folder):
    try_older_versions(tally, folder)
    try_pages(tally, folder)
    try_migrate(tally, folder, "two.base")
    # One with the start pairs of the scores before.
    try_migrate(tally, folder, "match.2.3.n")


def spread_positions(checkers):
    """The rows of results/positions.tsv, which are every n-th live position, and all of one checker."""
    with open(TOP / "results/positions.tsv", newline="") as file:
        return [row for row in csv.DictReader(file, delimiter="\t") if row["checkers"] == str(checkers)]


def shown_of(words, folder):
    """The lines that `show` prints."""
    return run([PROGRAM, "show", *words], folder, environment=LARGE_PAGES).output.decode().splitlines()


def faults_of_reader(name, rows, folder):
    """What import/base.py has of positions has to be what `show` prints, of an older file what it prints of the one from which that was made:
    of a list of all of them, and of some alone."""
    shown = SMALL if name in OLDER_VERSIONS else name
    base, positions = Base(folder / name), [row["position"] for row in rows]
    (folder / "positions").write_text("".join(f"{it}\n" for it in positions))
    listed = shown_of((shown, "--positions", "positions"), folder)
    yield from differences("lines of a list", len(listed), len(positions))
    for row, position, line in zip(rows, positions, listed):
        rank, due = live_rank(*map(read_places, position.split("/"))), " ".join(lines(base, position))
        yield from differences(f"live rank of {position}", str(rank), row["rank"])
        yield from differences(f"pairs of {position}", line.split("\t"), [position, *due.split()])
    for position in positions[::30]:
        yield from differences(f"pairs of {position}", shown_of((shown, position), folder)[2:], list(lines(base, position)))


# Some live ranks, by the file of so many checkers.
RANKS = {
    SMALL: (("1 / 1", 0), ("6 / 1", 120), ("24 / 24", 574), ("bar / bar", 600)),
    "two.base": (("6 off / 1 off", 6230), ("bar bar / bar bar", 106_551)),
    "three.base": (("24 23 22 / 24 23 22", 6_947_152), ("bar bar bar / bar bar bar", 7_953_352)),
}


def try_reader(tally, folder):
    """The reader on every kind of file: of each number of checkers, of versions 1 and 2, and of each score of a match."""
    for name, checkers in ((SMALL, 1), ("two.base", 2), ("three.base", 3)):
        rows = spread_positions(checkers) + [{"position": position, "rank": str(rank)} for position, rank in RANKS[name]]
        tally.note(f"import/base.py {name}", list(faults_of_reader(name, rows, folder))[:5])
    for name in (*OLDER_VERSIONS, *sorted(it.name for it in folder.glob("match.*"))):
        tally.note(f"import/base.py {name}", list(faults_of_reader(name, spread_positions(1)[::20], folder))[:5])


def try_cases(tally, folder, solved):
    folder.mkdir()
    solved.solve(["solve", SMALL, "--checkers", "1"], folder)
    solved.solve(["solve", "two.base", "--checkers", "2"], folder)
    solved.solve(["ladder", "match", "--checkers", "1", "--length", "5"], folder)
    solved.solve(["ladder", "m", "--checkers", "2", "--workers", "4"], folder)
    parts = (try_words, try_readings, try_mistakes, try_terminal, try_help, try_boards, try_migrations, try_three_checkers)
    parts += (try_reader, try_plays, try_worked, try_turns, try_imports, try_decision_pages)
    parts += (try_command_words, try_record_lines, try_damaged_files)
    for part in parts:
        with tally.going_on(part.__name__):
            part(tally, folder)
