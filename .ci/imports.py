"""Exports of GNU Backgammon: their records hold what they say and are analysed, and wrong lines are refused."""

import re
from typing import NamedTuple

from tally import SCRIPT, TOP, run

IMPORT = TOP / "import/mat"
MATCHES = TOP / "import/matches"
# What the answers to a double multiply the cube by.
TIMES = {"take": 2, "beaver": 4}


class Export(NamedTuple):
    name: str
    options: tuple
    # What analyses its record, `new.rec`.
    analysis: tuple


class Edit(NamedTuple):
    """A text in `match.mat`, and another that is put in its place."""

    old: str
    new: str
    # Why the line is refused then.
    cause: str = ""


EXPORTS = (
    Export("match.mat", (), ("analyse", "m", "new.rec")),
    Export("beavers.mat", ("--stakes", "jacoby-beavers"), ("study", "new.rec", "--rounds", "2")),
    Export("three.mat", ("--stakes", "jacoby"), ("analyse", "three.base", "new.rec")),
)

# Other ways to write the same.
SAME = (
    Edit('; [Variation "HyperGammon (2)"]', ""),
    Edit("23/17 17/15", "23/15"),
    Edit("23/17 17/15", "23/17/15"),
    Edit("24/23 23/22 22/21 21/20", "24/20"),
    Edit("25/19", "bar/19"),
    Edit("6/0 2/0", "6/off 2/off"),
    Edit("\n", "\r\n"),
    Edit("Wins 1 point", "Wins 1 point and the match"),
)

# With a line for each kind of fault.
WRONG = (
    Edit("HyperGammon (2)", "NackGammon", "NackGammon isn't hypergammon"),
    Edit(" 3 point match", " 7 point match", "a record's match is to 5 points at most"),
    Edit("Doubles => 2", "Doubles => 4", "the cube is turned to 4, due is 2"),
    Edit("Takes", "Thinks", "'Thinks' can't be read"),
    Edit("42: 14/10 10/8", "42: 14/10 9/7", "this play of 42 can't be made from 16 14 / 20 1"),
    Edit("7/1*", "7/1", "this play of 66 can't be made from 22 19 / 24 16"),
    Edit("Wins 2 points", "Wins 4 points", "4 points are told, due is 2"),
    Edit("Ann : 2                        Ben : 2", "Ann : 2  Ben : 1", "the score doesn't fit the game before it, of which B has 2"),
    Edit("64: 17/11 16/12 ", " Doubles => 2", "double of A can't stand here, due is roll of A"),
)


def points_of(record):
    """What A and B have won before each game and at the end, by the lines of a record."""
    won, cube = {"A": 0, "B": 0}, 1
    for first, *others in map(str.split, record.splitlines()):
        if first == "game":
            yield won["A"], won["B"]
            cube = 1
        elif first == "end":
            won[others[0]] += int(others[1]) * cube
        elif first in won:
            cube *= TIMES.get(others[0], 1)
    yield won["A"], won["B"]


def faults_of_record(export, record):
    """Where the rolls and the points of a record differ from those that an export tells."""
    rolls, due = re.findall(r"^[AB] (\d\d) ", record, re.MULTILINE), re.findall(r"([1-6][1-6]):", export)
    if rolls != due:
        yield f"the rolls are {rolls}, due are {due}"
    points, due = list(points_of(record)), [(int(a), int(b)) for a, b in re.findall(r" : (\d+) .* : (\d+)", export)]
    if points[:-1] != due:
        yield f"the scores are {points[:-1]}, due are {due}"
    gain, due = sum(points[-1]) - sum(points[-2]), int(re.findall(r"Wins (\d+)", export)[-1])
    if gain != due:
        yield f"the last game is worth {gain}, due is {due}"


def faults_of_analysis(export, ran):
    """It has a line for the play of each roll, and for each answer to a double."""
    if ran.status != 0 or b"refused" in ran.output:
        yield f"status {ran.status}, output {ran.output}"
    for kind, words in (("play", r"[1-6][1-6]:"), ("answer", "Takes|Drops|Beavers")):
        times, due = ran.output.count(f" {kind} ".encode()), len(re.findall(words, export))
        if times != due:
            yield f"{times} lines of a {kind}, due are {due}"


def try_exports(tally, folder):
    for name, options, analysis in EXPORTS:
        export = (MATCHES / name).read_text()
        ran = run([IMPORT, *options, MATCHES / name], folder)
        (folder / "new.rec").write_bytes(ran.output)
        faults = [] if (ran.status, ran.told) == (0, b"") else [f"it ends with {ran.status} and tells {ran.told}"]
        tally.note(f"import of {name}", faults or list(faults_of_record(export, ran.output.decode())))
        tally.note(f"{analysis[0]} of {name}", list(faults_of_analysis(export, run([SCRIPT, *analysis], folder))))


def try_edits(tally, folder):
    export = (MATCHES / "match.mat").read_text()
    record = run([IMPORT, MATCHES / "match.mat"], folder).output
    for old, new, cause in (*SAME, *WRONG):
        (folder / "edited.mat").write_bytes(export.replace(old, new, 1 if cause else -1).encode())
        line = export[: export.index(old)].count("\n") + 1
        due = (1, b"", f"edited.mat:{line}: {cause}\n".encode()) if cause else (0, record, b"")
        ran = run([IMPORT, "edited.mat"], folder)
        tally.note(f"import with {new!r} in place of {old!r}", [] if ran == due else [f"{ran}, due is {due}"])


def try_imports(tally, folder):
    try_exports(tally, folder)
    try_edits(tally, folder)
