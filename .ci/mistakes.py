"""Mistakes that are easily made, each with the line that programs read and the sentence that lets one mend it."""

import subprocess
from typing import NamedTuple

import base_file
from tally import SCRIPT, SECONDS, run

# A file of one checker by the Jacoby rule, with three kinds.
SMALL = "1-jacoby.base"
KINDS = 3
LENGTH = base_file.file_length(1, KINDS)
PAGE_DIGEST = LENGTH - base_file.DIGEST

GAME = b"hypergammon record 1\ncheckers 1\nstakes jacoby\ngame 1\nA 31 24/21 21/20\nstop\nclose\n"
MATCH = b"hypergammon record 1\ncheckers 1\nstakes match 2\ngame 1 away 2 2\nA 21 24/22 22/21\nB double\nA pass\nend B 1\nclose\n"

# B goes with both checkers to A's point 3.
TWO = b"hypergammon record 1\ncheckers 2\nstakes jacoby\ngame 1\nA 31 24/21/20\nB 21 24/22 23/22\nA 66 20/14/8 23/17/11\n"
LEFT = b"stop\nclose\n"

# A's checkers stand on 11 and 1, both of B's on A's point 5: so from 11 either die of 42 can be played, but not both.
HELD_UP = b"""\
hypergammon record 1
checkers 2
stakes money
game 1
A 65 24/19 23/17
B 61 24/18 23/22
A 66 19/13 17/11 13/7* 7/1
B 52 bar/20 22/20
"""

# What stands in the files that are read beside those that are solved.
RECORDS = {
    "game.rec": GAME,
    "points.rec": MATCH,
    "form.rec": GAME.replace(b"A 31 ", b"A 31  "),
    "turn.rec": GAME.replace(b"stop", b"A 21 20/18 18/17\nstop"),
    "rules.rec": GAME.replace(b"jacoby", b"Jacoby"),
    "number.rec": GAME.replace(b"31", b"13"),
    "text.rec": GAME.replace(b"24/21 21/20", b"24-21 21-20"),
    "hit.rec": GAME.replace(b"21/20", b"21/20*"),
    "hits.rec": GAME.replace(b"24/21 21/20", b"24/21*/20*"),
    "unmarked.rec": GAME.replace(b"stop", b"B 64 24/18 18/14\nA 63 20/14 14/11\nstop"),
    "dice.rec": GAME.replace(b"21/20", b"21/19"),
    "returns.rec": b"# by hand\n\n" + GAME.replace(b"21/20", b"21/19").replace(b"\n", b"\r\n"),
    "place.rec": GAME.replace(b"24/21 21/20", b"23/20 20/19"),
    "bar.rec": TWO + b"B 55 22/17*/12(2)\nA 31 11/8 8/7\n" + LEFT,
    "home.rec": TWO + b"B 21 22/20 22/21\nA 61 8/2 11/10\nB 21 20/18 21/20\nA 21 2/off 10/9\n" + LEFT,
    "closed.rec": TWO + b"B 11 22/21/20(2)\nA 63 11/5 8/5\n" + LEFT,
    "few.rec": GAME.replace(b" 21/20", b""),
    "higher.rec": HELD_UP + b"A 42 11/9\n" + LEFT,
    "cube.rec": GAME.replace(b"A 31", b"A double\nB take\nA 31").replace(b"game 1\n", b"game 1\nB 21 24/22 22/21\n").replace(b"jacoby", b"cubeless"),
    "end.rec": GAME.replace(b"stop", b"end A 1"),
    "open.rec": GAME.replace(b"close\n", b""),
}


class Mistake(NamedTuple):
    words: tuple
    line: str
    sentence: str


COMMANDS = "write solve, show, advise, migrate, verify, scan, reply, ladder, plan, analyse, study, make, race, bound or board"
FORM = 'write hypergammon show FILE POSITION, with quotes around the POSITION, as "24 23 / 24 23"'
STEPS = 'as in "24 23 / 24 23"'

# Records with a play that can't be made: the line, the fault, and what is told of it.
PLAYS = (
    ("hit", 5, 6, "31 can't be played 24/21 21/20*: a * stands where no checker is hit, or lacks where one is"),
    ("hits", 5, 6, "31 can't be played 24/21*/20*: no checker of the other side is there to hit"),
    ("unmarked", 7, 6, "63 can't be played 20/14 14/11: a step hits a checker, so write a * behind it"),
    ("dice", 5, 1, "31 can't be played 24/21 21/19: a step isn't made by a die that is left"),
    ("returns", 7, 1, "31 can't be played 24/21 21/19: a step isn't made by a die that is left"),
    ("place", 5, 2, "31 can't be played 23/20 20/19: no checker of the player is where a step begins"),
    ("bar", 9, 3, "31 can't be played 11/8 8/7: the checker on the bar has to move first"),
    ("home", 11, 4, "21 can't be played 2/off 10/9: a checker can't be borne off while another is farther behind"),
    ("closed", 9, 5, "63 can't be played 11/5 8/5: two or more checkers of the other side hold the point of a step"),
    ("few", 5, 7, "31 can't be played 24/21: more steps can be made, so they have to be"),
    ("higher", 9, 8, "42 can't be played 11/9: the higher die can be played, so it has to be"),
)

MISTAKES = (
    # Words.
    Mistake(("shwo", SMALL, "6 / 1"), "1 words command 0", f'"shwo" is no command: {COMMANDS}'),
    Mistake(("show", SMALL), "1 words form 0", f"a word is missing: {FORM}"),
    Mistake(("show", SMALL, "6", "/", "1"), "1 words form 0", f'"/" is a word too many: {FORM}'),
    Mistake(("show", SMALL, "6 / 1", "--roll", "41"), "1 words form 0", "--roll is no option of show: write --board or --id"),
    Mistake(("show", SMALL, "6 / 1", "--id", "--id"), "1 words form 0", "--id is given twice: leave one out"),
    Mistake(("show", SMALL, "6 / 1", "--id=yes"), "1 words form 0", "--id takes no value: write --id alone"),
    Mistake(("show", SMALL, "6 / 1", "--id="), "1 words word 3", "--id takes no value: write --id alone"),
    Mistake(("show", SMALL, "6 / 1", "--id", "yes"), "1 words form 0", f'"yes" is a word too many: {FORM}'),
    Mistake(
        ("show", SMALL, "6 / 1", "--positions", "game.rec"), "1 words form 0", '"6 / 1" is a word too many: write hypergammon show FILE'
    ),
    Mistake(("show", SMALL, "--id", "--positions", "game.rec"), "1 words form 0", "--id is no option of show: write --positions or --workers"),
    Mistake(("show", SMALL, "--positions"), "1 words form 0", "--positions has no value: write a file's name, 1 to 255 bytes behind it"),
    Mistake(
        ("advise", SMALL, "6 / 1", "--rolls", "game.rec"), "1 words form 0", '"6 / 1" is a word too many: write hypergammon advise FILE'
    ),
    Mistake(
        ("advise", SMALL, "--take", "--rolls", "game.rec"), "1 words form 0", "--take is no option of advise: write --rolls, --kind or --workers"
    ),
    Mistake(
        ("scan", SMALL, "kind=0", "pips<8"),
        "1 words form 0",
        '"pips<8" is a word too many: write hypergammon scan FILE CONDITION, with quotes around the CONDITION, as "kind=0 pips<8"',
    ),
    Mistake(
        ("solve", "new", "--worker", "4"),
        "1 words form 0",
        "--worker is no option of solve: write --checkers, --stakes, --rounds, --workers or --width",
    ),
    Mistake(("advise", SMALL, "6 / 1", "--dice=41"), "1 words form 0", "--dice is no option of advise: write --kind, --roll, --board or --take"),
    Mistake(("solve", "new", "--workers", "4", "--workers=2"), "1 words form 0", "--workers is given twice: leave one out"),
    Mistake(("solve", "new", "--workers"), "1 words form 0", "--workers has no value: write a whole number from 1 to 64 behind it"),
    Mistake(("solve", "new", "--workers="), "1 words word 2", "--workers has no value: write a whole number from 1 to 64 behind it"),
    Mistake(("solve", "new", "-w", "4"), "1 words word 2", '"-w" is no option: one has two dashes and a name, as --workers'),
    Mistake(("show", "", "6 / 1"), "1 words word 1", "a word is empty: write something between the quotes, or leave it out"),
    Mistake(("show", SMALL, "6" * 4097), "1 words word 2", f'"{"6" * 60}.." is too long: a word has at most 4096 bytes'),
    Mistake((b"show", b"\xff", b"6 / 1"), "1 words word 0", "a word isn't text: write it in UTF-8"),
    # Values.
    Mistake(("solve", "new", "--checkers", "4"), "1 words value 2", '--checkers "4": write 1, 2 or 3'),
    Mistake(
        ("solve", "new", "--stakes", "Jacoby"),
        "1 words value 3",
        '--stakes "Jacoby": write cubeless, money, jacoby, money-beavers or jacoby-beavers',
    ),
    Mistake(("solve", "new", "--rounds", "0"), "1 words value 4", '--rounds "0": write a whole number from 1 to 4096'),
    Mistake(("solve", "new", "--workers=65"), "1 words value 5", '--workers "65": write a whole number from 1 to 64'),
    Mistake(
        ("solve", "new", "--width", "0"),
        "1 words value 6",
        '--width "0": write points from 0.000001 to 64, with at most six decimals, as 0.001',
    ),
    Mistake(("ladder", "new", "--length", "7"), "1 words value 3", '--length "7": write a whole number from 1 to 5'),
    Mistake(
        ("advise", SMALL, "6 / 1", "--kind", "center"),
        "1 words value 3",
        '--kind "center": write alone, centred, mine or theirs, or in a match as near:1:centred',
    ),
    Mistake(
        ("advise", SMALL, "6 / 1", "--take", "--roll", "41"),
        "1 words value 4",
        "whoever was doubled has no roll: leave out --roll or --take",
    ),
    Mistake(("analyse", SMALL, "game.rec", "--worst", "0"), "1 words value 3", '--worst "0": write a whole number from 1 to 100'),
    Mistake(
        ("study", "game.rec", "--worst=5", "--full"), "1 words value 4", "--full shows all decisions: leave out --full or --worst"
    ),
    Mistake(
        ("show", "m", "6 / 1", "--away", "2:3"),
        "1 words value 3",
        '--away "2:3": write the points that you and the other side still need, 1 to 5 each, as 2-3',
    ),
    Mistake(
        ("show", "m", "6 / 1", "--away", "1-3"),
        "1 words value 3",
        'with --away "1-3" it is the Crawford game or one after it: write --crawford or --post',
    ),
    Mistake(
        ("show", "m", "6 / 1", "--away", "2-3", "--post"),
        "1 words value 3",
        'with --away "2-3" the Crawford game is still to come: leave out --crawford and --post',
    ),
    Mistake(
        ("show", "m", "6 / 1", "--away", "1-1", "--crawford"),
        "1 words value 3",
        'with --away "1-1" the Crawford game is over: leave out --crawford',
    ),
    Mistake(
        ("advise", "m", "6 / 1", "--away", "1-2", "--crawford", "--post"),
        "1 words value 3",
        "--crawford and --post are of two games: leave one out",
    ),
    Mistake(
        ("advise", "m", "6 / 1", "--away", "2-2", "--cube", "middle"),
        "1 words value 4",
        '--cube "middle": write centred, mine or theirs',
    ),
    Mistake(
        ("advise", "m", "6 / 1", "--away", "2-2", "--value", "2"),
        "1 words value 5",
        '--value "2": write 1 for a cube in the middle, or 2, 4 or 8 for one that a side has',
    ),
    Mistake(("bound", "24 / 24", "1", "1"), "1 words value 1", 'CHECKERS "24 / 24": write 1, 2 or 3'),
    Mistake(("bound", "1", "5000", "24 / 24"), "1 words value 2", 'ROUNDS "5000": write a whole number from 1 to 4096'),
    Mistake(("make", "one", "1", "new"), "1 words value 1", 'NUMBER "one": write a whole number from 0 to 18446744073709551615'),
    Mistake(("make", "1", "0", "new"), "1 words value 2", 'GAMES "0": write a whole number from 1 to 1000'),
    Mistake(("migrate", SMALL, SMALL), "1 words value 2", "NEW is OLD: give the new file another name"),
    Mistake(("show", "n" * 256, "6 / 1"), "1 words value 1", f'FILE "{"n" * 60}..": write a file\'s name, 1 to 255 bytes'),
    # Positions, rolls and conditions.
    Mistake(("show", SMALL, "24,23 / 24 23"), "2 position 2", f'"24,23" is no place: write bar, 1 to 24 or off, {STEPS}'),
    Mistake(
        ("show", SMALL, "24 23 24 23"),
        "2 position 1",
        f'"24 23 24 23" has no slash: write the places of the side to move, a slash and the other side\'s, {STEPS}',
    ),
    Mistake(("show", SMALL, "24/23/24"), "2 position 1", f'"24/23/24" has a slash too many: write one, {STEPS}'),
    Mistake(
        ("show", SMALL, "6 5 / 1"),
        "2 position 3",
        "the side to move has 2 places and the other side 1: write as many for each, one to three, those off too, "
        'as in "6 off / 1 off"',
    ),
    Mistake(
        ("show", SMALL, "24 / 1"),
        "2 position 4",
        "both sides hold the same point: your 24 is the other side's 1; each side counts from its own view",
    ),
    Mistake(
        ("show", SMALL, "off / 1"),
        "2 position 5",
        'in "off / 1" a side has all its checkers off, so the game is over: leave one on the bar or a point',
    ),
    Mistake(
        ("show", SMALL, "AACgAgAAKgAAA="),
        "2 position 1",
        '"AACgAgAAKgAAA=" is no position ID: write one of 14 signs, or a position as "24 23 / 24 23"',
    ),
    Mistake(
        ("board", "AAAAAAAAAAAAAA"),
        "2 position 3",
        '"AAAAAAAAAAAAAA" tells more than three checkers of a side, or none of either',
    ),
    Mistake(
        ("show", "6 / 1", SMALL), "2 position 1", "FILE and POSITION seem exchanged: write hypergammon show FILE POSITION"
    ),
    Mistake(
        ("advise", SMALL, "6 / 1", "--roll", "7"),
        "2 roll 1",
        '--roll "7": write two digits from 1 to 6, as 61',
    ),
    Mistake(("scan", SMALL, "pips=1 |"), "11 condition 2", '"pips=1 |" ends too early: write a test as kind=0 at its end'),
    Mistake(
        ("scan", SMALL, "pips=1 off"),
        "11 condition 1",
        '"off" can\'t stand there in "pips=1 off": write tests of lower, upper, width, kind, pips, opips, off, ooff, bar, obar, '
        "offer or answer, as kind=0 or !pips<8, at most 64, with single spaces, and | between groups of them",
    ),
    Mistake(
        ("race", "1", "13 / 13"),
        "12 contact",
        "the sides can still meet: in a race the highest places of both add up to less than 25",
    ),
    # Files.
    Mistake(
        ("show", "none.base", "6 / 1"),
        "3 missing none.base",
        '"none.base" is missing: write the name of a file that solve or ladder wrote, as m.1.3.c',
    ),
    Mistake(
        ("show", "no\x1b[31m.base", "6 / 1"),
        "3 missing no\x1b[31m.base",
        '"no?[31m.base" is missing: write the name of a file that solve or ladder wrote, as m.1.3.c',
    ),
    Mistake(
        ("show", SMALL, "--positions", "none.txt"),
        "3 missing none.txt",
        '"none.txt" is missing: write the name of a file with one position in each line, or /dev/stdin',
    ),
    Mistake(
        ("advise", SMALL, "--rolls", "none.txt"),
        "3 missing none.txt",
        '"none.txt" is missing: write the name of a file with a position and a roll in each line, or /dev/stdin',
    ),
    Mistake(
        ("study", "none.rec"),
        "3 missing none.rec",
        '"none.rec" is missing: write the name of a record; hypergammon help record shows one',
    ),
    Mistake(
        ("analyse", SMALL, "points.rec"),
        f"3 missing {SMALL}.2.2.n",
        f'"{SMALL}.2.2.n" is missing: a match needs the prefix that ladder was given',
    ),
    Mistake(
        ("plan", "m", "--length", "5"),
        "3 missing m.5.5.n",
        '"m.5.5.n" is missing: write the prefix and the --length that ladder was given',
    ),
    Mistake(
        ("show", "game.rec", "6 / 1"),
        "4 file magic 0",
        '"game.rec" is no file of bounds: write the name of one that solve or ladder wrote',
    ),
    Mistake(
        ("show", "one.base", "6 / 1"),
        "4 file version 8",
        '"one.base" isn\'t of the latest version: migrate OLD NEW writes an older file anew',
    ),
    Mistake(
        ("verify", "cut.base"),
        f"4 file short {LENGTH - 1}",
        f'"cut.base" ends too early, at byte {LENGTH - 1}: it was cut off, so make it again',
    ),
    Mistake(
        ("verify", "longer.base"),
        f"4 file long {LENGTH}",
        f'"longer.base" goes on at byte {LENGTH}, behind its end: cut that off, or make it again',
    ),
    Mistake(
        ("verify", "damaged.base"),
        f"4 file page-digest {PAGE_DIGEST}",
        f'"damaged.base" is damaged in the page whose digest is at byte {PAGE_DIGEST}: make it again',
    ),
    Mistake(("show", "folder", "6 / 1"), "6 read", "a file can't be read: it is a folder, or not yours to read, or the disk has a fault"),
    Mistake(
        ("solve", "none/new", "--checkers", "1"),
        "7 write",
        "writing failed: the folder has to be there and yours to write in, and the disk needs room",
    ),
    Mistake(("make", "1", "1", SMALL), f"13 other {SMALL}", f'"{SMALL}" is there and is no record, so it stays: give another name'),
    Mistake(
        ("solve", "game.rec", "--checkers", "1"),
        "13 other game.rec",
        '"game.rec" is there and is no file of bounds, so it stays: give another name',
    ),
    Mistake(
        ("verify", "flawed.base"),
        "9 inconsistent lower mine 8288358957 8288358956 4 2 / 14 4",
        '"flawed.base" has bounds that don\'t follow from each other, first at 4 2 / 14 4: whoever made it, don\'t use it',
    ),
    # Another game.
    Mistake(
        ("show", SMALL, "24 23 / 24 23"),
        "10 base wanted checkers 2 found checkers 1 stakes jacoby",
        f'the position has 2 checkers a side and "{SMALL}" has 1: write as many places for each side, those off too',
    ),
    Mistake(
        ("show", SMALL, "AACgAgAAKgAAAA"),
        "10 base wanted checkers 3 found checkers 1 stakes jacoby",
        f'the position has 3 checkers a side and "{SMALL}" has 1: write as many places for each side, those off too',
    ),
    Mistake(
        ("bound", "1", "1", "24 23 / 24 23"),
        "10 base wanted checkers 2 found checkers 1 stakes cubeless",
        "the position has 2 checkers a side and CHECKERS is 1: write 2",
    ),
    Mistake(
        ("advise", SMALL, "6 / 1", "--kind", "alone"),
        "10 base wanted kind alone found checkers 1 stakes jacoby",
        f'"{SMALL}" has no states of the kind alone: write centred, mine or theirs',
    ),
    Mistake(
        ("analyse", "two.base", "game.rec"),
        "10 base wanted checkers 1 stakes jacoby found checkers 2 stakes jacoby",
        'the record has checkers 1 stakes jacoby, and BASE "two.base" has checkers 2 stakes jacoby: make a file of the record\'s game',
    ),
    # Records.
    Mistake(
        ("study", SMALL),
        "5 record 1 shape",
        f'"{SMALL}" is no record, whose line 1 is "hypergammon record 1": write the name of one; hypergammon help record shows one',
    ),
    Mistake(
        ("analyse", "game.rec", SMALL),
        "5 record 1 shape",
        f'"{SMALL}" is no record, whose line 1 is "hypergammon record 1": look whether BASE and RECORD are exchanged',
    ),
    Mistake(
        ("study", "form.rec"),
        "5 record 5 shape",
        "line 5 has no form of a record's lines: write it as A 31 24/21 21/20, B double or end A 1, with single spaces",
    ),
    Mistake(
        ("study", "turn.rec"),
        "5 record 6 order",
        "line 6 can't come there: the players roll in turn, a double is answered, and end or stop ends a game",
    ),
    Mistake(
        ("study", "rules.rec"),
        "5 record 3 rules",
        "line 3: write 1, 2 or 3 checkers, and stakes cubeless, money, jacoby, money-beavers, jacoby-beavers or match 1 to match 5",
    ),
    Mistake(
        ("study", "number.rec"),
        "5 record 5 number",
        "line 5 has a wrong number: games count from 1, away has 1 to 5 and end 1 to 3, a roll has the higher die first, "
        "and a game doesn't begin with a double",
    ),
    Mistake(
        ("study", "text.rec"),
        "5 record 5 play",
        "line 5 has no play behind its roll: write a step for each die, as 24/18 23/17*, or - where none can be made",
    ),
    Mistake(("study", "open.rec"), "5 record 7 unended", "the record ends before line 7: write close as its last line"),
    *(Mistake(("study", f"{name}.rec"), f"5 record {line} illegal-play {fault}", f"line {line}: {told}") for name, line, fault, told in PLAYS),
    Mistake(
        ("study", "cube.rec"),
        "5 record 6 illegal-cube",
        "line 6: the player may not double there, or the stakes are without beavers",
    ),
    Mistake(
        ("study", "end.rec"),
        "5 record 6 score-wrong",
        "line 6 doesn't fit what was played before: look at the score, who won, and the points",
    ),
)


def made_files(folder):
    """What the mistakes read, made of two files that are solved."""
    small = (folder / SMALL).read_bytes()
    damaged = bytearray(small)
    damaged[PAGE_DIGEST // 2] ^= 1
    flawed = base_file.with_tighter_bound((folder / "two.base").read_bytes(), ((2, 4), (4, 14)), "mine")
    yield from RECORDS.items()
    yield "one.base", base_file.as_version_one(small, KINDS)
    yield "cut.base", small[:-1]
    yield "longer.base", small + b"\0"
    yield "damaged.base", bytes(damaged)
    yield "flawed.base", flawed


def try_mistakes(tally, folder):
    for name, text in made_files(folder):
        (folder / name).write_bytes(text)
    (folder / "folder").mkdir()
    for mistake in MISTAKES:
        ran = run([SCRIPT, *mistake.words], folder)
        due = int(mistake.line.split()[0]), f"refused {mistake.line}\n".encode(), f"{mistake.sentence}\n".encode()
        faults = [] if tuple(ran) == due else [f"answer {tuple(ran)}, due is {due}"]
        tally.note(f"the mistake {mistake.words}", faults)
    try_lost_note(tally, folder)


def try_lost_note(tally, folder):
    """A note that can't be put changes nothing else."""
    with open("/dev/full", "wb") as full:
        for errors in (full, subprocess.DEVNULL):
            ran = subprocess.run([SCRIPT, "show"], cwd=folder, stdout=subprocess.PIPE, stderr=errors, timeout=SECONDS, check=False)
            found = (ran.returncode, ran.stdout)
            tally.note("a note that is lost", [] if found == (1, b"refused 1 words form 0\n") else [f"answer {found}"])
