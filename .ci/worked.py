"""Answers of which all was worked out by hand: races, bounds, what wins and doubles are worth, what an action on the cube loses, texts of plays."""

import csv
from typing import NamedTuple, Optional

import base_file
from tally import PROGRAM, TOP, run

ONE = 1 << 32


def pair(units, upper=None):
    """The lower and the upper end of a pair, as reports have them: in points, rounded outwards, and in units."""
    upper = units if upper is None else upper
    return f"{decimal(units * 10**6 >> 32)} {decimal(-(-upper * 10**6 >> 32))} {units} {upper}"


def decimal(millionths):
    return f"{'-' * (millionths < 0)}{abs(millionths) // 10**6}.{abs(millionths) % 10**6:06}"


class Race(NamedTuple):
    checkers: str
    position: str
    # None where it isn't worked out.
    turns: Optional[int] = None
    pair: Optional[str] = None


# From 1 each roll bears off, and wins a gammon; a backgammon where the other side's checker is on its point 23, which is the winner's 2, and not
# yet on 18. From 6 there are 27 rolls of 36 that win a gammon; after the other 9 the other side wins one. From 5 there are 31 winning rolls, and
# with a checker of each side off each win is a single one: 26 points of 36. The shortest roll is 21: in six turns it brings each side from 12 to
# 3, and in the seventh the last checker of the mover goes off.
RACES = (
    Race("1", "1 / 1", 1, pair(2 * ONE)),
    Race("1", "6 / 1", 2, pair(ONE)),
    Race("1", "1 / 23", 1, pair(3 * ONE)),
    Race("1", "1 / 18", 1, pair(2 * ONE)),
    Race("1", "12 / 12", 7),
    Race("1", "23 / 1"),
    Race("2", "5 off / 1 off", 2, pair(3_101_920_824, 3_101_920_825)),
    Race("2", "1 1 / 1 off", 1, pair(ONE)),
    Race("2", "3 off / 21 20"),
)

# How many races there are: two places of one checker a side that add up to less than 25 can be chosen in 276 ways. With two checkers the other one
# of a side stands on the same place or below, so each way counts as often as both highest places plus one, multiplied.
RACE_COUNTS = {"1": 276, "2": 19_826}

MEETING = (("1", "13 / 13"), ("1", "bar / 1"), ("2", "24 1 / 2 2"), ("2", "13 2 / 13 1"))

# After one round all that comes after the next roll is worth 3 points at most: from 6 these are 9 of 36 rolls, from 24 all but double sixes.
BOUNDS = (
    ("1", "1", "1 / 1", pair(2 * ONE)),
    ("1", "1", "6 / 1", pair(3 * ONE // 4, 9 * ONE // 4)),
    ("1", "1", "24 / 24", pair(-12_169_074_006, 3 * ONE)),
    ("1", "2", "6 / 1", pair(ONE)),
    ("2", "2", "5 off / 1 off", pair(3_101_920_824, 3_101_920_825)),
)


# What a game is worth to whoever wins it by this roll, by the places of the cube. By the Jacoby rule it counts once where nobody doubled.
WON = {
    "cubeless": {"1 / 1": (2,), "1 / 23": (3,)},
    "money": {"1 / 1": (2, 2, 2), "1 / 23": (3, 3, 3)},
    "jacoby": {"1 / 1": (1, 2, 2), "1 / 23": (1, 3, 3)},
    "money-beavers": {"1 / 1": (2, 2, 2), "1 / 23": (3, 3, 3)},
    "jacoby-beavers": {"1 / 1": (1, 2, 2), "1 / 23": (1, 3, 3)},
}

# At `8 / 1` 17 rolls of 36 win a gammon, and the other side wins one after the others: two points of 36 are lost, or four where gammons count,
# twice as many after a take, and again after a beaver.
TWO, FOUR = "-0.055556 -0.055555", "-0.111112 -0.111111"
TAKE, BEAVER = "double-take -0.222223 -0.222222", "double-beaver -0.444445 -0.444444"
PASS = "double-pass 1.000000 1.000000"
NO_DOUBLE = "offer no-double loss 0.000000"
TAKEN = (TAKE, PASS, NO_DOUBLE, "answer take loss 0.000000")
BEAVERED = (TAKE, BEAVER, PASS, NO_DOUBLE, "answer beaver loss 0.000000")
NONE = ("no cube action",)

# The game, the place of the cube, what rolling on is worth, and the lines behind that.
DOUBLES = (
    ("cubeless", "alone", FOUR, NONE),
    ("money", "centred", FOUR, TAKEN),
    ("money", "mine", FOUR, TAKEN),
    ("money", "theirs", FOUR, NONE),
    ("jacoby", "centred", TWO, TAKEN),
    ("jacoby", "mine", FOUR, TAKEN),
    ("jacoby", "theirs", FOUR, NONE),
    ("money-beavers", "centred", FOUR, BEAVERED),
    ("money-beavers", "mine", FOUR, BEAVERED),
    ("money-beavers", "theirs", FOUR, NONE),
    ("jacoby-beavers", "centred", TWO, BEAVERED),
    ("jacoby-beavers", "mine", FOUR, BEAVERED),
    ("jacoby-beavers", "theirs", FOUR, NONE),
)

# A game that comes to `8 / 1` with the cube in the middle.
TO_EIGHT = """\
hypergammon record 1
checkers 1
stakes jacoby-beavers
game 1
A 64 24/18 18/14
B 55 24/19 19/14 14/9 9/4
A 51 14/9 9/8
B 21 4/2 2/1
"""

ROLLED, DOUBLED = "no-double\t-0.055556\t-0.055555", "beaver\t-0.444445\t-0.444444"

# What stands behind it, and of its lines those on the offer and the answer: what was done, what that loses, and what was best, with what it gives.
# A beaver gives the doubler 4 * -4 / 36, and so does a double, as it is answered by one.
ACTIONS = (
    ("A 21 8/6 6/5\nstop\n", (f"9\tA\toffer\t8 / 1\tcentred\t-\t-\tno-double\t0.000000\t0.000000\t{ROLLED}",)),
    (
        "A double\nB beaver\nstop\n",
        (
            f"9\tA\toffer\t8 / 1\tcentred\t-\t-\tdouble\t0.388888\t0.388889\t{ROLLED}",
            f"10\tB\tanswer\t8 / 1\tcentred\t-\t-\tbeaver\t0.000000\t0.000000\t{DOUBLED}",
        ),
    ),
    ("A double\nB take\nstop\n", (f"10\tB\tanswer\t8 / 1\tcentred\t-\t-\ttake\t0.222222\t0.222223\t{DOUBLED}",)),
    ("A double\nB pass\nend A 1\n", (f"10\tB\tanswer\t8 / 1\tcentred\t-\t-\tpass\t1.444444\t1.444445\t{DOUBLED}",)),
)

# The scores of matches to so many points.
LADDERS = {
    "1": "1.1.p",
    "2": "1.1.p 1.2.c 2.2.n",
    "3": "1.1.p 1.2.p 1.2.c 1.3.c 2.2.n 2.3.n 3.3.n",
    "4": "1.1.p 1.2.p 1.2.c 1.3.p 1.3.c 2.2.n 1.4.c 2.3.n 2.4.n 3.3.n 3.4.n 4.4.n",
    "5": "1.1.p 1.2.p 1.2.c 1.3.p 1.3.c 2.2.n 1.4.p 1.4.c 2.3.n 1.5.c 2.4.n 3.3.n 2.5.n 3.4.n 3.5.n 4.4.n 4.5.n 5.5.n",
}

# Kinds at 5-5, and texts of no kind.
KINDS = ("near:1:centred", "far:1:centred", "near:2:near", "far:2:far", "near:4:far", "far:8:near")
NO_KINDS = ("mine ", "Mine", "near", "near:1", "near:1:near", "far:2:centred", "near:3:far", "near:02:far", "near:16:far")
NO_KINDS += ("near: 2:far", "near:2:far:", "both:1:centred", "near:1:centre")

EVEN, OPEN = (0, 0), (-ONE, ONE)
HALF, THREE_QUARTERS, QUARTER = (ONE // 2, ONE // 2), (3 * ONE // 4, 3 * ONE // 4), (ONE // 4, ONE // 4)


class Plan(NamedTuple):
    """The plan of a match: the fields of the head of its first game's file, the pairs of the starts before, how far from 0 each pair in the file
    goes to both sides, and so the start's, and the plan."""

    fields: tuple
    starts: tuple
    widest: int
    lines: str


NO_PRICE, WHOLE, HALVES = "0.000000 0.000000", "1.000000 1.000000", "0.500000 0.500000"

# From 1-1 a game is even; where near needs one point and far two, near has half a match. So at 2-2 a point won is half a match, and two are the whole
# of it. Of a start that is open so are the numbers behind it.
PLANS = (
    Plan(
        base_file.MATCH,
        (EVEN, HALF),
        ONE // 4,
        f"""\
1.1.p start 0.000000 0.000000
1.1.p near take none price {NO_PRICE}
1.1.p far take none price {NO_PRICE}
1.2.c start {HALVES}
1.2.c near take none price {NO_PRICE}
1.2.c far take none price {WHOLE}
2.2.n start -0.250000 0.250000
2.2.n near take 0.250000 0.250000 price {HALVES}
2.2.n far take 0.250000 0.250000 price {HALVES}
""",
    ),
    Plan(
        base_file.MATCH,
        (OPEN, OPEN),
        ONE,
        f"""\
1.1.p start -1.000000 1.000000
1.1.p near take none price {NO_PRICE}
1.1.p far take none price {NO_PRICE}
1.2.c start -1.000000 1.000000
1.2.c near take none price open
1.2.c far take none price open
2.2.n start -1.000000 1.000000
2.2.n near take 0.000000 1.000000 price open
2.2.n far take 0.000000 1.000000 price open
""",
    ),
    # The start pairs differ, so that a wrong score, side or end shows.
    Plan(
        (3, 1, 3, 3, 3, 0, 3, 10, 16, 6),
        (EVEN, HALF, HALF, THREE_QUARTERS, EVEN, QUARTER),
        0,
        f"""\
1.1.p start 0.000000 0.000000
1.1.p near take none price {NO_PRICE}
1.1.p far take none price {NO_PRICE}
1.2.p start {HALVES}
1.2.p near take {HALVES} price {NO_PRICE}
1.2.p far take none price {WHOLE}
1.2.c start {HALVES}
1.2.c near take none price {NO_PRICE}
1.2.c far take none price {WHOLE}
1.3.c start 0.750000 0.750000
1.3.c near take none price {NO_PRICE}
1.3.c far take none price {WHOLE}
2.2.n start 0.000000 0.000000
2.2.n near take 0.250000 0.250000 price {HALVES}
2.2.n far take 0.250000 0.250000 price {HALVES}
2.3.n start 0.250000 0.250000
2.3.n near take 0.333333 0.333334 price 0.333333 0.333334
2.3.n far take 0.166666 0.166667 price 0.666666 0.666667
3.3.n start 0.000000 0.000000
3.3.n near take 0.333333 0.333334 price {WHOLE}
3.3.n far take 0.333333 0.333334 price {WHOLE}
""",
    ),
)

FIRST_ROLL = "hypergammon record 1\ncheckers 1\nstakes jacoby\ngame 1\nA 31 PLAY\nstop\nclose\n"

# What is told of a first roll of 31 with this text behind it: it is no line, no play, or a play that can't be made, for the fault that its first
# step has.
PLAY_TEXTS = (
    ("-", "illegal-play 7"),
    ("bar/21* 21/20", "illegal-play 1"),
    ("1/off", "illegal-play 2"),
    ("bar/off", "illegal-play 1"),
    ("24/1*", "illegal-play 1"),
    ("6/off 5/off 4/off 3/off", "illegal-play 1"),
    ("6/off 5/off 4/off 3/off 2/off", "play"),
    ("", "shape"),
    (" ", "shape"),
    ("24/18  18/12", "shape"),
    ("24/18 ", "shape"),
    ("- -", "play"),
    ("6/6", "play"),
    ("6/8", "play"),
    ("off/3", "play"),
    ("6/bar", "play"),
    ("06/4", "play"),
    ("6/off*", "play"),
)


def answer(words, folder):
    """The lines that the program puts, and its status."""
    ran = run([PROGRAM, *words], folder)
    return [*ran.output.decode().splitlines(), ran.status]


def note(tally, name, found, due):
    tally.note(name, [] if found == due else [f"{found}, due is {due}"])


def base_of(stakes, folder):
    """The file of one checker by these stakes."""
    name = f"worked.{stakes}"
    run([PROGRAM, "solve", name, "--checkers", "1", "--stakes", stakes, "--rounds", "8"], folder)
    return name


def try_races(tally, folder):
    for race in RACES:
        found = answer(("race", race.checkers, race.position), folder)
        due = [f"position {race.position}", f"turns {race.turns}", f"alone {race.pair}", 0]
        if race.turns is None:
            found, due = found[::3], due[::3]
        elif race.pair is None:
            found, due = found[:2], due[:2]
        note(tally, f"the race {race.position}", found, due)
    for checkers, position in MEETING:
        note(tally, f"the race {position}", answer(("race", checkers, position), folder), ["refused 12 contact", 12])
    for checkers, rounds, position, found in BOUNDS:
        due = [f"position {position}", f"rounds {rounds}", f"alone {found}", 0]
        note(tally, f"the bound of {position} after {rounds}", answer(("bound", checkers, rounds, position), folder), due)


def ends(line):
    """The units of a line of a pair."""
    return tuple(map(int, line.split()[3:]))


def faults_of_race(position, folder):
    """The pair of a race of one checker a side lies inside that of all positions after as many rounds as it may take turns."""
    found = answer(("race", "1", position), folder)
    rounds = found[1].split()[1]
    (low, up), (least, most) = ends(found[2]), ends(answer(("bound", "1", rounds, position), folder)[2])
    return [] if least <= low <= up <= most else [f"{position}: {found[2]} isn't inside {least} {most}"]


def try_all_races(tally, folder):
    with open(TOP / "results/races.tsv", newline="") as file:
        rows = list(csv.DictReader(file, delimiter="\t"))
    for checkers, count in RACE_COUNTS.items():
        of = [it for it in rows if it["checkers"] == checkers]
        note(tally, f"how many races of {checkers}", sum(int(it["positions"]) for it in of), count)
        turns = [answer(("race", checkers, it["first"]), folder)[1] for it in of]
        note(tally, f"the turns of races of {checkers}", turns, [f"turns {it['turns']}" for it in of])
    races = [f"{mine} / {theirs}" for mine in range(1, 25) for theirs in range(1, 25 - mine)]
    note(tally, "all races of one checker", len(races), RACE_COUNTS["1"])
    tally.note("races beside rounds", [fault for it in races for fault in faults_of_race(it, folder)])


def try_stakes(tally, folder):
    bases = {stakes: base_of(stakes, folder) for stakes in WON}
    for stakes, wins in WON.items():
        for position, points in wins.items():
            found = [line.split(" ", 1)[1] for line in answer(("show", bases[stakes], position), folder)[2:-1]]
            note(tally, f"{position}, {stakes}", found, [pair(it * ONE) for it in points])
    for stakes, kind, rolling, lines in DOUBLES:
        due = ["position 8 / 1", f"kind {kind}", f"no-double {rolling}", *lines, 0]
        found = answer(("advise", bases[stakes], "8 / 1", "--kind", kind), folder)
        note(tally, f"8 / 1, {stakes} {kind}", found, due)


def try_actions(tally, folder):
    for behind, due in ACTIONS:
        (folder / "eight.rec").write_text(f"{TO_EIGHT}{behind}close\n")
        lines = answer(("study", "eight.rec", "--rounds", "8", "--full"), folder)[:-1]
        found = [line.partition("\t")[2] for line in lines]
        tally.note(f"a cube action at 8 / 1: {behind}", [f"no line {it}: {lines}" for it in due if it not in found])


def try_kinds(tally, folder):
    for length, scores in LADDERS.items():
        lines = answer(("ladder", f"to{length}", "--checkers", "1", "--length", length, "--rounds", "1"), folder)[:-1]
        found = [line.split()[1] for line in lines if line.startswith("score ")]
        note(tally, f"the scores of a match to {length}", " ".join(found), scores)
    for kind in KINDS:
        note(tally, f"the kind {kind}", answer(("advise", "to5.5.5.n", "24 / 24", "--kind", kind), folder)[1], f"kind {kind}")
    for kind in NO_KINDS:
        due = ["refused 1 words value 3", 1]
        note(tally, f"the kind {kind!r}", answer(("advise", "to5.5.5.n", "24 / 24", "--kind", kind), folder), due)


def try_plans(tally, folder):
    for plan in PLANS:
        length = plan.fields[6]
        text = base_file.of_one_checker(plan.fields, {}, plan.widest, [unit for ends in plan.starts for unit in ends])
        (folder / f"made.{length}.{length}.n").write_bytes(text)
        found = answer(("plan", "made", "--length", str(length)), folder)
        note(tally, f"a plan of {length} points", found, [*plan.lines.splitlines(), 0])


def try_play_texts(tally, folder):
    for text, fault in PLAY_TEXTS:
        (folder / "text.rec").write_text(FIRST_ROLL.replace("PLAY", text))
        note(tally, f"the play {text!r}", answer(("study", "text.rec"), folder), [f"refused 5 record 5 {fault}", 5])


def try_worked(tally, folder):
    for part in (try_races, try_all_races, try_stakes, try_actions, try_kinds, try_plans, try_play_texts):
        part(tally, folder)
