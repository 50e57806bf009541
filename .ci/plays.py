"""All plays of some positions by trial, on plain places, beside those that the program lists."""

from base import read_places
from table import BAR, moved
from tally import PROGRAM, run

BASES = {1: "1-jacoby.base", 2: "two.base", 3: "three.base"}
ROLLS = tuple((high, low) for high in range(1, 7) for low in range(1, high + 1))

# Bars and blots, closed points and points that are hit, checkers that are borne off, and rolls of which one die or none can be played.
TRIED = (
    "24 / 24",
    "bar / 4",
    "2 / 24",
    "1 / 1",
    "20 off / 13 13",
    "bar 6 / 1 1",
    "bar bar / 6 6",
    "6 4 2 / 1 1 1",
    "5 3 1 / bar 21 23",
    "24 23 22 / 24 23 22",
    "bar 24 7 / 22 22 5",
    "6 6 6 / 23 23 20",
    "8 3 off / 20 20 off",
    "bar bar bar / 3 3 1",
    "7 off off / 1 off off",
)

# Plays that were found by hand.
WORKED = {
    ("bar 6 / 1 1", (1, 1)): ["-"],
    ("bar / 4", (4, 1)): ["bar/21* 21/20", "bar/24 24/20"],
    ("1 / 1", (3, 2)): ["1/off"],
    ("2 / 24", (2, 1)): ["2/1* 1/off"],
    ("20 off / 13 13", (5, 3)): ["20/15"],
}


def step_text(start, die, hits):
    return f"{'bar' if start == BAR else start}/{max(start - die, 0) or 'off'}{'*' * hits}"


def sequences(board, dice):
    """The moves by the first few of these dice, as many as can be made, from the highest places on: their dice, their steps and the board behind."""
    is_last = True
    for start in sorted(set(board[0]), reverse=True) if dice else ():
        found = moved(board, 0, start, dice[0])
        if found:
            is_last = False
            for used, steps, end in sequences(found[0], dice[1:]):
                yield (dice[0], *used), (step_text(start, dice[0], found[1]), *steps), end
    if is_last:
        yield (), (), tuple(tuple(sorted(side)) for side in board)


def ends(board, roll):
    """The text of the first play to each end: of the longest, and of those of one move by the higher die, where there are any."""
    orders = [roll * 2] if roll[0] == roll[1] else [roll, roll[::-1]]
    found = [it for dice in orders for it in sequences(board, dice)]
    longest = max(len(used) for used, _, _ in found)
    best = [it for it in found if len(it[0]) == longest]
    if longest == 1:
        best = [it for it in best if it[0][0] == roll[0]] or best
    texts = {}
    for _, steps, end in best:
        texts.setdefault(end, " ".join(steps) or "-")
    return texts


def plays(position, roll):
    """The texts of the plays of a roll, in their order."""
    return sorted(ends(tuple(map(list, map(read_places, position.split("/")))), roll).values())


def listed(position, roll, folder):
    """The texts of the plays that the program lists, in the order of their texts."""
    base = BASES[len(read_places(position.split("/")[0]))]
    ran = run([PROGRAM, "advise", base, position, "--roll", "".join(map(str, roll))], folder)
    rows = [line.split(" ", 3) for line in ran.output.decode().splitlines()[2:-1]]
    return sorted(text for _, _, _, text in rows)


def faults_of_plays(position, folder):
    for roll in ROLLS:
        due, found = plays(position, roll), listed(position, roll, folder)
        if found != due:
            differing = [it for it in (*found, *due) if found.count(it) != due.count(it)]
            yield f"{roll}: one alone has {differing}"
        worked = WORKED.get((position, roll), due)
        if worked != due:
            yield f"{roll}: by trial {due}, by hand {worked}"


def try_plays(tally, folder):
    """The plays of each roll are those of a second program."""
    for position in TRIED:
        tally.note(f"the plays of {position}", list(faults_of_plays(position, folder)))
