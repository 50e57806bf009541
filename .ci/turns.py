"""Words of files beside what follows from the rules and the other words by a second program, and beside plain rounds."""

import random

import base_file
from base import Base, layouts, live_rank
from plays import ROLLS, ends
from tally import PROGRAM, run

WORDS = "drawn.base"
# How many checkers, and how many words of their file are moved.
DRAWS = ((1, 60), (2, 12))
# Of one checker, after so many rounds.
PLAIN, CREWS = "3", ("1", "2", "4", "64")
PLACES = {0: "off", 25: "bar"}


def text_of(side):
    return " ".join(str(PLACES.get(it, it)) for it in sorted(side, reverse=True))


def has_ended(board):
    return not any(board[0])


def value(base, board):
    """What the side that has moved has then: its win without a cube, or the negative of what the other side has."""
    own, other = board
    if has_ended(board):
        won = base_file.POINT * (1 if 0 in other else 3 if max(other) > 18 else 2)
        return won, won
    lower, upper = base.pair(other, own, 0)
    return -upper, -lower


def turn(base, board):
    """The pair of a position by the words of the others: the mean over all rolls of the best at each end, rounded outwards."""
    lower = upper = 0
    for roll in ROLLS:
        found = [value(base, end) for end in ends(board, roll)]
        ways = 1 if roll[0] == roll[1] else 2
        lower += ways * max(it[0] for it in found)
        upper += ways * max(it[1] for it in found)
    return lower // 36, -(-upper // 36)


def drawn_position(draws, checkers):
    """A live position. The mover's layout is mostly one of the first."""
    while True:
        mover, other = layouts(checkers)[int(len(layouts(checkers)) * draws.random() ** 2)], draws.choice(layouts(checkers))
        try:
            return mover, other, live_rank(mover, other)
        except ValueError:
            continue


def drawn_move(draws, base, checkers):
    """A state with a word that is moved by one unit beyond its turn, where it doesn't cross the other one: what is then told, and the pair."""
    while True:
        mover, other, rank = drawn_position(draws, checkers)
        (lower, upper), found = base.pair(mover, other, 0), turn(base, (list(mover), list(other)))
        is_lower = draws.random() < 0.5
        moved = found[0] + 1 if is_lower else found[1] - 1
        if lower <= moved <= upper:
            side, due, pair = ("lower", found[0], (moved, upper)) if is_lower else ("upper", found[1], (lower, moved))
            return f"{side} alone {moved} {due} {text_of(mover)} / {text_of(other)}", rank, pair


def with_pair(text, rank, pair):
    """A file without a cube in which the position of this live rank has this pair, with its page sealed anew."""
    number, place = divmod(rank, base_file.A_PAGE)
    page = base_file.HEAD + base_file.DIGEST + number * base_file.page_length(1)
    end = min(page + base_file.page_length(1), len(text)) - base_file.DIGEST
    changed, at = bytearray(text), page + place * base_file.PAIR
    changed[at : at + base_file.PAIR] = base_file.as_words(pair)
    changed[end : end + base_file.DIGEST] = base_file.bound_digest(changed, number, changed[page:end])
    return bytes(changed)


def verify(name, workers, folder):
    ran = run([PROGRAM, "verify", name, "--workers", str(workers)], folder)
    return ran.status, ran.output.decode()


def try_drawn_words(tally, folder):
    """Of a word that is moved `verify` tells just that state, as the turns of all others rest on words that are no looser than before."""
    for checkers, many in DRAWS:
        run([PROGRAM, "solve", WORDS, "--checkers", str(checkers), "--stakes", "cubeless", "--rounds", "4"], folder)
        base, text, draws = Base(folder / WORDS), (folder / WORDS).read_bytes(), random.Random(checkers)
        for number in range(many):
            told, rank, pair = drawn_move(draws, base, checkers)
            (folder / "moved.base").write_bytes(with_pair(text, rank, pair))
            found, due = verify("moved.base", 1 + number % 4, folder), (9, f"refused 9 inconsistent {told}\n")
            tally.note(f"a moved word, {told}", [] if found == due else [f"answer {found}, due is {due}"])


def try_plain_rounds(tally, folder):
    """What workers find lies inside what as many plain rounds find, however many they are."""
    positions = [f"{text_of(mover)} / {text_of(other)}" for mover in layouts(1)[1:] for other in layouts(1)[1::5] if sum((*mover, *other)) != 25]
    (folder / "positions").write_text("".join(f"{it}\n" for it in positions))
    plain = {it: ends_of(run([PROGRAM, "bound", "1", PLAIN, it], folder).output.decode().splitlines()[2].split()) for it in positions}
    for workers in CREWS:
        run([PROGRAM, "solve", WORDS, "--checkers", "1", "--stakes", "cubeless", "--rounds", PLAIN, "--workers", workers], folder)
        rows = run([PROGRAM, "show", WORDS, "--positions", "positions"], folder).output.decode().splitlines()
        found = {it.split("\t")[0]: ends_of(it.split("\t")[1:]) for it in rows}
        loose = [it for it in positions if not (it in found and plain[it][0] <= found[it][0] <= found[it][1] <= plain[it][1])]
        tally.note(f"{workers} workers beside plain rounds", [f"not inside: {loose}"] if loose else [])


def ends_of(fields):
    """The units of a pair behind its kind and its points."""
    return int(fields[3]), int(fields[4])


def try_turns(tally, folder):
    for part in (try_drawn_words, try_plain_rounds):
        part(tally, folder)
