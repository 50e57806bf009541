"""A game of hypergammon that is played again on a board, with the lines that it has in a record."""

import itertools
from typing import NamedTuple

BAR, HOME = 25, 6
PLAYERS = "AB"


class Fault(Exception):
    """Why a file can't be read, and the line, or 0 where it is none."""

    def __init__(self, line, cause):
        super().__init__(cause)
        self.line = line


class Action(NamedTuple):
    """What a player did. `told` is a roll, what the cube shows, or the points won; `moves` are those of a roll."""

    line: int
    side: int
    kind: str
    told: str
    moves: list


def moved(board, side, start, die):
    """The board after a checker is moved by a die, and whether that hits; nothing where the rules forbid it."""
    own, other, end = list(board[side]), list(board[1 - side]), max(start - die, 0)
    if start not in (own if BAR not in own else [BAR]) or end > 0 and other.count(25 - end) > 1:
        return None
    if end == 0 and (start == 0 or max(own) > (HOME if die == start else start)):
        return None
    hits = end > 0 and 25 - end in other
    own[own.index(start)] = end
    if hits:
        other[other.index(25 - end)] = BAR
    return ((own, other) if side == 0 else (other, own)), hits


def steps(board, side, moves, dice):
    """Moves, each from place to place, as one step for each die, and the board behind them; nothing where they can't be made."""
    if not moves:
        return [], board
    start, end, is_hit = moves[0]
    for die in sorted(set(dice), reverse=True):
        reached, after = max(start - die, 0), moved(board, side, start, die)
        if after is None or reached < end or after[1] != (is_hit and reached == end):
            continue
        left = list(dice)
        left.remove(die)
        rest = moves[1:] if reached == end else [(reached, end, is_hit), *moves[1:]]
        found = steps(after[0], side, rest, left)
        if found:
            text = f"{'bar' if start == BAR else start}/{reached or 'off'}{'*' * after[1]}"
            return [text, *found[0]], found[1]
    return None


class Table:
    """The board and the cube of a game, the lines of its record, and how it ended."""

    def __init__(self, checkers, is_crawford=False):
        self.board = tuple([24 - it for it in range(checkers)] for _ in PLAYERS)
        self.cube, self.is_turned = 1, False
        self.lines = []
        # Who won by a play or a pass, and what: 1, 2 or 3. The action that tells the end.
        self.winner, self.points, self.end = None, 0, None
        # What may be done next, and by whom. Any game may also end, as players resign.
        self.side, self.kinds = None, ("roll",)
        self.turn = ("roll",) if is_crawford else ("roll", "double")

    def act(self, action):
        """Plays on by an action, or tells why that can't be."""
        is_due = action.kind == "win" or action.kind in self.kinds and self.side in (None, action.side)
        if self.end or not is_due:
            due = "another game" if self.end else " or ".join(self.kinds) or "a win"
            who = f" of {PLAYERS[self.side]}" if self.kinds and self.side is not None and not self.end else ""
            raise Fault(action.line, f"{action.kind} of {PLAYERS[action.side]} can't stand here, due is {due}{who}")
        getattr(self, action.kind)(action)

    def note(self, action, words, kinds):
        self.lines.append(f"{PLAYERS[action.side]} {words}")
        self.side, self.kinds = 1 - action.side, kinds

    def roll(self, action):
        own, other = self.board[action.side], self.board[1 - action.side]
        dice = sorted(map(int, action.told), reverse=True)
        if dice[0] == dice[1]:
            dice *= 2
        found = steps(self.board, action.side, action.moves, dice)
        if not found:
            own, other = (" ".join(map(str, sorted(it, reverse=True))) for it in (own, other))
            raise Fault(action.line, f"this play of {action.told} can't be made from {own} / {other}")
        if not action.moves and any(moved(self.board, action.side, *it) for it in itertools.product(own, dice)):
            # The dice were thrown, and then the game was resigned or left.
            self.kinds = ()
            return
        self.board = found[1]
        is_won = not any(self.board[action.side])
        self.note(action, f"{dice[0]}{dice[1]} {' '.join(found[0]) or '-'}", () if is_won else self.turn)
        if is_won:
            loser = self.board[1 - action.side]
            self.winner, self.points = action.side, 1 if 0 in loser else 3 if max(loser) > 18 else 2

    def turn_cube(self, action):
        self.cube, self.is_turned = 2 * self.cube, True
        if int(action.told) != self.cube:
            raise Fault(action.line, f"the cube is turned to {action.told}, due is {self.cube}")

    def double(self, action):
        self.turn_cube(action)
        self.note(action, "double", ("take", "drop", "beaver"))

    def beaver(self, action):
        self.turn_cube(action)
        self.note(action, "beaver", ("roll",))

    def take(self, action):
        self.note(action, "take", ("roll",))

    def drop(self, action):
        self.cube //= 2
        self.note(action, "pass", ())
        self.winner, self.points = 1 - action.side, 1

    def win(self, action):
        if self.winner not in (None, action.side):
            raise Fault(action.line, f"player {PLAYERS[self.winner]} has won")
        self.end = action

    def won(self, is_jacoby):
        """The points won in units of what the cube shows."""
        return 1 if is_jacoby and not self.is_turned else self.points

    def record(self, is_jacoby):
        """The lines of the game in a record, behind its first."""
        if self.winner is None:
            is_asked = self.kinds == ("take", "drop", "beaver")
            return [*(self.lines[:-1] if is_asked else self.lines), "stop"]
        return [*self.lines, f"end {PLAYERS[self.winner]} {self.won(is_jacoby)}"]
