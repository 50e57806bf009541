"""Commands by four workers."""

from rows.analyses import GAME, IN_MATCH, LINES
from rows.steps import Ask, Begins, EachLine, Ends, Lines, Make, Put, Row, Text, in_order

# Which of four has written what when a block is swept depends on the schedule, but from `1 / 1` every play wins a gammon at once.
WON = "alone 2.000000 2.000000 8589934592 8589934592\n"

BY_FOUR = (Ask("solve, g4, --checkers=1, --stakes=cubeless, --rounds=1, --workers=4", 0), Ask("show, g4, 1 / 1", 0), Put(Ends(WON)))

# A game with a cube, in more rounds than one.
ROUNDS = (Ask("solve, m4, --checkers=1, --stakes=money, --rounds=3, --workers=4", 0), Put(Ends("\nfile m4 bytes 18158\n")))

VERIFIED = (
    Ask("verify, g4, --workers=4", 0),
    Put(Ends("consistent checkers 1 stakes cubeless rounds 1 positions 601\n")),
    Ask("verify, m4, --workers=4", 0),
    Put(Ends("consistent checkers 1 stakes money rounds 3 positions 601\n")),
)

# Each of three scores takes four rounds.
LADDER = (
    Ask("ladder, L, --checkers=1, --length=2, --rounds=4, --workers=4", 0),
    Put(Lines(4)),
    Put(Ends("\nladder checkers 1 length 2 rounds 4 workers 4\n")),
    Row("verify, L.1.1.p", 0, "consistent checkers 1 stakes match 2 1.1.p rounds 4 positions 601\n"),
    Row("verify, L.1.2.c", 0, "consistent checkers 1 stakes match 2 1.2.c rounds 4 positions 601\n"),
    Row("verify, L.2.2.n", 0, "consistent checkers 1 stakes match 2 2.2.n rounds 4 positions 601\n"),
)

STUDIED = (Make("game", Text(GAME)), Ask("study, game, --rounds=8, --workers=4", 0), Put(EachLine(LINES)))

# Each of three scores takes two rounds.
MATCH_STUDIED = (
    Make("game", Text(IN_MATCH)),
    Ask("study, game, --rounds=2, --workers=4", 0),
    Put(Begins("1 5 A play 0.000000 0.000000\n1 6 B offer ")),
)

TESTS = {
    "four solve": in_order(BY_FOUR, ROUNDS),
    "four verify": in_order(BY_FOUR, ROUNDS, VERIFIED),
    "four solve a ladder": in_order(LADDER),
    "four study": in_order(STUDIED),
    "four study a match": in_order(MATCH_STUDIED),
}
