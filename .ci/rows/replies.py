"""What following advice and replying to it give."""

from rows.steps import Ask, Begins, Cubeless, FailCall, FailPut, Make, Opening, Put, Row, Text, apart, in_order

SOLVED = (Ask("solve, c1, --checkers=1, --stakes=cubeless, --rounds=8", 0), Ask("solve, m1, --checkers=1, --stakes=money, --rounds=8", 0))

# From 6 there are 27 rolls that win a gammon, and after the other 9 the other side wins one: a point on average. With a cube to turn it is also what
# a pass gives. After one round only the first roll counts: from 24 double sixes alone bear the checker off, and the other one stands where it is a
# backgammon.
ROWS = (
    Row(
        "reply, m1, 6 / 1, --kind, mine, --rounds, 2",
        0,
        "position 6 / 1\n"
        "kind mine\n"
        "follow 1.000000 1.000000\n"
        "reply 1.000000 1.000000\n"
        "base 1.000000 1.000000\n",
    ),
    Row(
        "reply, m1, 6 / 1, --rounds=3",
        0,
        "position 6 / 1\n"
        "kind centred\n"
        "follow 1.000000 1.000000\n"
        "reply 1.000000 1.000000\n"
        "base 1.000000 1.000000\n",
    ),
    Row(
        "reply, --rounds=2, c1, 6 / 1",
        0,
        "position 6 / 1\n"
        "kind alone\n"
        "follow 1.000000 1.000000\n"
        "reply 1.000000 1.000000\n"
        "base 1.000000 1.000000\n",
    ),
    Row("reply, c1, 1 / 24, --kind=alone, --rounds=1", 2, "refused 2 position 4\n"),
    Ask("reply, c1, 24 / 24, --rounds, 1", 0),
    Put(
        Begins(
            "position 24 / 24\n"
            "kind alone\n"
            "follow -2.833334 3.000000\n"
            "reply -2.833334 3.000000\n"
            "base ",
        ),
    ),
)

# A file in which nothing is known, so that of the plays that don't end the game the first is advised, however bad it is; one in which each pair is
# from a point lost to a point won; and one that is too short.
FILES = (Make("o1", Opening(3)), Make("c1", Cubeless(3)), Make("E", Text("empty")))

# Each number was found by a plain program that was written apart. Best play on both sides is worth from -0.393046 to -0.391629 in the first, and from
# 1.556908 to 1.560417 in the second: more than following gives, and less than replying.
BAD = (
    Row(
        "reply, o1, 18 / 8",
        0,
        "position 18 / 8\n"
        "kind alone\n"
        "follow -1.171014 -1.170895\n"
        "reply -0.342101 -0.341268\n"
        "base -3.000000 3.000000\n",
    ),
    Row(
        "reply, o1, 10 / 24, --rounds, 16",
        0,
        "position 10 / 24\n"
        "kind alone\n"
        "follow 1.511491 1.514025\n"
        "reply 1.951809 1.953063\n"
        "base -3.000000 3.000000\n",
    ),
)

REFUSED = (
    Row("reply, x, 6 / 1", 3, "refused 3 missing x\n"),
    Row("reply, E, 6 / 1", 4, "refused 4 file short 5\n"),
    Row("reply, c1, 6 / 1, --kind, mine", 10, "refused 10 base wanted kind mine found checkers 1 stakes cubeless\n"),
    Row("reply, c1, 6 off / 1 off, --kind=mine", 10, "refused 10 base wanted checkers 2 found checkers 1 stakes cubeless\n"),
)

WRONG = (
    Row("reply, c1", 1, "refused 1 words form 0\n"),
    Row("reply, , 6 / 1", 1, "refused 1 words word 1\n"),
    Row("reply, c1, 6 / 1, --kind=hers", 1, "refused 1 words value 3\n"),
    Row("reply, c1, 6 / 1, --rounds=4097", 1, "refused 1 words value 4\n"),
)

LAST = "reply, c1, 6 / 1, --rounds, 2"

# A whole file is asked for its size, and then its head and its page are read. A wrong position asks for no file.
FAULTS = (
    (FailCall("open-to-read", 1), Ask("reply, c1, 6 / 19", 2), Row(LAST, 6, "refused 6 read\n")),
    (FailCall("read", 1), Ask("reply, c1, 6 / 19", 2), Row(LAST, 6, "refused 6 read\n")),
    (FailCall("read", 2), Ask("reply, c1, 6 / 19", 2), Row(LAST, 6, "refused 6 read\n")),
)

# The report is one put.
STOPS = (
    FailPut(1, 13),
    Row(LAST, 7, "position 6 / refused 7 write\n"),
    Ask(LAST, 0),
    Put(
        Begins(
            "position 6 / 1\n"
            "kind alone\n"
            "follow 1.000000 1.000000\n",
        ),
    ),
)

TESTS = {
    "replies to solved files": in_order(SOLVED, ROWS),
    "bad advice costs whoever follows": in_order(FILES, BAD),
    "replies are refused": in_order(FILES, REFUSED),
    "wrong words are refused": in_order(FILES, WRONG),
    "a read that fails is told": apart(FILES, FAULTS),
    "a report that is not put is told": in_order(FILES, STOPS),
}
