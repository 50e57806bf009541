"""Lists of positions that are shown or advised on."""

from rows.steps import Ask, Change, Cubeless, Cut, FailPut, Make, Row, Text, in_order

# Of all lines but the first and the last no pair is shown. The last has no line end.
LISTED = (
    Make("c1", Cubeless(3)),
    Make(
        "l1",
        Text(
            "6 / 1\r\n"
            "1 / 24\n"
            "\n"
            "6 off / 1 off\n"
            " 5/\tB ",
        ),
    ),
    Row(
        "show, c1, --positions, l1",
        0,
        "6 / 1\talone\t-1.000000\t1.000000\t-4294967296\t4294967296\n"
        "! 2 position 4\n"
        "! 2 position 1\n"
        "! 10 base wanted checkers 2 found checkers 1 stakes cubeless\n"
        "5 / bar\talone\t-1.000000\t1.000000\t-4294967296\t4294967296\n",
    ),
    Make("l2", Text("")),
    Row("show, --positions=l2, c1", 0, ""),
    FailPut(1, 3),
)

DAMAGED = (
    Row("show, c1, --positions=l1", 7, "6 /refused 7 write\n"),
    Row("show, c1, --positions=l3", 3, "refused 3 missing l3\n"),
    Row("show, c2, --positions=l1", 3, "refused 3 missing c2\n"),
    Change("c1", Cut(6137, b"\0")),
    Row(
        "show, c1, --positions=l1",
        0,
        "! 4 file page-digest 6106\n"
        "! 2 position 4\n"
        "! 2 position 1\n"
        "! 10 base wanted checkers 2 found checkers 1 stakes cubeless\n"
        "! 4 file page-digest 6106\n",
    ),
)

WORDS = (
    Row("show, c1, 6 / 1, --positions=l1", 1, "refused 1 words form 0\n"),
    Row("show, c1, --positions", 1, "refused 1 words form 0\n"),
    Row("show, c1, --positions=", 1, "refused 1 words word 2\n"),
    Row("advise, c1, --positions=l1", 1, "refused 1 words form 0\n"),
)

# Lines with a roll. That without one has its last place read as the roll.
ROLLED = (
    Ask("solve, c1, --checkers=1, --stakes=cubeless, --rounds=8", 0),
    Make(
        "r1",
        Text(
            "2 / 24 21\r\n"
            "2 / 24 \t21\n"
            "6 / 1 17\n"
            "6 / 1\n"
            "\n"
            "6 off / 1 off 61",
        ),
    ),
    Row(
        "advise, c1, --rolls, r1",
        0,
        "2 / 24\t21\talone\t2/1* 1/off\t3.000000\t3.000000\t12884901888\t12884901888\t0.000000\n"
        "2 / 24\t21\talone\t2/1* 1/off\t3.000000\t3.000000\t12884901888\t12884901888\t0.000000\n"
        "! 2 roll 1\n"
        "! 2 position 3\n"
        "! 2 position 1\n"
        "! 10 base wanted checkers 2 found checkers 1 stakes cubeless\n",
    ),
    Row("advise, --rolls=r2, c1, --kind, mine", 3, "refused 3 missing r2\n"),
    Make("r2", Text("2 / 24 21")),
    Row("advise, --rolls=r2, c1, --kind, mine", 0, "! 10 base wanted kind mine found checkers 1 stakes cubeless\n"),
    Row("advise, c1, --rolls=r1, --kind=our", 1, "refused 1 words value 3\n"),
    Row("advise, c1, 2 / 24, --rolls=r1", 1, "refused 1 words form 0\n"),
    Row("advise, c1, --rolls=r1, --take", 1, "refused 1 words form 0\n"),
)

TESTS = {
    "each line of a list with rolls is advised on": in_order(ROLLED),
    "each line of a list is shown": in_order(LISTED, DAMAGED, WORDS),
}
