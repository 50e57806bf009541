"""Words that are answered without a file, and those that are refused."""

from rows.steps import FailPut, Row, in_order

BOUND = "bound, 1, 1, 1 / 1"

BOUNDED = """\
position 1 / 1
rounds 1
alone 2.000000 2.000000 8589934592 8589934592
"""

BOUNDS = (
    Row(
        "bound, 1, 1, 24 / 24",
        0,
        "position 24 / 24\n"
        "rounds 1\n"
        "alone -2.833334 3.000000 -12169074006 12884901888\n",
    ),
    Row(BOUND, 0, BOUNDED),
    Row(
        "bound, 1, 16, 1 / 1",
        0,
        "position 1 / 1\n"
        "rounds 16\n"
        "alone 2.000000 2.000000 8589934592 8589934592\n",
    ),
    Row(
        "bound, 1, 1, 1 / bar",
        0,
        "position 1 / bar\n"
        "rounds 1\n"
        "alone 3.000000 3.000000 12884901888 12884901888\n",
    ),
    Row(
        "bound, 1, 1, 6 / 1",
        0,
        "position 6 / 1\n"
        "rounds 1\n"
        "alone 0.750000 2.250000 3221225472 9663676416\n",
    ),
    Row(
        "bound, 1, 2, 6 / 1",
        0,
        "position 6 / 1\n"
        "rounds 2\n"
        "alone 1.000000 1.000000 4294967296 4294967296\n",
    ),
    Row(
        "bound, 2, 2, 5 off / 1 off",
        0,
        "position 5 off / 1 off\n"
        "rounds 2\n"
        "alone 0.722222 0.722223 3101920824 3101920825\n",
    ),
    Row(
        "bound, 3, 1, 1 off off / 1 off off",
        0,
        "position 1 off off / 1 off off\n"
        "rounds 1\n"
        "alone 1.000000 1.000000 4294967296 4294967296\n",
    ),
)

POSITIONS = (
    Row("bound, 1, 1, 1 / 24", 2, "refused 2 position 4\n"),
    Row("bound, 1, 1, 6 / 1 /", 2, "refused 2 position 1\n"),
    Row("bound, 1, 1, 06 / 1", 2, "refused 2 position 2\n"),
    Row("bound, 1, 1, 26 / 1", 2, "refused 2 position 2\n"),
    Row("bound, 1, 1, 6 / 1 1", 2, "refused 2 position 3\n"),
    Row("bound, 1, 1, off / 1", 2, "refused 2 position 5\n"),
    Row("bound, 1, 1, 6 off / 1 off", 10, "refused 10 base wanted checkers 2 found checkers 1 stakes cubeless\n"),
    Row("bound, 2, 1, 6 / 1", 10, "refused 10 base wanted checkers 1 found checkers 2 stakes cubeless\n"),
    Row("bound, 3, 1, 1 / 24", 2, "refused 2 position 4\n"),
)

WORDS = (
    Row("bound, 1, 0, 6 / 1", 1, "refused 1 words value 2\n"),
    Row("bound, 1, 4097, 6 / 1", 1, "refused 1 words value 2\n"),
    Row("bound, 4, 1, 6 / 1", 1, "refused 1 words value 1\n"),
    Row("bound, 4, 0, 26 / 1", 1, "refused 1 words value 1\n"),
    Row("bound, 1, 1", 1, "refused 1 words form 0\n"),
    Row("bound, 1, 1, 6 / 1, x", 1, "refused 1 words form 0\n"),
    Row("bound, 1, 1, --x, 3", 1, "refused 1 words form 0\n"),
    Row("fly", 1, "refused 1 words command 0\n"),
    Row("", 1, "refused 1 words command 0\n"),
    Row("bound, -1, 1, 6 / 1", 1, "refused 1 words word 1\n"),
    Row("bound, 1, , 6 / 1", 1, "refused 1 words word 2\n"),
    Row("bound, 1, 1, --", 1, "refused 1 words word 3\n"),
)

OTHERS = (
    Row("solve", 1, "refused 1 words form 0\n"),
    Row("solve, x, -r, 3", 1, "refused 1 words word 2\n"),
    Row("solve, x, --rounds, 0", 1, "refused 1 words value 4\n"),
    Row("solve, x, --workers, 65", 1, "refused 1 words value 5\n"),
    Row("solve, x, --width, 0", 1, "refused 1 words value 6\n"),
    Row("solve, x, --width, 0.000000", 1, "refused 1 words value 6\n"),
    Row("solve, x, --width, 64.000001", 1, "refused 1 words value 6\n"),
    Row("solve, x, --width, 00.5", 1, "refused 1 words value 6\n"),
    Row("solve, x, --width, 1.", 1, "refused 1 words value 6\n"),
    Row("solve, x, --width, 1.0000000", 1, "refused 1 words value 6\n"),
    Row("show, x, 6 / 1", 3, "refused 3 missing x\n"),
    Row("migrate, x, x", 1, "refused 1 words value 2\n"),
    Row("migrate, x, y", 3, "refused 3 missing x\n"),
    Row("verify, x", 3, "refused 3 missing x\n"),
    Row("verify, c1, --workers, 65", 1, "refused 1 words value 2\n"),
)

PUTS = (
    FailPut(1, 8),
    Row(BOUND, 7, "positionrefused 7 write\n"),
    FailPut(1, 7),
    Row("fly", 1, "refused"),
    FailPut(2, 0),
    Row(BOUND, 0, BOUNDED),
)

TESTS = {
    "bounds are as worked by hand": in_order(BOUNDS),
    "positions are refused": in_order(POSITIONS),
    "words are refused": in_order(WORDS),
    "words of other commands are refused": in_order(OTHERS),
    "a failing output is told": in_order(PUTS),
}
