"""The words of each command: which refusal comes first, and what is asked where none does."""

import base_file
from tally import PROGRAM, run

# A file of one checker for money in which each pair is from a point lost to a point won, and one by the Jacoby rule in which nothing is known, so that
# of the plays that don't end the game the first is advised.
EVEN, OPENING = "even.base", "opening.base"
# Files of one and of two checkers without a cube after one round.
ONE, TWO = "one.base", "free.base"
# A name that is longer than one may be.
LONG = "n" * 256

# Words with `;` between them, and the line behind `refused`. What stands in a file is asked behind all of them.
REFUSED = """\
fly;-- => 1 words command 0
bound;-1;1;6 / 1 => 1 words word 1
bound;1;1;--a= => 1 words word 3
bound;9;1;--x => 1 words form 0
bound;4;0;6 / 1 => 1 words value 1
bound;1;4294967297;x => 1 words value 2
bound;1;1;6 1 => 2 position 1
bound;1;1;6 / 26 => 2 position 2
show;x => 1 words form 0
show;x;y;--rounds;3 => 1 words form 0
show;LONG;x => 1 words value 1
show;x;6 / 3 1 => 2 position 3
migrate;x => 1 words form 0
migrate;x;x => 1 words value 2
migrate;LONG;LONG => 1 words value 1
migrate;x;y;z => 1 words form 0
verify => 1 words form 0
verify;x;y => 1 words form 0
verify;x;--rounds;3 => 1 words form 0
verify;x;--workers;65 => 1 words value 2
verify;x;--workers=0 => 1 words value 2
verify;LONG;--workers=0 => 1 words value 1
race => 1 words form 0
race;1 => 1 words form 0
race;1;6 / 1;x => 1 words form 0
race;1;6 / 1;--rounds=3 => 1 words form 0
race;4;x => 1 words value 1
race;1;off / 1 => 2 position 5
race;1; => 1 words word 2
solve => 1 words form 0
solve;x;-r;3 => 1 words word 2
solve;x;--stakes= => 1 words word 2
solve;x;-- => 1 words word 2
solve;x;y => 1 words form 0
solve;x;--stakes => 1 words form 0
solve;x;--help => 1 words form 0
solve;x;--=3 => 1 words form 0
solve;x;--rounds;3;--rounds=3 => 1 words form 0
solve;x;--stakes;--rounds;3 => 1 words form 0
solve;x;--stakes=a=b => 1 words value 3
solve;x;--rounds;0 => 1 words value 4
solve;x;--rounds;4097 => 1 words value 4
solve;--workers=65;x;--rounds=+5 => 1 words value 4
solve;x;--workers;65 => 1 words value 5
solve;x;--checkers;007 => 1 words value 2
solve;x;--rounds; 5 => 1 words value 4
solve;x;--rounds; => 1 words word 3
advise;x => 1 words form 0
advise;x;y;z => 1 words form 0
advise;x;y;--rounds=3 => 1 words form 0
advise;x;y;--kind => 1 words form 0
advise;x;y;--kind=Mine => 1 words value 3
advise;--kind=near:1:far;x;y => 1 words value 3
advise;LONG;y;--kind=z => 1 words value 1
advise;x;y;--roll= => 1 words word 3
advise;x;6 / 19;--roll=12;--kind=z => 1 words value 3
advise;x;6 / 19;--roll=12 => 2 position 4
advise;x;6 / 1;--roll;7 => 2 roll 1
advise;x;6 / 1;--roll;611 => 2 roll 1
advise;x;6 / 1;--roll;07 => 2 roll 1
advise;x;6 / 1;--roll;17 => 2 roll 1
advise;x;6 / 1;--roll;60 => 2 roll 1
ladder => 1 words form 0
ladder;x;y => 1 words form 0
ladder;x;--stakes=money => 1 words form 0
ladder;x;--length => 1 words form 0
ladder;x;-l;3 => 1 words word 2
ladder;LONG;--checkers=4 => 1 words value 1
ladder;x;--length=6;--checkers=4 => 1 words value 2
ladder;x;--rounds=0;--length=6 => 1 words value 3
ladder;x;--length;0 => 1 words value 3
ladder;x;--length;03 => 1 words value 3
ladder;--workers=65;x;--rounds;4097 => 1 words value 4
ladder;x;--workers;65 => 1 words value 5
ladder;x;--workers;0 => 1 words value 5
analyse;x => 1 words form 0
analyse;x;y;z => 1 words form 0
analyse;x;y;--rounds=3 => 1 words form 0
analyse;x;-y => 1 words word 2
analyse;LONG;LONG => 1 words value 1
analyse;x;LONG => 1 words value 2
study => 1 words form 0
study;x;y => 1 words form 0
study;x;--stakes=money => 1 words form 0
study;x;--workers => 1 words form 0
study;LONG;--rounds=0 => 1 words value 1
study;x;--rounds;4097 => 1 words value 2
study;--workers=65;x;--rounds=0 => 1 words value 2
study;x;--workers;65 => 1 words value 3
make;7;20 => 1 words form 0
make;7;20;x;y => 1 words form 0
make;07;0;x => 1 words value 1
make;18446744073709551616;1;x => 1 words value 1
make;+7;20;x => 1 words value 1
make;7;0;LONG => 1 words value 2
make;7;1001;x => 1 words value 2
make;7;20;LONG => 1 words value 3
plan => 1 words form 0
plan;x;y => 1 words form 0
plan;x;--checkers=1 => 1 words form 0
plan;x;--length => 1 words form 0
plan;x;-l;3 => 1 words word 2
plan;LONG;--length=6 => 1 words value 1
plan;x;--length=6 => 1 words value 2
plan;--length;0;x => 1 words value 2
plan;x;--length;03 => 1 words value 2
scan => 1 words form 0
scan;x => 1 words form 0
scan;x;y;z => 1 words form 0
scan;x;y;--rounds=1 => 1 words form 0
scan;x;y;--workers => 1 words form 0
scan;x; => 1 words word 2
scan;LONG;y;--workers=65 => 1 words value 1
scan;x;y;--workers=65 => 1 words value 3
scan;--workers;0;x;y => 1 words value 3
reply;x => 1 words form 0
reply;x;6 / 1;y => 1 words form 0
reply;x;6 / 1;--workers=1 => 1 words form 0
reply;x;6 / 1;--roll;21 => 1 words form 0
reply;LONG;6 / 1;--rounds=0 => 1 words value 1
reply;x;6 / 1;--kind=yours;--rounds=0 => 1 words value 3
reply;x;y;--rounds=0 => 1 words value 4
reply;x;y => 2 position 1
reply;--rounds;4097;x;6 / 1 => 1 words value 4
reply;x;6 / 1;--rounds => 1 words form 0
advise;x;6 / 1;--take;--roll;21 => 1 words value 4
advise;x;6 / 1;--away;2-2;--kind=mine => 1 words form 0
advise;x;6 / 1;--away;6-2 => 1 words value 3
advise;x;6 / 1;--away;1-2 => 1 words value 3
advise;x;6 / 1;--away;2-1;--post;--value=2 => 1 words value 5
advise;x;6 / 1;--away;1-1;--cube=mine;--value=3 => 1 words value 5
show;x;6 / 1;--away;1-1;--crawford => 1 words value 3
show;x;6 / 1;--away;2-2;--post => 1 words value 3
solve;x;--width;0 => 1 words value 6
show;x;6 / 1;--id;--id => 1 words form 0
race;3;6 / 1;--board=x => 1 words form 0
show;x;6 / 1;--positions;y => 1 words form 0
advise;x;6 / 1;--rolls;y => 1 words form 0
advise;x;--roll;21;--rolls;y => 1 words form 0
advise;x;--rolls=y;--kind;x => 1 words value 3
board;6 / 1;--id=x => 1 words form 0
board => 1 words form 0
board;6 / 1;x => 1 words form 0
board;6 / 1;--kind=mine => 1 words form 0
board;6 / 19 => 2 position 4
board;6 / 1 / 1 => 2 position 1
board;06 / 1 => 2 position 2
board;26 / 1 => 2 position 2
board;0 / 1 1 => 2 position 2
board;+6 / 1 => 2 position 2
board;6 6 6 6 / none => 2 position 2
board;/ => 2 position 3
board;/ 1 => 2 position 3
board;1 / 24 24 => 2 position 3
board;6 6 6 6 / 1 1 1 1 => 2 position 3
board;1 / 24 => 2 position 4
board;off 1 / 24 24 => 2 position 4
board;bar bar / off off => 2 position 5
show;x;off 6 / 3 1 => 3 missing x
verify;x;--workers;64 => 3 missing x
verify;--workers=3;x => 3 missing x
advise;--roll;66;x;--kind=mine;6 / 1 => 3 missing x
advise;x;6 / 1;--roll=21 => 3 missing x
analyse;x;y => 3 missing y
study;y => 3 missing y
study;--workers;64;y;--rounds=4096 => 3 missing y
study;y;--rounds;1 => 3 missing y
plan;x => 3 missing x.3.3.n
plan;--length=5;x => 3 missing x.5.5.n
plan;x;--length;1 => 3 missing x.1.1.p
scan;x;!pips>1 width>0 => 3 missing x
scan;--workers=64;x;| => 11 condition 0
scan;x; ;--workers;3 => 11 condition 0
reply;--rounds=1;x;6 / 1 => 3 missing x
reply;x;--kind;mine;6 / 1;--rounds=4096 => 3 missing x
show;x;--board;6 / 1;--id => 3 missing x
show;--positions=y;x => 3 missing y
advise;--kind=mine;--rolls;y;x => 3 missing y
show;x;6 / 1;--away;3-2 => 3 missing x.2.3.n
show;x;6 / 1;--away;1-1;--post => 3 missing x.1.1.p
advise;x;6 / 1;--away=2-3;--cube=theirs => 3 missing x.2.3.n
advise;x;6 / 1;--away=3-1;--crawford;--roll=12 => 3 missing x.1.3.c
advise;x;24 / 2;--away=5-4;--take;--cube;theirs;--value=4 => 3 missing x.4.5.n
"""

# Words, and the lines with which the answer begins, with `;` between them. From 6 there are 27 rolls that win and 9 that lose: rolling is worth half a
# point, where a win counts single, a take would cost two, so a double is passed. From 5 there are 31 winning rolls, and with a checker of each side off
# each win is a single one: 26 points of 36. From 12 four rolls win a gammon at once; of the others only
# the bound is known after one plain round. One worker rests on the columns that it tightened earlier in the same round.
ANSWERED = """\
bound;1;1;10 / 9 => position 10 / 9;rounds 1
bound;2;3;6 bar / 18 24 => position bar 6 / 24 18;rounds 3
show;two.base;off 6 / 3 1 => position 6 off / 3 1;checkers 2 stakes jacoby rounds 64
advise;two.base;OFF  B/2 bar;--roll=1 2 => position bar off / bar 2;roll 21 kind centred
advise;two.base;--roll;66;--kind=mine;6 5 / 1 1 => position 6 5 / 1 1;roll 66 kind mine
reply;even.base;--kind=theirs;6 / 1 => position 6 / 1;kind theirs
advise;match;6 / 1;--away=2-3;--cube=theirs => position 6 / 1;kind near:2:far
advise;match;6 / 1;--away=3-1;--crawford;--roll=12 => position 6 / 1;roll 21 kind far:1:centred
reply;opening.base;6 / 1;--rounds=2 => position 6 / 1;kind centred;follow 1.000000 1.000000;reply 1.000000 1.000000
reply;opening.base;6 / 1;--kind=mine;--rounds=2 => position 6 / 1;kind mine;follow 1.000000 1.000000;reply 1.000000 1.000000
reply;free.base;5 off / 1 off;--rounds=2 => position 5 off / 1 off;kind alone;follow 0.722222 0.722223;reply 0.722222 0.722223
show;one.base;12 / 9 => position 12 / 9;checkers 1 stakes cubeless rounds 1;alone -0.631180 0.978356 -2710895827 4202003325
bound;1;1;12 / 9 => position 12 / 9;rounds 1;alone -2.444445 2.888889 -10498808946 12407683300
show;one.base;12 / 1 => position 12 / 1;checkers 1 stakes cubeless rounds 1;alone -2.444445 2.888889 -10498808946 12407683300
show;one.base;6 / 1 => position 6 / 1;checkers 1 stakes cubeless rounds 1;alone 0.750000 2.250000 3221225472 9663676416
"""

# Conditions, and the number of the first word with which none can go on.
WRONG_CONDITIONS = """\
  => 0
| => 0
pips => 0
pips= => 0
=1 => 0
pip=1 => 0
offer= => 0
pips==1 => 0
pips=1<2 => 0
!!pips=1 => 0
pips=+1 => 0
pips=--1 => 0
pips=01 => 0
pips=1000000000000 => 0
Pips=1 => 0
pips=1  => 1
pips=1  off=0 => 1
pips=1 | => 2
pips=1 | | => 2
pips=1 |off=0 => 1
pips=1 off=0 | x => 3
pips=1 | off=0 | => 4
pips=1 | off=0 bar => 3
"""

# Conditions that are taken.
CONDITIONS = """\
pips=1
!answer>-999999999999
lower<999999999999 upper>0
width=-0
kind=0 | opips>3 ooff=0 | !obar<1
bar=1 off<3
offer=1
answer=3 | answer=3
"""

# Conditions, and how many states meet them. A checker stands on one of 24 points or on the bar, and the two on no common point: 625 less 24
# positions are live, each with three kinds.
FOUND = """\
kind=0 => 601
!kind=0 => 1202
lower=-4294967296 upper=4294967296 width=8589934592 => 1803
!width=8589934592 => 0
off=0 ooff=0 => 1803
bar=1 => 75
bar=1 obar=1 => 3
bar=1 | obar=1 => 147
pips=25 opips=3 kind=1 => 1
pips=25 !opips=3 kind=1 => 24
"""

MOST_TESTS = 64

# The scores of matches, in the order in which they are solved.
SCORES = {1: "1.1.p", 5: "1.1.p 1.2.p 1.2.c 1.3.p 1.3.c 2.2.n 1.4.p 1.4.c 2.3.n 1.5.c 2.4.n 3.3.n 2.5.n 3.4.n 3.5.n 4.4.n 4.5.n 5.5.n"}
# The start pair of the last game after four rounds, in units, as a plain program finds it whose one worker sweeps the columns in order.
START = (-373_699_295, 373_699_295)

CREWS = ("1", "3", "64")


def ask(words, folder):
    ran = run([PROGRAM, *words], folder)
    return ran.status, ran.output.decode()


def rows(table):
    """What stands on both sides of the arrow in each line."""
    return (line.split(" => ") for line in table.splitlines())


def differences(found, due):
    return [] if found == due else [f"answer {found}, due is {due}"]


def words_of(text):
    return [LONG if word == "LONG" else word for word in text.split(";")]


def refusal(line):
    return int(line.split()[0]), f"refused {line}\n"


def try_refused(tally, folder):
    tally.note("no words", differences(ask((), folder), refusal("1 words command 0")))
    for text, line in rows(REFUSED):
        tally.note(f"the words {text}", differences(ask(words_of(text), folder), refusal(line)))


def try_long_words(tally, folder):
    """A word has at most 4,096 bytes, and a prefix 240."""
    for words, line in (
        (("scan", "x", "x" * 4096), "11 condition 0"),
        (("scan", "x", "x" * 4097), "1 words word 2"),
        (("plan", "x" * 240), f"3 missing {'x' * 240}.3.3.n"),
        (("plan", "x" * 241), "1 words value 1"),
    ):
        tally.note(f"a word of {len(words[-1])} bytes", differences(ask(words, folder), refusal(line)))


def try_answered(tally, folder):
    for text, lines in rows(ANSWERED):
        due = lines.split(";")
        status, output = ask(words_of(text), folder)
        tally.note(f"the words {text}", differences((status, output.splitlines()[: len(due)]), (0, due)))


def try_conditions(tally, folder):
    for condition, place in rows(WRONG_CONDITIONS):
        due = refusal(f"11 condition {place}")
        tally.note(f"the condition {condition}", differences(ask(("scan", EVEN, condition), folder), due))
    most = " ".join(["off=0"] * MOST_TESTS)
    for more in ("off=0", "|", "x", ""):
        due = refusal(f"11 condition {MOST_TESTS}")
        tally.note(f"64 tests and {more}", differences(ask(("scan", EVEN, f"{most} {more}"), folder), due))
    for condition in (most, *CONDITIONS.splitlines()):
        tally.note(f"the condition {condition}", differences(ask(("scan", EVEN, condition), folder)[0], 0))


def try_found(tally, folder):
    """How many states are found, by any number of workers."""
    for condition, many in rows(FOUND):
        for workers in CREWS:
            status, output = ask(("scan", EVEN, condition, "--workers", workers), folder)
            lines = output.splitlines()
            found, due = (status, len(lines), lines[-1]), (0, int(many) + 1, f"found {many} of 1803")
            tally.note(f"{workers} workers with the condition {condition}", differences(found, due))


def try_every_state(tally, folder):
    """Each state of two checkers is found, in their order."""
    kinds, many = len(base_file.KINDS), base_file.POSITIONS[2] * len(base_file.KINDS)
    for workers in (*CREWS, "4"):
        status, output = ask(("scan", "two.base", "kind=0 | kind>0", "--workers", workers), folder)
        *states, last = output.splitlines()
        faults = differences((status, len(states), last), (0, many, f"found {many} of {many}"))
        if any(it.split()[0] != base_file.KINDS[number % kinds] for number, it in enumerate(states)):
            faults.append("a state stands elsewhere")
        tally.note(f"{workers} workers find every state of two checkers", faults)


def try_scores(tally, folder):
    for length, scores in SCORES.items():
        status, output = ask(("ladder", "five", "--checkers", "1", "--length", str(length), "--rounds", "4"), folder)
        found = " ".join(line.split()[1] for line in output.splitlines()[:-1])
        tally.note(f"the scores of a match of {length}", differences((status, found), (0, scores)))
    start = (folder / "five.1.2.p").read_bytes()[base_file.HEAD :][: base_file.PAIR]
    tally.note("a start", differences(start, base_file.as_words(START)))


def try_command_words(tally, folder):
    (folder / EVEN).write_bytes(base_file.of_one_checker(base_file.MONEY, {}, base_file.POINT))
    (folder / OPENING).write_bytes(base_file.of_one_checker(base_file.JACOBY, {}, 3 * base_file.POINT))
    for name, checkers in ((ONE, "1"), (TWO, "2")):
        ask(("solve", name, "--checkers", checkers, "--stakes", "cubeless", "--rounds", "1"), folder)
    for part in (try_scores, try_refused, try_long_words, try_answered, try_conditions, try_found, try_every_state):
        part(tally, folder)
