"""Records: what is told of their lines, how many decisions they have, and those that are made by numbers."""

from tally import PROGRAM, run

GAME = """\
hypergammon record 1
checkers 1
stakes jacoby
game 1
A 31 24/21 21/20
B 64 24/18 18/14
A 63 20/14 14/11*
B 61 bar/19 19/18
A 32 11/8 8/6
B 44 18/14 14/10 10/6 6/2
A double
B take
A 21 6/4 4/3
B 51 2/1 1/off
end B 2
close
"""

# A game of two checkers that was left.
LEFT = """\
hypergammon record 1
checkers 2
stakes money
game 1
A 41 24/20 23/22
B 66 23/17 17/11 11/5* 24/18
A 31 bar/22 22/21
B 65 18/12 12/7
A 51 21/16 16/15
B 42 7/3* 5/3
A 33 -
stop
close
"""

# A match of two points, in whose second game A doubles, which is the Crawford game.
MATCH = """\
hypergammon record 1
checkers 1
stakes match 2
game 1 away 2 2
A 21 24/22 22/21
B double
A pass
end B 1
game 2 away 2 1
B 21 24/22 22/21
A double
B pass
end A 1
close
"""

BEAVER = """\
hypergammon record 1
checkers 1
stakes jacoby-beavers
game 1
A 21 24/22 22/21
B double
A beaver
stop
close
"""

# A match of one point that is over, and goes on.
OVER = """\
hypergammon record 1
checkers 1
stakes match 1
game 1 away 1 1
A 65 24/18 18/13
B 66 24/18 18/12* 12/6 6/off
end B 3
game 2 away 1 1
A 21 24/22 22/21
stop
close
"""

# In the last turn one die alone can be played, and the lower one is.
LOWER_DIE = """\
hypergammon record 1
checkers 2
stakes money
game 1
A 65 24/19 23/17
B 61 24/18 23/22
A 66 19/13 17/11 13/7* 7/1
B 52 bar/20 22/20
A 42 11/9
stop
close
"""

# The number of a line, or 0, what stands in its place, with `;` between more lines than one, and what is told then: the line and its fault, or
# how many decisions the players have.
OF_GAME = """\
0: => 7 of A, 9 of B
1:hypergammon record 2 => 1 shape
1: => 2 order
2:checkers => 2 shape
2:checkers 4 => 2 rules
2:checkers 01 => 2 rules
3:stakes match => 3 rules
3:stakes match 6 => 3 rules
3:stakes chips => 3 rules
3:stakes jacoby 1 => 3 shape
4:game 2 => 4 number
4:game 1 away 1 1 => 4 order
4:close => 4 order
5:A 33 24/21 21/18 => 5 number
5:A 13 24/21 21/20 => 5 number
5:A 71 24/21 21/20 => 5 number
5:A double => 5 order
5:A 31 24/21  21/20 => 5 shape
5:A 31 24/21 21/20  => 5 shape
5:A 31 => 5 shape
5:C 31 24/21 21/20 => 5 shape
5:A 31 21/24 => 5 play
6:A 64 24/18 18/14 => 6 order
6:B 64 24/18 18/14\0 => 6 play
6:B take => 6 order
11:A take => 11 order
12:A take => 12 order
13:B 21 6/4 4/3 => 13 order
15:end B 4 => 15 number
15:end 2 B => 15 shape
16:stop => 16 order
5:A 31 24/21* 21/20 => 5 illegal-play 6
7:A 63 20/14 14/11 => 7 illegal-play 6
6:B 64 24/20 => 6 illegal-play 7
8:B 61 14/8 8/7 => 8 illegal-play 2
14:B 51 2/off => 14 illegal-play 7
15:end B 1 => 15 score-wrong
15:end A 2 => 15 score-wrong
15:A 21 4/2 2/1;stop => 15 score-wrong
15:stop => 15 score-wrong
16:close;close => 17 order
16:close;x => 17 shape
3:stakes cubeless => 11 illegal-cube
2:checkers 4;x => 2 rules
"""

OF_LEFT = """\
0: => 7 of A, 6 of B
13:close;close => 14 order
12:end A 1 => 12 score-wrong
"""

OF_MATCH = """\
0: => 11 illegal-cube
4:game 1 away 2 6 => 4 number
4:game 1 => 4 order
9:game 3 away 2 1 => 9 number
4:game 1 away 1 2 => 4 score-wrong
4:game 1 away 2 1 => 4 score-wrong
9:game 2 away 1 2 => 9 score-wrong
8:end B 2 => 8 score-wrong
5:A double => 5 order
"""

OF_BEAVER = """\
0: => 2 of A, 1 of B
3:stakes jacoby => 7 illegal-cube
"""

LINES = (
    ("game", GAME, OF_GAME),
    ("left", LEFT, OF_LEFT),
    ("match", MATCH, OF_MATCH),
    ("beaver", BEAVER, OF_BEAVER),
    ("over", OVER, "0: => 8 score-wrong"),
    ("lower die", LOWER_DIE, "0: => 9 illegal-play 8"),
)

# Texts, and the line and its fault. A record has at most 1,048,576 bytes and 65,536 lines.
TEXTS = (
    (b"", "1 unended"),
    (b"hypergammon record 1\ncheckers 4\nx\n", "2 rules"),
    (b"checkers 4\nx\n", "1 order"),
    (b"x\ncheckers 4\n", "1 shape"),
    (b"x\n" * 65_536, "1 shape"),
    (b"x\n" * 65_537, "0 too-long"),
    (b"a" * 1_048_575 + b"\n", "1 shape"),
    (b"a" * 1_048_577, "0 too-long"),
)

# What was chosen in some lines of the game. A double and its answer are seen by the player who doubled, who has a checker on point 6.
CHOICES = {
    11: ["A", "offer", "6 / 2", "centred", "-", "-", "double"],
    12: ["B", "answer", "6 / 2", "centred", "-", "-", "take"],
    14: ["B", "offer", "2 / 3", "mine", "-", "-", "no-double"],
}

# The words of these numbers give these games by the rules, as a plain program that knows nothing of this one reckons. In the first A's first die and
# B's are equal and drawn again, and a double is taken; in the second are a hit, a play of one move, and a double that is passed.
ZERO = """\
game 1
B 53 24/19 19/16
A 53 24/19 19/16
B 11 16/15 15/14 14/13 13/12
A 65 16/10 10/5
B double
A take
B 51 12/7 7/6
A 61 5/4 4/off
end A 2
"""

SEVEN = """\
game 1
B 32 24/21 21/19
A 21 24/22 22/21
B 42 19/15 15/13
A 51 21/16 16/15
B 21 13/11 11/10*
A 21 bar/23 23/22
B 62 10/4 4/2
A 21 22/20 20/19
B 44 2/off
end B 1
game 2
B 62 24/18 18/16
A 42 24/20 20/18
B 31 16/13 13/12
A 44 18/14 14/10 10/6 6/2
B 52 12/7 7/5
A double
B pass
end A 1
"""

GREATEST = """\
game 1
B 52 24/19 19/17
A 53 24/19 19/16
B 62 17/11 11/9*
A 64 bar/19 19/15
B 22 9/7 7/5 5/3 3/1
A 32 15/12 12/10
B 43 1/off
end B 1
"""

MADE = ((0, 1, ZERO), (7, 2, SEVEN), (2**64 - 1, 1, GREATEST))
# How many games are made of the number 7, and how many lines and bytes their record has by the same plain program; the last ones are as many as can
# be asked for.
SIZES = ((20, 148, 1913), (1000, None, 112_311))
LAST = b"B 44 15/11 11/7 7/3 3/off\nend B 1\nclose\n"


def ask(words, folder):
    ran = run([PROGRAM, *words], folder)
    return ran.status, ran.output.decode()


def study(text, folder, *more):
    (folder / "lines.rec").write_bytes(text)
    return ask(("study", "lines.rec", "--rounds", "1", *more), folder)


def differences(found, due):
    return [] if found == due else [f"answer {found}, due is {due}"]


def with_line(text, number, line):
    """A text with another line, or others with `;` between them, in the place of one."""
    lines = text.splitlines()
    if number:
        lines[number - 1] = line.replace(";", "\n")
    return "".join(f"{it}\n" for it in lines).encode()


def told(status, output):
    """The line and its fault, or how many decisions both players have."""
    if status == 5:
        return output.removeprefix("refused 5 record ").rstrip("\n")
    many = [line.split()[2] for line in output.splitlines()[-2:]]
    return " of A, ".join(many) + " of B" if status == 0 else f"status {status}"


def try_lines(tally, folder):
    for name, text, rows in LINES:
        for row in rows.splitlines():
            change, due = row.split(" => ")
            number, line = change.split(":", 1)
            found = told(*study(with_line(text, int(number), line), folder))
            tally.note(f"{name}: {row!r}", differences(found, due))


def try_texts(tally, folder):
    for text, due in TEXTS:
        tally.note(f"a record that begins {text[:10]} of {len(text)} bytes", differences(told(*study(text, folder)), due))


def try_choices(tally, folder):
    _, output = study(GAME.encode(), folder, "--full")
    found = {}
    for line in output.splitlines()[:-2]:
        game, number, *fields = line.split("\t")
        found[game, int(number), fields[1]] = fields[:7]
    for number, due in CHOICES.items():
        tally.note(f"what was chosen in line {number}", differences(found.get(("1", number, due[1])), due))


def try_made(tally, folder):
    front = "hypergammon record 1\ncheckers 1\nstakes jacoby\n"
    for number, games, text in MADE:
        ask(("make", str(number), str(games), "made.rec"), folder)
        found = (folder / "made.rec").read_text()
        tally.note(f"the record of {number}", differences(found, f"{front}{text}close\n"))


def try_sizes(tally, folder):
    """What is made has its size, breaks no rule, and has as many games."""
    for games, lines, length in SIZES:
        _, output = ask(("make", "7", str(games), "made.rec"), folder)
        text = (folder / "made.rec").read_bytes()
        lines = lines or text.count(b"\n")
        due = (f"made lines {lines} bytes {length}", length, games)
        faults = differences((output.splitlines()[0], len(text), text.count(b"\ngame ")), due)
        if games == 1000:
            faults += differences(text[-len(LAST) :], LAST)
        status, _ = ask(("study", "made.rec", "--rounds", "1"), folder)
        tally.note(f"the record of {games} games", faults + differences(status, 0))


def try_record_lines(tally, folder):
    for part in (try_lines, try_texts, try_choices, try_made, try_sizes):
        part(tally, folder)
