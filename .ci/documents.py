"""The examples of the documents: those of blocks with `$ ./hypergammon`, and of pages of help under `Examples:`, with a record that they show."""

import csv
import pathlib
import re
import shlex
import shutil
from typing import NamedTuple, Optional

import base_file
from tally import SCRIPT, TOP, Ran, has_note, run

PAGES_OF_HELP = sorted(f"docs/help/{it.name}" for it in (TOP / "docs/help").glob("*.txt"))
DOCUMENTS = ("README.md", "docs/USING.md", "docs/HYPERGAMMON.md", "docs/OTHER_PROGRAMS.md", *PAGES_OF_HELP)

# What an example may do with a file, or with what the program prints, besides running the program.
SHOWING = ("cat", "head", "tail")

# The commands that write the file of a game or those of a match, with what is taken where an option isn't given.
SOLVING = {
    "solve": {"--checkers": "3", "--stakes": "jacoby", "--rounds": "64", "--workers": "1"},
    "ladder": {"--checkers": "3", "--length": "3", "--rounds": "64", "--workers": "1"},
}

# The files that a command reads, by the places of their names behind it.
READ_BY = dict.fromkeys(("show", "advise", "migrate", "verify", "scan", "reply", "plan", "study"), (1,))
READ_BY["analyse"] = (1, 2)

GAME = """\
hypergammon record 1
checkers 2
stakes jacoby
game 1
A 61 24/18 18/17
stop
close
"""

MATCH = """\
hypergammon record 1
checkers 2
stakes match 3
game 1 away 3 3
A 61 24/18 18/17
B double
A pass
end B 1
close
"""


def flawed(folder):
    """The copy of which docs/USING.md speaks."""
    return base_file.with_tighter_bound((folder / "two.base").read_bytes(), ((2, 4), (4, 14)), "mine")


def imported(folder):
    return run([TOP / "import/mat", TOP / "import/matches/match.mat"], folder).output


def old(folder):
    return base_file.as_version_one((folder / "two.base").read_bytes(), len(base_file.KINDS))


# Files that documents speak of and don't make: the words that make them, their text, or what makes them of `two.base`.
MADE_FIRST = {
    "two.base": ["solve", "two.base", "--checkers", "2"],
    "m": ["ladder", "m", "--checkers", "2", "--workers", "4"],
    "short": ["ladder", "short", "--checkers", "1", "--length", "2"],
    "game.rec": GAME,
    "match.rec": MATCH,
    "flawed.base": flawed,
    "imported.rec": imported,
    "old.base": old,
}


class Example(NamedTuple):
    document: str
    line: int
    command: str
    # What stands behind it, or None where the document tells nothing of what is printed.
    printed: Optional[str]
    # Whether the next command is `echo $?`, which tells its status.
    status_told: bool = False

    def name(self):
        return f"{self.document}:{self.line}: {self.command}"


def examples_of(document):
    text = (TOP / document).read_text()
    return examples_of_help(document, text) if document.endswith(".txt") else examples_of_page(document, text)


def examples_of_help(document, text):
    """The lines of a page of help under `Example:` or `Examples:`, up to an empty one; before them a record of the page, as its file."""
    for name, record in re.findall(r"(\S+\.rec):\n\n(hypergammon record 1\n(?:.+\n)*close\n)", text):
        yield Example(document, text[: text.index(record)].count("\n") + 1, f"cat {name}", record)
    is_under = False
    for number, line in enumerate(text.splitlines(), 1):
        is_under = line in ("Example:", "Examples:") or is_under and line != ""
        if is_under and line.startswith("  hypergammon "):
            yield Example(document, number, f"./{line.strip()}", None)


def examples_of_page(document, text):
    """The commands of blocks, and before them those of which the text says that a block comes after them."""
    block = None
    for number, line in enumerate(text.splitlines(), 1):
        if line.startswith("```"):
            yield from examples_of_block(document, block or ())
            block = [] if block is None else None
        elif block is not None:
            block.append((number, line))
        else:
            for words in re.findall(r"\b[Aa]fter `((?:solve|ladder) [^`]+)`", line):
                yield Example(document, number, f"./hypergammon {words}", None)


def examples_of_block(document, block):
    if not any(line.startswith("$ ./hypergammon ") for _, line in block):
        return
    places = [place for place, (_, line) in enumerate(block) if line.startswith("$ ")]
    for place, after in zip(places, [*places[1:], len(block)]):
        number, line = block[place]
        printed = "".join(f"{text}\n" for _, text in block[place + 1 : after])
        status_told = after < len(block) and block[after][1] == "$ echo $?"
        yield Example(document, number, line[2:], printed, status_told)


def steps_of(command):
    """The words of each step of a pipe."""
    words = shlex.shlex(command, posix=True, punctuation_chars="|")
    words.whitespace_split = True
    steps = [[]]
    for word in words:
        if word == "|":
            steps.append([])
        else:
            steps[-1].append(word)
    return steps


def is_solving(words):
    return len(words) > 1 and words[0] in SOLVING


def options(words):
    """The options of a command that solves, as `--name value` or `--name=value`, each with its value."""
    given = dict(word.split("=", 1) for word in words if "=" in word)
    given.update((word, after) for word, after in zip(words, words[1:]) if word.startswith("--") and "=" not in word)
    return {**SOLVING[words[0]], **given}


def is_long(words):
    """Whether three checkers are solved by more than one round, each of which takes a quarter of a minute and more."""
    return is_solving(words) and options(words)["--checkers"] == "3" and options(words)["--rounds"] != "1"


def as_printed(printed, output):
    """Whether an output is what is printed, where `..` stands for any text."""
    return re.fullmatch(re.escape(printed).replace(re.escape(".."), ".*"), output, re.DOTALL) is not None


def large_files():
    """The rows of results/files.tsv by the names of the files."""
    with open(TOP / "results/files.tsv", newline="") as file:
        return {row["file"]: row for row in csv.DictReader(file, delimiter="\t")}


class Solved:
    """Games and matches that were solved, by what was asked for, so that none is solved twice."""

    def __init__(self, folder):
        self.folder = folder
        self.answers = {}

    def solve(self, words, folder):
        """Writes the files of a game to a folder, which is solved where it wasn't before under this or another name."""
        command, name, *_ = words
        key = (command, *options(words).items())
        if key not in self.answers:
            place = self.folder / str(len(self.answers))
            place.mkdir()
            self.answers[key] = place, name, run([SCRIPT, *words], place)
        place, old_name, answer = self.answers[key]
        for file in place.iterdir():
            shutil.copyfile(file, folder / f"{name}{file.name.removeprefix(old_name)}")
        return answer._replace(output=answer.output.replace(f"file {old_name} ".encode(), f"file {name} ".encode()))


class Reader:
    """Goes through the examples of a document in order, in a folder of its own."""

    def __init__(self, folder, solved, tally, files=None):
        self.folder = folder
        self.solved = solved
        self.tally = tally
        # A folder with large files that were made before.
        self.files = files
        self.status = 0
        # The names of files that would take too long to be made.
        self.unmade = set()
        folder.mkdir()
        (folder / "hypergammon").symlink_to(SCRIPT)

    def read(self, document):
        for example in examples_of(document):
            self.try_example(example)

    def try_example(self, example):
        steps = steps_of(example.command)
        reason = self.why_not(steps[0])
        if reason:
            self.tally.leave_out(example.name(), reason)
            return
        answer = self.answer_of(example, steps)
        self.tally.note(example.name(), list(self.faults(example, steps[0], answer)))
        self.status = answer.status

    def why_not(self, words):
        """Why an example isn't run."""
        if words[0] != "./hypergammon":
            return None if words[0] in SHOWING or words == ["echo", "$?"] else "it isn't the program, and shows no file"
        if is_long(words[1:]):
            self.unmade.add(words[2])
            return "it solves three checkers by more than one round"
        if any(name == it or name.startswith(f"{it}.") for name in names_read(words) for it in self.unmade):
            return "it reads a file that takes more than one round of three checkers"
        return None

    def answer_of(self, example, steps):
        first, *others = steps
        if first[0] == "./hypergammon":
            answer = self.program(first[1:])
        elif first[0] in SHOWING:
            self.need(first[-1], example.printed if first[0] == "cat" else None)
            answer = run(first, self.folder)
        else:
            answer = Ran(0, f"{self.status}\n".encode(), b"")
        for step in others:
            answer = answer._replace(output=run(step, self.folder, answer.output).output)
        return answer

    def program(self, words):
        for name in names_read(["./hypergammon", *words]):
            self.need(name)
        if is_solving(words):
            return self.solved.solve(words, self.folder)
        return run(["./hypergammon", *words], self.folder)

    def faults(self, example, words, answer):
        output = answer.output.decode(errors="replace")
        if example.printed is not None and not as_printed(example.printed, output):
            yield f"it prints\n{output}and the document has\n{example.printed}"
        refused = re.search(r"^refused (\d+) .*\n\Z", example.printed or "", re.MULTILINE)
        due = int(refused[1]) if refused else 0
        if answer.status != due and not example.status_told:
            yield f"it ends with {answer.status}, and {due} is due"
        # A list gets a note that counts its wrong lines.
        is_noted = answer.status or any(word.partition("=")[0] in ("--positions", "--rolls") for word in words)
        if not has_note(is_noted, answer.told):
            yield f"standard error: {answer.told.decode(errors='replace')}"

    def need(self, name, text=None):
        """Makes a file where it isn't there: by the text that a document shows, results/files.tsv or MADE_FIRST."""
        path = self.folder / name
        if text is not None:
            path.write_text(text)
        elif path.exists() or any(it.name.startswith(f"{name}.") for it in self.folder.iterdir()):
            return
        elif self.files and (self.files / name).exists():
            path.symlink_to(self.files / name)
        elif name in large_files():
            self.make_large(name)
        else:
            self.make_first(name)

    def make_first(self, name):
        known = next((it for it in MADE_FIRST if name == it or name.startswith(f"{it}.")), None)
        if known is None:
            return
        maker = MADE_FIRST[known]
        if isinstance(maker, list):
            self.solved.solve(maker, self.folder)
        elif isinstance(maker, str):
            (self.folder / known).write_text(maker)
        else:
            self.need("two.base")
            (self.folder / known).write_bytes(maker(self.folder))

    def make_large(self, name):
        """Makes a file of results/files.tsv, whose bytes have to be those of which the table has the SHA-256."""
        row = large_files()[name]
        self.solved.solve(shlex.split(row["command"])[1:], self.folder)
        is_right = base_file.digest((self.folder / name).read_bytes()).hex() == row["sha256"]
        self.tally.note(f"results/files.tsv: {name}", [] if is_right else ["its SHA-256 differs"])


def names_read(words):
    """The names of the files that a command line of the program reads."""
    places = READ_BY.get(words[1], ()) if len(words) > 1 and words[0] == "./hypergammon" else ()
    return [words[1 + place] for place in places if 1 + place < len(words)]
