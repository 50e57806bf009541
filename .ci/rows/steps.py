"""The steps of the tables, what they say of texts and files, and how they are taken on the real program."""

import errno
import os
import re
import struct
from dataclasses import dataclass
from typing import Any, NamedTuple

import base_file
from failing import preloading
from tally import BASE_START, PROGRAM, has_note, run

# How many units a point has.
POINT = 1 << 32
# The word of 0.
ZERO = 1 << 36
# Of a file of one checker a side without a cube: where its one page begins, and where the page's digest stands.
PAGE = base_file.HEAD + base_file.DIGEST
SEAL = base_file.file_length(1, 1) - base_file.DIGEST
LIVE = base_file.POSITIONS[1]
# What standard error is told of a list.
OF_A_LIST = re.compile(rb"\A\d+ of \d+ lines are wrong\n\Z")
OLDER = {1: base_file.as_version_one, 2: base_file.as_version_two}


def words_of(lower, upper):
    """The words of bounds in units."""
    return b"".join((ZERO + it).to_bytes(base_file.WORD, "big") for it in (lower, upper))


def sealed(text):
    """A file with one page, whose digest is made anew."""
    return text[:SEAL] + base_file.bound_digest(text, 0, text[PAGE:SEAL])


def made_by_hand(version, points):
    """A file of one checker a side without a cube after 8 rounds, in which each position is worth from so many points lost to as many won."""
    # The version, checkers, stakes, the four of a score, kinds, rounds, starts, positions and nothing.
    head = BASE_START + struct.pack(">10I2Q", 3, 1, 0, 0, 0, 0, 0, 1, 8, 0, LIVE, 0)
    text = sealed(head + base_file.digest(head) + words_of(-points * POINT, points * POINT) * LIVE)
    return OLDER[version](text, 1) if version in OLDER else text


class Room:
    """A folder in which steps are taken."""

    def __init__(self, folder, library):
        self.folder, self.library = folder, library
        # The call that fails at each question, and the one of the output that fails at the next.
        self.failing, self.failing_put = None, None
        # What was put last, and what was kept of it.
        self.put, self.kept = "", ""

    def held(self, name):
        """The bytes of a file, None where there is none."""
        file = self.folder / name
        return file.read_bytes() if file.is_file() else None

    def answer(self, question):
        """What comes of the words of a question, which stand in one text, parted by `, `; where it is empty there are none."""
        failing, self.failing_put = self.failing_put or self.failing, None
        surroundings = {**os.environ, **preloading(self.library, *failing)} if failing else None
        ran = run([PROGRAM, *(question.split(", ") if question else [])], self.folder, environment=surroundings)
        self.put = ran.output.decode(errors="replace")
        return ran


def faults_unless(is_so, what, found):
    text = str(found)
    return [] if is_so else [f"{what}: {text if len(text) <= 2000 else text[:2000] + ' ..'}"]


# The steps.


@dataclass(frozen=True)
class Make:
    """Puts a file of this name."""

    name: str
    content: Any

    def take(self, room):
        (room.folder / self.name).write_bytes(self.content.made(room))
        return []


@dataclass(frozen=True)
class Change:
    """Changes the file of this name."""

    name: str
    change: Any

    def take(self, room):
        changed = self.change.made_of(room.held(self.name))
        (room.folder / self.name).write_bytes(changed)
        return []


@dataclass(frozen=True)
class FailCall:
    """From now on the call of this kind of failing_calls.c and this number, from 1, fails at each question."""

    kind: str
    call: int

    def take(self, room):
        room.failing = (self.kind, self.call, errno.EIO)
        return []


@dataclass(frozen=True)
class ShortReads:
    """From now on a read gives one byte."""

    def take(self, room):
        room.failing = ("read", 1, "short..")
        return []


@dataclass(frozen=True)
class FailPut:
    """At the next question the output's call of this number, from 1, fails after so many bytes."""

    call: int
    many: int

    def take(self, room):
        room.failing_put = ("output", self.call, errno.EIO, self.many)
        return []


@dataclass(frozen=True)
class Ask:
    """Answers these words, with this status. Standard error gets a line after a refusal, and else nothing but what it is told of a list."""

    question: str
    status: int

    def take(self, room):
        ran = room.answer(self.question)
        faults = faults_unless(ran.status == self.status, f"status {ran.status}, due is {self.status}", ran.output)
        return faults + faults_unless(has_note(ran.status, OF_A_LIST.sub(b"", ran.told)), "standard error", ran.told)


@dataclass(frozen=True)
class Row(Ask):
    """Answers these words, with this status, and all that is put."""

    text: str

    def take(self, room):
        return super().take(room) + faults_unless(room.put == self.text, f"due is {self.text}", room.put)


@dataclass(frozen=True)
class Put:
    """What was put last is so."""

    told: Any

    def take(self, room):
        return faults_unless(self.told.is_so(room.put, room), f"it isn't {self.told}", room.put)


@dataclass(frozen=True)
class Keep:
    """Keeps what stands in it behind the first place of these words."""

    words: str

    def take(self, room):
        place = room.put.find(self.words)
        room.kept = room.put[place + len(self.words) :]
        return faults_unless(place >= 0, f"{self.words} doesn't stand there", room.put)


@dataclass(frozen=True)
class File:
    """The file of this name is so."""

    name: str
    held: Any

    def take(self, room):
        found = room.held(self.name)
        return faults_unless(self.held.is_so(found, room), f"{self.name} isn't {self.held}", found)


# What a file is made of, or is.


class Content:
    def is_so(self, found, room):
        return found == self.made(room)


@dataclass(frozen=True)
class Text(Content):
    text: str

    def made(self, _room):
        return self.text.encode()


@dataclass(frozen=True)
class Cubeless(Content):
    """Of this version, with a point lost and a point won as the bounds of each position."""

    version: int

    def made(self, _room):
        return made_by_hand(self.version, 1)


@dataclass(frozen=True)
class Opening(Content):
    """Of this version, with three points lost and won, which is all that is known before a first round."""

    version: int

    def made(self, _room):
        return made_by_hand(self.version, 3)


@dataclass(frozen=True)
class Filled(Content):
    """This byte, so many times."""

    byte: bytes
    count: int

    def made(self, _room):
        return self.byte * self.count


@dataclass(frozen=True)
class CopyOf(Content):
    """The bytes of the file of this name."""

    name: str

    def made(self, room):
        return room.held(self.name)


# What is changed of a file. All that is to be changed has to be there.


def with_bytes(text, place, more):
    if place + len(more) > len(text):
        raise ValueError(f"there are no bytes at {place}")
    return text[:place] + more + text[place + len(more) :]


@dataclass(frozen=True)
class Byte:
    """The byte at this place becomes this one."""

    place: int
    byte: int

    def made_of(self, text):
        return with_bytes(text, self.place, bytes([self.byte]))


@dataclass(frozen=True)
class Bit:
    """The lowest bit of the byte at this place is turned."""

    place: int

    def made_of(self, text):
        return with_bytes(text, self.place, bytes([text[self.place] ^ 1]))


@dataclass(frozen=True)
class Cut:
    """So many bytes are kept, and these stand behind them."""

    kept: int
    rest: bytes

    def made_of(self, text):
        return with_bytes(text, 0, text[: self.kept])[: self.kept] + self.rest


@dataclass(frozen=True)
class Pair:
    """The words of the position of this live rank become these, and the digest of the page is made anew."""

    rank: int
    lower: int
    upper: int

    def made_of(self, text):
        return sealed(with_bytes(text, PAGE + 2 * base_file.WORD * self.rank, words_of(self.lower, self.upper)))


@dataclass(frozen=True)
class EachPair:
    """So do those of all positions."""

    lower: int
    upper: int

    def made_of(self, text):
        return sealed(with_bytes(text, PAGE, words_of(self.lower, self.upper) * LIVE))


# What is said of a text that was put, or of a file.


@dataclass(frozen=True)
class Nothing:
    """There is no file."""

    def is_so(self, found, _room):
        return found is None


@dataclass(frozen=True)
class Something:
    """There is one."""

    def is_so(self, found, _room):
        return found is not None


@dataclass(frozen=True)
class Length:
    """It has so many bytes."""

    length: int

    def is_so(self, found, _room):
        return found is not None and len(found) == self.length


@dataclass(frozen=True)
class At:
    """These bytes stand in it from this place on."""

    place: int
    due: bytes

    def is_so(self, found, _room):
        return found is not None and found.startswith(self.due, self.place)


@dataclass(frozen=True)
class Begins:
    front: Any

    def is_so(self, found, _room):
        return found is not None and found.startswith(self.front)


@dataclass(frozen=True)
class Ends:
    end: Any

    def is_so(self, found, _room):
        return found is not None and found.endswith(self.end)


@dataclass(frozen=True)
class Has:
    """These words stand in it."""

    words: str

    def is_so(self, text, _room):
        return self.words in text


@dataclass(frozen=True)
class Times:
    """They do so many times."""

    words: str
    times: int

    def is_so(self, text, _room):
        return text.count(self.words) == self.times


@dataclass(frozen=True)
class Lines:
    """It has so many lines."""

    lines: int

    def is_so(self, text, _room):
        return len(text.splitlines()) == self.lines


@dataclass(frozen=True)
class EachLine:
    """It has as many lines as these, each with this beginning and this end."""

    lines: tuple

    def is_so(self, text, _room):
        found = text.splitlines()
        told = (line.startswith(front) and line.endswith(end) for line, (front, end) in zip(found, self.lines))
        return len(found) == len(self.lines) and all(told)


@dataclass(frozen=True)
class Finder:
    """How ends that are put hold numbers that another program finds."""

    # How many parts of a millionth it tells.
    parts: int
    # By how many of its parts it may be rounded.
    rounded: int
    # The ends lie nearer than so many millionths.
    width: int


@dataclass(frozen=True)
class Encloses:
    """Behind each of these words stand two ends, with six decimals, that hold what was found."""

    finder: Finder
    found: tuple

    def is_so(self, text, _room):
        return all(self.encloses(text, words, found) for words, found in self.found)

    def encloses(self, text, words, found):
        ends = re.search(rf"{re.escape(words)}(-?\d+\.\d{{6}}) (-?\d+\.\d{{6}})[ \n]", text)
        if not ends:
            return False
        low, high = (int(it.replace(".", "")) for it in ends.groups())
        parts, rounded = self.finder.parts, self.finder.rounded
        return low * parts <= found + rounded and found <= high * parts + rounded and high - low < self.finder.width


@dataclass(frozen=True)
class ThenKept:
    """It is this, and then what was kept."""

    front: str

    def is_so(self, text, room):
        return text == self.front + room.kept


@dataclass(frozen=True)
class EndsKept:
    """It ends with what was kept."""

    def is_so(self, text, room):
        return bool(room.kept) and text.endswith(room.kept)


# The tests.


class Test(NamedTuple):
    """What is done first, and cases, each of which goes on from there over files of its own."""

    before: tuple
    cases: tuple


def in_order(*tables):
    """The steps of all tables over the same files."""
    return Test((), (sum(tables, ()),))


def apart(before, cases):
    """The steps of each case over files of its own, behind those that come before."""
    return Test(before, cases)
