"""What else a file may be than a plain one, and what others do to it while the program runs: pipes, links, limits, kills, other runs."""

import array
import collections
import contextlib
import fcntl
import os
import random
import re
import resource
import shutil
import signal
import stat
import subprocess
import termios
import threading
import time

import base_file
from mistakes import LEFT, TWO
from tally import BASE_START, PROGRAM, RECORD_START, SCRIPT, Ran, has_note, old_file, run

# After how many seconds a run of these small games counts as one that doesn't end.
LIMIT = 20
KINDS = len(base_file.KINDS)
# Two files of bounds of the same length, whose heads and bounds differ, by their rounds.
ROUNDS = {"four.base": 4, "five.base": 5}
FOUR, FIVE = ROUNDS
RECORD = "game.rec"
POSITION = "24 / 24"
READ_REFUSED = Ran(6, b"refused 6 read\n", b"")
WRITE_REFUSED = Ran(7, b"refused 7 write\n", b"")
OTHER_REFUSED = Ran(13, b"refused 13 other kept\n", b"")
# What is no file of bounds, and what is no record.
NO_BASES = (b"\0", b"H", BASE_START[:-1], b"hYPGAMMN" * 3, b" " + BASE_START, RECORD_START, b"a note\n" * 5000)
NO_RECORDS = (b"\n", b"h", RECORD_START[:-1], b"hypergammon record 2\n", b"\n" + RECORD_START, BASE_START * 10, b"a note\n" * 5000)
# More than is read of what is no file.
TOO_MUCH = (4 << 20) + 1
# The bytes that a file may have where the system lets it have no more. All files that are written here have more.
MOST_BYTES = 4000
# Seconds that at most lie between two changes of a file.
LONGEST_PAUSE = 0.0005


def begin(words, folder, **how):
    """Starts the program."""
    how = {"stdin": subprocess.DEVNULL, "stdout": subprocess.PIPE, "stderr": subprocess.PIPE, **how}
    return subprocess.Popen([PROGRAM, *words], cwd=folder, **how)


def end(running, given=None):
    """What comes of a run, which is killed where it doesn't end; without the note on a refusal, where that is one."""
    try:
        output, told = running.communicate(given, timeout=LIMIT)
    except subprocess.TimeoutExpired:
        running.kill()
        running.communicate()
        return Ran(None, b"", b"")
    return Ran(running.returncode, output, b"" if has_note(running.returncode, told) else told)


def ask(words, folder, given=None, **how):
    """Runs the program, and where something is given, with a pipe as standard input."""
    if given is not None:
        how["stdin"] = subprocess.PIPE
    return end(begin(words, folder, **how), given)


def wait_while(holds):
    """Waits as long as it holds, but no longer than a run may take."""
    until = time.monotonic() + LIMIT
    while holds() and time.monotonic() < until:
        time.sleep(0)


def solve(name, rounds):
    return ("solve", name, "--checkers", "1", "--rounds", str(rounds))


def writings(name):
    """The commands that write one file, here under this name."""
    return (solve(name, 2), ("make", "7", "60", name), ("migrate", FOUR, name))


def held(folder):
    """What the files of a folder hold."""
    return {it.name: it.read_bytes() for it in folder.iterdir() if it.is_file()}


def left_aside(folder):
    """What runs wrote aside of their files and left."""
    return sorted(it.name for it in folder.iterdir() if ".part" in it.name)


def differences(what, found, due):
    what = " ".join(what) if isinstance(what, tuple) else what
    return [] if found == due else [f"{what}: {shortened(found)}, due is {shortened(due)}"]


def shortened(found):
    text = str(found)
    return text if len(text) <= 200 else f"{text[:100]} .. {text[-100:]}"


class Room:
    """Folders, each with the two files of bounds and a record."""

    def __init__(self, folder):
        self.folder, self.made = folder, folder / "made"
        self.made.mkdir(parents=True)
        for words in (solve(FOUR, ROUNDS[FOUR]), solve(FIVE, ROUNDS[FIVE]), ("make", "7", "40", RECORD)):
            ran = ask(words, self.made)
            if ran.status != 0:
                raise RuntimeError(f"{words} ended with {ran}")
        self.texts = held(self.made)

    def new(self, name):
        """A new folder of this name."""
        return shutil.copytree(self.made, self.folder / name)


@contextlib.contextmanager
def feeding(name, fifo, folder):
    """A FIFO into which a file's text is written once somebody opens it."""
    os.mkfifo(folder / fifo)
    feeder = subprocess.Popen(["sh", "-c", 'exec cat "$0" >"$1"', name, fifo], cwd=folder, stderr=subprocess.DEVNULL)
    try:
        yield
    finally:
        feeder.kill()
        feeder.wait()
        os.unlink(folder / fifo)


def given_by(words, name, folder):
    """What comes of words where a file is given as it stands, then by a pipe, and then by a FIFO."""
    yield ask(words, folder)
    yield ask([it.replace(name, "/dev/stdin") for it in words], folder, (folder / name).read_bytes())
    with feeding(name, "fifo", folder):
        yield ask([it.replace(name, "fifo") for it in words], folder)


def pipes(room):
    """A record and a file of bounds from a pipe or a FIFO are answered as from their files; more than 4 MB is refused."""
    folder = room.new("pipes")
    (folder / "long.rec").write_bytes(room.texts[RECORD] * 300)
    for name, words, status in (
        (RECORD, ("analyse", FOUR, RECORD), 0),
        (RECORD, ("study", RECORD, "--rounds", "2"), 0),
        ("long.rec", ("study", "long.rec", "--rounds", "2"), 5),
        (FOUR, ("show", FOUR, POSITION), 0),
        (FOUR, ("verify", FOUR), 0),
    ):
        file, pipe, fifo = given_by(words, name, folder)
        yield from differences(words, file.status, status)
        yield from differences((*words, "by a pipe"), pipe, file)
        yield from differences((*words, "by a FIFO"), fifo, file)
    for words in (("analyse", FOUR, "/dev/stdin"), ("study", "/dev/stdin", "--rounds", "2")):
        yield from differences((*words, "of too much"), ask(words, folder, bytes(TOO_MUCH)), READ_REFUSED)


def lists(room):
    """A list from a pipe, which the script calls -, is answered as from its file."""
    folder, lines = room.new("lists"), f"{POSITION}\nx\n".encode()
    (folder / "list").write_bytes(lines)
    due = run([PROGRAM, "show", FOUR, "--positions", "list"], folder)
    yield from differences("a list", due.status, 0)
    for words in ((FOUR, "--positions", "-"), ("--positions=-", FOUR), (FOUR, "--positions", "/dev/stdin")):
        yield from differences(words, run([SCRIPT, "show", *words], folder, lines), due)
    yield from differences("a file -", run([SCRIPT, "show", "-", POSITION], folder).status, 1)


def unread(pipe):
    """How many bytes stand in a pipe."""
    count = array.array("i", [0])
    fcntl.ioctl(pipe, termios.FIONREAD, count)
    return count[0]


def give_slowly(running, pieces):
    """Writes each piece once the one before it was read, as long as the run goes on."""
    pipe = running.stdin.fileno()
    for piece in pieces:
        os.write(pipe, piece)
        wait_while(lambda: unread(pipe) and running.poll() is None)
        if unread(pipe):
            return


def small_pieces(room):
    """A record that comes by a pipe in some 2,000 pieces is answered as from its file."""
    folder, text = room.new("small_pieces"), room.texts[RECORD]
    running = begin(("analyse", FOUR, "/dev/stdin"), folder, stdin=subprocess.PIPE)
    with contextlib.suppress(BrokenPipeError):
        give_slowly(running, [text[place : place + 2] for place in range(0, len(text), 2)])
    yield from differences("analyse", end(running), ask(("analyse", FOUR, RECORD), folder))


def no_files(room):
    """A FIFO or a folder that stands where a file is to be written is refused, and stays."""
    folder = room.new("no_files")
    for name, make, is_one in (("fifo", os.mkfifo, stat.S_ISFIFO), ("folder", os.mkdir, stat.S_ISDIR)):
        make(folder / name)
        before = sorted(os.listdir(folder))
        for words in writings(name):
            yield from differences(words, ask(words, folder), WRITE_REFUSED)
            yield from differences((*words, "leaves"), sorted(os.listdir(folder)), before)
            yield from differences((*words, "keeps what it is"), is_one((folder / name).lstat().st_mode), True)


def other_kinds(room):
    """What stands where a file of another kind is to be written is refused before any work, and stays. An empty file may be of any kind."""
    folder = room.new("other_kinds")
    kept = folder / "kept"
    # There is no file to be migrated, and no time for this game.
    early = (("migrate", "none", "kept"), ("solve", "kept", "--rounds", "64"))
    for words in (*writings("kept"), *early):
        for text in NO_RECORDS if words[0] == "make" else NO_BASES:
            kept.write_bytes(text)
            before = held(folder)
            yield from differences((*words, f"over {text[:30]}"), ask(words, folder), OTHER_REFUSED)
            yield from differences((*words, f"over {text[:30]}", "changes nothing"), held(folder) == before, True)
    for words in writings("kept"):
        kept.write_bytes(b"")
        yield from differences((*words, "over an empty file"), ask(words, folder).status, 0)
        yield from differences((*words, "writes it"), kept.stat().st_size > MOST_BYTES, True)
        yield from differences((*words, "over its own file"), ask(words, folder).status, 0)


def refused_files(room):
    """Where the file to be migrated is refused, or isn't there, what stands under the new name stays."""
    folder, old = room.new("refused_files"), old_file("migrate")
    (folder / "old").write_bytes(old)
    (folder / "short").write_bytes(room.texts[FOUR][:-1])
    tighter = base_file.with_tighter_bound(room.texts[FOUR], ((24,), (24,)), "centred")
    (folder / "tighter").write_bytes(base_file.as_version_two(tighter, KINDS))
    for name, status in (("none", 3), ("short", 4), (RECORD, 4), ("tighter", 9)):
        words = ("migrate", name, "old")
        yield from differences(words, ask(words, folder).status, status)
        yield from differences((*words, "keeps the file"), (folder / "old").read_bytes() == old, True)
    yield from differences("left aside", left_aside(folder), [])


def one_file(room):
    """`migrate` of a file to another name of it leaves a whole new one."""
    folder, words = room.new("one_file"), ("migrate", FOUR, f"./{FOUR}")
    for older in (base_file.as_version_one, base_file.as_version_two):
        (folder / FOUR).write_bytes(older(room.texts[FOUR], KINDS))
        refused = Ran(4, b"refused 4 file version 8\n", b"")
        yield from differences(("show", FOUR, older.__name__), ask(("show", FOUR, POSITION), folder), refused)
        yield from differences((*words, older.__name__), ask(words, folder).status, 0)
        yield from differences("it is whole", (folder / FOUR).read_bytes() == room.texts[FOUR], True)
        yield from differences("verify", ask(("verify", FOUR), folder).status, 0)
    yield from differences("left aside", left_aside(folder), [])


def links(room):
    """A link's name gets a whole file of its own, and what is behind the link stays as it was."""
    folder, old = room.new("links"), base_file.as_version_one(room.texts[FOUR], KINDS)
    behind, link = folder / "behind", folder / "link"
    for make in (os.symlink, os.link):
        for read, due in ((FIVE, room.texts[FIVE]), ("behind", room.texts[FOUR])):
            behind.write_bytes(old)
            make(behind, link)
            words = ("migrate", read, "link")
            yield from differences((*words, make.__name__), ask(words, folder).status, 0)
            yield from differences((*words, make.__name__, "is whole"), link.read_bytes() == due, True)
            yield from differences((*words, make.__name__, "is still a link"), link.is_symlink(), False)
            yield from differences((*words, make.__name__, "keeps what is behind"), behind.read_bytes() == old, True)
            link.unlink()
    yield from differences("left aside", left_aside(folder), [])


def write_at_most(size, is_refused):
    """Has the system let a file have so many bytes: a write that would add more is refused, or ends the run."""
    resource.setrlimit(resource.RLIMIT_CORE, (0, 0))
    resource.setrlimit(resource.RLIMIT_FSIZE, (size, size))
    signal.signal(signal.SIGXFSZ, signal.SIG_IGN if is_refused else signal.SIG_DFL)


def limits(room):
    """Where not all can be written, that is refused, all files are as they were, and nothing is left aside."""
    folder = room.new("limits")
    for words in (*writings("old"), *writings("new"), ("migrate", FOUR, f"./{FOUR}")):
        (folder / "old").write_bytes(old_file(words[0]))
        before = held(folder)
        yield from differences(words, ask(words, folder, preexec_fn=lambda: write_at_most(MOST_BYTES, True)), WRITE_REFUSED)
        after = held(folder)
        changed = sorted(it for it in before.keys() | after.keys() if before.get(it) != after.get(it))
        yield from differences((*words, "changes"), changed, [])


def ended_runs(room):
    """Where a run is ended after some bytes, the old file is as it was, and a later run writes it."""
    folder = room.new("ended_runs")
    for words in writings("old"):
        old = old_file(words[0])
        (folder / "old").write_bytes(old)
        for size in range(0, MOST_BYTES, MOST_BYTES // 4):
            ran = ask(words, folder, preexec_fn=lambda: write_at_most(size, False))
            yield from differences((*words, f"ended after {size} bytes"), ran.status, -signal.SIGXFSZ)
            yield from differences((*words, "keeps the file"), (folder / "old").read_bytes() == old, True)
    yield from differences("a later run", ask(solve("old", ROUNDS[FOUR]), folder).status, 0)
    yield from differences("its file is whole", (folder / "old").read_bytes() == room.texts[FOUR], True)


def lengths(folder):
    """The files of a folder with their lengths, and None where one goes away meanwhile."""
    try:
        return {it.name: it.stat().st_size for it in os.scandir(folder)}
    except FileNotFoundError:
        return None


def begin_to_write(words, folder):
    """Starts the program, and waits until it is seen to write or has ended."""
    before = lengths(folder)
    running = begin(words, folder)
    wait_while(lambda: running.poll() is None and lengths(folder) == before)
    return running


def begin_and_wait(words, folder, seconds):
    """Starts the program, and waits."""
    running = begin(words, folder)
    time.sleep(seconds)
    return running


def name_of(found, due):
    """The name of what was found, where it is one of those that are due."""
    return next((name for name, text in due.items() if text == found), "another")


def kills(room, times):
    """Kills `solve` over an old file so many times: by turns at moments spread over its run, and as soon as it writes.

    Counts what the file then was, and how many runs were killed before their end.
    """
    folder, words, counts = room.new("kills"), solve("old", ROUNDS[FOUR]), collections.Counter(killed=0)
    old = old_file("solve")
    began = time.monotonic()
    ask(words, folder)
    lasts = time.monotonic() - began
    for number in range(times):
        (folder / "old").write_bytes(old)
        running = begin_to_write(words, folder) if number % 2 else begin_and_wait(words, folder, lasts * number / times)
        running.kill()
        counts["killed"] += end(running).status == -signal.SIGKILL
        counts[name_of((folder / "old").read_bytes(), {"old": old, "new": room.texts[FOUR]})] += 1
    return counts


def killed_runs(room):
    """Where a run is killed at any moment, the file is the old one or the new one."""
    counts = kills(room, 20)
    yield from differences("files that are neither", counts["another"], 0)
    yield from differences("some runs were killed before their end", counts["killed"] > 0, True)


def together(words, others, folder, is_stopped):
    """Runs two commands at the same time, or one while the other stands still as it writes, and answers their ends."""
    if not is_stopped:
        return [end(it) for it in [begin(words, folder), begin(others, folder)]]
    running = begin_to_write(words, folder)
    running.send_signal(signal.SIGSTOP)
    try:
        ran = ask(others, folder)
    finally:
        running.send_signal(signal.SIGCONT)
    return [end(running), ran]


def pairs(room, times):
    """Has two `solve` write the two files under one name, so many times. Counts what the file was, and what failed or was left aside."""
    folder, counts = room.new("pairs"), collections.Counter(failed=0)
    for number in range(times):
        ran = together(solve("both", ROUNDS[FOUR]), solve("both", ROUNDS[FIVE]), folder, number % 2 == 1)
        counts["failed"] += sum(it.status != 0 for it in ran)
        counts[name_of((folder / "both").read_bytes(), {it: room.texts[it] for it in ROUNDS})] += 1
    counts["left aside"] = len(left_aside(folder))
    return counts


def paired_runs(room):
    """Two runs that write under one name at the same time end well, and the file is that of one of both."""
    counts = pairs(room, 30)
    for name in ("failed", "another", "left aside"):
        yield from differences(name, counts[name], 0)


def replace(file, name):
    """Has a copy of a file take the place of another."""
    shutil.copyfile(file, name.with_name("next"))
    os.replace(name.with_name("next"), name)


def copy_over(file, name):
    """Writes a file's text into another."""
    shutil.copyfile(file, name)


class Changing(threading.Thread):
    """Has a file be the one and the other of the two in turn, until it is to end."""

    def __init__(self, folder, change):
        super().__init__(daemon=True)
        self.folder, self.change, self.times, self.has_to_end = folder, change, 0, False

    def run(self):
        while not self.has_to_end:
            name = (FIVE, FOUR)[self.times % 2]
            self.change(self.folder / name, self.folder / "shown")
            self.times += 1
            time.sleep(random.uniform(0, LONGEST_PAUSE))


def answers_beside(room, change, times, answers):
    """Counts what `show` answers of a file that is changed meanwhile at least so many times, in at least so many answers."""
    folder = room.new(change.__name__)
    due = {it: ask(("show", it, POSITION), folder) for it in ROUNDS}
    shutil.copyfile(folder / FOUR, folder / "shown")
    changing, counts = Changing(folder, change), collections.Counter()
    changing.start()
    while changing.is_alive() and (changing.times < times or sum(counts.values()) < answers):
        ran = ask(("show", "shown", POSITION), folder)
        refused = re.match(rb"refused \d+( [a-z-]+)*", ran.output)
        counts[refused[0].decode() if refused else name_of(ran, due)] += 1
    changing.has_to_end = True
    changing.join()
    counts["changes"] = changing.times
    return counts


def changing_files(room):
    """What is shown of a file whose place another takes meanwhile is all of the one or all of the other."""
    counts = answers_beside(room, replace, 200, 300)
    yield from differences("answers", sorted(counts.keys() - {"changes"}), sorted(ROUNDS))
    yield from differences("it was replaced often enough", counts["changes"] >= 200, True)


def workers(room):
    """Each worker of a command has a thread of its own, one of them that in which the command began."""
    folder = room.new("workers")
    ask(("solve", "two.base", "--checkers", "2", "--rounds", "1"), folder)
    (folder / "two.rec").write_bytes(TWO + LEFT)
    of_two, twice = ("--checkers", "2"), ("--rounds", "2")
    solved = (("solve", "new", *of_two, *twice), ("ladder", "new", "--length", "1", *of_two, *twice), ("study", "two.rec", *twice))
    for words in (*solved, ("verify", "two.base")):
        running, most = begin((*words, "--workers", "5"), folder), 0
        while running.poll() is None:
            with contextlib.suppress(FileNotFoundError):
                most = max(most, len(os.listdir(f"/proc/{running.pid}/task")))
        yield from differences(words, end(running).status, 0)
        yield from differences((*words, "has so many threads"), most, 5)


PARTS = (pipes, lists, small_pieces, no_files, other_kinds, refused_files, one_file, links, limits, ended_runs, killed_runs, paired_runs)
PARTS += (changing_files, workers)


def try_outside(tally, folder):
    room = Room(folder)
    for part in PARTS:
        with tally.going_on(part.__name__):
            faults = list(part(room))
            tally.note(f"outside: {part.__name__}", [part.__doc__, *faults] if faults else [])
