"""What the scripts of the gate share: where the program stands, runs, what it writes over, a folder that goes away, and a tally."""

import collections
import contextlib
import pathlib
import re
import resource
import signal
import subprocess
import sys
import tempfile
import traceback
from typing import NamedTuple, Optional

TOP = pathlib.Path(__file__).resolve().parent.parent
SCRIPT = TOP / "hypergammon"
PROGRAM = TOP / "crates/hyper_app/out/hyper_app"
# After how long a run counts as one that doesn't end.
SECONDS = 1200
# With what the two kinds of files begin that the program writes.
BASE_START, RECORD_START = b"HYPGAMMN", b"hypergammon record 1\n"


def old_file(command):
    """What stands where this command is to write a file: it begins as that kind of file does, and is longer than any that is written here."""
    start = RECORD_START if command == "make" else BASE_START
    return start + b"what stood here before\n" * 5000


class Ran(NamedTuple):
    # None where the run didn't end.
    status: Optional[int]
    output: bytes
    # What standard error got.
    told: bytes


def run(words, folder, given=b"", environment=None):
    """Runs words in a folder with this standard input."""
    try:
        ran = subprocess.run(words, cwd=folder, input=given, capture_output=True, env=environment, timeout=SECONDS)
    except subprocess.TimeoutExpired:
        return Ran(None, b"", b"")
    return Ran(ran.returncode, ran.stdout, ran.stderr)


def has_note(status, told):
    """Whether standard error got what it is to get: a line without a control byte after a refusal, and else nothing."""
    return bool(re.fullmatch(rb"[ -~\x80-\xff]+\n", told)) if status else not told


class Tally:
    """Counts cases, and tells the failures and the counts at the end."""

    def __init__(self):
        self.passed = 0
        self.failures = []
        self.left_out = collections.Counter()

    def note(self, name, faults):
        """Counts a case, which passed if nothing was found wrong with it."""
        if not faults:
            self.passed += 1
            return
        self.failures.append(name)
        print(f"{name}:")
        for fault in faults:
            print("    " + fault.replace("\n", "\n    "), flush=True)

    def leave_out(self, name, reason):
        """Counts what isn't run, and tells why."""
        self.left_out[reason] += 1
        print(f"left out: {name}: {reason}", flush=True)

    @contextlib.contextmanager
    def going_on(self, name):
        """Counts as a failure what ends a part of the script before its end, and goes on behind that part."""
        try:
            yield
        except Exception:
            self.note(name, [traceback.format_exc()])

    def end(self):
        """Tells the names of the failures and the counts, and answers the status of the script."""
        for reason, times in self.left_out.items():
            print(f"left out, since {reason}: {times}")
        print(f"{processor_seconds():.0f} s of processor time")
        for name in self.failures:
            print(f"failed: {name}")
        print(f"{self.passed} passed, {len(self.failures)} failed")
        return 1 if self.failures or not self.passed else 0


def processor_seconds():
    """Seconds of processor time of this script and of all programs that it waited for."""
    spent = [resource.getrusage(who) for who in (resource.RUSAGE_SELF, resource.RUSAGE_CHILDREN)]
    return sum(it.ru_utime + it.ru_stime for it in spent)


def need_program():
    """Ends the script where the program isn't built of these sources."""
    if subprocess.run([TOP / "scripts/build", "--stands"], check=False).returncode:
        sys.exit("the program isn't built of these sources: scripts/build builds it")


@contextlib.contextmanager
def scratch():
    """A folder outside of the checkout, which goes away however the script ends."""
    for number in (signal.SIGTERM, signal.SIGHUP):
        signal.signal(number, lambda number, _: sys.exit(128 + number))
    with tempfile.TemporaryDirectory(prefix="hypergammon-") as folder:
        yield pathlib.Path(folder).resolve()
