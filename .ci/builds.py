"""How the script `hypergammon` builds and packs the program, in a small checkout where stand-ins for the toolchain prove nothing."""

import os
import pathlib
import shutil
import signal
import subprocess
import sys
import tarfile
import time

from tally import TOP, run

# By their names beside `rt`. The prover notes each crate that it is asked to prove, and the linker makes a program that tells how often one was built.
STAND_INS = {
    "rt": "#!/bin/sh\nexec echo a stand-in\n",
    "rattle": """#!/bin/sh
for made; do :; done
echo "$3" >>"{top}/proofs"
sleep 0.5
[ ! -e "{top}/waits" ] || sleep 20
[ ! -e "{top}/fails" ] || exec false
mkdir -p "$made"
""",
    "rattle-link": """#!/bin/sh
echo build >>"{top}/builds"
printf '#!/bin/sh\\nexec wc -l <"{top}/builds"\\n' >"$6" && chmod +x "$6"
""",
}
CRATES = "low:\nhyper_app: low\nbeside: low\n"
# Who commits, and when.
NOON = 946728000
NAMED = {"NAME": "Nobody", "EMAIL": "nobody@localhost", "DATE": f"{NOON} +0000"}
# What belongs into a package beside the program.
PACKED = ("hypergammon", "docs/help.txt", "docs/help/show.txt", "completions/hypergammon.bash", "README.md", "LICENSE-MIT", "LICENSE-APACHE", "NOTICE")


class Checkout:
    """A checkout of three crates, one of which the program doesn't stand on."""

    def __init__(self, top):
        self.top = top
        for name in ("low", "hyper_app", "beside"):
            for part in ("src", "specs", "proofs"):
                (top / "crates" / name / part).mkdir(parents=True)
            self.source(name).write_text(f"// {name}\n", encoding="utf-8")
        (top / "crates.txt").write_text(CRATES, encoding="utf-8")
        (top / "HANDLES").write_text("Handles allowed: none.\n", encoding="utf-8")
        (top / "scripts").mkdir()
        for name in ("hypergammon", "scripts/build"):
            shutil.copy(TOP / name, top / name)
        (top / "bin").mkdir()
        for name, text in STAND_INS.items():
            (top / "bin" / name).write_text(text.format(top=top), encoding="utf-8")
            (top / "bin" / name).chmod(0o755)

    def source(self, crate):
        return self.top / "crates" / crate / "src/main.rt"

    def surroundings(self, has_rt=True):
        here = str(pathlib.Path(sys.executable).parent)
        return {"PATH": os.pathsep.join(([str(self.top / "bin")] if has_rt else []) + [here, "/usr/bin", "/bin"])}

    def begin(self, has_rt=True):
        words = {"cwd": "/", "env": self.surroundings(has_rt), "stdin": subprocess.DEVNULL, "text": True}
        return subprocess.Popen([self.top / "hypergammon", "show"], stdout=subprocess.PIPE, stderr=subprocess.PIPE, **words)

    def call(self, has_rt=True):
        """The status of a call, how many builds its program tells of, and what standard error got."""
        called = self.begin(has_rt)
        output, told = called.communicate(timeout=60)
        return called.returncode, output.strip(), told

    def proofs(self):
        """The crates that were to be proved since it was asked last."""
        told = self.top / "proofs"
        names = told.read_text(encoding="utf-8").split() if told.exists() else []
        told.unlink(missing_ok=True)
        return names

    def left(self):
        """What a build left beside the program that it shouldn't."""
        return sorted(it.name for it in (self.top / "crates/hyper_app/out").glob("build-*"))


def first_calls(checkout):
    """Two first calls at the same time build once; a later one builds nothing, says nothing and compares no contents."""
    both = [checkout.begin() for _ in range(2)]
    ends = [(it.communicate(timeout=60)[0].strip(), it.returncode) for it in both]
    seen = checkout.top / "crates/hyper_app/out/hyper_app.seen"
    looked = seen.stat()
    yield ends == [("1", 0)] * 2 and checkout.call() == (0, "1", "") and not checkout.left()
    yield checkout.proofs() == ["low", "hyper_app"]
    # It is the same file; when it was read last is no matter.
    yield seen.stat().st_ino == looked.st_ino and seen.stat().st_mtime_ns == looked.st_mtime_ns


def touched(checkout):
    """A source that was only touched, or that the program isn't made of, builds nothing."""
    os.utime(checkout.source("low"))
    checkout.source("beside").write_text("// another text\n", encoding="utf-8")
    yield checkout.call() == (0, "1", "")


def changed(checkout):
    """A changed source builds, with the same time and length too, and proves what stands on it alone; without rt the old program runs, and that is said."""
    was = checkout.source("low").stat()
    checkout.source("low").write_text("// mow\n", encoding="utf-8")
    os.utime(checkout.source("low"), ns=(was.st_atime_ns, was.st_mtime_ns + 1))
    for _ in range(2):
        status, output, told = checkout.call(has_rt=False)
        yield (status, output) == (0, "1") and "of other sources" in told
    yield checkout.call()[:2] == (0, "2") and checkout.proofs() == ["low", "hyper_app"]
    checkout.source("hyper_app").write_text("// the program anew\n", encoding="utf-8")
    yield checkout.call()[:2] == (0, "3") and checkout.proofs() == ["hyper_app"]


def came_and_went(checkout):
    """A source that comes builds, one that goes too, and an older folder of sources that takes another's place."""
    sources = checkout.source("low").parent
    shutil.copytree(sources, checkout.top / "older")
    (checkout.top / "older/main.rt").write_text("// a fourth text\n", encoding="utf-8")
    (sources / "more.rt").write_text("// more\n", encoding="utf-8")
    yield checkout.call()[:2] == (0, "4")
    (sources / "more.rt").unlink()
    yield checkout.call()[:2] == (0, "5")
    sources.rename(checkout.top / "newer")
    (checkout.top / "older").rename(sources)
    yield checkout.call()[:2] == (0, "6")


def failing(checkout):
    """Of a build that fails the status is 70, and which crate isn't proved is told."""
    checkout.source("low").write_text("// a third text\n", encoding="utf-8")
    (checkout.top / "fails").touch()
    status, output, told = checkout.call()
    yield (status, output) == (70, "") and "low isn't proved" in told
    (checkout.top / "fails").unlink()


def stopped(checkout):
    """A call that is stopped while it builds leaves nothing running and no folder, and the next one builds."""
    (checkout.top / "waits").touch()
    checkout.proofs()
    called = checkout.begin()
    while not (checkout.top / "proofs").exists():
        time.sleep(0.1)
    called.send_signal(signal.SIGTERM)
    called.communicate(timeout=60)
    yield called.returncode == -signal.SIGTERM and not checkout.left()
    yield not run(["pgrep", "-f", checkout.top / "bin/rattle"], "/").output
    checkout.proofs()
    # A second signal of another kind may follow at once.
    with subprocess.Popen([checkout.top / "scripts/build"], env=checkout.surroundings(), stderr=subprocess.DEVNULL) as build:
        while not (checkout.top / "proofs").exists():
            time.sleep(0.1)
        build.send_signal(signal.SIGINT)
        build.send_signal(signal.SIGHUP)
    yield build.returncode == 70 and not checkout.left()
    (checkout.top / "waits").unlink()
    yield checkout.call()[:2] == (0, "7")


def commit(checkout, changes):
    """Commits all of the checkout with this text of its changes."""
    for name in (*PACKED, ".gitignore", "scripts/package"):
        (checkout.top / name).parent.mkdir(parents=True, exist_ok=True)
        shutil.copy(TOP / name, checkout.top / name)
    (checkout.top / "CHANGELOG.md").write_text(changes, encoding="utf-8")
    who = {f"GIT_{it}_{key}": value for it in ("AUTHOR", "COMMITTER") for key, value in NAMED.items()}
    for words in (["init", "-q"], ["add", "-A"], ["commit", "-qm", "All"]):
        subprocess.run(["git", *words], cwd=checkout.top, env={**checkout.surroundings(), **who}, check=True)


def packed(checkout):
    """The same commit makes the same package in any folder, whose script runs the program; in it, and of changes, none is made."""
    commit(checkout, "# Changes\n\n## Not released\n\n## 1.0.0\n")
    made, name = [], "hypergammon-1.0.0"
    for folder in (checkout.top / "made", checkout.top / "made/anew"):
        folder.mkdir()
        ran = run([checkout.top / "hypergammon", "package"], folder, environment=checkout.surroundings())
        archives = [it.name for it in folder.iterdir() if it.is_file()]
        yield ran.status == 0 and archives == [f"{name}-x86_64-linux.tar.gz"] and archives[0].encode() in ran.output
        made.append((folder / archives[0]).read_bytes())
    yield made[0] == made[1]
    with tarfile.open(folder / archives[0]) as archive:
        held = {it.name.partition("/")[2] for it in archive if it.isfile()}
        marks = {(it.mtime, it.uid, it.uname) for it in archive}
        archive.extractall(folder)
    yield held == {*PACKED, "CHANGELOG.md", "hyper_app", "hyper_app.of"} and marks == {(NOON, 0, "")}
    script, bare = folder / name / "hypergammon", {"PATH": "/usr/bin:/bin"}
    yield run([script, "show"], "/", environment=bare) == (0, f"{checkout.call()[1]}\n".encode(), b"")
    yield run([script, "--version"], "/", environment=bare).output.startswith(b"hypergammon 1.0.0\ncommit ")
    yield run([script, "package"], folder, environment=bare).status == 70
    (checkout.top / "README.md").write_text("Another text\n", encoding="utf-8")
    ran = run([checkout.top / "hypergammon", "package"], folder, environment=checkout.surroundings())
    yield ran.status == 70 and b"README.md" in ran.told and (folder / archives[0]).read_bytes() == made[0]


def try_builds(tally, folder):
    folder.mkdir()
    checkout = Checkout(folder)
    for part in (first_calls, touched, changed, came_and_went, failing, stopped, packed):
        with tally.going_on(part.__name__):
            wrong = [number for number, holds in enumerate(part(checkout), 1) if not holds]
            tally.note(f"builds: {part.__name__}", [f"{part.__doc__} Not so: {wrong}"] if wrong else [])
