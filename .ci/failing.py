"""The library of failing_calls.c, which makes calls of the program fail."""

import pathlib
import shutil
import subprocess


def compilers():
    """Compilers of C by which the library can be made, the first that is there being taken."""
    yield ["cc"]
    yield ["clang"]
    kit = shutil.which("rt")
    if kit:
        yield [str(pathlib.Path(kit).resolve().parent.parent / "toolchain/bin/clang"), "-fuse-ld=lld"]


def library(folder):
    """Compiles the library."""
    source, made = pathlib.Path(__file__).resolve().parent / "failing_calls.c", folder / "failing_calls.so"
    for compiler in compilers():
        words = [*compiler, "-shared", "-fPIC", "-O1", "-nostdlib", "-o", made, source]
        if shutil.which(compiler[0]) and subprocess.run(words).returncode == 0:
            return made
    raise RuntimeError("no compiler of C made a library of .ci/failing_calls.c")


def preloading(library, kind, call, how, many=0):
    """The environment that has the call of this kind and number fail, behind so many bytes."""
    failing = {"KIND": kind, "CALL": call, "HOW": how, "BYTES": many}
    return {"LD_PRELOAD": str(library), **{f"FAILING_{name}": str(value) for name, value in failing.items()}}
