"""Files of bounds of one checker with a flaw in each of their parts, and words that are too tight."""

import base_file
from base_file import CUBELESS, DIGEST, HEAD, MATCH, POINT
from tally import PROGRAM, run

# How many bytes the files of one checker have that are made here, without a cube and of a match with six kinds.
LENGTH, MATCH_LENGTH = 6138, 36_208
POSITIONS = 601
# Where the page of a file without starts begins, and where its digest stands.
PAGE, PAGE_DIGEST = HEAD + DIGEST, LENGTH - DIGEST

# Each field of two heads in turn gets a number, which is wrong there, and what is told.
WRONG_FIELDS = (
    (MATCH, 0, 4, "version 8"),
    (MATCH, 0, 0, "version 8"),
    (MATCH, 1, 0, "head 12"),
    (MATCH, 1, 4, "head 12"),
    (MATCH, 2, 6, "head 16"),
    (MATCH, 3, 0, "head 20"),
    (MATCH, 3, 6, "head 20"),
    (MATCH, 4, 1, "head 24"),
    (MATCH, 4, 6, "head 24"),
    (MATCH, 5, 1, "head 28"),
    (MATCH, 5, 3, "head 28"),
    (MATCH, 6, 0, "head 32"),
    (MATCH, 6, 1, "head 32"),
    (MATCH, 6, 6, "head 32"),
    (MATCH, 7, 4, "head 36"),
    (MATCH, 8, 0, "head 40"),
    (MATCH, 8, 4097, "head 40"),
    (MATCH, 9, 1, "head 44"),
    (CUBELESS, 3, 1, "head 20"),
    (CUBELESS, 4, 1, "head 24"),
    (CUBELESS, 5, 1, "head 28"),
    (CUBELESS, 6, 1, "head 32"),
    (CUBELESS, 7, 3, "head 36"),
    (CUBELESS, 9, 1, "head 44"),
)

# Fields, positions and a file's length, and what is told; the digest of the head comes behind all of them. The last two are money with beavers in
# versions 2 and 1.
SIZES = (
    (MATCH, POSITIONS, MATCH_LENGTH, "head-digest 84"),
    (CUBELESS, POSITIONS, LENGTH, "head-digest 64"),
    (CUBELESS, 600, LENGTH, "head 48"),
    (CUBELESS, POSITIONS, LENGTH - 1, "short 6137"),
    (CUBELESS, POSITIONS, LENGTH + 1, "long 6138"),
    (CUBELESS, POSITIONS, 9744, "long 6138"),
    (MATCH, POSITIONS, MATCH_LENGTH - 1, "short 36207"),
    (MATCH, POSITIONS, 57_856, "long 36208"),
    (MATCH, 602, 63, "short 63"),
    ((2, 1, 4, 0, 0, 0, 0, 3, 8, 0), POSITIONS, 18_158, "head-digest 64"),
    ((1, 1, 4, 0, 0, 0, 0, 3, 8, 0), POSITIONS, 28_976, "head 16"),
)

# The units of two pairs of starts: -0.5 to 0, and 0.25 exactly.
STARTS = (-POINT // 2, 0, POINT // 4, POINT // 4)

# Starts past one point, lower ends above their upper ones, and what is told; right ones come behind.
WRONG_STARTS = (
    ((2 * POINT, 0, *STARTS[2:]), "word 64"),
    ((-POINT // 2, -2 * POINT, *STARTS[2:]), "word 69"),
    ((0, -POINT // 2, *STARTS[2:]), "crossed 64"),
    ((-POINT // 2, 0, POINT // 4, 0), "crossed 74"),
)

# The units of the pair of `1 / 1` in a page with its digest, and what is told.
WRONG_PAIRS = (
    ((3 * POINT, -3 * POINT), f"crossed {PAGE}"),
    ((-3 * POINT, 3 * POINT + 1), f"word {PAGE + 5}"),
    ((-3 * POINT - 1, 3 * POINT), f"word {PAGE}"),
)

# From 6, 27 rolls of 36 win a gammon, and after the others the other side wins one from 1: a point. What both words of `6 / 1` have, and what is told.
NEAR = (
    (POINT, None),
    (POINT + 1, "9 inconsistent lower alone 4294967297 4294967296 6 / 1"),
    (POINT - 1, "9 inconsistent upper alone 4294967295 4294967296 6 / 1"),
)

CONSISTENT = "consistent checkers 1 stakes cubeless rounds 8 positions 601\n"

# What `plan` tells of the starts, which stand in a file in which nothing else is known.
PLANNED = {"1.1.p start -0.500000 0.000000", "1.2.c start 0.250000 0.250000"}


def of_cubeless(pairs, widest=3 * POINT):
    return base_file.of_one_checker(CUBELESS, pairs, widest)


def ask(words, text, folder, name="made.base"):
    """What is answered of a file with these bytes."""
    (folder / name).write_bytes(text)
    ran = run([PROGRAM, *words], folder)
    return ran.status, ran.output.decode()


def load_any(text, folder):
    """What is answered by the one command that reads all versions."""
    return ask(("migrate", "made.base", "new.base"), text, folder)


def load(text, folder):
    """What is answered by a command that loads a file of the latest version."""
    return ask(("scan", "made.base", "kind=1"), text, folder)


def differences(found, due):
    return [] if found == due else [f"answer {found}, due is {due}"]


def refusal(line):
    return int(line.split()[0]), f"refused {line}\n"


def fault(line):
    return refusal(f"4 file {line}")


def try_heads(tally, folder):
    for fields, place, number, line in WRONG_FIELDS:
        changed = (*fields[:place], number, *fields[place + 1 :])
        text = base_file.header(changed, POSITIONS).ljust(MATCH_LENGTH, b"\0")
        tally.note(f"a head with {number} in field {place}", differences(load_any(text, folder), fault(line)))
    for fields, positions, length, line in SIZES:
        text = base_file.header(fields, positions).ljust(length, b"\0")[:length]
        tally.note(f"a file of {length} bytes with {fields}", differences(load_any(text, folder), fault(line)))


def try_starts(tally, folder):
    for starts, line in WRONG_STARTS:
        text = base_file.front(MATCH, starts).ljust(MATCH_LENGTH, b"\0")
        tally.note(f"a front with {starts}", differences(load_any(text, folder), fault(line)))
    text = bytearray(base_file.of_one_checker(MATCH, {}, POINT, STARTS))
    answer = ask(("plan", "made", "--length", "2"), text, folder, "made.2.2.n")
    found = {line for line in answer[1].splitlines() if " start " in line and not line.startswith("2.2.n")}
    tally.note("the starts in a front", differences((answer[0], found), (0, PLANNED)))
    text[HEAD + 2 * base_file.PAIR + DIGEST - 1] ^= 1
    tally.note("another digest of a front", differences(load_any(text, folder), fault("head-digest 84")))


def told_of(at):
    """What is told where the byte at this place is another one."""
    if at < 8:
        return "magic 0"
    if at < 12:
        return "version 8"
    # The rounds may have other numbers, which the digest tells.
    if at == 43 or HEAD <= at < PAGE:
        return f"head-digest {HEAD}"
    if at < HEAD:
        return f"head {at // 4 * 4 if at < 48 else at // 8 * 8}"
    return f"page-digest {PAGE_DIGEST}"


def try_bytes(tally, folder):
    """Each byte of the front, and some of the page and its digest."""
    right = of_cubeless({}, POINT)
    for at in (*range(PAGE), *range(PAGE, LENGTH, 53), LENGTH - 1):
        for bits in (0x80, 0xC0):
            text = bytearray(right)
            text[at] ^= bits
            tally.note(f"bits {bits} of byte {at}", differences(load(text, folder), fault(told_of(at))))


def try_lengths(tally, folder):
    right = of_cubeless({}, POINT)
    for length in (0, 63, 64, 95, 96, 5000, LENGTH - 1):
        tally.note(f"{length} bytes", differences(load(right[:length], folder), fault(f"short {length}")))
    tally.note("a byte too many", differences(load(right + b"\0", folder), fault(f"long {LENGTH}")))


def try_pairs(tally, folder):
    for pair, line in WRONG_PAIRS:
        tally.note(f"the pair {pair}", differences(load(of_cubeless({0: pair}), folder), fault(line)))
    for units, line in NEAR:
        text = of_cubeless({rank: (2 * POINT, 2 * POINT) for rank in range(5)} | {120: (units, units)})
        for workers in ("1", "3"):
            found = ask(("verify", "made.base", "--workers", workers), text, folder)
            tally.note(f"{workers} workers find {units}", differences(found, refusal(line) if line else (0, CONSISTENT)))


def try_damaged_files(tally, folder):
    for part in (try_heads, try_starts, try_bytes, try_lengths, try_pairs):
        part(tally, folder)
