"""What `analyse` tells of the decisions that lost most: what was best as `advise` has it, and each position's board; and the page
that results/page makes of a record, which has these decisions, each with its board, and no other."""

import decimal
from xml.etree import ElementTree

from imports import IMPORT, MATCHES
from tally import SCRIPT, TOP, run

PAGE = TOP / "results/page"
WORST = "7"
# What exports are played for, and the files of their games.
EXPORTS = (("match.mat", (), "m"), ("three.mat", ("--stakes", "jacoby"), "three.base"))


# What the page says for what is best of the cube.
SAID = {"-": "no move", "double": "to double", "no-double": "to roll on", "take": "to take", "pass": "to pass", "beaver": "to beaver"}


def told(best):
    return f"Best was {SAID.get(best, best)}, which gives"


def text_of(element):
    return " ".join("".join(element.itertext()).split())


def faults_of_page(text, analysis):
    """What a page lacks of the lines of `analyse`."""
    *decisions, of_a, of_b = analysis.decode().splitlines()
    page = ElementTree.fromstring(text)
    articles = list(page.iter("article"))
    boards = [len(list(it.iter("{http://www.w3.org/2000/svg}svg"))) for it in articles]
    if boards != [1] * len(decisions):
        yield f"the boards of the decisions are {boards}, due is one of each of {len(decisions)}"
    names = [it.get("id") for it in page.iter() if it.get("id")]
    if len(set(names)) != len(names):
        yield f"two parts have a name of {names}"
    for article, decision in zip(map(text_of, articles), decisions):
        game, line, _, _, position, *_, low, up, best, least, most = decision.split("\t")
        due = (f"Game {game}, line {line} of the record", position, f"{low} to {up}", told(best), f"{least} to {most}")
        yield from (f"'{it}' isn't told of {decision}" for it in due if it not in article)
    totals = [" ".join(map(text_of, row)) for row in page.iterfind(".//section//tbody/tr")]
    due = [line.replace("decisions ", "").replace("loss ", "") for line in (of_a, of_b)]
    if totals != due:
        yield f"the totals are {totals}, due are {due}"


def best_advised(what, report):
    """What `advise` has as best, with its pair: a double as it is answered best."""
    if what == "play":
        _, least, most, best = report[2].split(" ", 3)
        return best, least, most
    words = dict(line.split(" ", 1) for line in report[2:])
    best = words[what].split(" ")[0]
    if what == "answer":
        return best, *words[f"double-{best}"].split(" ")
    if best == "no-double":
        return best, *words[best].split(" ")
    ends = [map(decimal.Decimal, pair.split(" ")) for name, pair in words.items() if name.startswith("double-")]
    return best, *(str(min(end)) for end in zip(*ends))


def faults_of_best(base, decisions, folder):
    """Where what was best differs from what `advise` tells."""
    for decision in decisions:
        _, _, _, what, position, kind, score, roll, *_, best, least, most = decision.split("\t")
        file = base if score == "-" else f"{base}.{score}"
        rolled = [] if roll == "-" else ["--roll", roll]
        ran = run([SCRIPT, "advise", file, position, "--kind", kind, *rolled], folder)
        due = best_advised(what, ran.output.decode().splitlines())
        if (best, least, most) != due:
            yield f"best is {best, least, most} of {decision}, due is {due}"


def faults_of_boards(words, analysis, folder):
    """Where `--board` doesn't put the board of each position before its line."""
    *decisions, of_a, of_b = analysis.decode().splitlines(keepends=True)
    drawn = [run([SCRIPT, "board", line.split("\t")[4]], folder).output.decode() for line in decisions]
    due = "".join(it for pair in zip(drawn, decisions) for it in pair) + of_a + of_b
    got = run([*words, "--board"], folder).output.decode()
    if got != due:
        yield f"with boards it puts {got!r}, due is {due!r}"


def try_decision_pages(tally, folder):
    for export, options, base in EXPORTS:
        (folder / "paged.rec").write_bytes(run([IMPORT, *options, MATCHES / export], folder).output)
        words = [SCRIPT, "analyse", base, "paged.rec", "--worst", WORST]
        analysis = run(words, folder)
        tally.note(f"best of {export}", list(faults_of_best(base, analysis.output.decode().splitlines()[:-2], folder)))
        tally.note(f"boards of {export}", list(faults_of_boards(words, analysis.output, folder)))
        ran = run([PAGE, "paged.rec", base, "--worst", WORST], folder)
        faults = [] if ran == (0, b"", b"") else [f"it ends with {ran}"]
        text = (folder / "paged.html").read_bytes() if not faults else b""
        tally.note(f"page of {export}", faults or list(faults_of_page(text, analysis.output)))
    try_refused_pages(tally, folder)


def try_refused_pages(tally, folder):
    """What isn't right leaves no page, and what isn't a page stays."""
    (folder / "wrong.rec").write_bytes((folder / "paged.rec").read_bytes().replace(b"game 1", b"game 2", 1))
    refused = run([SCRIPT, "analyse", "three.base", "wrong.rec", "--worst", WORST], folder)
    ran = run([PAGE, "wrong.rec", "three.base", "--worst", WORST], folder)
    faults = [] if ran == (5, b"", refused.told) else [f"it ends with {ran}, due is what {refused} tells"]
    tally.note("page of a wrong record", faults + ["it is there"] * (folder / "wrong.html").exists())
    before = (folder / "paged.rec").read_bytes()
    ran = run([PAGE, "paged.rec", "three.base", "--out", "paged.rec"], folder)
    due = (1, b"", b"page: paged.rec isn't a page of this script, so it isn't written over\n")
    faults = [] if ran == due else [f"it ends with {ran}, due is {due}"]
    tally.note("page over a record", faults + ["it changed"] * ((folder / "paged.rec").read_bytes() != before))
