"""The links of the documents: each leads to a file that is there, and to a heading that it has."""

import re

from tally import TOP

LINK = re.compile(r"\[[^]]*\]\(([^)\s]+)\)")


def slug(heading):
    """The anchor of a heading: small letters, with a dash for each space, and no marks but dashes."""
    return re.sub(r"[^\w\- ]", "", heading.strip().lower()).replace(" ", "-")


def lines_of(page):
    """The lines of a page outside of its blocks, with their numbers."""
    is_block = False
    for number, line in enumerate(page.read_text().splitlines(), 1):
        if line.startswith("```"):
            is_block = not is_block
        elif not is_block:
            yield number, line


def anchors_of(page):
    return {slug(line.lstrip("#")) for _, line in lines_of(page) if line.startswith("#")}


def faults_of(page):
    for number, line in lines_of(page):
        for target in LINK.findall(re.sub(r"`[^`]*`", "", line)):
            path, _, anchor = target.partition("#")
            there = (page.parent / path).resolve() if path else page
            if ":" in path:
                continue
            if not there.exists():
                yield f"line {number}: {path} isn't there"
            elif anchor and anchor not in anchors_of(there):
                yield f"line {number}: {target} has no such heading"


def try_links(tally):
    for page in sorted([*TOP.glob("*.md"), *TOP.glob("docs/*.md"), *TOP.glob("results/*.md"), *TOP.glob("crates/*/README.md")]):
        tally.note(f"the links of {page.relative_to(TOP)}", list(faults_of(page)))
