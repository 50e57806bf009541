"""Tables of questions to the program, with the status, the bytes and the files that are due, worked out by hand or by a plain program.

Each file has tables of steps, which rows/steps.py tells and takes, and at its end the tests that these tables make.
"""

import importlib
import shutil

from failing import library
from rows.steps import Ask, Room

TABLES = (
    *("words", "races", "solves", "shows", "lists", "advice", "migrates", "verifies", "searches", "replies"),
    *("matches", "plans", "analyses", "match_records", "studies", "crews"),
)


def take(tally, name, room, steps):
    """Takes steps, one after the other. A case is a question with all that is said up to the next one."""
    asked, faults = None, []
    for step in steps:
        if isinstance(step, Ask):
            if asked:
                tally.note(f"{name}: {asked.question}", faults)
                faults = []
            asked = step
        faults += step.take(room)
    if asked or faults:
        tally.note(f"{name}: {asked.question if asked else steps}", faults)


def try_test(tally, name, test, folder, made):
    """Takes the steps that come before all cases once, and those of each case in a folder of its own."""
    first = Room(folder / "before", made)
    first.folder.mkdir(parents=True)
    take(tally, name, first, test.before)
    for number, steps in enumerate(test.cases, 1):
        room = Room(shutil.copytree(first.folder, folder / str(number)), made)
        take(tally, f"{name}, {number}" if len(test.cases) > 1 else name, room, steps)


def try_rows(tally, folder):
    folder.mkdir()
    made = library(folder)
    for table in TABLES:
        for name, test in importlib.import_module(f"rows.{table}").TESTS.items():
            with tally.going_on(f"{table}: {name}"):
                try_test(tally, f"{table}: {name}", test, folder / table / name, made)
