#!/usr/bin/env python3
"""Makes a file of the first edition at all limits, tells what migrating it takes, and compares its reports from before and after.

tools/makers/oldest_full_file.py SPADESK FOLDER [OLDER]     needs valgrind

FOLDER/largest.db has 100 supervisors, 400 projects, 500 students, who list eight projects in each of twelve closed rounds, 400 placements
by the last of them, and 200 imports of 2,000 bytes. FOLDER/second.db is the same office in the second edition, and FOLDER/migrated.db in the
latest. Told are the instructions and the seconds, the median of five, of a report that migrates a copy of the first, and of the same report
over the migrated file. A line that migrates a copy of either older file must print the same reports as one over the migrated file, and so
must OLDER, an older program, over a copy of the first.
"""
import os
import random
import sqlite3
import statistics
import sys
import tempfile
from contextlib import closing
from timeit import timeit

sys.path.append(f"{sys.path[0]}/..")
from office import FIRST_EDITION, SECOND_EDITION, alter, copy, counted, told

SUPERVISORS, PROJECTS, STUDENTS, ROUNDS, PLACES, IMPORTS, BYTES = 100, 400, 500, 12, 8, 200, 2000
REPORTS = [f"report DB {words}" for words in (f"loads {ROUNDS}", f"placements {ROUNDS}", "unplaced 1", f"unplaced {ROUNDS}")]


def listed(draw, student):
    """The projects of a list, and the place of the student's own, which no other student is placed in."""
    own = student % PROJECTS
    chosen = draw.sample([project for project in range(PROJECTS) if project != own], PLACES)
    place = draw.randrange(PLACES)
    chosen[place] = own
    return chosen, place


def fill(file):
    """Puts the rows at all limits in the tables of the first edition."""
    draw = random.Random(1)
    choices, placements = [], []
    for number in range(1, ROUNDS + 1):
        for student in range(STUDENTS):
            chosen, place = listed(draw, student)
            choices += [(number, f"S{student:03}", n, f"P{project:03}") for n, project in enumerate(chosen, 1)]
            if number == ROUNDS and student < PROJECTS:
                placements.append((f"S{student:03}", number, f"P{student:03}", place + 1))
    tables = {
        "supervisor": [(f"L{n:02}", f"Supervisor {n}", PROJECTS // SUPERVISORS) for n in range(SUPERVISORS)],
        "project": [(f"P{n:03}", f"Project {n}", f"L{n % SUPERVISORS:02}", 1) for n in range(PROJECTS)],
        "student": [(f"S{n:03}", f"Student {n}") for n in range(STUDENTS)],
        "round": [(n, 0) for n in range(1, ROUNDS + 1)],
        "choice": choices,
        "placement": placements,
        "import": [(f"I{n:03}", "lists", draw.randbytes(BYTES), 10) for n in range(IMPORTS)],
    }
    for table, rows in tables.items():
        file.executemany(f"INSERT INTO {table} VALUES ({', '.join('?' for _ in rows[0])})", rows)


def over_copy(start, what):
    """What comes of a copy of the file."""
    with tempfile.TemporaryDirectory() as folder:
        return what(copy(start, os.path.join(folder, "copy.db")))


def files(program, folder):
    """Makes the file in each edition."""
    first, second, migrated = (os.path.join(folder, name) for name in ("largest.db", "second.db", "migrated.db"))
    copy(None, first)
    told(program, "open-round DB", first)
    alter(first, FIRST_EDITION + "DELETE FROM round;")
    with closing(sqlite3.connect(first)) as file:
        fill(file)
        file.commit()
    told(program, REPORTS[0], copy(first, migrated))
    alter(copy(migrated, second), SECOND_EDITION)
    return first, second, migrated


def main(program, folder, older=None):
    first, second, migrated = files(program, folder)
    for words in REPORTS:
        wanted = told(program, words, migrated)
        pairs = [(by, start) for by, start in ((program, first), (program, second), (older, first)) if by]
        if any(over_copy(start, lambda path, by=by: told(by, words, path)) != wanted for by, start in pairs):
            sys.exit(f"{words}: other bytes by a line that migrates the file, or by the older program")
        print(f"{words[10:]:13} {len(wanted):6} bytes, the same {len(pairs) + 1} times", flush=True)
    for what, start in (("migrated and reported on", first), ("reported on", migrated)):
        count = over_copy(start, lambda path: counted(program, *REPORTS[0].replace("DB", path).split(), check=True)[0])
        seconds = (over_copy(start, lambda path: timeit(lambda: told(program, REPORTS[0], path), number=1)) for _ in range(5))
        print(f"{what:22} {count:>15,} instructions, {statistics.median(seconds):.2f} s", flush=True)


if __name__ == "__main__":
    main(*sys.argv[1:])
