#!/usr/bin/env python3
"""A served file that is killed in the middle of puts has every answered put when it is opened again, and one of an earlier edition that is
killed while it is migrated is of that edition or the latest, of the same office.

tools/checks/kill.py SPADESK [TIMES [FILE]]

Each time a program serves a new database, students are put over one connection after another, the program is killed by SIGKILL at
some moment, and another program serves the file and is asked for each student whose put was answered. As often a line opens a file of
the first edition, one of the second that has a generous round, and FILE, as oldest_full_file.py makes it, and is killed at some
moment; the rows of the file are those from before or those of the migrated file, and another line prints what it prints undisturbed.
"""
import contextlib
import os
import random
import subprocess
import sys
import tempfile
import threading
import time
from collections import Counter

sys.path.append(f"{sys.path[0]}/..")
from office import EXAMPLE, FIRST_EDITION, FIRST_ROUND, SECOND_EDITION, alter, answered, copy, message, rows, serving, successes, told

PUT = '{"name":"Ann"}'
REPORT = "report DB placements 1"


def once(program, draw):
    """Kills a program in the middle of puts, and gives how many were answered; each of them must be found again."""
    answers, found = bytearray(), bytearray()
    with tempfile.TemporaryDirectory() as folder:
        path = os.path.join(folder, "school.db")
        with serving(program, path, 100) as (it, port):
            timer = threading.Timer(draw.uniform(0.005, 0.4), it.kill)
            timer.start()
            with contextlib.suppress(OSError):
                for first in range(0, 500, 100):
                    answered(port, b"".join(message("PUT", f"/students/S{n}", PUT) for n in range(first, first + 100)), answers)
            timer.join()
        known = successes(answers)
        with serving(program, path, 100) as (_, port):
            for first in range(0, known, 100):
                answered(port, b"".join(message("GET", f"/students/S{n}") for n in range(first, min(first + 100, known))), found)
    if successes(found) != known:
        sys.exit(f"of {known} answered puts {successes(found)} were found again")
    return known


def made(program, path, edition):
    """Makes a file of an earlier edition, whose first round is closed and whose second is open, and generous where rounds have an aim."""
    for words in [*FIRST_ROUND, "open-round DB generous"]:
        told(program, words, path, cwd=EXAMPLE)
    alter(path, edition)
    return path


def migrated(program, draw, times, start):
    """Kills lines in the middle of an opening of copies of a file; how many they left as it was, and how many of the latest edition."""
    left = Counter()
    with tempfile.TemporaryDirectory() as folder:
        path = copy(start, os.path.join(folder, "school.db"))
        first, begun = rows(path), time.monotonic()
        wanted = told(program, REPORT, path)
        taken, latest = time.monotonic() - begun, rows(path)
        for _ in range(times):
            copy(start, path)
            it = subprocess.Popen([program, *REPORT.replace("DB", path).split()], stdout=subprocess.DEVNULL)
            time.sleep(draw.uniform(0, 1.5 * taken))
            it.kill()
            it.wait()
            found = rows(path)
            if found not in (first, latest) or told(program, REPORT, path) != wanted or rows(path) != latest:
                sys.exit("a file that was killed while it was migrated is of no edition of its office")
            left["first" if found == first else "latest"] += 1
    return left["first"], left["latest"]


def main(program, times="20", largest=None):
    draw, program = random.Random(1), os.path.abspath(program)
    print("answered before the kill, and found again:", *(once(program, draw) for _ in range(int(times))))
    with tempfile.TemporaryDirectory() as folder:
        starts = {
            "a file of the first edition": made(program, os.path.join(folder, "first.db"), FIRST_EDITION),
            "a file of the second": made(program, os.path.join(folder, "second.db"), SECOND_EDITION),
        }
        if largest:
            starts[largest] = largest
        for name, start in starts.items():
            before, latest = migrated(program, draw, int(times), start)
            print(f"{name}, killed while it is migrated: {before} times as it was, {latest} of the latest edition", flush=True)


if __name__ == "__main__":
    main(*sys.argv[1:])
