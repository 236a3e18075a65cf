#!/usr/bin/env python3
"""Refuses each allocation of a line in turn, and looks at what the line then prints and leaves in its database.

tools/checks/memory/sweep.py SPADESK [MOST]     needs gcc

For each allocation (of more than MOST, 400, so many spread evenly) one of these must hold: the line prints what it prints undisturbed,
and leaves the same rows; or it prints `refused 1: Memory` with status 1, and leaves the rows from before; or nothing could be printed
at all, since the text of the answer itself found no memory: then the status is 1, and the rows are those from before or after. The rows
from before are those of the file as it stood, or as it is once it was opened: with tables, of the latest edition. A
database error (`refused 2`) or damage (`refused 30`) is never the word for want of memory.
"""
import os
import sys
import tempfile

HERE = os.path.dirname(os.path.abspath(__file__))
sys.path.append(os.path.join(HERE, "..", ".."))
from office import FIRST_EDITION, FIRST_ROUND, Bench

OUT_OF_MEMORY = ("", "refused 1: Memory\n", 1, "")
# the words, no request, and what is done to the file before
LINES = [
    *((words, None, "") for words in FIRST_ROUND),
    ("report DB placements 1", None, ""),
    ("reopen-round DB", None, ""),
    ("close-round DB", None, FIRST_EDITION),
    ("report DB placements 1", None, FIRST_EDITION),
]


def sweep(bench, start, words, most):
    """Sweeps a line over the database that stands in `start`, or a new one."""
    told = words.replace("DB", "swept.db")
    bench.copy(start, "swept.db")
    stood = bench.rows("swept.db")
    bench.line("report swept.db profile 0")
    before = stood, bench.rows("swept.db")
    bench.copy(start, "swept.db")
    undisturbed = bench.line(told, REFUSE="0")
    after = bench.rows("swept.db")
    (count,) = bench.counted()
    if undisturbed[2]:
        sys.exit(f"{words}: {undisturbed}")
    numbers = range(1, count + 1) if count <= most else [1 + n * count // most for n in range(most)]
    refused = 0
    for number in numbers:
        bench.copy(start, "swept.db")
        came = bench.line(told, REFUSE=str(number))
        left = bench.rows("swept.db")
        well = (came == undisturbed and left == after) or (came == OUT_OF_MEMORY and left in before)
        silent = came[0] != undisturbed[0] and came[1] == "" and came[2] == 1 and left in (*before, after)
        refused += came == OUT_OF_MEMORY
        if not (well or silent):
            place = "before" if left in before else "after" if left == after else "others"
            sys.exit(f"{words}: allocation {number} of {count} refused: {came}, rows {place}")
    print(f"{words:50} {count:6} allocations, {len(numbers):5} refused in turn, {refused:5} told as refused 1", flush=True)


def main(program, most="400"):
    with tempfile.TemporaryDirectory() as folder:
        bench = Bench(program, folder, os.path.join(HERE, "refuse.c"))
        for _, start, words, _ in bench.steps(LINES):
            sweep(bench, start, words, int(most))


if __name__ == "__main__":
    main(*sys.argv[1:])
