#!/usr/bin/env python3
"""Runs the tests of refused memory with each of their requests for memory refused in turn: that request alone, and it with all behind it.

tools/checks/memory/refuse_each_in_tests.py [PROGRAM [ALL]]

It needs gcc. PROGRAM is crates/desk_tests/out/desk_tests_tests, as `rt ci` builds it.

With ALL the first ALL requests of a row are refused, and behind them each seventh, alone each time. The tests themselves judge what comes;
by the system's allocator each row of theirs runs undisturbed. Printed are the runs of each row, and in how many of them a request was refused.
"""
import os
import subprocess
import sys
import tempfile

HERE = os.path.dirname(os.path.abspath(__file__))
sys.path.append(os.path.join(HERE, "..", ".."))
from office import TOP, preloaded

PROGRAM = os.path.join(TOP, "crates", "desk_tests", "out", "desk_tests_tests")
TESTS = [
    "refused::a_desk_is_opened_or_refused_as_out_of_memory",
    "refused::what_is_refused_memory_is_made_when_it_is_asked_again",
]


def sweep(program, library, test, counted, lasts, most):
    """The runs of each row of a test, and how many of them were disturbed."""
    env = {**os.environ, "LD_PRELOAD": library, "COUNTED": counted, **({"LASTS": "1"} if lasts else {}), **({"ALL": most} if most else {})}
    ran = subprocess.run([program, test], env=env, capture_output=True, text=True)
    if ran.returncode:
        sys.exit(f"{test}: {ran.stdout}{ran.stderr}")
    with open(counted, encoding="utf-8") as file:
        return [tuple(map(int, line.split())) for line in file]


def main(program=PROGRAM, most=""):
    with tempfile.TemporaryDirectory() as folder:
        library, counted = preloaded(os.path.join(HERE, "refuse.c"), folder), os.path.join(folder, "counted")
        for test in TESTS:
            for lasts in (False,) if most else (False, True):
                rows = sweep(os.path.abspath(program), library, test, counted, lasts, most)
                if not rows or not all(refusals for _, refusals in rows):
                    sys.exit(f"{test}: nothing was refused")
                how = "from each on" if lasts else "each alone"
                for number, (runs, refusals) in enumerate(rows, 1):
                    print(f"{test:63} row {number}, {how:12} {runs:6} runs, {refusals:6} of them refused", flush=True)


if __name__ == "__main__":
    main(*sys.argv[1:])
