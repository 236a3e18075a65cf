#!/usr/bin/env python3
"""Runs the gate, and tells where its processor seconds go: to the proof of each crate and of its tests, to its mutants, and to the rest.

tools/measures/gate_costs.py [--anew] [CRATE..]     runs `rt ci` with these words, and ends with its status

A toolchain that stores what it proved takes `--anew` to prove all once more (kit 13f); one that stores nothing always does, and is not given
the word (kit 13b). The seconds of each process of the prover are read out of /proc while it runs. What they leave of the whole, which the
system counts, is the rest: the runs of tests and programs, the linker, and what a process used after it was read last. A mutant is known by
its text, in the folder in which the prover works. The seed is the proof that the tries of a crate's mutants begin with (13f; in 13b it is the
first of these tries). The twenty dearest mutants follow, and each other one above 25 seconds.
"""
import collections
import functools
import os
import pathlib
import re
import subprocess
import sys
import time

sys.path.append(f"{sys.path[0]}/..")
from checks.edits import edits
from office import TOP, read

BOUND, EVERY = 25, 0.2
TICKS = os.sysconf("SC_CLK_TCK")
KINDS = ("proof", "tests", "seed", "tries")


@functools.cache
def mutants(crate):
    """Of each mutant of the crate the name, and what its edits make of the files, by path."""
    return [(edit.name, edit.texts) for edit in edits([crate], ["must-fail"])]


def tried(pid, crate):
    """The name of the mutant in whose folder a process works, if it works at one."""
    room = os.readlink(f"/proc/{pid}/cwd")
    for name, texts in mutants(crate):
        if all(pathlib.Path(room, file).read_text(encoding="utf-8") == text for file, text in texts.items()):
            return name
    return None


def task(pid, words):
    """What a process of the prover works at: a crate, and its proof, that of its tests, its seed, or a mutant by name."""
    if "--crate-name" not in words:
        return None
    crate = words[words.index("--crate-name") + 1]
    kept = words[words.index("--incremental") + 1] if "--incremental" in words else ""
    if "check" not in words[:2]:
        return crate, "tests" if "--test" in words else "proof"
    if os.path.basename(kept) == "seed":
        return crate, "seed"
    return crate, tried(pid, crate) or "proof"


def seen(pid, used):
    """A process of the prover that this run started, what it works at, and the seconds that it has used; nothing of another."""
    try:
        with open(f"/proc/{pid}/stat", encoding="utf-8", errors="replace") as file:
            name, _, fields = file.read().partition("(")[2].rpartition(")")
        fields = fields.split()
        if name != "rattle" or int(fields[3]) != os.getsid(0):
            return None
        process = pid, fields[19]
        if process not in used:
            with open(f"/proc/{pid}/cmdline", encoding="utf-8", errors="replace") as file:
                used[process] = task(pid, file.read().split("\0")), 0
        return process, used[process][0], (int(fields[11]) + int(fields[12])) / TICKS
    except OSError:
        return None


def watched(gate):
    """The seconds of each task, read until the gate ends, its whole seconds, and its status."""
    used = {}
    while True:
        pid, status, whole = os.wait4(gate.pid, os.WNOHANG)
        if pid:
            break
        for process, at, seconds in filter(None, (seen(pid, used) for pid in os.listdir("/proc") if pid.isdigit())):
            used[process] = at, seconds
        time.sleep(EVERY)
    tasks = collections.Counter()
    for at, seconds in used.values():
        if at:
            tasks[at] += seconds
    return tasks, whole.ru_utime + whole.ru_stime, os.waitstatus_to_exitcode(status)


def main(*words):
    usage = subprocess.run(["rt", "help"], stdout=subprocess.PIPE, stderr=subprocess.STDOUT, text=True).stdout
    words = [word for word in words if word != "--anew" or "--anew" in usage]
    start = time.monotonic()
    tasks, whole, status = watched(subprocess.Popen(["rt", "ci", *words], cwd=TOP))
    crates = collections.defaultdict(collections.Counter)
    dear = []
    for (crate, kind), seconds in tasks.items():
        crates[crate][kind if kind in KINDS else "tries"] += seconds
        if kind not in KINDS:
            dear.append((seconds, crate, kind))
    print("\n| Crate | Proof | Tests | Seed | Tries | Mutants |\n|---|--:|--:|--:|--:|--:|")
    rows = [re.split("[ :]", line)[0] for line in read("crates.txt").splitlines() if re.match(r"\w", line)]
    for crate in filter(crates.__contains__, rows):
        shown = " | ".join(f"{crates[crate][kind]:,.0f}" if crates[crate][kind] else "" for kind in KINDS)
        print(f"| `{crate}` | {shown} | {len(mutants(crate)) or ''} |")
    sums = collections.Counter()
    for found in crates.values():
        sums.update(found)
    print(f"| all | {' | '.join(f'{sums[kind]:,.0f}' for kind in KINDS)} | {sum(len(mutants(crate)) for crate in rows)} |")
    print(f"\n{whole:,.0f} processor seconds on {os.cpu_count()} cores in {(time.monotonic() - start) / 60:.0f} minutes, of which {whole - sum(sums.values()):,.0f} are the rest.\n")
    dear.sort(reverse=True)
    for number, (seconds, crate, mutant) in enumerate(dear):
        if number < 20 or seconds > BOUND:
            print(f"{seconds:6.1f} {crate}/{mutant}")
    return status


if __name__ == "__main__":
    sys.exit(main(*sys.argv[1:]))
