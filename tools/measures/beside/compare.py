#!/usr/bin/env python3
"""The service beside a plain Rust program over libsqlite3 that does the same on the same tables, by the clock.

tools/measures/beside/compare.py SPADESK [ROUNDS [FOLDER]]     needs rustc and libsqlite3-dev

Each row is what SPADESK takes, what the other program (peer.rs) takes with SQLite's log (`wal`) and with its rollback journal
(`delete`), each commit synced in full, and the two ratios. All take their turn in each of ROUNDS (10), and the least counts. The
databases lie in FOLDER, by default the one for temporary files: a disk that waits and one in memory give other ratios.
"""
import contextlib
import os
import subprocess
import sys
import tempfile
from timeit import timeit

HERE = os.path.dirname(os.path.abspath(__file__))
sys.path.append(os.path.join(HERE, "..", ".."))
from office import alter, copy, serving, sheets, written

MODES = ["wal", "delete"]


def run(*words):
    """What a command prints; it must succeed."""
    return subprocess.run(words, check=True, capture_output=True, text=True).stdout


def timed(*words):
    """The microseconds of a whole process."""
    return round(timeit(lambda: run(*words), number=1) * 1e6)


class School:
    """A school at its limits, as a database file that each program gets a copy of."""

    def __init__(self, program, folder):
        self.program, self.folder = program, folder
        for kind, sheet in sheets(100, 400, 500, 500).items():
            written(sheet, self.path(f"{kind}.csv"))
        self.bring("supervisors", "projects")
        self.settle("rolls.db")
        self.bring("students")
        run(program, "open-round", self.path("school.db"))
        self.bring("lists")
        self.settle("round.db")

    def path(self, name):
        return os.path.join(self.folder, name)

    def bring(self, *kinds):
        for kind in kinds:
            run(self.program, "import", self.path("school.db"), kind, f"I-{kind.upper()}", self.path(f"{kind}.csv"))

    def settle(self, name):
        """Keeps what stands now as one file, with nothing left in a log."""
        alter(copy(self.path("school.db"), self.path(name)), "PRAGMA wal_checkpoint(TRUNCATE); PRAGMA journal_mode = DELETE;")

    def copy(self, name, to):
        return copy(self.path(name), self.path(to), [""])


def lines(school, peer, rounds):
    """Whole processes: an import of 500 students, and the closing of a round of 500 lists."""
    file = school.path("students.csv")
    work = {
        "import of 500": ("rolls.db", ["import", "students", "I-STUDENTS", file], ["import", "I-STUDENTS", file]),
        "close-round of 500 lists": ("round.db", ["close-round"], ["close"]),
    }
    for what, (base, own, others) in work.items():
        told = []
        for _ in range(rounds):
            took = [timed(school.program, own[0], school.copy(base, "own.db"), *own[1:])]
            took += [timed(peer, others[0], school.copy(base, f"{mode}.db"), *others[1:], mode) for mode in MODES]
            told.append(took)
        row(what, told, 1)


def served(school, peer, rounds):
    """Requests over a socket, one after another and a hundred in one piece."""
    ports = {"own": 8481, "wal": 8482, "delete": 8483}
    with contextlib.ExitStack() as servers:
        for name, port in ports.items():
            file = school.copy("round.db", f"{name}.db")
            program, more = (school.program, []) if name == "own" else (peer, [name])
            servers.enter_context(serving(program, file, 1_000_000, port, more, is_read=False))
        for method, times in [("GET", 2000), ("PUT", 500)]:
            for at_once, how in [(1, "one by one"), (100, "a hundred at once")]:
                told = []
                for _ in range(rounds):
                    told.append([int(run(peer, "ask", str(port), str(times), str(at_once), method)) for port in ports.values()])
                row(f"{method}, {how}", told, times)


def row(what, told, times):
    own, wal, delete = (min(column) / times for column in zip(*told))
    print(f"{what:26} {own:10.1f} {wal:10.1f} {delete:10.1f} {own / wal:8.2f} {own / delete:8.2f}", flush=True)


def main(program, rounds="10", folder=None):
    with tempfile.TemporaryDirectory(dir=folder) as work:
        peer = os.path.join(work, "peer")
        run("rustc", "-O", "--edition", "2024", "-o", peer, os.path.join(HERE, "peer.rs"))
        school = School(os.path.abspath(program), work)
        closed = [run(program, "close-round", school.copy("round.db", "own.db"))]
        closed += [run(peer, "close", school.copy("round.db", f"{mode}.db"), mode) for mode in MODES]
        if len(set(closed)) != 1:
            sys.exit(f"the programs close the round otherwise: {closed}")
        print(f"{'microseconds':26} {'spadesk':>10} {'wal':>10} {'delete':>10} {'to wal':>8} {'to delete':>8}")
        served(school, peer, int(rounds))
        lines(school, peer, int(rounds))


if __name__ == "__main__":
    main(*sys.argv[1:])
