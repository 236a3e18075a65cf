#!/usr/bin/env python3
"""Fails each call of the disk of a line in turn, or ends the program there, and looks at what is printed and at what is left.

tools/checks/disk/sweep.py SPADESK [ROW..]     needs gcc and curl
tools/checks/disk/sweep.py SPADESK --of FILE FIRST LAST EACH [MODE..]

The rows are LINES, by their numbers from 1; without a number all are swept. Some begin with a file of the first edition or the second,
which the line migrates. With --of a report over a copy of FILE is swept instead, at each EACH-th of its calls from FIRST to LAST, in these
MODES, or all, with steps of the sizes EACH times as large. Over the file that oldest_full_file.py makes it has 4,200 calls, of which
the last five of the 1,740 before what is printed commit what is migrated; a run takes up to some seconds. Two lines are served, at one port,
so sweeps of LINES are not run side by side.

Each call is failed alone and with all behind it, by EIO and by ENOSPC; the program is killed before it, and half-way through it where it is
a write; and no file may grow beyond some size, for sizes from none in steps of 4,096 bytes, until the line is not hindered. Then one of
these must hold, where the office is what the program itself reports of the files, and their rows:
- all is printed as ever, and the office is that after the line;
- the line is refused as a database that fails (over a connection it is the answer), and the office is that before the line, or that
  after it, as a crash may leave it; where it is that before it, the line does its work when it is asked again;
- the program was killed, and the office is that before or that after.
What was printed was done: where a call behind the last text is the first that fails, the first of these holds, or the program was killed
and the office is that after the line. Where all calls went well the file alone is that office. As they stand, before the program opens
them, the files have the rows from before the line, those that they have once they are opened, or those after the line. Files of the same
bytes, but for a log that holds no change, are looked at once, and the line is asked again over them once.
"""
import hashlib
import os
import pathlib
import resource
import shutil
import signal
import sys
import tempfile
from collections import Counter

HERE = os.path.dirname(os.path.abspath(__file__))
sys.path.append(os.path.join(HERE, "..", ".."))
from office import FIRST_EDITION, FIRST_ROUND, SECOND_EDITION, Bench

PORT = 18081
PUT = ["-X", "PUT", "-d", '{"choices":["SYMMETRY","CIPHER"]}', f"http://127.0.0.1:{PORT}/lists/S16"]
REOPEN = ["-X", "POST", f"http://127.0.0.1:{PORT}/rounds/reopen"]
# what makes the closed round of a file an open one that is generous
GENEROUS = "DELETE FROM placement12; UPDATE round SET open = 1; UPDATE round_aim SET generous = 1;"
# the words, the request over the one connection that the line serves, and what is done to the file before
LINES = [
    *((words, None, "") for words in FIRST_ROUND[:-1]),
    (f"serve DB {PORT} 1", PUT, ""),
    ("close-round DB", None, ""),
    ("close-round DB", None, ""),
    ("report DB placements 1", None, ""),
    (f"serve DB {PORT} 1", REOPEN, ""),
    ("close-round DB", None, FIRST_EDITION),
    ("report DB placements 1", None, FIRST_EDITION),
    ("close-round DB", None, GENEROUS + SECOND_EDITION),
    ("report DB placements 1", None, SECOND_EDITION),
]
MODES = ["once-EIO", "once-ENOSPC", "on-EIO", "on-ENOSPC", "kill", "tear"]
# the bytes of a log without a change
EMPTY_LOG = 41
STORAGE = '{"fault":"Storage","number":2}'


def limited(size):
    """Lets no file of a process grow beyond this size: a write beyond it fails."""
    signal.signal(signal.SIGXFSZ, signal.SIG_IGN)
    resource.setrlimit(resource.RLIMIT_FSIZE, (size, size))


class Sweep(Bench):
    def __init__(self, program, folder):
        super().__init__(program, folder, os.path.join(HERE, "fail.c"))
        self.runs, self.offices = 0, {}

    def digest(self, name):
        """The bytes of a database's files, in short, but for a log that holds no change and has a salt of its own."""
        digest = hashlib.sha256()
        for end in ("", "-wal"):
            path = self.at(name + end)
            if os.path.exists(path) and (not end or os.path.getsize(path) > EMPTY_LOG):
                digest.update(hashlib.sha256(pathlib.Path(path).read_bytes()).digest() + end.encode())
        return digest.digest()

    def office(self, name, ends=("", "-wal")):
        """The rows of a database as it stands; a report on it, which the program opens it for and closes it; and the rows that it has then.
        Files of the same bytes are looked at once."""
        self.copy(name, "looked.db", ends)
        files = self.digest("looked.db")
        if files not in self.offices:
            stood = self.rows("looked.db")
            report = self.line("report looked.db placements 1")
            self.offices[files] = stood, (self.rows("looked.db"), report)
        return self.offices[files]

    def judge(self, row, came, is_behind):
        """What came of a run, in a word; else an end."""
        words, request, undisturbed, before, after = row
        self.runs += 1
        stood, left = self.office("swept.db")
        if (stood, left) == after:
            where = "after"
        else:
            where = "before" if stood in before[0] and left == before[1] else "another office"
        refused = came[3] == STORAGE if came[3] else came[:3] == ("", "refused 2: Storage\n", 1)
        if came == undisturbed:
            what = "as ever"
        elif came[2] == -signal.SIGKILL:
            what = "killed"
        elif is_behind and (came[:2], came[3]) == (undisturbed[:2], undisturbed[3]):
            what = "as ever but for the status"
        else:
            what = "refused 2" if refused else "another answer"
        is_undone = where == "before" and what in ("killed", "refused 2") and not is_behind
        if what == "another answer" or not (where == "after" or is_undone):
            sys.exit(f"{words}: {what}, {where}: {came}, undisturbed {undisturbed}")
        asked = self.digest("swept.db")
        if what == "refused 2" and is_undone and asked not in self.asked:
            self.asked.add(asked)
            again = self.line(words, request)
            if again != undisturbed or self.office("swept.db") != after:
                sys.exit(f"{words}: asked again: {again}")
        return f"{what}, {where}"

    def of(self, start, words, request, calls=(1, sys.maxsize, 1), modes=(*MODES, "size")):
        """Sweeps a line over the database in `start`, or a new one, at these calls, in these modes."""
        told, self.asked = words.replace("DB", "swept.db"), set()
        self.copy(start, "swept.db")
        stood, opened = self.office("swept.db")
        # SQLite takes a new file that is not yet whole for no database
        before = [stood, opened[0]] if start else [stood, opened[0], "no database"], opened
        undisturbed = self.line(told, request)
        first, last = self.counted()
        after = self.office("swept.db")
        self.copy("swept.db", "after.db")
        if self.office("after.db", [""]) != after:
            sys.exit(f"{words}: the file alone is another office")
        row = told, request, undisturbed, before, after
        came = Counter()
        begin, end, each = calls
        for mode in (mode for mode in MODES if mode in modes):
            for at in range(begin, min(end, last) + 1, each):
                self.copy(start, "swept.db")
                came[mode, self.judge(row, self.line(told, request, MODE=mode, AT=str(at)), at > first)] += 1
        for size in range(0, each << 20, each << 12) if "size" in modes else ():
            self.copy(start, "swept.db")
            what = self.judge(row, self.line(told, request, lambda: limited(size)), False)
            came["size", what] += 1
            if what.startswith("as ever"):
                break
        print(f"{words:42} {last:4} calls, {last - first:3} behind what is printed")
        for (mode, what), count in sorted(came.items()):
            print(f"    {mode:11} {what:40} {count:5}", flush=True)

    def file(self, path, begin, end, each, *modes):
        """Sweeps a report over a copy of a file."""
        shutil.copy(path, self.at("file.db"))
        self.of("file.db", "report DB loads 1", None, (int(begin), int(end), int(each)), modes or (*MODES, "size"))


def main(program, *words):
    with tempfile.TemporaryDirectory() as folder:
        sweep = Sweep(program, folder)
        if words[:1] == ("--of",):
            sweep.file(*words[1:])
        else:
            for number, *row in sweep.steps(LINES):
                if not words or str(number) in words:
                    sweep.of(*row)
        print(f"{sweep.runs} runs")


if __name__ == "__main__":
    main(*sys.argv[1:])
