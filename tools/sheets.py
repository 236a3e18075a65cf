#!/usr/bin/env python3
"""Prints every row of a sheet that the office would refuse, with the words of the guide.

tools/sheets.py SPADESK DB KIND FILE     KIND is supervisors, projects, students or lists

The program's own `import` is asked, on a copy of the database that is thrown away. It tells the first refused row alone. So a row that it
always refuses is put at the end, the row that it tells is left out, and it is asked again until it tells that last row. Rows have the
numbers of the spreadsheet, in which the first row is 1. Status 0: the sheet would come in. 1: it would not.
"""
import csv
import io
import os
import pathlib
import re
import subprocess
import sys
import tempfile
import textwrap
import time

from office import TOP, copy

MOST = 50  # rows that are told: a sheet with more has one mistake many times


def guided(text):
    """Of each refusal in the text of the guide its name, what happened and what to do, by its number."""
    rows = re.findall(r"^- \*\*(\d+) (\w+).*?\.\*\* (.*?) \*Do:\* (.*)$", re.sub(r"\n  +", " ", text), re.M)
    return {int(number): cells for number, *cells in rows}


def words():
    """Of each refusal what happened and what to do, by its number; none where the guide is not beside these tools."""
    for path in (f"{TOP}/docs/GUIDE.md", f"{TOP}/../docs/GUIDE.md"):
        if os.path.exists(path):
            found = guided(pathlib.Path(path).read_text(encoding="utf-8"))
            return {number: f"{name}. {what} {do}".replace("`", "") for number, (name, what, do) in found.items()}
    return {}


class Office:
    """The program on a copy, asked for one kind of sheet."""

    def __init__(self, program, folder, kind):
        self.line = [sys.executable, program] if program.endswith(".py") else [program]
        self.sheet = f"{folder}/sheet.csv"
        self.line += ["import", f"{folder}/office.db", kind, f"LOOK-{int(time.time()):X}", self.sheet]

    def told(self, content):
        """The words of `import`, and of a refusal the row and the reason."""
        pathlib.Path(self.sheet).write_bytes(content)
        it = subprocess.run(self.line, capture_output=True, text=True)
        refused = re.match(r"refused (\d+): (?:Row (\d+) (\d+))?", it.stderr)
        number, record, inner = (int(group or 0) for group in refused.groups()) if refused else (0, 0, 0)
        return (it.stdout or it.stderr).strip(), record, inner or number

    def asked(self, rows):
        """The row that is told, and the reason, where a row of `-`, which is no code, stands at the end."""
        out = io.StringIO()
        csv.writer(out, lineterminator="\n").writerows([*(row for _, row in rows), ["-"] * len(rows[0][1])])
        return self.told(out.getvalue().encode(errors="surrogateescape"))[1:]

    def wrong(self, rows):
        """The refused rows with their numbers and reasons, and whether there may be more."""
        found = []
        while True:
            record, inner = self.asked(rows)
            if record == len(rows):
                return found, False
            if not record or len(found) == MOST:
                return found, True
            found.append((*rows.pop(record), inner))


def show(found, is_more, name, said):
    """Prints the refused rows by their reasons."""
    for reason in sorted({inner for *_, inner in found}):
        print(textwrap.fill(f"{reason} {said.get(reason, '')}", 120))
        for number, row in sorted((number, row) for number, row, inner in found if inner == reason):
            print(f"  row {number}:", " | ".join(row).replace("\n", "\\n").encode(errors="replace").decode())
    rows = "row is" if len(found) == 1 else "rows are"
    print(f"{len(found)} {rows} refused{', and there may be more' if is_more else ''}: nothing of {name} would come in")


def main(program, database, kind, name):
    content = pathlib.Path(name).read_bytes()
    text, said = content.decode(errors="surrogateescape").removeprefix("\ufeff"), words()
    lines = enumerate(csv.reader(io.StringIO(text, newline=None)), 1)
    rows = [it for it in lines if it[1]]  # a line of nothing is no row for the office
    places = {}
    for number, (code, *_) in rows[1:]:
        places.setdefault(code, []).append(str(number))
    with tempfile.TemporaryDirectory() as folder:
        if not os.path.exists(copy(database, f"{folder}/office.db")):
            print(f"there is no {database}: the sheet is tried on an empty office")
        office = Office(program, folder, kind)
        answer, record, reason = office.told(content)
        # Without an open round each list is refused, and nothing else can be asked.
        found, is_more = office.wrong(rows) if record and reason != 19 else ([], False)
    if found:
        show(found, is_more, name, said)
    else:
        print(answer, *(textwrap.wrap(f"{reason} {said[reason]}", 120) if reason in said else []), sep="\n")
    for code, numbers in places.items():
        if len(numbers) > 1 and code:
            print(f"{code} stands in the rows {', '.join(numbers)}: the last of them counts")
    return int(not answer.startswith("rows "))


if __name__ == "__main__":
    sys.exit(main(*sys.argv[1:]) if len(sys.argv) == 5 else __doc__)
