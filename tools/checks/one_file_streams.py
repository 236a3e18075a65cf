#!/usr/bin/env python3
"""Sends random and hostile streams to the office as a WebAssembly module and to the program, over files of all editions: both must answer the
same, byte for byte, and leave tables with the same rows.

tools/checks/one_file_streams.py SPADESK MODULE [COUNT [SEED]]     needs node; MODULE is crates/page_office/out/office.wasm

A file begins empty, or as a school of the first, the second or the latest edition. Over each come twenty streams one after another, of up
to a hundred and ten messages, two thirds of which are refused; every fifth stream is cut, torn or filled with other bytes. The program
serves them as connections of one `serve`, the module by a call each. Where a stream ends in the middle, no later byte of it is answered.
"""
import contextlib
import json
import os
import random
import sqlite3
import struct
import subprocess
import sys
import tempfile

sys.path.append(f"{sys.path[0]}/..")
from office import EXAMPLE, FIRST_EDITION, SECOND_EDITION, TOP, alter, answered, line, message, serving

EACH = 20  # streams over a file
EDITIONS = (None, FIRST_EDITION, SECOND_EDITION, "")
KINDS = ("supervisors", "projects", "students", "lists")
REPORTS = ("profile", "loads", "unplaced", "placements", "offers", "missing", "text")


class InPage:
    """The module in node, as the page calls it."""

    def __init__(self, module):
        self.it = subprocess.Popen(["node", f"{TOP}/tools/checks/one_file.mjs", module], stdin=subprocess.PIPE, stdout=subprocess.PIPE)

    def part(self):
        return self.it.stdout.read(struct.unpack("<I", self.it.stdout.read(4))[0])

    def serve(self, file, stream):
        """The status, and where it is 0 the answers and the file after them."""
        self.it.stdin.write(struct.pack("<I", len(file)) + file + struct.pack("<I", len(stream)) + stream)
        self.it.stdin.flush()
        return self.it.stdout.read(1)[0], self.part(), self.part()

    def end(self):
        self.it.stdin.close()
        self.it.wait(timeout=60)


def tables(path):
    """All rows of a database, and whether it is sound."""
    with contextlib.closing(sqlite3.connect(path)) as it:
        return [*it.execute("PRAGMA integrity_check"), *it.iterdump()]


def code(it, letter, most=12):
    if it.random() < 0.03:
        return it.choice(["", "-A", "a1", "A" * 17, "Ä", "A B", "%41", "A/B"])
    return f"{letter}{it.randrange(1, most)}"


def label(it):
    if it.random() < 0.04:
        return it.choice(["", "x" * 201, "a\nb", "\t", '"', "é" * 100, "= 1", "<b>"])
    return it.choice(["Ada", "Alan", "Grace", "A project, with a comma", "Übung", "Name"])


def quota(it):
    return it.choice([0, 1, 1, 2, 3, 500]) if it.random() < 0.95 else it.choice([501, -1, 1.5, "2", None, 10**20])


def choices(it):
    few = it.randrange(1, 6) if it.random() < 0.95 else it.choice([0, 12, 13])
    return [code(it, "P") for _ in range(few)]


def cell(text):
    text = str(text)
    return '"' + text.replace('"', '""') + '"' if any(sign in text for sign in ',"\n') else text


def sheet(it, kind):
    """An import text of some rows."""
    rows = []
    for _ in range(it.randrange(0, 12)):
        rows.append({
            "supervisors": lambda: [code(it, "V"), label(it), quota(it)],
            "projects": lambda: [code(it, "P"), label(it), code(it, "V"), quota(it)],
            "students": lambda: [code(it, "S", 30), label(it)],
            "lists": lambda: [code(it, "S", 30), " ".join(choices(it))],
        }[kind]())
    heads = {"supervisors": "code,name,quota", "projects": "code,name,supervisor,quota", "students": "code,name", "lists": "student,choices"}
    head = heads[kind] if it.random() < 0.96 else it.choice([*heads.values(), "", "code;name"])
    return "".join(f"{row}\n" for row in [head, *(",".join(map(cell, row)) for row in rows)])


def request(it):
    """A message with a request, or with a fault."""
    kind = it.choice(["put"] * 5 + ["lists"] * 5 + ["get"] * 4 + ["rounds"] * 2 + ["import"] * 3 + ["fault"] * 2)
    if kind == "put":
        which = it.choice(["supervisors", "projects", "students"])
        members = {"name": label(it)}
        if which != "students":
            members["quota"] = quota(it)
        if which == "projects":
            members["supervisor"] = code(it, "V")
        if it.random() < 0.03:
            members.pop(it.choice([*members]))
        if it.random() < 0.03:
            members["more"] = 1
        letter = {"supervisors": "V", "projects": "P", "students": "S"}[which]
        return message("PUT", f"/{which}/{code(it, letter, 30 if letter == 'S' else 12)}", json.dumps(members))
    if kind == "lists":
        path = f"/lists/{code(it, 'S', 30)}"
        return message("DELETE", path) if it.random() < 0.15 else message("PUT", path, json.dumps({"choices": choices(it)}))
    if kind == "get":
        path = it.choice([
            lambda: f"/{it.choice(KINDS[:3])}/{code(it, it.choice('VPS'))}",
            lambda: f"/rounds/{it.choice([1, 1, 2, 3, 0, 99999, 'x'])}",
            lambda: "/preview",
            lambda: "/roundtext",
            lambda: f"/reports/{it.choice(REPORTS)}/{it.choice([1, 1, 2, 13])}",
        ])()
        return message("GET", path)
    if kind == "rounds":
        path = it.choice(["/rounds", "/rounds", "/rounds/close", "/rounds/reopen"])
        body = it.choice(["", "", '{"aim":"generous"}', '{"aim":"greedy"}', '{"aim":"best"}', "{}"]) if path == "/rounds" else ""
        return message("POST", path, body)
    if kind == "import":
        which = it.choice(KINDS)
        return message("POST", f"/imports/{which}/{code(it, 'I', 40)}", sheet(it, which))
    return message(
        it.choice(["GET", "PUT", "POST", "DELETE", "PATCH", "get"]),
        it.choice(["/", "/students", "/students/S1", "/lists/S1", "/held.txt", "/rounds/close", "/%00", "/../x"]),
        it.choice(["", "{", "[]", '{"name":1}', '{"name":"a","name":"b"}', "\x00", "null", " " * 70]),
    )


def stream(it):
    """Some messages, and what may become of their bytes."""
    sent = b"".join(request(it) for _ in range(it.choice([1, 5, 20, 60, 100, 110])))
    if it.random() < 0.8:
        return sent
    at = it.randrange(len(sent))
    return it.choice([
        lambda: sent[:at],
        lambda: sent[:at] + it.randbytes(it.randrange(1, 40)) + sent[at:],
        lambda: sent[:at] + sent[at + it.randrange(1, 9):],
        lambda: sent[:at] + bytes([sent[at] ^ 1 << it.randrange(8)]) + sent[at + 1:],
        lambda: it.randbytes(it.randrange(0, 3000)),
        lambda: sent[:at] + message("PUT", "/students/S1", " " * 65_537) + sent[at:],
        lambda: sent[:at] + b"GET /" + b"x" * 9_000 + b" HTTP/1.1\r\n\r\n",
        lambda: sent[:at] + b"GET /preview HTTP/1.1\r\n" + b"A: b\r\n" * it.choice([5, 32, 33]) + b"\r\n" + sent[at:],
        lambda: b"GET /preview HTTP/1.1\r\nTransfer-Encoding: chunked\r\n\r\n0\r\n\r\n" + sent,
        lambda: b"PUT /students/S1 HTTP/1.1\r\nContent-Length: 5\r\nContent-Length: 5\r\n\r\n12345" + sent,
    ])()


def school(program, path, edition):
    """Makes a file of an edition, with a closed round and an open one; or none."""
    if edition is None:
        return b""
    for kind in KINDS[:3]:
        line(program, f"import DB {kind} {kind.upper()[:8]} {EXAMPLE}/{kind}.csv", path)
    line(program, "open-round DB", path)
    line(program, f"import DB lists L {EXAMPLE}/lists.csv", path)
    line(program, "close-round DB", path)
    line(program, "open-round DB", path)
    if edition:
        alter(path, edition)
    with open(path, "rb") as it:
        return it.read()


def main(program, module, count="200", seed="1"):
    program, it, page = os.path.abspath(program), random.Random(int(seed)), InPage(module)
    done = messages = refused = 0
    with tempfile.TemporaryDirectory() as folder:
        starts = [school(program, f"{folder}/{at}.db", edition) for at, edition in enumerate(EDITIONS)]
        while done < int(count):
            start, streams = it.choice(starts), [stream(it) for _ in range(EACH)]
            database, file, told = f"{folder}/served.db", start, []
            for end in ("", "-wal"):
                if os.path.exists(database + end):
                    os.remove(database + end)
            if start:
                with open(database, "wb") as new:
                    new.write(start)
            with serving(program, database, EACH, is_read=False) as (served, port):
                for sent in streams:
                    told.append(bytes(answered(port, sent)))
                served.wait(timeout=60)
            for sent, wanted in zip(streams, told):
                status, answers, file = page.serve(file, sent)
                if status or answers != wanted:
                    with open("stream.differs", "wb") as kept:
                        kept.write(sent)
                    sys.exit(f"stream {done} of seed {seed}: status {status}, {answers[-300:]!r}, and not {wanted[-300:]!r}; it is left as stream.differs")
                done += 1
                messages += wanted.count(b"HTTP/1.1 ")
                refused += wanted.count(b'"fault":')
            with open(f"{folder}/left.db", "wb") as new:
                new.write(file)
            if tables(f"{folder}/left.db") != tables(database):
                sys.exit(f"after stream {done} of seed {seed} the tables differ")
            print(f"{done} streams, {messages} answers, {refused} of them refusals: the same", end="\r", flush=True)
    page.end()
    print()


if __name__ == "__main__":
    main(*sys.argv[1:])
