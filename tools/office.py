"""What the tools share: commands of the program, a `serve` that ends, counted instructions, the rows of a database, the first round, round
texts and sheets, a page with its hashes, and a bench on which a command is run with a library before the program's own."""
import base64
import contextlib
import fnmatch
import hashlib
import os
import pathlib
import random
import re
import shutil
import socket
import sqlite3
import subprocess
import sys
import tempfile
import threading

TOP = os.path.dirname(os.path.dirname(os.path.abspath(__file__)))
EXAMPLE = os.path.join(TOP, "examples", "first-round")
# the words of the first round, over its files
FIRST_ROUND = [
    "import DB supervisors I1 supervisors.csv",
    "import DB projects I2 projects.csv",
    "import DB students I3 students.csv",
    "open-round DB",
    "import DB lists I4 lists.csv",
    "close-round DB",
]
# What makes a file of an earlier edition of one of the latest: lists had eight places at most, and then rounds had no aim.
SECOND_EDITION = """
    INSERT INTO choice SELECT * FROM choice12; INSERT INTO placement SELECT * FROM placement12; DROP TABLE choice12; DROP TABLE placement12;
    UPDATE edition SET number = 2;
"""
FIRST_EDITION = SECOND_EDITION + "DROP TABLE round_aim; UPDATE edition SET number = 1;"
# valgrind counts a block that is copied at once a byte at a time, unless blocks are copied by words
TUNABLES = "glibc.cpu.x86_rep_stosb_threshold=100000000:glibc.cpu.x86_rep_movsb_threshold=100000000"
COUNTING = {**os.environ, "GLIBC_TUNABLES": TUNABLES}
COUNT = ["valgrind", "--tool=cachegrind", "--cache-sim=no", "--cachegrind-out-file=/dev/null"]


def read(*path):
    """The text of a file of the repository."""
    return pathlib.Path(TOP, *path).read_text(encoding="utf-8")


def sealed(page):
    """The page with the hashes of its style and its script."""
    for tag in ("style", "script"):
        inner = re.search(rf"<{tag}>(.*?)</{tag}>", page, re.S)[1]
        page = re.sub(
            rf"({tag}-src 'sha256-)[^']*", lambda it: it[1] + base64.b64encode(hashlib.sha256(inner.encode()).digest()).decode(), page
        )
    return page


def listed(*patterns):
    """The files of the repository that fit one of these patterns, or all, by their paths from the top; what is built is none of them."""
    found = []
    for folder, folders, names in os.walk(TOP):
        folders[:] = [it for it in folders if it not in (".git", "out", "__pycache__")]
        found += [os.path.relpath(os.path.join(folder, name), TOP) for name in names]
    return sorted(name for name in found if any(fnmatch.fnmatchcase(name, pattern) for pattern in patterns or ["*"]))


def line(program, words, database="DB", **how):
    """What became of a command of the program; in its words DB stands for the database."""
    command = [program, *(database if word == "DB" else word for word in words.split())]
    return subprocess.run(command, **{"capture_output": True, "text": True, **how})


def told(program, words, database="DB", **how):
    """What a command of the program prints, which must be done."""
    return line(program, words, database, check=True, **how).stdout


def round_text(quotas, offers, lists, is_generous=False):
    """The text of a round: the quota of each supervisor, the supervisor and the quota of each project, and the projects of each list."""
    lines = ["A,generous"] if is_generous else []
    lines += [f"S,L{number:03},{quota}" for number, quota in enumerate(quotas)]
    lines += [f"P,P{number:03},L{owner:03},{quota}" for number, (owner, quota) in enumerate(offers)]
    lines += [f"C,S{number:03}," + ",".join(f"P{project:03}" for project in chosen) for number, chosen in enumerate(lists)]
    return "".join(line + "\n" for line in lines)


def written(text, path):
    """Writes a text as it is, and gives the path."""
    pathlib.Path(path).write_text(text, encoding="utf-8", newline="")
    return path


def sheets(supervisors, projects, students, lists, places=2):
    """By kind, the sheets of a school with so many of each, and these places a project; a list has twelve projects, drawn evenly."""
    draw, codes = random.Random(1), [f"P{n}" for n in range(projects)]
    rows = {
        "supervisors": ["code,name,quota", *(f"L{n},Lee,6" for n in range(supervisors))],
        "projects": ["code,name,supervisor,quota", *(f"{code},Pumps,L{n % supervisors},{places}" for n, code in enumerate(codes))],
        "students": ["code,name", *(f"S{n},Ann" for n in range(students))],
        "lists": ["student,choices", *(f"S{n},{' '.join(draw.sample(codes, 12))}" for n in range(lists))],
    }
    return {kind: "".join(row + "\n" for row in of_kind) for kind, of_kind in rows.items()}


def free_port():
    with socket.socket() as it:
        it.bind(("127.0.0.1", 0))
        return it.getsockname()[1]


@contextlib.contextmanager
def serving(program, database, count, port=None, more=(), is_read=True, **how):
    """A `serve` of so many connections and its port, once it listens; it is killed at the end, if it still runs. Where the caller does not
    read what it prints of each connection, that is let go."""
    port = port or free_port()
    words = [*([program] if isinstance(program, str) else program), "serve", database, str(port), str(count), *more]
    with subprocess.Popen(words, stdout=subprocess.PIPE, text=True, **how) as it:
        try:
            if it.stdout.readline() != f"listening {port}\n":
                sys.exit(f"{' '.join(words)}: it does not listen")
            if not is_read:
                threading.Thread(target=it.stdout.read, daemon=True).start()
            yield it, port
        finally:
            it.kill()


def message(method, path, body=""):
    """The bytes of an HTTP message."""
    body = body.encode()
    return f"{method} {path} HTTP/1.1\r\nContent-Length: {len(body)}\r\n\r\n".encode() + body


def answered(port, sent, told=None):
    """What a connection is answered once all was sent; `told` has what came so far."""
    told = bytearray() if told is None else told
    with socket.create_connection(("127.0.0.1", port), timeout=60) as it:
        it.sendall(sent)
        it.shutdown(socket.SHUT_WR)
        while piece := it.recv(65536):
            told += piece
    return told


def successes(told):
    """How many answers of success these are."""
    return told.count(b"HTTP/1.1 200 OK\r\n")


def instructions(told):
    """The instructions that valgrind tells."""
    return int(re.search(r"I\s+refs:\s+([\d,]+)", told)[1].replace(",", ""))


def counted(*words, **how):
    """The instructions of a whole process, and what became of it."""
    ran = subprocess.run([*COUNT, *words], **{"capture_output": True, "text": True, "env": COUNTING, **how})
    return instructions(ran.stderr if isinstance(ran.stderr, str) else ran.stderr.decode()), ran


def copy(start, to, ends=("", "-wal")):
    """Puts a copy of a database and its log in the place of another, or nothing where there is none. Gives its path."""
    for end in ("", "-wal", "-shm", "-journal"):
        if os.path.exists(to + end):
            os.remove(to + end)
        if start and end in ends and os.path.exists(start + end):
            shutil.copy(start + end, to + end)
    return to


def rows(path, broken=None):
    """The rows of a database as it stands, with its log, in short; beside it nothing is written. `broken`, if it is given, where SQLite
    finds no database."""
    with tempfile.TemporaryDirectory() as folder:
        with contextlib.closing(sqlite3.connect(copy(path, os.path.join(folder, "looked.db")))) as looked:
            try:
                told = [*looked.execute("PRAGMA integrity_check"), *looked.iterdump()]
            except sqlite3.DatabaseError:
                if broken is None:
                    raise
                return broken
    return hashlib.sha256(repr(told).encode()).hexdigest()


def alter(path, sql):
    """Does this to a database."""
    with contextlib.closing(sqlite3.connect(path)) as file:
        file.executescript(sql)


def preloaded(source, folder):
    """A library that a program is started with, made of a file of C."""
    library = os.path.join(folder, os.path.basename(source) + ".so")
    subprocess.run(["gcc", "-O2", "-shared", "-fPIC", "-o", library, source, "-ldl"], check=True)
    return library


class Bench:
    """A folder with the files of the first round, in which commands are run with a library before the program's own."""

    def __init__(self, program, folder, source):
        self.program, self.folder, self.library = os.path.abspath(program), folder, preloaded(source, folder)
        for entry in os.scandir(EXAMPLE):
            shutil.copy(entry.path, folder)

    def at(self, name):
        return os.path.join(self.folder, name)

    def copy(self, start, to, ends=("", "-wal")):
        return copy(start and self.at(start), self.at(to), ends)

    def rows(self, name):
        return rows(self.at(name), "no database")

    def counted(self):
        """The numbers that the library has counted."""
        return [int(number) for number in pathlib.Path(self.at("counted")).read_text(encoding="utf-8").split()]

    def line(self, words, request=None, limit=None, **env):
        """What a command prints on both, its status, and what the one connection that it may serve is answered. The line of a new database
        is left out: it goes by the tables, whose rows are compared. `env` is for the library, and `limit` done in the process before."""
        env = {**os.environ, "LD_PRELOAD": self.library, "COUNTED": "" if limit else self.at("counted"), **env}
        how = {"cwd": self.folder, "env": env, "stdout": subprocess.PIPE, "stderr": subprocess.PIPE, "text": True, "preexec_fn": limit}
        with subprocess.Popen([self.program, *words.split()], **how) as it:
            first = it.stdout.readline() if request else ""
            answer = ""
            if first.startswith("listening"):
                answer = subprocess.run(["curl", "-s", *request], capture_output=True, text=True).stdout
            out, err = it.communicate(timeout=600)
        return first + out, re.sub(r"\Anew \S+\n", "", err), it.returncode, answer

    def steps(self, lines):
        """Each line's number, the database that those before it leave, to which is done what the line says, its words and its request."""
        start = None
        for number, (words, request, sql) in enumerate(lines, 1):
            if sql:
                alter(self.at(start), sql)
            yield number, start, words, request
            self.copy(start, f"step{number}.db")
            start = f"step{number}.db"
            self.line(words.replace("DB", start), request)
