#!/usr/bin/env python3
"""Talks to the program as clients and shells do, where the tests of the gate, which have one thread and no other program, cannot.

tools/checks/clients.py SPADESK..    one program, or the same as several compilers build it

Each client is served by one `serve`, in turn; what the program prints of it is compared. A client that would be waited for, or
that waits, for more than five seconds fails.
"""
import http.client
import os
import socket
import struct
import subprocess
import sys
import tempfile
import time

sys.path.append(f"{sys.path[0]}/..")
from office import serving, written

GET = b"GET /rounds/1 HTTP/1.1\r\n\r\n"
SHUT, RESET = "shut", "reset"


def put(number):
    body = b'{"name":"Ann"}'
    return b"PUT /students/S%d HTTP/1.1\r\nContent-Length: %d\r\n\r\n%s" % (number, len(body), body)


# What a client does: it sends bytes; a whole number is how many answers it reads, a fraction how many seconds it lets pass; it says that no
# more comes, or breaks its connection off. Then what is printed of it.
CLIENTS = [
    ("reads each answer before it asks on", [GET, 1, GET, 1, SHUT], "2 answers, closed"),
    ("is slow to begin", [0.3, GET, 1, SHUT], "1 answers, closed"),
    ("is slow within a message", [GET[:9], 0.3, GET[9:], 1, SHUT], "1 answers, closed"),
    ("stays open after a hundred messages", [GET * 101, 100], "100 answers, hundred"),
    ("stays open after a bad head", [b"GET / HTTP/1.0\r\n\r\n", 1], "1 answers, bad-head"),
    ("stays open after a body that is too large", [b"PUT / HTTP/1.1\r\nContent-Length: 65537\r\n\r\n", 1], "1 answers, too-large"),
    ("sends 150 puts at once and reads late", [b"".join(map(put, range(150))), 0.5, 100], "100 answers, hundred"),
    ("has bytes after a bad head and reads late", [put(1) + b"GET / HTTP/1.0\r\n\r\n" + b"x" * 60000, 0.5, 2], "2 answers, bad-head"),
    ("breaks its connection off", [GET[:9], 0.3, RESET], "read fault"),
    ("comes after all these", [GET, 1, SHUT], "1 answers, closed"),
]

# A result that is posted.
PUBLIC = "S,L,5\nP,P,L,1\nP,Q,L,1\nP,Z,L,0\nR,A,Q\nR,C,P\nY,P,0,1,-1,0,0,0,0,0,0,0,0,0,0\nY,Z,0,2,-2,0,0,0,0,0,0,0,0,0,0\n"

# The words of a line; its status, the whole of its standard output, and how its standard error begins.
LINES = [
    (["import", "school.db", "students", "I1", "no-such.csv"], 1, "", "refused 2: Storage\n"),
    (["report", "school.db", "students", "1"], 2, "", "error: invalid value 'students' for '<KIND>'\n"),
    (["report", "school.db", "profile", "1", "2"], 2, "", "error: unexpected argument '2' found\n"),
    ([b"\xff"], 2, "", "error: invalid UTF-8 was detected in one or more arguments\n"),
    (["check", "round.txt"], 1, "fault 2\n", ""),
    (["check-own", "public.txt", "A", "P", "Q", "P"], 1, "fault 7\n", ""),
    (["solve", "no-round.txt"], 1, "", "bad line 2\n"),
]


def read_answer(answers):
    """Reads one whole answer."""
    answers.readline()
    length = int(http.client.parse_headers(answers).get("Content-Length", -1))
    if length < 0 or len(answers.read(length)) < length:
        raise EOFError("the connection was closed")


def play(port, steps):
    """Does the steps of a client, and reads until the program closes the connection."""
    with socket.create_connection(("127.0.0.1", port), timeout=5) as client, client.makefile("rb") as answers:
        for step in steps:
            if isinstance(step, bytes):
                client.sendall(step)
            elif isinstance(step, int):
                for _ in range(step):
                    read_answer(answers)
            elif isinstance(step, float):
                time.sleep(step)
            elif step == SHUT:
                client.shutdown(socket.SHUT_WR)
            else:
                client.setsockopt(socket.SOL_SOCKET, socket.SO_LINGER, struct.pack("ii", 1, 0))
                return
        if answers.read(1):
            raise EOFError("more was answered than was asked")


def serve_clients(program, folder):
    """Serves all clients by one `serve`. Gives what went otherwise."""
    with serving(program, "school.db", len(CLIENTS), cwd=folder) as (served, port):
        try:
            with socket.socket() as other:
                if other.connect_ex(("127.0.0.2", port)) == 0:
                    yield "the port is open at another address"
            for number, (name, steps, want) in enumerate(CLIENTS, 1):
                play(port, steps)
                told = served.stdout.readline()
                if told != f"connection {number}: {want}\n":
                    yield f"a client that {name}: {told!r}"
            if served.wait(timeout=5) != 0:
                yield f"serve ended with {served.returncode}"
        except (OSError, EOFError, subprocess.TimeoutExpired) as error:
            yield f"a client that {name}: {error}"


def run_lines(program, folder):
    """Runs each line. Gives what went otherwise."""
    for name, text in (("round.txt", "S,L,5\n"), ("no-round.txt", "S,L,5\nX\n"), ("public.txt", PUBLIC)):
        written(text, os.path.join(folder, name))
    for words, status, out, err in LINES:
        ran = subprocess.run([program, *words], cwd=folder, capture_output=True, text=True, timeout=60)
        is_told = ran.stderr.startswith(err) if err else not ran.stderr
        if (ran.returncode, ran.stdout) != (status, out) or not is_told:
            yield f"{words}: {ran.returncode}, {ran.stdout!r}, {ran.stderr!r}"


def main(*programs):
    for program in map(os.path.abspath, programs):
        with tempfile.TemporaryDirectory() as folder:
            otherwise = [*serve_clients(program, folder), *run_lines(program, folder)]
        if otherwise:
            sys.exit(f"clients.py: {program}\n" + "\n".join(otherwise))
    print(f"{len(programs)} programs, {len(CLIENTS)} clients and {len(LINES)} lines each, all as it should be")


if __name__ == "__main__":
    main(*sys.argv[1:])
