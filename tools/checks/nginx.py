#!/usr/bin/env python3
"""Runs nginx with page/nginx.conf in front of `spadesk serve`, and compares what comes through for the office.

tools/checks/nginx.py SPADESK [NGINX]     without NGINX the one of the PATH; where there is none it says so

Three things of the file are others here: there is no certificate, and so no `ssl`; the ports at which nginx listens; the folders. The ports
8080 and 8081 must be free. At the end a service of this tool's stands there, which breaks off with a reset. page.py tries the other
roles, and serving.py the file as it is.
"""
import base64
import http.client
import re
import shutil
import socket
import struct
import subprocess
import sys
import tempfile
import threading
import time

sys.path.append(f"{sys.path[0]}/..")
from office import free_port, read, serving, written

USER = {"Authorization": "Basic " + base64.b64encode(b"keeper:secret").decode()}
OWN, FOREIGN = {"Origin": "https://office.school.example"}, {"Origin": "https://other.example"}


def plain(port, redirected):
    """The text of page/nginx.conf at this port without a certificate, and at another in the place of port 80."""
    text = re.sub(r" *(?:ssl_certificate|listen \[::\]).*\n", "", read("page", "nginx.conf"))
    return text.replace("listen 443 ssl;", f"listen 127.0.0.1:{port};").replace("listen 80;", f"listen 127.0.0.1:{redirected};")


def config(folder):
    """The whole file of nginx around page/nginx.conf."""
    text = plain(8081, free_port())
    for place in ("/etc/nginx", "/etc/spadesk", "/usr/share/spadesk", "/var/lib/nginx"):
        text = text.replace(place, folder)
    paths = "".join(f"{it}_temp_path {folder}/{it};\n" for it in ("client_body", "proxy", "fastcgi", "uwsgi", "scgi"))
    main = f"daemon off;\nmaster_process off;\npid {folder}/nginx.pid;\nerror_log stderr;\n"
    return f"{main}events {{}}\nhttp {{\naccess_log off;\n{paths}{text}}}\n"


def started(port, *words, **more):
    """A process, once its port is taken."""
    process = subprocess.Popen(words, stderr=subprocess.DEVNULL, **more)
    for _ in range(100):
        time.sleep(0.1)
        with socket.socket() as probe:
            if process.poll() is None and probe.connect_ex(("127.0.0.1", port)) == 0:
                return process
    process.kill()
    sys.exit(f"nothing listens at {port}: {' '.join(words)}")


def asked(method, path, body=None, fields=USER, count=1):
    """Status and body of the last of so many answers over one connection."""
    connection = http.client.HTTPConnection("127.0.0.1", 8081, timeout=10)
    for _ in range(count):
        connection.request(method, path, body, fields)
        answer = connection.getresponse()
        told = answer.read().decode()
    connection.close()
    return answer.status, told if "json" in answer.getheader("Content-Type", "") else ""


def trials():
    """What is tried, what comes and what must come."""
    text = b"code,name\nS1,Ann\n"
    full = text + b"".join(b"S2,%s\n" % (b"x" * 196) for _ in range(400))
    full = full[:65_525] + b"\nS3,Bob\n"
    full += b"\n" * (65_536 - len(full))
    none = '{"fault":"NoRoundOpen","number":19}'
    yield "without a sign-in", asked("GET", "/preview", fields={}), (401, "")
    yield "with one", asked("GET", "/preview"), (409, none)
    yield "a page of another site", asked("POST", "/rounds", fields={**USER, **FOREIGN}), (403, "")
    yield "a page of the school", asked("GET", "/preview", fields={**USER, **OWN}), (409, none)
    yield "a body in chunks", asked("POST", "/imports/students/I1", iter([text[:5], text[5:]])), (200, '{"rows":1}')
    yield "a body of 65,536 bytes", asked("POST", "/imports/students/I2", full)[0], 200
    yield "a body of 65,537 bytes", asked("POST", "/imports/students/I3", full + b"\n"), (413, "")
    yield "forty fields", asked("GET", "/preview", fields={**USER, **{f"X-{n}": "x" for n in range(40)}}), (409, none)
    yield "the last of 150 on a connection", asked("GET", "/preview", count=150), (409, none)
    with socket.create_connection(("127.0.0.1", 8081)) as slow:
        head = f"PUT /students/S1 HTTP/1.1\r\nHost: it\r\nContent-Length: 14\r\nAuthorization: {USER['Authorization']}\r\n\r\n"
        slow.sendall(head.encode() + b"{")
        yield "beside a slow client", asked("GET", "/preview"), (409, none)


def breaking(seen):
    """A service that resets each second connection, from the first on, once it has read the request; `seen` gets the methods."""

    def serve():
        while True:
            it = listener.accept()[0]
            seen.append(it.recv(65_536).split()[0].decode())
            if len(seen) % 2 == 0:
                it.sendall(b"HTTP/1.1 200 OK\r\nContent-Length: 0\r\n\r\n")
            else:
                it.setsockopt(socket.SOL_SOCKET, socket.SO_LINGER, struct.pack("ii", 1, 0))
            it.close()

    listener = socket.create_server(("127.0.0.1", 8080))
    threading.Thread(target=serve, daemon=True).start()


def broken():
    """What is tried where the service breaks off: a read is asked for once more, and a change is not."""
    seen = []
    breaking(seen)
    yield "a read that breaks off", (asked("GET", "/preview")[0], seen[:]), (200, ["GET", "GET"])
    for method in ("PUT", "POST", "DELETE"):
        del seen[:]
        came = [asked(method, "/lists/S1", b"{}")[0] for _ in range(2)]
        yield f"a {method} that breaks off, and one after it", (came, seen[:]), ([502, 200], [method, method])


def main(program, nginx=shutil.which("nginx")):
    if nginx is None:
        print("there is no nginx here: page/nginx.conf was not tried")
        return
    with tempfile.TemporaryDirectory() as folder:
        for name, text in (("office.users", "keeper:{PLAIN}secret\n"), ("nginx.conf", config(folder))):
            written(text, f"{folder}/{name}")
        with serving(program, f"{folder}/school.db", 1_000_000, 8080) as (served, _):
            front = started(8081, nginx, "-p", folder, "-c", f"{folder}/nginx.conf")
            try:
                came = list(trials())
                served.kill()
                lines = served.stdout.read().splitlines()
                came += broken()
            finally:
                front.terminate()
                front.wait(timeout=60)
    came.append((f"{len(lines)} connections", {line.split(": ")[1] for line in lines}, {"1 answers, closed"}))
    for name, told, wanted in came:
        print(f"{name}: {told}" + ("" if told == wanted else f", and not {wanted}"))
    if any(told != wanted for _, told, wanted in came):
        sys.exit(1)


if __name__ == "__main__":
    main(*sys.argv[1:])
