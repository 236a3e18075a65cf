#!/usr/bin/env python3
"""Runs every command of the walkthroughs, and compares what it prints with what they show.

tools/checks/walkthrough.py SPADESK [--write] [TEXT..]     needs curl, jq and sqlite3
tools/checks/walkthrough.py                                only compares the rows of the gate with the texts of the example

Each TEXT is one of WALKTHROUGHS, and without any all of them are run. The commands are the lines after a `$` in its console blocks; those
of `rt`, which prove or build, stand in other blocks and are not run. They run from the top to the end in a folder of their own, beside the
files of the walkthrough and links to tools and to docs. With --write the text shows what was printed. After each command, and once `serve`
has ended, a copy of the database file alone is held beside one with its log: each report on each must be the same, and each row that SQLite
reads.

The commands of the first round, and what is served there, are also rows of the gate, crates/scenarios/data/walkthrough.rows, which have the
texts of the example for their own. Here each of them is compared with the example, file by file, command by command and request by
request, up to the title behind which there are no rows.
"""
import contextlib
import difflib
import os
import re
import shutil
import subprocess
import sys
import tempfile
import time

sys.path.append(f"{sys.path[0]}/..")
from office import TOP, copy, line, read, rows, written

ROWS = os.path.join(TOP, "crates", "scenarios", "data", "walkthrough.rows")
FIRST = "examples/first-round/README.md"
UNTESTED = "\n## Anyone can check it\n"

# each text, with the folder of its files
WALKTHROUGHS = {
    "README.md": "examples/first-round",
    FIRST: "examples/first-round",
    "docs/GUIDE.md": "examples/term",
    "examples/README.md": "examples",
    "examples/refusals/README.md": "examples/refusals",
}


def shown_commands(text):
    """Each command of a walkthrough, with what it prints."""
    blocks = re.findall(r"```console\n(.*?)```", text, flags=re.S)
    return [pair for block in blocks for pair in re.findall(r"^\$ (.*)\n((?:(?!\$ ).*\n)*)", block, re.M)]


def compare_rows():
    """Ends where the rows do not have the files, the commands and the requests of the first round."""
    played = read(ROWS)
    commands = shown_commands(read(FIRST).partition(UNTESTED)[0])
    folder = WALKTHROUGHS[FIRST]
    sheets = [name for name in os.listdir(os.path.join(TOP, folder)) if name.endswith(".csv")]
    wanted = [f"file {name} | " + read(os.path.join(folder, name)).replace("\n", "^n") + "\n" for name in sheets]
    missing = [text for text in wanted if text not in played]
    rows = re.findall(r"^(spadesk .*?) +\| 0 \| (.*?) ?\| ?(.*)$", played, re.M)
    lines = [(command, told) for command, told in commands if command.startswith("spadesk ") and "&" not in command]
    if lines != [(words, (err + out).replace("^n", "\n")) for words, out, err in rows]:
        missing.append("the lines of the program as they are shown")
    requests = re.findall(r"(GET|POST) (\S+) +\| \| 200 OK \| (\{.*\})", played)
    for command, told in commands:
        asked = re.search(r"curl -s (-X POST )?http://[^/]+(/\S+)( \| jq )?", command)
        if asked:
            method = "POST" if asked[1] else "GET"
            answers = [body for verb, path, body in requests if (verb, path) == (method, asked[2])]
            if not any(told.strip() in body if asked[3] else told.strip() == body for body in answers):
                missing.append(command)
    if missing:
        sys.exit("the rows do not have:\n" + "\n".join(missing))


def seen(path, ends, env):
    """The reports of the office of the files of a database with these ends, and the rows of its tables, each seen on a copy of its own."""
    with tempfile.TemporaryDirectory() as folder:
        dump = rows(copy(path, f"{folder}/looked.db", ends))
        told = copy(path, f"{folder}/school.db", ends)
        kinds = ("profile", "loads", "unplaced", "placements")
        reports = [line("spadesk", f"report DB {kind} 1", told, env=env, timeout=60) for kind in kinds]
    return [(ran.stdout, ran.stderr, ran.returncode) for ran in reports], dump


class Shell:
    """Runs commands in a folder. What ends with `&` is left running: `cat served.txt` waits for its end, and `kill $!` ends it."""

    def __init__(self, folder, env):
        self.folder, self.env, self.left = folder, env, []

    def begin(self, command):
        """Leaves a command running, once it has written to served.txt."""
        served = f"{self.folder}/served.txt"
        if os.path.exists(served):
            os.remove(served)
        self.left.append(subprocess.Popen(f"exec {command.rstrip('& ')}", shell=True, cwd=self.folder, env=self.env))
        for _ in range(300):
            if self.left[-1].poll() is not None or os.path.exists(served) and os.path.getsize(served):
                break
            time.sleep(0.1)

    def end(self, is_killed):
        """Waits for the end of what was left running, or brings it about."""
        for it in self.left:
            if is_killed:
                it.terminate()
            it.wait(timeout=60)
        self.left = []

    def log(self):
        """When the log was last written, if there is one."""
        with contextlib.suppress(FileNotFoundError):
            return os.stat(f"{self.folder}/school.db-wal").st_mtime_ns

    def compare_copies(self, command, log):
        """Ends where the database file alone is not what it is with its log, though nothing has it open. A line that left the log as it was
        did not open the database."""
        if self.left or self.log() in (None, log):
            return
        path = f"{self.folder}/school.db"
        if seen(path, [""], self.env) != seen(path, ["", "-wal"], self.env):
            sys.exit(f"after this a copy of the file alone is another office: {command}")

    def run(self, command):
        """What a command prints."""
        if command.endswith("&"):
            self.begin(command)
            return ""
        if command == "kill $!":
            self.end(True)
            return ""
        log = self.log()
        if command == "cat served.txt":
            self.end(False)
        how = {"shell": True, "cwd": self.folder, "env": self.env, "timeout": 60}
        ran = subprocess.run(command, stdout=subprocess.PIPE, stderr=subprocess.STDOUT, **how)
        if command.startswith("spadesk ") or command == "cat served.txt":
            self.compare_copies(command, log)
        text = ran.stdout.decode().replace("\r\n", "\n")
        return text if text.endswith("\n") or not text else text + "\n"


def play(text, program):
    """The text with what its commands print now, and how many they are."""
    commands = []
    with tempfile.TemporaryDirectory() as folder, tempfile.TemporaryDirectory() as programs:
        for entry in os.scandir(os.path.join(TOP, WALKTHROUGHS[text])):
            if entry.is_file():
                shutil.copy(entry.path, folder)
        for name in ("tools", "docs"):
            os.symlink(os.path.join(TOP, name), f"{folder}/{name}")
        os.symlink(os.path.abspath(program), f"{programs}/spadesk")
        shell = Shell(folder, {**os.environ, "PATH": f"{programs}:{os.environ['PATH']}"})

        def played(block):
            these = re.findall(r"^\$ (.*)$", block[1], re.M)
            commands.extend(these)
            return "```console\n" + "".join(f"$ {it}\n{shell.run(it)}" for it in these) + "```"

        try:
            told = re.sub(r"```console\n(.*?)```", played, read(text), flags=re.S)
        finally:
            shell.end(True)
    return told, len(commands)


def main(program=None, *words):
    is_written = "--write" in words
    if not is_written:
        compare_rows()
    if program is None:
        return
    differing = False
    for text in [word for word in words if word != "--write"] or WALKTHROUGHS:
        shown = read(text)
        told, count = play(text, program)
        if is_written:
            written(told, os.path.join(TOP, text))
        elif told != shown:
            differing = True
            both = shown.splitlines(True), told.splitlines(True)
            sys.stdout.writelines(difflib.unified_diff(*both, f"{text} shows", "the commands print"))
        print(f"{text}: {count} commands, " + ("written" if is_written else "not as shown" if told != shown else "each as shown"))
    if differing:
        sys.exit(1)


if __name__ == "__main__":
    main(*sys.argv[1:])
