#!/usr/bin/env python3
"""What `solve FILE` and `check FILE` take beside plain Rust, over files by each aim, or as a round grows.

tools/measures/solve_costs.py SPADESK FILE..                      needs rustc and valgrind
tools/measures/solve_costs.py SPADESK --growth > docs/growth.svg

Each FILE is a round text without an aim, such as `families.py` writes. A round grows by its family `even`; what is drawn also goes to
standard error. Instructions are counted in millions, the start of the process taken off; `check` reads what the same program has found. All
must come to the same size and profile, and the program must accept what plain Rust has found.
"""
import os
import random
import subprocess
import sys
import tempfile

sys.path.append(f"{sys.path[0]}/..")
from families import even
from office import TOP as ROOT, counted, line, round_text, written

COMMANDS = ["solve", "check"]
SIZES = [60, 125, 250, 500]
WIDTH, HEIGHT, LEFT, RIGHT, BOTTOM, TOP = 420, 300, 36, 110, 44, 46
COLOURS = {"spadesk": "#1f5f8b", "plain Rust": "#b0552f"}


class Pair:
    """The program and plain Rust, each with what its start takes."""

    def __init__(self, program, folder):
        plain = os.path.join(folder, "rounds")
        subprocess.run(["rustc", "-O", "--edition", "2021", "-o", plain, os.path.join(ROOT, "tools", "beside", "rounds.rs")], check=True)
        self.program, self.file, self.solved = os.path.abspath(program), os.path.join(folder, "round"), os.path.join(folder, "solved")
        empty = written("", os.path.join(folder, "empty"))
        self.starts = {path: counted(path, "solve", empty)[0] for path in (self.program, plain)}

    def costs(self, text, name):
        """By command, the millions of instructions of the program and of plain Rust over this text."""
        costs, told = {command: [] for command in COMMANDS}, set()
        written(text, self.file)
        for path, start in self.starts.items():
            count, ran = counted(path, "solve", self.file)
            written(ran.stdout, self.solved)
            checked, judged = counted(path, "check", self.solved)
            costs["solve"].append((count - start) / 1e6)
            costs["check"].append((checked - start) / 1e6)
            told |= {judged.stdout, line(self.program, "check DB", self.solved).stdout}
        if len(told) != 1 or not min(told).startswith("best"):
            sys.exit(f"solve_costs.py: {name}: the programs differ: {sorted(told)}")
        return costs


def compare(pair, files):
    """Prints what each file takes by each aim."""
    heads = "".join(f" {command:>8} {'plain':>8} {'ratio':>6}" for command in COMMANDS)
    print(f"{'file':16} {'aim':9}{heads}")
    for file in files:
        for aim, front in {"greedy": "", "generous": "A,generous\n"}.items():
            with open(file, encoding="utf-8") as text:
                costs = pair.costs(front + text.read(), file)
            row = "".join(f" {ours:8.2f} {theirs:8.2f} {ours / theirs:6.2f}" for ours, theirs in costs.values())
            print(f"{os.path.basename(file):16} {aim:9}{row}", flush=True)


def panel(command, found, shift):
    """One command as a drawing: a curve for each program."""
    most = max(map(max, found))

    def at(students, millions):
        x = shift + LEFT + (WIDTH - LEFT - RIGHT) * students / SIZES[-1]
        return x, HEIGHT - BOTTOM - (HEIGHT - BOTTOM - TOP) * millions / most

    left, base = at(0, 0)
    right, _ = at(SIZES[-1], 0)
    yield f'<text x="{left:.0f}" y="22" font-size="15">{command} FILE: million instructions</text>'
    yield f'<path d="M{left:.1f},{TOP} V{base:.1f} H{right:.1f}" fill="none" stroke="#888"/>'
    yield f'<text x="{(left + right) / 2:.0f}" y="{HEIGHT - 6}" text-anchor="middle">students</text>'
    for students in SIZES:
        yield f'<text x="{at(students, 0)[0]:.1f}" y="{base + 16:.1f}" text-anchor="middle">{students}</text>'
    for (name, colour), millions in zip(COLOURS.items(), zip(*found)):
        points = list(map(at, SIZES, millions))
        x, y = points[-1]
        yield f'<polyline points="{" ".join(f"{a:.1f},{b:.1f}" for a, b in points)}" fill="none" stroke="{colour}" stroke-width="2"/>'
        yield from (f'<circle cx="{a:.1f}" cy="{b:.1f}" r="3" fill="{colour}"/>' for a, b in points)
        yield f'<text x="{x + 8:.1f}" y="{y + 4:.1f}" fill="{colour}">{millions[-1]:.1f} {name}</text>'


def draw(pair):
    """Draws what rounds of each size take."""
    costs = [pair.costs(round_text(*even(random.Random(1), students)), f"{students} students") for students in SIZES]
    print(f'<svg xmlns="http://www.w3.org/2000/svg" viewBox="0 0 {2 * WIDTH} {HEIGHT}" width="{2 * WIDTH}" height="{HEIGHT}"', end="")
    print(f' font-family="sans-serif" font-size="12">\n<rect width="{2 * WIDTH}" height="{HEIGHT}" fill="white"/>')
    for number, command in enumerate(COMMANDS):
        found = [cost[command] for cost in costs]
        for name, millions in zip(COLOURS, zip(*found)):
            print(command, name, *(f"{it:.2f}" for it in millions), file=sys.stderr)
        print(*panel(command, found, number * WIDTH), sep="\n")
    print("</svg>")


def main(program, *files):
    with tempfile.TemporaryDirectory() as folder:
        pair = Pair(program, folder)
        if files == ("--growth",):
            draw(pair)
        else:
            compare(pair, files)


if __name__ == "__main__":
    main(*sys.argv[1:]) if len(sys.argv) > 2 else sys.exit(__doc__)
