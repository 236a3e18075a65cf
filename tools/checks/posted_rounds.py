#!/usr/bin/env python3
"""Publishes rounds of 60 to 500 students, falsifies what was posted or what was made of it, and says who sees it, by three checkers.

tools/checks/posted_rounds.py SPADESK [TRIES [SEED]]     needs node

Each round is one of families.py, by either aim. Its result is made by `publish`, accepted by everybody's part of the check and by each
student's. Then something is false, a TRY each: a list that was changed before the round was solved, a quota, a student's line, a price.
Everybody's part and each student's are judged by the program, by tools/check_round.py and by the proved code in check.html, which must tell
the same. Where all accept, what is told must be best for the true lists and for the quotas of the text: its size and profile are those that
`solve` gives.
"""
import collections
import json
import os
import random
import subprocess
import sys
import tempfile

sys.path.append(f"{sys.path[0]}/..")
from measures import families
from check_round import checked
from office import TOP, line, round_text, written

SIZES, KINDS = (60, 150, 300, 500), ("list", "quota", "line", "price")


class Told:
    """What the program, Python and the page tell, each asked once."""

    def __init__(self, program):
        self.program, self.folder = program, tempfile.mkdtemp()
        self.asked, self.alike = [], 0  # texts and lines, and what program and Python told; how many the page told alike

    def line(self, words, text):
        ran = line(self.program, words, written(text, os.path.join(self.folder, "round.txt")))
        return (ran.stdout or ran.stderr).strip()

    def judged(self, text, *own):
        """What everybody's part tells of a text, or the part of a student with this code and list."""
        said = self.line(f"check-own DB {' '.join(own)}" if own else "check DB", text)
        by_python = checked(text, *own)
        if said != by_python:
            sys.exit(f"posted_rounds.py: the program tells {said!r} and check_round.py {by_python!r} of {own}\n{text}")
        self.asked.append(([text, ",".join(own)] if own else [text], said))
        return said

    def by_page(self):
        """The page is asked all that was asked since it was asked last."""
        for call, most in (("page_check", 1), ("page_own", 2)):
            asked = [it for it in self.asked if len(it[0]) == most]
            words = ["node", f"{TOP}/tools/checks/page_lines.mjs", f"{TOP}/page/check.html", call]
            told = json.loads(subprocess.run(words, input=json.dumps([it[0] for it in asked]), stdout=subprocess.PIPE, text=True, check=True).stdout)
            for (texts, said), other in zip(asked, told, strict=True):
                if other.strip() != said:
                    sys.exit(f"posted_rounds.py: the program tells {said!r} and check.html {other!r} of {texts[1:]}\n{texts[0]}")
        self.alike += len(self.asked)
        self.asked = []


def rows(text, kind):
    return [it.split(",")[1:] for it in text.splitlines() if it.startswith(f"{kind},")]


def profile(text):
    """Size and profile of the pairs of a round text with its lists."""
    lists, ranks = {code: choices for code, *choices in rows(text, "C")}, [0] * 12
    for code, project in rows(text, "M"):
        ranks[lists[code].index(project)] += 1
    return [sum(ranks), *ranks]


def replaced(text, old, new):
    return "".join(f"{new if it == old else it}\n" for it in text.splitlines() if it != old or new is not None)


def falsified(draw, kind, posted, projects):
    """A public text in which a quota, a student's line or a price is another."""
    lines = posted.splitlines()
    if kind == "quota":
        old = draw.choice([it for it in lines if it[:2] in ("S,", "P,")])
        head, quota = old.rsplit(",", 1)
        return replaced(posted, old, f"{head},{max(0, int(quota) + draw.choice((-2, -1, 1, 2)))}")
    if kind == "line":
        old = draw.choice([it for it in lines if it.startswith("R,")])
        new = draw.choice(["", *(f",{it}" for it in projects)])
        return replaced(posted, old, ",".join(old.split(",")[:2]) + new)
    prices = [it for it in lines if it[:2] in ("Y,", "Z,")]
    if not prices or draw.random() < 0.2:
        code = draw.choice(projects)
        lines = [it for it in lines if not it.startswith(f"Y,{code},")] + [f"Y,{code},{draw.choice((1, 0))},1{',0' * 11}"]
        order = "ASPRYZ"
        return "".join(f"{it}\n" for it in sorted(lines, key=lambda it: (order.index(it[0]), it.split(",")[1])))
    old = draw.choice(prices)
    fields = old.split(",")
    place = draw.randrange(2, len(fields))
    fields[place] = str(int(fields[place]) + draw.choice((-1, 1)))
    return replaced(posted, old, ",".join(fields) if any(map(int, fields[2:])) else None)


def who_sees(told, text, lists, who):
    """Whether everybody sees that something is false, or one of these students, or nobody."""
    if not told.judged(text).startswith("accepted"):
        return "everybody"
    return "a student" if any(not told.judged(text, code, *lists[code]).startswith("accepted") for code in who) else "nobody"


def is_best(told, text, lists):
    """Whether what is told is best for these lists and the quotas of the text."""
    aim = "A,generous\n" if text.startswith("A,") else ""
    places = "".join(f"{it}\n" for it in text.splitlines() if it[:2] in ("S,", "P,"))
    instance = aim + places + "".join(f"C,{code},{','.join(choices)}\n" for code, choices in lists.items())
    pairs = "".join(f"M,{','.join(it)}\n" for it in rows(text, "R") if len(it) == 2)
    return profile(told.line("solve DB", instance)) == profile(instance + pairs)


def main(program, tries="2000", seed="1"):
    draw, told, seen = random.Random(int(seed)), Told(os.path.abspath(program)), collections.Counter()
    makers = [getattr(families, it) for it in ("even", "few", "full", "dense", "clones", "near", "stars", "chains")]
    students = rounds = 0
    for at in range(int(tries)):
        if at % 20 == 0:
            told.by_page()
            size, maker = SIZES[at // 20 % 4], draw.choice(makers)
            instance = round_text(*maker(draw, size), draw.random() < 0.5)
            lists = {code: choices for code, *choices in rows(instance, "C")}
            posted = told.line("publish DB", told.line("solve DB", instance) + "\n") + "\n"
            everyone = list(lists) if size < 300 else draw.sample(list(lists), 40)
            assert who_sees(told, posted, lists, everyone) == "nobody", "a right result is not accepted"
            projects, rounds, students = [it[0] for it in rows(instance, "P")], rounds + 1, students + len(everyone)
        kind = KINDS[at % 4]
        if kind == "list":
            code = draw.choice(list(lists))
            other = draw.sample(projects, min(len(projects), len(lists[code])))
            changed = replaced(instance, f"C,{code},{','.join(lists[code])}", f"C,{code},{','.join(other)}")
            text = told.line("publish DB", told.line("solve DB", changed) + "\n") + "\n"
            concerned = [code]
        else:
            text = falsified(draw, kind, posted, projects)
            concerned = list(lists)
        who = who_sees(told, text, lists, concerned if kind == "list" else concerned[:: max(1, size // 60)] if kind == "quota" else concerned)
        if who == "nobody" and kind in ("quota", "price", "line"):
            who = who_sees(told, text, lists, concerned)
        if who == "nobody" and not is_best(told, text, lists):
            sys.exit(f"posted_rounds.py: all accept, and it is not best\n{text}")
        seen[kind, who if text != posted else "the same text"] += 1
    print(f"{rounds} rounds, {students} students' parts of right results")
    for kind in KINDS:
        print(f"a {kind} that is false: " + ", ".join(f"{count} seen by {who}" for (it, who), count in sorted(seen.items()) if it == kind))
    told.by_page()
    print(f"{told.alike} parts told alike by the program, check_round.py and check.html")


if __name__ == "__main__":
    main(*sys.argv[1:])
