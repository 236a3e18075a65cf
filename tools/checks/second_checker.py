#!/usr/bin/env python3
"""Compares `check` of the program with tools/check_round.py, and with the proved code in the pages, on a thousand round texts.

tools/checks/second_checker.py SPADESK [TEXTS [SEED]]     needs node for the pages

Each text is a small round, greedy or generous, that the program has solved. Of four texts one stays as it is; in one the aim, a price,
a pair, a quota or a list is changed; and in two a line stands twice, changes places with another, is missing, lost its first letter, or is
one of another text. Forged proofs and files that are none come first. All must tell the same, also which line is the first bad one; and
the pages must solve each round as `solve` does.
"""
import collections
import json
import os
import random
import re
import shutil
import subprocess
import sys
import tempfile

sys.path.append(f"{sys.path[0]}/..")
from check_round import RANKS, checked
from office import TOP, line, round_text, written
from page import FORGED_LIST, FORGED_PRICES

GENEROUS = "A,generous\n"


def drawn(draw):
    """The text of a round with an aim and a few supervisors, projects and students."""
    quotas = [draw.randint(0, 4) for _ in range(draw.randint(1, 4))]
    offers = [(draw.randrange(len(quotas)), draw.randint(0, 3)) for _ in range(draw.randint(1, RANKS + 2))]
    lists = [draw.sample(range(len(offers)), draw.randint(1, min(len(offers), RANKS))) for _ in range(draw.randint(0, 9))]
    return round_text(quotas, offers, lists, draw.choice((False, True)))


def changed(draw, text):
    """The text with the aim or one field changed."""
    lines = text.splitlines()
    if draw.random() < 0.1 or not lines:
        return text.removeprefix(GENEROUS) if text.startswith(GENEROUS) else GENEROUS + text
    at = draw.randrange(len(lines))
    fields = lines[at].split(",")
    if fields[0] in "UYZ":
        place = draw.randrange(2, len(fields))
        fields[place] = str(int(fields[place]) + draw.choice((-2, -1, 1, 2)))
    elif fields[0] in "SP":
        fields[-1] = str(int(fields[-1]) + draw.choice((-1, 1)))
    elif fields[0] == "C":
        fields[2], fields[-1] = fields[-1], fields[2]
    elif fields[0] == "M":
        fields[2] = draw.choice([line for line in lines if line.startswith(f"C,{fields[1]},")][0].split(",")[2:])
    lines[at] = ",".join(fields)
    return "".join(line + "\n" for line in lines)


# Lines that stand in no text, or in few.
FOREIGN = ["", "X", "S", "S,", "A,generous", "A,greedy", "S,L9,05", "S,L000,501", "S,l000,1", "S,L000,1\r", "P,P000,L007,1", "C,S000"]
FOREIGN += [",", "SP,P000,L000,1"]
FOREIGN += ["C,S000,P000,P000", "C,S077,P000", "M,S000,P077", "M,S077,P000", "U,S000,0", "U,S000" + ",0" * 13, "Y,P000" + ",-0" * 13]
FOREIGN += ["Z,L000" + ",1000001" * 13, "Z,L000" + ",0" * 14]


def relined(draw, text, other):
    """The text with a line twice, two exchanged, one missing, one without its first letter or of another text, or without its last byte."""
    lines = text.splitlines() or [""]
    at, to = draw.randrange(len(lines)), draw.randrange(len(lines))
    way = draw.choice(("double", "swap", "miss", "behead", "cut", "foreign"))
    if way == "double":
        lines.insert(draw.choice((at, to)), lines[at])
    elif way == "swap":
        lines[at], lines[to] = lines[to], lines[at]
    elif way == "miss":
        del lines[at]
    elif way == "behead":
        lines[at] = lines[at][1:]
    elif way == "cut":
        return text[:-1]
    else:
        lines.insert(at, draw.choice(FOREIGN + other.splitlines()))
    return "".join(line + "\n" for line in lines)


def told(program, command, text):
    """What a command tells of a text."""
    with tempfile.TemporaryDirectory() as folder:
        ran = line(program, f"{command} DB", written(text, os.path.join(folder, "round.txt")))
        return ran.stdout or ran.stderr


def by_page(page, call, texts):
    """What the proved code in a page tells of each of these texts."""
    words = ["node", f"{TOP}/tools/checks/page_lines.mjs", f"{TOP}/page/{page}", call]
    return json.loads(subprocess.run(words, input=json.dumps(texts), stdout=subprocess.PIPE, text=True, check=True).stdout)


def compare(name, texts, answers, told):
    for text, answer, other in zip(texts, answers, told, strict=True):
        if other.strip() != answer.strip():
            sys.exit(f"second_checker.py: the program tells {answer!r} and {name} {other!r} of\n{text}")


def main(program, number="1000", seed="1"):
    draw = random.Random(int(seed))
    rounds, texts, before = [], ["", "hello", "M,x,y\nU,x,1\n", FORGED_PRICES, FORGED_LIST], ""
    for at in range(int(number)):
        rounds.append(drawn(draw))
        solved = told(program, "solve", rounds[-1])
        texts.append((solved, changed(draw, solved), relined(draw, solved, before), relined(draw, solved, before))[at % 4])
        before = solved
    answers = [told(program, "check", text) for text in texts]
    compare("check_round.py", texts, answers, map(checked, texts))
    for page in ("office.html", "check.html") if shutil.which("node") else ():
        compare(page, texts, answers, by_page(page, "page_check", texts))
        compare(page, rounds, [told(program, "solve", text) for text in rounds], by_page(page, "page_solve", rounds))
    kinds = collections.Counter(re.match(r"best|bad line|\w+ \d+", answer)[0] for answer in answers)
    print(", ".join(f"{kinds[kind]} {kind}" for kind in sorted(kinds)), "" if shutil.which("node") else "; there is no node here")


if __name__ == "__main__":
    main(*sys.argv[1:])
