#!/usr/bin/env python3
"""Checks by its prices that the matching of a round text is best by the aim of the text, or what everybody and a student can check of a
public text.

tools/check_round.py FILE                        prints what `spadesk check FILE` prints, also of a text with a bad line
tools/check_round.py FILE STUDENT P1 .. Pk       prints what `spadesk check-own FILE STUDENT P1 .. Pk` prints of a public text

The status is 1 where that is neither `best` nor `accepted`. It knows the formats and the conditions (docs/FORMATS.md, docs/PROOF.md)
and nothing else of this repository: who does not trust the program can read these lines. Rows of thirteen numbers are compared as Python compares tuples, the first number first; those
of a generous round in the order size, last rank to first, and at the ranks the smaller number is the better.
"""
import functools
import re
import sys

RANKS = 12
ZERO = (0,) * (1 + RANKS)
MAX_BYTES = 524_288
# the sections in their order, the roll that each section of prices goes along with, and how many lines a roll may have
SECTIONS = "ASPCMUYZ"
ROLL = {"U": "C", "Y": "P", "Z": "S"}
MOST = {"S": 100, "P": 400, "C": 500, "R": 500}


def added(*rows):
    return tuple(map(sum, zip(ZERO, *rows)))


def weight(rank):
    """What a pair weighs: 1 for the size and 1 at its rank."""
    return tuple(int(place in (0, rank)) for place in range(1 + RANKS))


def greedy(row):
    """A row in the order of a greedy round."""
    return row


def generous(row):
    """A row in the order of a generous round."""
    return row[:1] + tuple(-number for number in row[:0:-1])


class BadLine(Exception):
    """A line with which no round text goes on."""


def need(holds):
    if not holds:
        raise BadLine


def number(word, least, most):
    need(re.fullmatch("0|-?[1-9][0-9]{0,6}", word))
    need(least <= int(word) <= most)
    return int(word)


class Round:
    """What the lines of a round text say so far: quotas by (kind of price, code), each project's supervisor, lists, pairs, prices."""

    SECTIONS = SECTIONS

    def __init__(self):
        self.read, self.section = greedy, None
        self.quota, self.offerer, self.lists, self.pairs, self.price = {}, {}, {}, {}, {}
        self.codes = {kind: [] for kind in SECTIONS}

    def is_whole(self, kinds="UYZ"):
        """Whether these sections of prices are each empty, or have a line for every entry of their roll."""
        return all(self.codes[kind] in ([], self.codes[ROLL[kind]]) for kind in kinds)

    def add(self, line):
        kind, *fields = line.split(",")
        need(kind in list(self.SECTIONS) and len(fields) >= 1)
        if kind == "A":
            need(self.section is None and fields == ["generous"])
            self.read = generous
        else:
            self.enter(kind, fields[0])
            getattr(self, "add_" + kind)(*fields)
        self.section = kind

    def enter(self, kind, code):
        """The next code of a section: each rises, and those of prices go along with their roll."""
        before = SECTIONS.index(self.section or "A")
        need(SECTIONS.index(kind) >= before and self.is_whole(set("UYZ") - {kind}))
        codes = self.codes[kind]
        need(re.fullmatch("[A-Z0-9][A-Z0-9-]{0,15}", code) and (not codes or code > codes[-1]))
        codes.append(code)
        if kind in MOST:
            need(len(codes) <= MOST[kind])
        if kind in ROLL:
            need(self.codes[ROLL[kind]][: len(codes)] == codes)

    def add_S(self, code, *quota):
        need(len(quota) == 1)
        self.quota["Z", code] = number(quota[0], 0, 500)

    def add_P(self, code, *fields):
        need(len(fields) == 2 and ("Z", fields[0]) in self.quota)
        self.offerer[code], self.quota["Y", code] = fields[0], number(fields[1], 0, 500)

    def add_C(self, code, *choices):
        need(1 <= len(choices) <= RANKS and len(set(choices)) == len(choices) and set(choices) <= set(self.offerer))
        self.lists[code] = choices

    def add_M(self, code, *project):
        need(len(project) == 1 and project[0] in self.lists.get(code, ()))
        self.pairs[code] = project[0]

    def add_price(self, code, *numbers, kind):
        need(len(numbers) == len(ZERO))
        self.price[kind, code] = tuple(number(word, -1_000_000, 1_000_000) for word in numbers)

    add_U = functools.partialmethod(add_price, kind="U")
    add_Y = functools.partialmethod(add_price, kind="Y")
    add_Z = functools.partialmethod(add_price, kind="Z")


class Public(Round):
    """What the lines of a public text say so far: what each student is told, and the prices that are not zero."""

    SECTIONS = "ASPRYZ"

    def __init__(self):
        super().__init__()
        self.told = {}

    def is_whole(self, kinds="YZ"):
        return True

    def enter(self, kind, code):
        need(self.SECTIONS.index(kind) >= self.SECTIONS.index(self.section or "A"))
        codes = self.codes.setdefault(kind, [])
        need(re.fullmatch("[A-Z0-9][A-Z0-9-]{0,15}", code) and (not codes or code > codes[-1]))
        codes.append(code)
        need(len(codes) <= MOST.get(kind, 500))
        need(kind not in ROLL or code in self.codes[ROLL[kind]])

    def add_R(self, code, *project):
        need(len(project) <= 1 and set(project) <= set(self.offerer))
        self.told[code] = project[0] if project else None

    def add_price(self, code, *numbers, kind):
        super().add_price(code, *numbers, kind=kind)
        need(self.price[kind, code] != ZERO)

    add_Y = functools.partialmethod(add_price, kind="Y")
    add_Z = functools.partialmethod(add_price, kind="Z")

    def cost(self, project):
        return added(self.price.get(("Y", project), ZERO), self.price.get(("Z", self.offerer[project]), ZERO))

    def has(self, rank, project):
        """What a project at a rank is worth at the prices."""
        return tuple(a - b for a, b in zip(weight(rank), self.cost(project)))


def checked(text, *own):
    """What is told of a text, whose bytes stand as the characters below 256, and of a student with this code and list."""
    if len(text) > MAX_BYTES:
        return "refused 4: TooLarge"
    is_public = own or any(line.startswith("R") for line in text.split("\n"))
    it = Public() if is_public else Round()
    *lines, rest = text.split("\n")
    for at, line in enumerate(lines, 1):
        try:
            it.add(line)
        except BadLine:
            return f"bad line {at}"
    if rest or not it.is_whole():
        return f"bad line {len(lines) + 1}"
    if not is_public:
        return judged(it)
    told = judged_public(it)
    return judged_own(it, *own) if own and told.startswith("accepted") else told


def judged_public(it):
    """The first of everybody's conditions that fails, or what is accepted."""
    projects = [project for project in it.told.values() if project]
    taken = [("Y", project) for project in projects] + [("Z", it.offerer[project]) for project in projects]
    if any(taken.count(node) > it.quota[node] for node in set(taken)):
        return "fault 1"
    if any(it.read(row) < ZERO for row in it.price.values()):
        return "fault 3"
    if any(taken.count(node) < it.quota[node] for node in it.price):
        return "fault 5"
    return f"accepted size {len(projects)} students {len(it.told)}"


def judged_own(it, student, *choices):
    """The first of a student's own conditions that fails, or what is accepted."""
    if student not in it.told:
        return "not in this round"
    if not 1 <= len(choices) <= RANKS or len(set(choices)) < len(choices) or not set(choices) <= set(it.offerer):
        return "fault 7"
    project = it.told[student]
    if project and project not in choices:
        return "fault 6"
    has = it.has(choices.index(project) + 1, project) if project else ZERO
    if it.read(has) < ZERO:
        return f"fault 4 {student} 0"
    for rank, other in enumerate(choices, 1):
        if it.read(has) < it.read(it.has(rank, other)):
            return f"fault 4 {student} {rank}"
    return f"accepted {project} {choices.index(project) + 1}" if project else "accepted none"


def judged(it):
    """The first of the five conditions that fails, or what the matching is."""
    taken = [("Y", project) for project in it.pairs.values()] + [("Z", it.offerer[project]) for project in it.pairs.values()]
    if any(taken.count(node) > it.quota[node] for node in set(taken)):
        return "fault 1"
    if set(it.price) != {*it.quota, *(("U", student) for student in it.lists)}:
        return "fault 2"
    if any(it.read(row) < ZERO for row in it.price.values()):
        return "fault 3"
    for student, choices in it.lists.items():
        for rank, project in enumerate(choices, 1):
            cost = added(it.price["U", student], it.price["Y", project], it.price["Z", it.offerer[project]])
            if it.read(cost) < it.read(weight(rank)):
                return f"fault 4 {student} {rank}"
    worth = added(*(weight(it.lists[student].index(project) + 1) for student, project in it.pairs.items()))
    paid = added(*(tuple(it.quota.get(node, 1) * number for number in row) for node, row in it.price.items()))
    return "fault 5" if worth != paid else f"best size {worth[0]} profile {' '.join(map(str, worth[1:]))}"


if __name__ == "__main__":
    answer = checked(open(sys.argv[1], "rb").read().decode("latin-1"), *sys.argv[2:])
    print(answer)
    sys.exit(not answer.startswith(("best ", "accepted ")))
