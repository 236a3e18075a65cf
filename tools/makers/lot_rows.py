#!/usr/bin/env python3
"""Prints rows of rounds that have many best matchings, and whom the lot gives which place.

tools/makers/lot_rows.py > crates/scenarios/data/lot.rows

Who has which place comes from `weighed` of lot.py, which knows the rule of docs/FORMATS.md ("The lot") and nothing else of this
repository. Each round is closed as the round of a database; the small ones are also solved as a text.
"""
import sys

sys.path.append(f"{sys.path[0]}/..")
from checks.lot import RANKS, weighed
from school_rows import cell

FIRST = 100


class Column:
    """What number n has: n times a factor and a shift more, by the remainder of a count, and from a first number on."""

    def __init__(self, letter, factor, shift, count, first=FIRST):
        self.letter, self.numbers = letter, (factor, shift, count, first)

    def __str__(self):
        return f"{self.letter}@{' '.join(map(str, self.numbers))}@"

    def at(self, n):
        factor, shift, count, first = self.numbers
        return f"{self.letter}{(n * factor + shift) % count + first}"


def lines(count, between, *columns):
    """So many lines of these columns, as they are, and as a row writes them."""
    texts = [between.join(it if isinstance(it, str) else it.at(n) for it in columns) + "\n" for n in range(count)]
    return "".join(texts), f"^{{0 {count} {between.join(map(str, columns))}^n^}}"


def rows(name, aim, supervisors, projects, students, lists):
    """The rows of a round. A roll has a count, a column of codes and one of quotas; lists have a column for each choice."""
    (of_supervisors, owner, quota), (of_projects, code, of, places), (of_students, student) = supervisors, projects, students
    rolls = [(of_supervisors, ",", "S", owner, quota), (of_projects, ",", "P", code, of, places), (of_students, ",", "C", student, *lists)]
    front = "A,generous\n" if aim == "generous" else ""
    texts, written = zip(*(lines(*roll) for roll in rolls))
    text, row = front + "".join(texts), front.replace("\n", "^n") + "".join(written)
    order = {line.split(",")[1]: line.split(",")[2:] for line in texts[2].splitlines()}
    found = sorted(weighed(text).items())
    ranks = [order[who].index(project) + 1 for who, project in found]
    best = f"size {len(found)} profile {' '.join(str(ranks.count(rank)) for rank in range(1, RANKS + 1))}^n"
    if of_students < 100:
        pairs = "".join(f"M,{who},{project}^n" for who, project in found)
        yield f"solved | {row} | {pairs}U,{student.at(0)}, | 0 | best {best} |"
    yield f"file supervisors.csv | code,name,quota^n{lines(of_supervisors, ',', owner, 'Lee', quota)[1]}"
    yield f"file projects.csv | code,name,supervisor,quota^n{lines(of_projects, ',', code, 'Pumps', of, places)[1]}"
    yield f"file students.csv | code,name^n{lines(of_students, ',', student, 'Ann')[1]}"
    yield f"file lists.csv | student,choices^n^{{0 {of_students} {student},{' '.join(map(str, lists))}^n^}}"
    for number, (kind, count) in enumerate((("supervisors", of_supervisors), ("projects", of_projects), ("students", of_students))):
        new = "" if number else f" new {name}.db^n"
        yield f"spadesk import {name}.db {kind} I{number} {kind}.csv | 0 | rows {count}^n |{new}"
    yield f"spadesk open-round {name}.db {aim} | 0 | round 1^n |"
    yield f"spadesk import {name}.db lists I4 lists.csv | 0 | rows {of_students}^n |"
    yield f"spadesk close-round {name}.db | 0 | round 1 {best} |"
    report = "".join(f"{who:16} {project:16} {rank:2}\n" for (who, project), rank in zip(found, ranks))
    yield f"spadesk report {name}.db placements 1 | 0 | {cell(report)} |"


def school(supervisors, projects, students, quotas, places, factors):
    """The rolls of a school and the lists: each choice has projects of its own, which the students have in turn."""
    each = projects // len(factors)
    return (
        (supervisors, Column("L", 1, 0, supervisors), Column("", *quotas)),
        (projects, Column("P", 1, 0, projects), Column("L", 1, 0, supervisors), Column("", *places)),
        (students, Column("S", 1, 0, 10**4)),
        [Column("P", factor, at, each, FIRST + each * at) for at, factor in enumerate(factors)],
    )


def main():
    # supervisors, projects, students; quotas of supervisors, places of projects; the factors of the choices
    little = school(4, 12, 30, (1, 0, 4, 1), (5, 1, 3, 0), (1, 3, 2))
    rounds = {
        "little": ("Too few places, quotas of 0, and supervisors that bind", "greedy", little),
        "generous": ("The same by a generous aim", "generous", little),
        "alike": ("All have the same list", "greedy", school(1, 12, 40, (0, 0, 1, 9), (0, 0, 1, 1), (0,) * 12)),
        "many": ("A round of 500 students", "greedy", school(100, 396, 500, (0, 0, 1, 4), (1, 0, 2, 1), (7, 5, 11, 13, 3, 1))),
        "again": ("Another by a generous aim", "generous", school(60, 390, 500, (1, 1, 3, 5), (3, 1, 2, 1), (1, 7, 3, 5, 9, 11))),
    }
    print("# Made by tools/makers/lot_rows.py: whom the lot gives which place.\n")
    print("\n\n".join("\n".join([f"# {what}.", *rows(name, aim, *rolls)]) for name, (what, aim, rolls) in rounds.items()))


if __name__ == "__main__":
    main()
