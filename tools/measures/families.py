#!/usr/bin/env python3
"""Writes hard instances as round texts: the lines of supervisors, projects and lists.

  families.py FAMILY SEED [STUDENTS] > FILE     500 students where no number is given
  families.py --list

even       lists of twelve drawn evenly, and room for each student
few        one to five supervisors offer all projects, with a place for nine students in ten; many searches go through a
           supervisor, and on to each of the supervisor's projects
full       one to five supervisors with few places, and far more projects than places; most projects stay empty
dense      every student lists 12 of 24 projects, so most projects are reached in each search, with many students on each
clones     50 groups of students with the same list, at one to four supervisors who offer 400 projects; each search walks
           the tree of the one before
backforth  a line of projects, with students who can hold one of two neighbours, and then students who come to either end
           in turn and push the others along; all projects are one supervisor's
near       lists of 2 to 4 neighbours on a line, in any order, so that a place moves far before somebody finds room
stars      each student lists one of eight projects first, and eleven of the own corner after it
chains     lists of three neighbours in their order, every third at one end of the line

An instance has four projects for each five students, and a supervisor for each five where nothing else is said: at most 100 supervisors,
400 projects and 500 students.
"""
import random
import sys

sys.path.append(f"{sys.path[0]}/..")
from office import round_text

LIST = 12


def spread(rng, total, slots):
    """A total over slots, as evenly as can be, shuffled."""
    parts = [total // slots + (i < total % slots) for i in range(slots)]
    rng.shuffle(parts)
    return parts


def owners(rng, supervisors, projects):
    """The supervisor of each project; all have about as many."""
    owner = [i % supervisors for i in range(projects)]
    rng.shuffle(owner)
    return owner


def offered(rng, supervisors, projects, quotas):
    """The supervisor of each project, and one of these quotas."""
    return [(owner, rng.choice(quotas)) for owner in owners(rng, supervisors, projects)]


def skewed(rng, students, projects, power):
    """Lists in which some projects are asked for more often."""
    order = list(range(projects))
    rng.shuffle(order)
    weights = [0.0] * projects
    for i, p in enumerate(order):
        weights[p] = 1.0 / (i + 1) ** power
    lists = []
    for _ in range(students):
        chosen = []
        while len(chosen) < min(LIST, projects):
            p = rng.choices(range(projects), weights)[0]
            if p not in chosen:
                chosen.append(p)
        lists.append(chosen)
    return lists


def even(rng, n):
    owner = owners(rng, n // 5, n * 4 // 5)
    quotas = spread(rng, n * 6 // 5 + n // 5, n // 5)
    offers = [(l, rng.choice((1, 1, 2, 2, 3))) for l in owner]
    return quotas, offers, [rng.sample(range(len(offers)), LIST) for _ in range(n)]


def few(rng, n):
    supervisors, projects = rng.randint(1, 5), n * 4 // 5
    offers = offered(rng, supervisors, projects, (1, 1, 2))
    return spread(rng, n * 9 // 10, supervisors), offers, skewed(rng, n, projects, 0.6)


def full(rng, n):
    supervisors, projects = rng.randint(1, 5), n * 4 // 5
    offers = offered(rng, supervisors, projects, (1, 2, 3))
    return spread(rng, n * rng.randint(2, 6) // 10, supervisors), offers, skewed(rng, n, projects, rng.choice((0.0, 0.4, 1.2)))


def dense(rng, n):
    offers = list(zip(owners(rng, 8, 24), spread(rng, n, 24)))
    return spread(rng, n * 9 // 10, 8), offers, [rng.sample(range(24), LIST) for _ in range(n)]


def clones(rng, n):
    supervisors, projects, groups = rng.choice((1, 2, 4)), n * 4 // 5, 50
    offers = offered(rng, supervisors, projects, (2, 10, 500))
    kinds = skewed(rng, groups, projects, 0.5)
    return spread(rng, n, supervisors), offers, [kinds[rng.randrange(groups)] for _ in range(n)]


def backforth(rng, n):
    line = n * 2 // 5 + 1
    sides = n - line + 1
    own = min(n * 4 // 5 - line, sides)
    # the line, and then a place for each student who comes to an end of it
    offers = [(0, 1)] * line + [(0, -(-sides // own))] * own
    lists = [[i, i + 1] if rng.randrange(2) else [i + 1, i] for i in range(line - 1)]
    lists += [[0 if k % 2 else line - 1, line + k % own] for k in range(sides)]
    return [n], offers, lists


def near(rng, n):
    projects = n * 4 // 5
    lists = []
    for _ in range(n):
        at = rng.randrange(projects - 3)
        around = [at + i for i in range(4)]
        rng.shuffle(around)
        lists.append(around[: rng.choice((2, 3, 4))])
    return [n * rng.choice((9, 10)) // 10], [(0, rng.choice((1, 1, 2))) for _ in range(projects)], lists


def stars(rng, n):
    supervisors, projects = n // 5, n * 4 // 5
    offers = [(l, 1) for l in owners(rng, supervisors, projects)]
    middle = rng.sample(range(projects), 8)
    rest = [p for p in range(projects) if p not in middle]
    lists = []
    for _ in range(n):
        corner = rng.randrange(len(rest))
        lists.append([rng.choice(middle)] + [rest[(corner + i) % len(rest)] for i in range(LIST - 1)])
    return spread(rng, n, supervisors), offers, lists


def chains(rng, n):
    supervisors, projects = n // 5, n * 4 // 5
    owner = owners(rng, supervisors, projects)
    starts = [rng.randrange(projects - 3) if s % 3 else 0 for s in range(n)]
    return [owner.count(l) for l in range(supervisors)], [(l, 1) for l in owner], [[at, at + 1, at + 2] for at in starts]


FAMILIES = {f.__name__: f for f in (even, few, full, dense, clones, backforth, near, stars, chains)}


def text(family, seed, students=500):
    return round_text(*FAMILIES[family](random.Random(f"{family}/{students}/{seed}"), int(students)))


if __name__ == "__main__":
    if sys.argv[1:] == ["--list"]:
        print(" ".join(FAMILIES))
    elif len(sys.argv) in (3, 4) and sys.argv[1] in FAMILIES:
        sys.stdout.write(text(*sys.argv[1:]))
    else:
        sys.exit(__doc__)
