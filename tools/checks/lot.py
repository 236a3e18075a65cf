#!/usr/bin/env python3
"""Compares whom `solve` places with the rule of the lot, and tries to steer it.

tools/checks/lot.py SPADESK [ROUNDS [SEED]]             so many small rounds by each aim, 5000 where no number is given
tools/checks/lot.py SPADESK --steer [ROUNDS [SEED]]     what moves nobody, in so many rounds, 200 where no number is given
tools/checks/lot.py SPADESK --moved [ROUNDS [SEED]]     how many others one change moves, in so many rounds, 100 where no number is given

The rule stands in docs/FORMATS.md ("The lot"). Two programs here know it, and neither knows prices: `tried` goes through all matchings,
and `weighed` admits student after student by weights of size, profile and then the place of each student in the order of the numbers.
"""
import hashlib
import itertools
import os
import random
import re
import subprocess
import sys
import tempfile
from collections import deque

sys.path.append(f"{sys.path[0]}/..")
from office import message, round_text, told, written

RANKS, MANY = 12, 1000
GENEROUS = "A,generous\n"


def by_number(codes):
    """The codes in the order of their numbers."""
    return sorted(codes, key=lambda code: hashlib.sha256(code.encode()).digest())


def parsed(text):
    """The quota of each supervisor, the supervisor and the quota of each project, and each list, by code."""
    rows = {kind: [line.split(",")[1:] for line in text.splitlines() if line.startswith(f"{kind},")] for kind in "SPC"}
    supervisors = {code: int(quota) for code, quota in rows["S"]}
    return supervisors, {code: (owner, int(quota)) for code, owner, quota in rows["P"]}, {code: chosen for code, *chosen in rows["C"]}


def tried(text):
    """The pairs that the rule gives, of all matchings."""
    supervisors, projects, lists = parsed(text)
    order, best = by_number(lists), None
    for places in itertools.product(*([*range(1, len(lists[code]) + 1), RANKS + 1] for code in order)):
        pairs = {code: lists[code][place - 1] for code, place in zip(order, places) if place <= RANKS}
        taken = list(pairs.values())
        owners = [projects[project][0] for project in taken]
        if any(taken.count(it) > projects[it][1] for it in taken) or any(owners.count(it) > supervisors[it] for it in owners):
            continue
        profile = [places.count(rank) for rank in range(1, RANKS + 1)]
        of_aim = [-count for count in reversed(profile)] if text.startswith(GENEROUS) else profile
        value = len(pairs), of_aim, [-place for place in places]
        best = max(best or (value, pairs), (value, pairs), key=lambda it: it[0])
    return best[1]


def worths(text, kept):
    """By student and project, what the pair is worth: to the size, to the profile, and to the rule, or to keep what is kept."""
    _, _, lists = parsed(text)
    order, worth = by_number(lists), {}
    for at, code in enumerate(order):
        for rank, project in enumerate(lists[code], 1):
            profile = -(MANY ** (rank - 1)) if text.startswith(GENEROUS) else MANY ** (RANKS - rank)
            rule = (RANKS + 1 - rank) * 16 ** (len(order) - 1 - at) if kept is None else (kept.get(code) == project) - (code not in kept)
            worth[code, project] = (MANY**13 + profile) * (16 ** len(order) if kept is None else MANY) + rule
    return worth


class Places:
    """Who has which project, and the way to a better matching."""

    def __init__(self, text, kept):
        self.supervisors, self.projects, self.lists = parsed(text)
        self.worth, self.place = worths(text, kept), {}
        self.inside = {project: set() for project in self.projects}
        self.taken = dict.fromkeys(self.supervisors, 0)
        self.offered = {it: [project for project, (owner, _) in self.projects.items() if owner == it] for it in self.supervisors}

    def steps(self, node):
        """The steps from a student, a project or a supervisor, and what each gains."""
        if node in self.lists:
            return [(project, self.worth[node, project]) for project in self.lists[node] if project != self.place.get(node)]
        if node in self.projects:
            owner, quota = self.projects[node]
            back = [(student, -self.worth[student, node]) for student in self.inside[node]]
            return back + [(owner, 0)] * (len(self.inside[node]) < quota)
        return [(project, 0) for project in self.offered[node] if self.inside[project]]

    def walk(self, student):
        """The best walk from a student to where it may end: at a supervisor with room, or at a student who goes without."""
        gains, before, queue = {student: 0}, {}, deque([student])
        while queue:
            node = queue.popleft()
            for other, gain in self.steps(node):
                if other not in gains or gains[other] < gains[node] + gain:
                    gains[other], before[other] = gains[node] + gain, node
                    if other not in queue:
                        queue.append(other)
        ends = [node for node in gains if node in self.lists or (node in self.supervisors and self.taken[node] < self.supervisors[node])]
        walk = [max(ends, key=gains.get)]
        while walk[-1] != student:
            walk.append(before[walk[-1]])
        return walk

    def admit(self, student):
        """Admits a student along the best walk."""
        walk = self.walk(student)
        for node in walk:
            if node in self.place:
                self.inside[self.place[node]].discard(node)
                self.taken[self.projects[self.place.pop(node)][0]] -= 1
        for to, node in zip(walk, walk[1:]):
            if node in self.lists:
                self.place[node] = to
                self.inside[to].add(node)
                self.taken[self.projects[to][0]] += 1


def weighed(text, kept=None):
    """The pairs that the rule gives, by weights; or those of a best matching that keeps most of these."""
    places = Places(text, kept)
    for student in places.lists:
        places.admit(student)
    return places.place


def solved(program, text, file):
    """The pairs that the program gives."""
    return dict(re.findall(r"^M,([^,]+),(.+)$", told(program, "solve DB", written(text, file)), re.M))


def drawn(draw, students, projects):
    """The text of a round in which supervisors bind, quotas are 0, and lists are alike. Its students have codes that no other round has."""
    quotas = [draw.randint(0, 4) for _ in range(draw.randint(1, max(2, projects // 3)))]
    offers = [(draw.randrange(len(quotas)), draw.choice((0, 1, 1, 2))) for _ in range(projects)]
    lists = [draw.sample(range(projects), draw.randint(1, min(projects, RANKS))) for _ in range(students)]
    lists = [draw.choice(lists[: draw.randint(1, students)]) for _ in lists] if draw.random() < 0.3 else lists
    return round_text(quotas, offers, lists, draw.random() < 0.5).replace("C,S", f"C,{draw.randrange(10**6)}-")


def compare(program, file, draw, rounds):
    """Compares the program with both others."""
    of_all = 0
    for _ in range(2 * rounds):
        text = drawn(draw, draw.randint(1, 9), draw.randint(1, 7))
        pairs, few = weighed(text), len(parsed(text)[2]) < 5
        of_all += few
        if pairs != solved(program, text, file) or (few and pairs != tried(text)):
            sys.exit(f"lot.py: the programs differ:\n{text}")
    print(f"{2 * rounds} rounds, {of_all} of them by all matchings: the same pairs")


def idle_quotas(text):
    """The quotas that can bind nobody, as the fronts of their lines: a project's that is no less than the number who list it or than its
    supervisor's, and a supervisor's that is no less than the places of the projects."""
    supervisors, projects, lists = parsed(text)
    for it, (owner, quota) in projects.items():
        if quota >= min(supervisors[owner], sum(it in chosen for chosen in lists.values())):
            yield f"P,{it},{owner},", quota
    for it, quota in supervisors.items():
        if quota >= sum(places for owner, places in projects.values() if owner == it):
            yield f"S,{it},", quota


def requests(draw, text):
    """The messages that make a round and close it: entries in any order, and lists one by one, or as imports cut anyhow."""
    supervisors, projects, lists = parsed(text)
    puts = [[(f"/supervisors/{it}", f'{{"name":"L","quota":{quota}}}') for it, quota in supervisors.items()]]
    puts += [[(f"/projects/{it}", f'{{"name":"P","quota":{quota},"supervisor":"{of}"}}') for it, (of, quota) in projects.items()]]
    puts += [[(f"/students/{it}", '{"name":"S"}') for it in lists]]
    for of_kind in puts:
        yield from (message("PUT", *it) for it in draw.sample(of_kind, len(of_kind)))
    yield message("POST", "/rounds", f'{{"aim":"{"generous" if text.startswith(GENEROUS) else "greedy"}"}}')
    rest = draw.sample(list(lists.items()), len(lists))
    while rest:
        count = draw.randint(1, len(rest))
        part, rest = rest[:count], rest[count:]
        rows = "".join(f"{it},{' '.join(chosen)}\n" for it, chosen in part)
        yield message("POST", f"/imports/lists/I{len(rest)}", "student,choices\n" + rows)
    yield message("POST", "/rounds/close")
    yield message("GET", "/reports/placements/1")


def closed(program, draw, text):
    """The pairs of the round closed over a stream."""
    asked = b"".join(requests(draw, text))
    told = subprocess.run([program], input=asked, stdout=subprocess.PIPE, check=True).stdout.decode()
    return dict(re.findall(r"^(\S+) +(\S+) +\d+$", told.rsplit("\r\n\r\n", 1)[1], re.M))


def steer(program, file, draw, rounds):
    """Tries to move somebody by what is no claim."""
    raised = 0
    for _ in range(rounds):
        text = drawn(draw, draw.randint(5, 30), draw.randint(5, 20))
        pairs = solved(program, text, file)
        for front, quota in idle_quotas(text):
            more = re.sub(f"^{front}.*$", f"{front}{quota + draw.randint(1, 9)}", text, flags=re.M)
            raised += 1
            if solved(program, more, file) != pairs:
                sys.exit(f"lot.py: {front} moves somebody:\n{text}")
        if not pairs == closed(program, draw, text) == closed(program, draw, text):
            sys.exit(f"lot.py: another order of requests moves somebody:\n{text}")
    print(f"{rounds} rounds, {raised} quotas that bind nobody raised, {2 * rounds} orders of requests and cuts of imports: the same pairs")


def another_quota(draw, text):
    """The text with one quota of a project by one."""
    line = draw.choice(re.findall(r"^P,.*$", text, re.M))
    front, quota = line.rsplit(",", 1)
    return text.replace(line, f"{front},{int(quota) + draw.choice((-1, 1) if int(quota) else (1,))}"), None


def another_list(draw, text):
    """The text with two choices of one list changed round, and whose it is."""
    line = draw.choice([line for line in re.findall(r"^C,.*$", text, re.M) if line.count(",") > 2])
    kind, code, *chosen = line.split(",")
    at = draw.randrange(len(chosen) - 1)
    chosen[at : at + 2] = chosen[at + 1], chosen[at]
    return text.replace(line, ",".join([kind, code, *chosen])), code


def moved(pairs, others, but):
    """How many students have other places, but this one."""
    return sum(pairs.get(it) != others.get(it) for it in {*pairs, *others} - {but})


def move(program, file, draw, rounds):
    """Counts whom one change moves, and how many at least."""
    for name, change in {"quota": another_quota, "list": another_list}.items():
        rows = []
        for _ in range(rounds):
            students = draw.randint(100, 300)
            projects = students * 2 // 3
            quotas = [draw.randint(2, 6) for _ in range(projects // 4)]
            offers = [(draw.randrange(len(quotas)), draw.choice((0, 1, 1, 1, 2))) for _ in range(projects)]
            liked = [1 / (1 + at) ** 0.7 for at in range(projects)]
            lists = [list(dict.fromkeys(draw.choices(range(projects), liked, k=12)))[:8] for _ in range(students)]
            text = round_text(quotas, offers, lists, draw.random() < 0.5)
            other, who = change(draw, text)
            pairs = solved(program, text, file)
            rows.append((moved(pairs, solved(program, other, file), who), moved(pairs, weighed(other, pairs), who)))
        found, least = (sorted(column) for column in zip(*rows))
        more = sorted(a - b for a, b in rows if a > b)
        print(f"one {name} by one: median {found[rounds // 2]}, most {found[-1]}; at least {least[rounds // 2]}, {least[-1]};", end=" ")
        print(f"more than the least in {len(more)} of {rounds}, by {more}", flush=True)


def main(program, *words):
    ways = {"--steer": (steer, 200), "--moved": (move, 100)}
    (way, rounds), rest = (ways[words[0]], words[1:]) if words[:1] and words[0] in ways else ((compare, 5000), words)
    numbers = [int(word) for word in rest]
    with tempfile.TemporaryDirectory() as folder:
        way(program, os.path.join(folder, "round"), random.Random(*numbers[1:] or [1]), *numbers[:1] or [rounds])


if __name__ == "__main__":
    main(*sys.argv[1:]) if sys.argv[1:] else sys.exit(__doc__)
