#!/usr/bin/env python3
"""Draws the matching of a round: students, projects and supervisors, and a line from each student to the project they have.

tools/picture.py FILE > PICTURE.svg     of a round text without a bad line, as `spadesk solve` prints one

Students stand as in the text, and projects by supervisor. The line of a pair shows its rank, by colour, width and dashes, and so does
the number beside the student; thin lines are the other choices. `2/3` says that two of three places are taken. Prices are not read.
"""
import sys
from html import escape

from check_round import Round

ROW, TOP, BOTTOM, LEAST = 20, 74, 36, 412
WIDE, NARROW = 92, 30  # from students to projects, and from projects to supervisors
LETTERS = {**dict.fromkeys("MW", 12), **dict.fromkeys("CDGHNOQ", 9.4)}  # and any other 8.2
# the lines of the ranks, the last of them for all that follow: in words, colour, width, dashes
RANKS = [("first", "#12466b", 3.2, "none"), ("second", "#2a9d6f", 2.6, "8 2")]
RANKS += [("third", "#d1741a", 2.6, "4 3"), ("later", "#b02a37", 2.6, "2 2")]
OTHER, OFFER, NO_PLACE = ("#b4b4b4", 0.8, "none"), ("#667", 1, "none"), "#b02a37"


class Drawn(Round):
    """What a round text says, each roll as it stands there, but for the projects, which stand by supervisor."""

    def __init__(self, text):
        super().__init__()
        for line in text.splitlines():
            self.add(line)
        self.quotas = {code: quota for (kind, code), quota in self.quota.items() if kind == "Z"}
        self.offers = {code: [project for project, owner in self.offerer.items() if owner == code] for code in self.quotas}
        self.projects = {project: self.quota["Y", project] for offer in self.offers.values() for project in offer}
        self.ranks = {student: self.lists[student].index(project) + 1 for student, project in self.pairs.items()}

    def taken(self, project):
        return list(self.pairs.values()).count(project)

    def told(self):
        """What the round comes to, in two lines."""
        profile = " ".join(str(list(self.ranks.values()).count(rank)) for rank in range(1, 13))
        return f"{self.read.__name__} round: {len(self.pairs)} of {len(self.lists)} students placed", f"profile {profile}"


def look(rank):
    """Colour, width and dashes of a rank."""
    return RANKS[min(rank, len(RANKS)) - 1][1:]


def line(start, end, colour, width, dashes):
    """A curve that leaves and arrives level."""
    (a, b), (c, d) = start, end
    middle = (a + c) / 2
    shape = f'd="M{a:.1f},{b:.1f} C{middle:.1f},{b:.1f} {middle:.1f},{d:.1f} {c:.1f},{d:.1f}" fill="none"'
    return f'<path {shape} stroke="{colour}" stroke-width="{width}" stroke-dasharray="{dashes}"/>'


def words(x, y, text, more=""):
    return f'<text x="{x:.1f}" y="{y + 4:.1f}" {more}>{escape(text)}</text>'


def box(x, y, width, code, taken, quota):
    """A project or a supervisor, with the places taken."""
    fill = "#dfe7ee" if taken == quota else "#ffffff"
    frame = f'<rect x="{x:.1f}" y="{y - 9:.1f}" width="{width:.1f}" height="18" rx="3" fill="{fill}" stroke="#667"/>'
    return frame + words(x + 5, y, code) + words(x + width - 5, y, f"{taken}/{quota}", 'text-anchor="end"')


def mark(x, y, rank):
    """The rank of a student's project, or that there is none."""
    back, fore = (look(rank)[0], "#ffffff") if rank else ("#ffffff", NO_PLACE)
    ring = f'<circle cx="{x:.1f}" cy="{y:.1f}" r="8" fill="{back}" stroke="{back if rank else fore}"/>'
    return ring + words(x, y, str(rank or "-"), f'text-anchor="middle" font-weight="bold" fill="{fore}"')


def room(texts):
    """The width of the widest."""
    return max((sum(LETTERS.get(it, 8.2) for it in text) for text in texts), default=0)


def picture(it):
    """The lines of the drawing."""
    height = ROW * max(len(it.lists), len(it.projects) * 1.3, len(it.quotas) * 1.3, 1)

    def spread(roll):
        return {code: TOP + height * (place + 0.5) / len(roll) for place, code in enumerate(roll)}

    def boxed(quotas):
        return room(quotas) + 18 + room(f"{quota}/{quota}" for quota in quotas.values())

    students, projects, supervisors = spread(it.lists), spread(it.projects), spread(it.quotas)
    rank_at = 22 + room(it.lists)
    left = rank_at + 11 + WIDE
    right = left + boxed(it.projects)
    last = right + NARROW
    total, whole = max(last + boxed(it.quotas) + 6, LEAST), TOP + height + BOTTOM
    size = f'viewBox="0 0 {total:.0f} {whole:.0f}" width="{total:.0f}" height="{whole:.0f}"'
    yield f'<svg xmlns="http://www.w3.org/2000/svg" {size} role="img" font-family="sans-serif" font-size="12">'
    yield f"<title>{escape(', '.join(it.told()))}</title>"
    yield f"<desc>{escape('; '.join(f'{student} has {it.pairs[student]}, choice {rank}' for student, rank in it.ranks.items()))}</desc>"
    yield f'<rect width="{total:.0f}" height="{whole:.0f}" fill="white"/>'
    heads = [(10, 16, it.told()[0]), (10, 34, it.told()[1]), (10, 62, "students"), (left, 62, "projects"), (last, 62, "supervisors")]
    for head in heads:
        yield words(*head, 'fill="#444"')
    lines = [(student, project, OTHER) for student, choices in it.lists.items() for project in choices]
    lines += [(student, project, look(it.ranks[student])) for student, project in it.pairs.items()]
    for student, project, stroke in lines:
        yield line((rank_at + 9, students[student]), (left, projects[project]), *stroke)
    for supervisor, offer in it.offers.items():
        for project in offer:
            yield line((right, projects[project]), (last, supervisors[supervisor]), *OFFER)
        yield box(last, supervisors[supervisor], boxed(it.quotas), supervisor, sum(map(it.taken, offer)), it.quotas[supervisor])
    for project, quota in it.projects.items():
        yield box(left, projects[project], right - left, project, it.taken(project), quota)
    for student, y in students.items():
        yield words(10, y, student, "" if student in it.pairs else f'fill="{NO_PLACE}" font-weight="bold"')
        yield mark(rank_at, y, it.ranks.get(student))
    at, foot = 10, whole - 15
    for name, *stroke in RANKS:
        yield line((at, foot), (at + 26, foot), *stroke) + words(at + 31, foot, name)
        at += 43 + 7.4 * len(name)
    yield mark(at + 8, foot, None) + words(at + 21, foot, "no place")
    yield "</svg>"


if __name__ == "__main__":
    print("\n".join(picture(Drawn(open(sys.argv[1], encoding="ascii").read()))))
