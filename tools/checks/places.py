#!/usr/bin/env python3
"""Counts the places that name something: runs of neighbouring lines, at most three apart, of code, definitions and proofs.

    tools/checks/places.py PATTERN [CRATE..]    for example: tools/checks/places.py '[Cc]hoice\\b|CHOICE' tables store
    tools/checks/places.py --page               compares the counts that CONTRIBUTING.md names, and ends with status 1 where one differs

Without a crate it counts in all but those of tests. Comments and imports don't count. A line for each file, then the sum.
"""
import re
import sys

sys.path.append(f"{sys.path[0]}/..")
from office import listed, read

TESTS = ("testing", "rule_tests", "desk_tests", "scenarios")
PART = re.compile(r"crates/(\w+)/(?:src|specs|proofs)/.*\.(?:rt|antt)")
ASIDE = re.compile(r"\s*(--|//|(ghost )?(pub )?use )")


def places(path, pattern):
    hits = [n for n, line in enumerate(read(path).splitlines()) if re.search(pattern, line) and not ASIDE.match(line)]
    return sum(1 for before, hit in zip([-9] + hits, hits) if hit - before > 3)


def counted(pattern, crates=()):
    """The places of each file that has one, of these crates or of all but those of tests."""
    parts = filter(None, map(PART.fullmatch, listed("crates/*")))
    counts = {part[0]: places(part[0], pattern) for part in parts if (part[1] in crates if crates else part[1] not in TESTS)}
    return {path: count for path, count in counts.items() if count}


def compare():
    wrong = 0
    for name, *told in re.findall(r"`([\w|-]+)` (\d+) places in (\d+) files", read("CONTRIBUTING.md")):
        counts = counted(rf"\b(?:{name})\b")
        there = [str(sum(counts.values())), str(len(counts))]
        wrong += told != there
        print(f"{name}: {there[0]} places in {there[1]} files" + ("" if told == there else f"; the page says {told[0]} in {told[1]}"))
    return 1 if wrong else 0


def main(pattern, *crates):
    if pattern == "--page":
        sys.exit(compare())
    counts = counted(pattern, crates)
    for path, count in counts.items():
        print(f"{count:4} {path}")
    print(f"{sum(counts.values())} places in {len(counts)} files")


if __name__ == "__main__":
    main(*sys.argv[1:]) if sys.argv[1:] else sys.exit(__doc__)
