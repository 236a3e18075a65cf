#!/usr/bin/env python3
"""Lists the mistakes that the prover must refuse, and the twins, right bodies of another shape that it must prove.

tools/checks/mutants.py [CRATE..]     of these crates, or of all: the crate, the edit, who tries it, and what it does
tools/checks/mutants.py --check       only whether each edit says what it does, and whether what it replaces stands there once

Who tries it: `rt ci` each mutant by itself, `mistakes.py` the others, many in one check. An edit's line `also:` names a further mistake that
the same edit makes.
"""
import collections
import sys

sys.path.append(f"{sys.path[0]}/..")
from edits import FOLDERS, edits


def main(*crates):
    if "--help" in crates:
        sys.exit(__doc__)
    is_check = crates == ("--check",)
    counted = collections.Counter()
    for edit in edits(() if is_check else crates, FOLDERS):
        if edit.fault:
            sys.exit(f"crates/{edit.crate}/{edit.folder}/{edit.name}.edit: {edit.fault}")
        counted[edit.folder] += 1
        tried = {"must-fail": "rt ci", "mistakes": "mistakes.py", "twins": "twin"}[edit.folder]
        for why in edit.whys if not is_check else ():
            print(f"{edit.crate:12} {edit.name:45} {tried:11} {why}")
    print("{must-fail} mutants, {mistakes} further mistakes, {twins} twins".format_map(counted))


if __name__ == "__main__":
    main(*sys.argv[1:])
