#!/usr/bin/env python3
"""Prints what the proof of each function weighs: the bytes that the prover keeps of it.

    tools/measures/proof_sizes.py CRATE [COUNT]    after `rt check` in the crate's folder

Seconds differ from machine to machine, and from hour to hour on one; these bytes do not, and a check's seconds mostly go with them.
The sum first, then the COUNT heaviest functions (30 where it is left out), and how much of each is of its paths: of its calls,
the drops of an early return among them, and of what is owned at each. Last the ten longest waits from one file of the prover
to the next, in seconds, each with the file that was waited for: what takes long and weighs little, as a call of a generic
function at a large type does. These are seconds of the clock, after a check from nothing with one job, `rt check --jobs 1`.
"""
import collections
import pathlib
import sys


def function(name):
    """The function, or the type's method, that a module is of."""
    parts = name.split(".")
    if not parts[0].endswith("-proofs") or len(parts) < 4:
        return "definitions and the rest"
    return ".".join(parts[1:4] if parts[2][:1].isupper() else parts[1:3])


def main(crate, count="30"):
    weights, paths, written = collections.Counter(), collections.Counter(), []
    for path in filter(pathlib.Path.is_file, pathlib.Path(f"crates/{crate}/out/incremental").rglob("*")):
        kept = path.stat()
        written.append((kept.st_mtime, path.name))
        weights[function(path.name)] += kept.st_size
        if "Lts" in path.name.split("."):
            paths[function(path.name)] += kept.st_size
    print(f"{sum(weights.values()) / 1e6:8.2f} MB in all, {sum(paths.values()) / 1e6:.2f} of them of paths")
    for name, weight in weights.most_common(int(count)):
        print(f"{weight / 1e6:8.2f} {paths[name] / 1e6:6.2f} {name}")
    written.sort()
    waits = sorted(((there[0] - before[0], there[1]) for before, there in zip(written, written[1:])), reverse=True)
    for wait, name in waits[:10]:
        print(f"{wait:8.1f} s {name}")


if __name__ == "__main__":
    main(*sys.argv[1:]) if sys.argv[1:] else sys.exit(__doc__)
