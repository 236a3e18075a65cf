#!/usr/bin/env python3
"""Lets `rt check` begin with the libraries that `rt ci` has proved on this machine, in place of proving each of them once more.

tools/makers/libraries.py     takes them into crates/*/out of this checkout, and names them

It needs a toolchain that stores what `rt ci` proved (kit 13f). There a library stands under the sum of its files, of its line of crates.txt
and of the libraries below, so one of other files is never taken. What `rt check` takes is marked by a stamp, a sum that the toolchain's own
function makes. The verdict stays that of `rt ci`: no stamp counts there.
"""
import importlib.machinery
import importlib.util
import os
import shutil
import sys

sys.path.append(f"{sys.path[0]}/..")
from office import TOP, written


def toolchain():
    """The toolchain's command, as a module."""
    path = os.path.realpath(shutil.which("rt"))
    loader = importlib.machinery.SourceFileLoader("rt", path)
    module = importlib.util.module_from_spec(importlib.util.spec_from_loader("rt", loader))
    loader.exec_module(module)
    return module


def main():
    os.chdir(TOP)
    sys.argv = ["rt"]
    rt = toolchain()
    if not hasattr(rt, "Kept"):
        sys.exit("libraries.py: this toolchain stores nothing of what it proved")
    rt.Crate.cuts_libraries, rt.Crate.allowed = True, rt.handles_of(TOP)
    crates = rt.crates_of(TOP)
    kept, taken = rt.Kept(crates), []
    for crate in crates:
        # the key of a crate is made of the libraries below it
        if not crate.is_program and not crate.is_static and all(it.name in kept.rlibs for it in crate.below()):
            shutil.rmtree(f"{crate.folder}/out/rlib", ignore_errors=True)
            if kept.give(crate, False, kept.key(crate)):
                kept.is_built(crate)
                written(crate.stamp(), f"{crate.folder}/out/rlib/stamp")
                taken.append(crate.name)
    print(" ".join(taken) or "nothing here was proved by `rt ci` on this machine")


if __name__ == "__main__":
    main()
