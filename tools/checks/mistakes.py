#!/usr/bin/env python3
"""Tries mistakes in the bodies of functions, many in one check: the prover must refuse each at a goal of its own function. Tries twins, right
bodies of another shape, next to them: it must prove them.

tools/checks/mistakes.py [CRATE..]             the mistakes and twins of these crates, or of all
tools/checks/mistakes.py --mutants [CRATE..]   the mutants, too, which `rt ci` tries one by one
tools/checks/mistakes.py --can                 whether this is the toolchain whose parts this tool calls by name

What an edit is, `edits.py` says. It runs after `rt ci`, which leaves the libraries below in crates/*/out.

The prover judges each function by the contracts of what it calls, and by no body. So each edit strikes a copy of its function, which has the
same contract and the same stored proof, and all edits of a crate stand in one text and are judged in one check: a round. The body of each
function that no edit strikes is left out, and the function is taken for proved, as `rt ci` has proved it. A method of a trait has no copy,
nor have several functions that one edit strikes: there it strikes what it names. Where a function is then not judged, since one that it
calls was refused, its edit goes into a further round, by itself if need be. One line a mistake says which goals of its own function
were refused. A mistake that is proved fails the run, and so does a twin that is not, one whose text no longer stands, which does not compile,
or of which the prover says nothing by itself.
"""
import collections
import concurrent.futures
import os
import pathlib
import re
import shutil
import subprocess
import sys
import tempfile

sys.path.append(f"{sys.path[0]}/..")
from edits import FOLDERS, Text, edits, place
from office import TOP

sys.path.insert(0, os.path.dirname(os.path.realpath(shutil.which("rt"))))
import rtlib

KIT = "rattle-kit-13f"
JUDGED = re.compile(r"^fn (\S+): (no holes|depends on a hole|not proved|no proof: (?!it calls)|no proof: it calls|could not tell)", re.M)
CALLS = re.compile(r"^fn [^:]+::(\S+): (?:not proved; |no proof: )it calls (.*), which (?:is|are) not proved", re.M)
# the one goal of a function whose body is left out
NEVER = "unreachable-requires"
ABSENT = re.compile(r"^(?:\./)?proofs/(\S+)/\w+\.antt:\d+:\d+: error: `([^`]+)`: `goal\.\2`: module `[^`]+` has no `\2`", re.M)
GOAL = re.compile(r"^(?:\./)?proofs/(\S+)/\w+\.antt:\d+:\d+: error: `([^`]+)`", re.M)


def reached(calls, name):
    """The functions to which calls lead from this one, as far as checks have said."""
    found, left = set(), [name]
    while left:
        more = calls[left.pop()] - found
        found |= more
        left += more
    return found


def packed(edits, calls):
    """The first edits whose functions differ and do not reach one another, as far as is known; and those that are left."""
    round, left, struck, below = [], [], set(), set()
    for edit in edits:
        names = edit.struck | set().union(*(reached(calls, name) for name in edit.struck))
        if round and (edit.is_alone or round[0].is_alone or edit.part != round[0].part or edit.struck & below or names & struck):
            left.append(edit)
        else:
            round.append(edit)
            struck |= edit.struck
            below |= names
    return round, left


def applied(edits, room):
    """Puts edits into a room, and returns those that stand there: one that strikes what another one has changed does not."""
    stood, put = [], collections.defaultdict(list)
    for edit in edits:
        changes = edit.changes()
        if not any(first < other[1] and other[0] < last for file, first, last, _ in changes for other in put[file]):
            stood.append(edit)
            for file, *change in changes:
                put[file].append(change)
    for file, changes in put.items():
        text = pathlib.Path(room, file).read_text(encoding="utf-8")
        for first, last, new in sorted(changes, reverse=True):
            text = text[:first] + new + text[last:]
        pathlib.Path(room, file).write_text(text, encoding="utf-8")
    for edit in stood:
        if edit.copied:
            copy_answers(room, edit.copied.split("::"), next(iter(edit.struck)).split("::"))
            search_at(room, edit)
    return stood


def copy_answers(room, named, tried):
    """Gives a copy of a function the stored proof of the function."""
    for folder in pathlib.Path(room, "proofs").glob("/".join(["**", *named])):
        to = folder.parent / tried[-1]
        shutil.copytree(folder, to)
        for file in to.iterdir():
            text = file.read_text(encoding="utf-8")
            file.write_text(text.replace(f".{'.'.join(named)}.", f".{'.'.join(tried)}."), encoding="utf-8")


def answers_of(room, crate, name):
    """Where the stored proof of a function stands in a room, and the line by which it names its goals."""
    at = place(crate, name)
    folder = pathlib.Path(room, "proofs", *at)
    folder.mkdir(parents=True, exist_ok=True)
    return folder / "Answers.antt", f"use Rattle.{crate}.proofs.{'.'.join(at)}.Goals as goal\n"


def search_at(room, edit):
    """Has the goals that an edit names searched for as where such a line is stored: by one tactic, and nothing is offered to write."""
    for goal in edit.goals:
        (struck,), name = edit.struck, goal.split()[0]
        file, own = answers_of(room, edit.crate, struck)
        text = file.read_text(encoding="utf-8") if file.exists() else own
        rules = "" if re.search(r"^use .*\brules\b", text, re.M) else "use Rattle.std.proofs.Common.{rules}\n"
        file.write_text(f"{rules}{text}\npub {name} : goal.{name}\n{goal} = search rules\n", encoding="utf-8")


def leave_out(room, crate, struck):
    """Leaves out the body of each function that is not struck, with a hole for the proof that it is never reached."""
    for path in pathlib.Path(room, "src").rglob("*.rt"):
        text = Text(str(path.relative_to(room)), path.read_text(encoding="utf-8"))
        kept, names = text.text, {name for _, name in text.functions if name and name not in struck | text.once}
        bodies = {body: name for name in names if (body := text.body(name))}
        for (first, last), name in sorted(bodies.items(), reverse=True):
            kept = f"{kept[:first]}unreachable!()\n{kept[last:]}"
            shutil.rmtree(pathlib.Path(room, "proofs", *place(crate, name)), ignore_errors=True)
            file, own = answers_of(room, crate, name)
            file.write_text(f"{own}\npub {NEVER} : goal.{NEVER}\n{NEVER} = ?\n", encoding="utf-8")
        path.write_text(kept, encoding="utf-8")


def check(crate, round, kept):
    """What a check of the crate with these edits prints, over what earlier checks kept; the edits that stood in it; its processor seconds."""
    with tempfile.TemporaryDirectory() as room:
        for part in ("src", "specs", "proofs"):
            if os.path.isdir(f"{crate.folder}/{part}"):
                shutil.copytree(f"{crate.folder}/{part}", f"{room}/{part}")
        round = applied(round, room)
        struck = {name for edit in round for name in edit.struck}
        leave_out(room, crate.name, struck)
        only = [word for name in sorted(struck) for word in ("--only", name)]
        command = [rtlib.RATTLE, "check", *crate.words(["--jobs", "1"], keeps=False), *only, "--allow-holes", "--incremental", kept]
        how = {"cwd": room, "stdin": subprocess.DEVNULL, "stdout": subprocess.PIPE, "stderr": subprocess.STDOUT, "text": True, "errors": "replace"}
        ran = subprocess.Popen([*rtlib.guarded(), *command], **how)
        said = ran.stdout.read()
        _, status, used = os.wait4(ran.pid, 0)
        ran.returncode = os.waitstatus_to_exitcode(status)
        return said, round, used.ru_utime + used.ru_stime


def short(name):
    """A function as an edit names it: a method by its type alone."""
    parts = name.split("::")
    return "::".join(parts[-2:]) if parts[-2:][0][:1].isupper() else name


def own(edit, name):
    """Whether the function of this name, as the prover has it, is one that the edit strikes, or a closure in one."""
    inside = name.partition("::")[2]
    closures = [f"{it.rpartition('::')[0]}::fn::{it.rpartition('::')[2]}::".lstrip(":") for it in edit.struck]
    return short(inside) in edit.struck or any(it in inside for it in closures)


def judged(edit, said):
    """What a check says of an edit: the goals that were refused, that it is proved, or nothing."""
    lines = [(name, how) for name, how in JUDGED.findall(said) if own(edit, name)]
    refused = [name for name, how in lines if how in ("not proved", "no proof: ")]
    if refused:
        places = {name.partition("::")[2].replace("::", "/") for name in refused}
        absent = {goal for at, goal in ABSENT.findall(said) if at in places}
        # a goal that is not there shows nothing of the clause that it was named for
        if any(goal.split()[0] in absent for goal in edit.goals):
            return "faulty", f"its function has no goal {', '.join(absent)}"
        goals = [goal for at, goal in GOAL.findall(said) if at in places]
        return "refused", f"{refused[0].partition('::')[2]}: {', '.join(dict.fromkeys(goals)) or 'a search that failed'}"
    if lines and all(how in ("no holes", "depends on a hole") for _, how in lines):
        return "proved", ""
    return "unjudged", next(iter(said.splitlines()), "")


def tried(crate, edits):
    """What becomes of each edit of a crate, round by round, and the processor seconds of each check."""
    seconds = []
    found = {edit: ("faulty", edit.fault) for edit in edits if edit.fault}
    for number, edit in enumerate(edits):
        if not edit.fault:
            edit.copy(number)
    left, calls = [edit for edit in edits if not edit.fault], collections.defaultdict(set)
    with tempfile.TemporaryDirectory() as kept:
        while left:
            round, later = packed(left, calls)
            said, stood, used = check(crate, round, kept)
            seconds.append(used)
            for name, called in CALLS.findall(said):
                calls[short(name)].update(short(it.partition("::")[2]) for it in re.findall("`([^`]+)`", called))
            found.update((edit, judged(edit, said)) for edit in stood)
            unjudged = [edit for edit in stood if found[edit][0] == "unjudged" and len(stood) > 1]
            # where nothing was judged, as where the text of one does not compile, each half is tried by itself
            for number, edit in enumerate(unjudged if len(unjudged) == len(stood) else ()):
                edit.part += (2 * number < len(unjudged),)
            left = unjudged + [edit for edit in round if edit not in stood] + later
    return found, seconds


def crates_of(found):
    """The crates of these edits, as the toolchain knows them; the libraries below must be there."""
    crates = {}
    for name in {edit.crate for edit in found}:
        crates[name] = rtlib.Crate(os.path.join(TOP, "crates", name), TOP, {})
        missing = [it.name for it in crates[name].below() if not os.path.isdir(it.rlib)]
        if missing:
            sys.exit(f"mistakes: {missing[0]} is not built: run `rt ci` first")
    return crates


def main(*words):
    if "--can" in words:
        return subprocess.run(["rt", "version"], capture_output=True, text=True).stdout.split()[:1] != [KIT]
    found = edits([word for word in words if not word.startswith("--")], FOLDERS if "--mutants" in words else FOLDERS[1:])
    crates, by_crate = crates_of(found), collections.defaultdict(list)
    for edit in found:
        by_crate[edit.crate].append(edit)
    # its first call sets the handler of a signal, which only this thread may
    rtlib.guarded()
    counted, spent = collections.Counter(), []
    # a check of a crate takes four GB at the most, but for those of tests, which have no mistakes
    with concurrent.futures.ThreadPoolExecutor(len(os.sched_getaffinity(0))) as pool:
        largest = sorted(by_crate, key=lambda name: -len(by_crate[name]))
        for result in concurrent.futures.as_completed(pool.submit(tried, crates[name], by_crate[name]) for name in largest):
            outcomes, seconds = result.result()
            spent += seconds
            name = next(iter(outcomes)).crate
            print(f"== {name}: {len(outcomes)} edits in {len(seconds)} checks, {sum(seconds):.0f} processor seconds ({' '.join(f'{it:.0f}' for it in seconds)})")
            for edit, (how, goal) in sorted(outcomes.items(), key=lambda it: it[0].name):
                is_well = how == edit.wanted
                counted[edit.is_twin, how, is_well] += 1
                print(f"{edit.crate:12} {edit.name:45} {how if is_well else how.upper()}: {goal}", flush=True)
    of = lambda *wanted: sum(n for it, n in counted.items() if all(a in (None, b) for a, b in zip(wanted, it)))
    print(f"{of(False, 'refused')} of {of(False)} mistakes are refused at goals of their own functions, {of(True, 'proved')} of {of(True)} twins are proved; "
          f"{len(spent)} checks, {sum(spent):.0f} processor seconds")
    print(f"{of(None, None, True)} passed, {of(None, None, False)} failed")
    return 1 if of(None, None, False) else 0


if __name__ == "__main__":
    sys.exit(main(*sys.argv[1:]))
