#!/usr/bin/env python3
"""Counted instructions of requests: what each takes over a database in memory, and over one in a file.

tools/measures/service_costs.py SPADESK [WORD..]     needs valgrind

With words, only the costs that have one of them in their names. What a request takes is the difference of two runs of the program. Both are
sent the messages that come before; then the first is sent what is counted once or not at all, and the second some times more. In memory all
of it is one stream on standard input. Over a file those before are sent to another `serve`, which is not counted, and each of the two runs
serves a copy of what it leaves. Each message must be answered with success. A stream has at most a hundred messages: so what comes before
is imports, and where these are more it is done over a file alone.
"""
import os
import subprocess
import sys
import tempfile
from typing import NamedTuple

sys.path.append(f"{sys.path[0]}/..")
from office import COUNT, COUNTING, answered, copy, counted, instructions, message, serving, sheets, successes

MAX_MESSAGES, MAX_IMPORTS, MAX_BYTES = 100, 200, 65536
ROLLS = ("supervisors", "projects", "students")
OPEN, CLOSE, REOPEN = (message("POST", path) for path in ("/rounds", "/rounds/close", "/rounds/reopen"))
PREVIEW, ROUND_TEXT = (message("GET", path) for path in ("/preview", "/roundtext"))
PUT = message("PUT", "/students/S0", '{"name":"Ann"}')


class Cost(NamedTuple):
    """What is counted: the messages before, those of the first run and of the second, how often more the second does it, and over what."""
    what: str
    before: list
    less: list
    more: list
    times: int = 1
    over: tuple = ("memory", "file")


def again(what, before, nth, times, over=("memory", "file")):
    """The cost of what is done so many times more, once it was done; each time has messages of its own."""
    done = [nth(number) for number in range(times + 1)]
    return Cost(what, before, done[0], sum(done, []), times, over)


def imported(kind, sheet, number):
    return message("POST", f"/imports/{kind}/I{number}", sheet)


def school(made, rounds=0):
    """The messages that fill the rolls by these sheets, and open so many rounds with these lists, all of which but the last are closed."""
    told = [imported(kind, made[kind], number) for number, kind in enumerate(ROLLS)]
    for number in range(rounds):
        told += [OPEN, imported("lists", made["lists"], len(ROLLS) + number), CLOSE]
    return told[:-1] if rounds else told


def seated(size=500):
    """The messages up to the round in which all of so many students but two have a list."""
    return school(sheets(size // 5, size * 3 // 5, size, size - 2), 1)


def full_of_imports():
    """The messages that fill the rolls, and keep as many imports as may be, each of the greatest length: empty lines are no records."""
    made = [*((kind, FULL[kind]) for kind in ROLLS), *[("students", "code,name\n")] * (MAX_IMPORTS - len(ROLLS))]
    return [imported(kind, sheet.ljust(MAX_BYTES, "\n"), number) for number, (kind, sheet) in enumerate(made)]


def listed(student, chosen_by):
    """The message by which a student puts the list of this or another student; those of two neighbours have no project in common."""
    choices = ",".join(f'"P{(31 * chosen_by + 24 * n) % 400}"' for n in range(12))
    return [message("PUT", f"/lists/S{student}", f'{{"choices":[{choices}]}}')]


# at the limits; where nobody is placed in the rounds before, each project has no place
FULL, PLACELESS, UNLISTED = sheets(100, 400, 500, 500, 1), sheets(100, 400, 500, 500, 0), sheets(100, 400, 500, 449, 0)
ROUND_12 = [*school(PLACELESS, 11), CLOSE, OPEN, imported("lists", UNLISTED["lists"], 14)]
COSTS = [
    again("a put of a known student", school(FULL), lambda n: [PUT], 50),
    again("a put where 200 imports of 65,536 bytes are kept", full_of_imports(), lambda n: [PUT], 50, ("file",)),
    Cost(
        "an import of 500 students at a new desk",
        [], [imported("students", "code,name\n", 1)], [imported("students", FULL["students"], 1)],
    ),
    again("a first list of 12, in round 1", school(UNLISTED, 1), lambda n: listed(449 + n, n), 50),
    again("a first list of 12, in round 12", ROUND_12, lambda n: listed(449 + n, n), 50),
    again("a list of 12 over another one", school(PLACELESS, 1), lambda n: listed(0, 1 - n % 2), 10),
    again("a list of 12 over the same list", school(PLACELESS, 1), lambda n: listed(0, 0), 10),
    again("a closing of 500 lists that places 400, and its reopening", school(FULL, 1), lambda n: [CLOSE, REOPEN], 10),
    Cost("a preview that starts a session", seated(), [], [PREVIEW], over=("memory",)),
    again("a preview that reads a kept session", seated(), lambda n: [PREVIEW], 1, ("memory",)),
    again("a first list without a session", seated(), lambda n: listed(498 + n, 0), 1, ("memory",)),
    again("a first list that joins a session", [*seated(), PREVIEW], lambda n: listed(498 + n, 0), 1, ("memory",)),
    *(again(f"a round text of {size} students", seated(size), lambda n: [ROUND_TEXT], 1, ("memory",)) for size in (250, 500)),
]


def compare(answers, messages):
    """Ends where not each of these messages was answered with success."""
    if successes(answers) != len(messages):
        sys.exit(f"of {len(messages)} messages {successes(answers)} were answered with success")


def streamed(program, messages):
    """The instructions of the program that serves these messages over a database in memory."""
    count, ran = counted(program, input=b"".join(messages), text=False, check=True)
    compare(ran.stdout, messages)
    return count


def served(program, database, messages, **how):
    """What a `serve` of these messages over a database in a file says on standard error."""
    parts = [messages[n : n + MAX_MESSAGES] for n in range(0, len(messages), MAX_MESSAGES)]
    with serving(program, database, len(parts), stderr=subprocess.PIPE, **how) as (it, port):
        answers = b"".join(answered(port, b"".join(part)) for part in parts)
        _, told = it.communicate()
    compare(answers, messages)
    return told


def difference(program, cost, over, folder):
    """What it takes once, over a database in memory or in a file of this folder."""
    start, database = os.path.join(folder, "start.db"), os.path.join(folder, "school.db")
    if over == "memory":
        less, more = (streamed(program, [*cost.before, *sent]) for sent in (cost.less, cost.more))
    else:
        copy(None, start)
        if cost.before:
            served(program, start, cost.before)
        runs = (served([*COUNT, program], copy(start, database), sent, env=COUNTING) for sent in (cost.less, cost.more))
        less, more = map(instructions, runs)
    return (more - less) // cost.times


def main(program, *words):
    program = os.path.abspath(program)
    print(f"{'':58} {'in memory':>12} {'in a file':>12}")
    with tempfile.TemporaryDirectory() as folder:
        for cost in COSTS:
            if not words or any(word in cost.what for word in words):
                told = [f"{difference(program, cost, over, folder):,}" if over in cost.over else "" for over in ("memory", "file")]
                print(f"{cost.what:58} {told[0]:>12} {told[1]:>12}".rstrip(), flush=True)


if __name__ == "__main__":
    main(*sys.argv[1:]) if sys.argv[1:] else sys.exit(__doc__)
