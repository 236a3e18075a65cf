#!/usr/bin/env python3
"""Prints rows of a school at all limits at once, through twelve rounds, and what each must print.

tools/makers/school_rows.py > crates/scenarios/data/full.rows

There are 100 supervisors, 400 projects and 500 students, with codes and names at their longest, lists of twelve, and 200 imports, of which
those with records have 65,536 bytes. What is expected comes from the books that are kept here, as docs/FORMATS.md says, and who is placed is
known by construction: of the projects of a list at most one has room, and of those who list it one lists it first. So the best matching is
the only one of its profile, by either aim.

In each of the first eleven rounds one project has a place. All list it twelfth, but the last student who is not placed, who lists it first.
In the twelfth all other projects have one. Each of 389 students lists an own one, at each rank in turn, behind or among the eleven that are
full, and 100 others list one of those twelfth.

Then two files of earlier editions are migrated: all students list eight projects in twelve closed rounds, and 400 are placed at the eighth.
"""
BITS = (1 << 64) - 1
SUPERVISORS, PROJECTS, STUDENTS, ROUNDS, RANKS, IMPORTS, BYTES = 100, 400, 500, 12, 12, 200, 65_536
FIRST = 1000
PREFIX = {"supervisor": "L23456789012", "project": "P23456789012", "student": "S23456789012", "import": "I23456789012"}
REPORTS = "profile", "loads", "unplaced", "placements", "offers", "missing", "text"


def cell(text):
    """The cell of a text: a long one by its length and its hash."""
    if len(text) < 100:
        return text.replace("\n", "^n")
    value = 0xCBF29CE484222325
    for byte in text.encode():
        value = (value ^ byte) * 0x100000001B3 & BITS
    return f"^#{len(text.encode())} {value:016x}"


def code(kind, at):
    return f"{PREFIX[kind]}{FIRST + at}"


def label(kind, at):
    """A name of 200 bytes."""
    return f"{kind} {FIRST + at} ".ljust(200, "n")


class PersistentOffice:
    """The rolls and the rounds of a school, by position."""

    def __init__(self):
        self.supervisors, self.projects, self.rounds, self.aims = [4] * SUPERVISORS, [0] * PROJECTS, [], []

    def taken(self, number):
        """How many are placed in each project by the rounds up to this one."""
        taken = [0] * PROJECTS
        for _, lists, pairs in self.rounds[:number]:
            for student, rank in pairs.items():
                taken[lists[student][rank - 1]] += 1
        return taken

    def room(self, number=ROUNDS):
        """What is left of the projects' quotas after the rounds up to this one."""
        return [quota - count for quota, count in zip(self.projects, self.taken(number))]

    def room_with(self, number):
        """What is left of the supervisors'."""
        taken = self.taken(number)
        return [quota - sum(taken[at::SUPERVISORS]) for at, quota in enumerate(self.supervisors)]

    def best(self, is_last=False):
        """The ranks of those who are placed in the last round: as it is closed there is just one best matching."""
        rivals, room = {}, self.room()
        for student, chosen in self.rounds[-1][1].items():
            (at, *more) = [(project, rank) for rank, project in enumerate(chosen, 1) if room[project]] or [None]
            assert not more
            if at:
                rivals.setdefault(at[0], []).append((at[1], student))
        for project, those in rivals.items():
            those.sort()
            assert room[project] == 1 and (not is_last or len(those) == 1 or those[0][0] < those[1][0])
        return {those[0][1]: those[0][0] for those in rivals.values()}

    def close(self):
        self.rounds[-1] = (False, self.rounds[-1][1], self.best(True))

    def profile(self, number):
        ranks = list(self.rounds[number - 1][2].values())
        return [ranks.count(rank) for rank in range(1, RANKS + 1)]

    def report(self, kind, number):
        is_open, lists, pairs = self.rounds[number - 1]
        if kind == "profile":
            rows = [("STUDENTS", len(lists)), ("PLACED", len(pairs))]
            rows += [(f"RANK {rank}", count) for rank, count in enumerate(self.profile(number), 1)]
            return f"{'ROUND':8}{number:5} {'open' if is_open else 'closed'}\n" + "".join(f"{word:8}{count:5}\n" for word, count in rows)
        if kind == "unplaced":
            return "".join(f"{code('student', at):16} {label('student', at)}\n" for at in sorted(lists) if at not in pairs)
        if kind == "placements":
            return "".join(f"{code('student', at):16} {code('project', lists[at][pairs[at] - 1]):16} {pairs[at]:2}\n" for at in sorted(pairs))
        if kind == "missing":
            gone = {at for _, _, pairs in self.rounds[:number - 1] for at in pairs}
            return "".join(f"{code('student', at):16} {label('student', at)}\n" for at in range(STUDENTS) if at not in lists and at not in gone)
        if kind == "text":
            return self.round_text(number)
        taken, room, room_with, text = self.taken(number), self.room(number - 1), self.room_with(number - 1), ""
        for owner, quota in enumerate(self.supervisors):
            of_owner = range(owner, PROJECTS, SUPERVISORS)
            by = f"{code('supervisor', owner):16} {label('supervisor', owner)}"
            if kind == "offers":
                text += "".join(f"{code('project', at):16}{min(room[at], room_with[owner]):5} {by}\t{label('project', at)}\n" for at in of_owner)
                continue
            text += f"{code('supervisor', owner):18}{sum(taken[at] for at in of_owner):5}{quota:5}\n"
            text += "".join(f"  {code('project', at):16}{taken[at]:5}{self.projects[at]:5}\n" for at in of_owner)
        return text

    def round_text(self, number):
        """The text of a round: quotas are what the rounds before it left of them."""
        lines = ["A,generous"] if self.aims[number - 1] == "generous" else []
        lines += [f"S,{code('supervisor', at)},{left}" for at, left in enumerate(self.room_with(number - 1))]
        lines += [f"P,{code('project', at)},{code('supervisor', at % SUPERVISORS)},{left}" for at, left in enumerate(self.room(number - 1))]
        lists = sorted(self.rounds[number - 1][1].items())
        lines += [f"C,{code('student', at)},{','.join(code('project', project) for project in chosen)}" for at, chosen in lists]
        return "".join(line + "\n" for line in lines)


def formula(kind, *numbers):
    """A code that a row writes out: these numbers make its position."""
    times, more, modulus, base = numbers
    return f"{PREFIX[kind]}@{times} {more} {modulus} {base + FIRST}@"


def sheet(header, pieces, length):
    """The cell of an import text that empty lines make as long as may be."""
    return f"{header}^n{''.join(pieces)}^{{{len(header) + 1 + length} {BYTES} ^n^}}"


def roll(kind, fields, first, end, length):
    """The piece of the records of a roll."""
    name = label(kind, 0).replace(str(FIRST), f"@1 0 9999 {FIRST}@")
    return f"^{{{first} {end} {formula(kind, 1, 0, 9999, 0)},{name}{fields}^n^}}", (end - first) * (16 + 1 + 200 + length + 1)


def early(number):
    """The lists of an early round: how the choices of a student stand by position, and the student who is placed."""
    steps = [(7, 37 * k + 11 * number, 389, 11) for k in range(RANKS - 1)]
    return steps + [(0, number - 1, 400, 0)], STUDENTS - number


def late(residue):
    """Those of the students of the last round whose positions leave this residue by twelve: the own project is among the full ones."""
    steps = [(0, k, 400, 0) for k in range(RANKS - 1)]
    return steps[:residue] + [(1, 11, 9999, 0)] + steps[residue:]


def rivals():
    """Those of the others."""
    return [(0, k, 400, 0) for k in range(RANKS - 1)] + [(3, 11 - 3 * 389 + 9999, 9999, 0)]


def chosen(steps, student):
    return [(times * student + more) % modulus + base for times, more, modulus, base in steps]


def stepped(steps, factor, residue):
    """The same by a count from which the position comes."""
    return [(times * factor, times * residue + more, modulus, base) for times, more, modulus, base in steps]


class Rows:
    """The rows, and the books that they are about."""

    def __init__(self):
        self.books, self.lines, self.imports = PersistentOffice(), [], 0

    def add(self, *lines):
        self.lines += lines

    def begin(self, title):
        self.add("", f"# {title}")

    def at(self, name):
        """Requests over HTTP follow."""
        self.add("", f"at {name}.db")

    def command(self, words, out, err=""):
        self.add(f"spadesk {words} | 0 | {cell(out)} | {cell(err)}".rstrip())

    def ask(self, counted, asked, body, answer):
        self.add(f"{counted} | {asked} | {body} | 200 OK | {answer}")

    def bring(self, kind, text, count, is_asked):
        """An import of this text, over HTTP or of a file."""
        name = f"{PREFIX['import']}{FIRST + self.imports}"
        self.imports += 1
        if is_asked:
            self.ask("0 1 none", f"POST /imports/{kind}/{name}", text, f'{{"rows":{count}}}')
        else:
            self.add(f"file {kind}.csv | {text}")
            new = "new full.db\n" if self.imports == 1 else ""
            self.command(f"import full.db {kind} {name} {kind}.csv", f"rows {count}\n", new)

    def bring_projects(self, quota, is_asked):
        for first in (0, 200):
            piece, length = roll("project", f",{formula('supervisor', 1, 0, 100, 0)},{quota}", first, first + 200, 1 + 16 + 1 + 1)
            self.bring("projects", sheet("code,name,supervisor,quota", [piece], length), 200, is_asked)
        self.books.projects = [quota] * PROJECTS

    def bring_lists(self, parts, is_asked=True):
        """An import of lists: of each part the choices, and the students by factor, residue and numbers."""
        pieces, sent = [], {}
        for steps, factor, residue, first, end in parts:
            choices = " ".join(formula("project", *step) for step in stepped(steps, factor, residue))
            pieces.append(f"^{{{first} {end} {formula('student', factor, residue, 9999, 0)},{choices}^n^}}")
            sent.update((factor * n + residue, chosen(steps, factor * n + residue)) for n in range(first, end))
        self.bring("lists", sheet("student,choices", pieces, len(sent) * (16 + 17 * RANKS + 1)), len(sent), is_asked)
        self.books.rounds[-1][1].update(sent)

    def put_lists(self, steps, factor, residue, first, end):
        """First lists, one after another, and a preview."""
        choices = ",".join(f'"{formula("project", *step)}"' for step in stepped(steps, factor, residue))
        path = f"PUT /lists/{formula('student', factor, residue, 9999, 0)}"
        self.ask(f"{first} {end} kept", path, f'{{"choices":[{choices}]}}', '{"ok":true}')
        self.books.rounds[-1][1].update((at, chosen(steps, at)) for at in range(factor * first + residue, factor * end + residue, factor))
        self.preview()

    def preview(self):
        ranks = list(self.books.best().values())
        profile = ",".join(str(ranks.count(rank)) for rank in range(1, RANKS + 1))
        self.ask("0 1 kept", "GET /preview", "", f'{{"profile":[{profile}],"size":{len(ranks)}}}')

    def text(self, number):
        self.ask("0 1 kept", "GET /roundtext", "", cell(self.books.round_text(number)))

    def open(self, number, aim):
        self.ask("0 1 none", "POST /rounds", f'{{"aim":"{aim}"}}', f'{{"round":{number}}}')
        self.books.rounds.append((True, {}, {}))
        self.books.aims.append(aim)
        self.reports([number], ["missing"])

    def closing(self, number):
        """What closing answers over HTTP, and what the command prints."""
        self.books.close()
        profile = self.books.profile(number)
        answer = f'{{"profile":[{",".join(map(str, profile))}],"round":{number},"size":{sum(profile)}}}'
        return answer, f"round {number} size {sum(profile)} profile {' '.join(map(str, profile))}\n"

    def close(self, number):
        self.ask("0 1 none", "POST /rounds/close", "", self.closing(number)[0])

    def reports(self, numbers, kinds=REPORTS):
        for number in numbers:
            for kind in kinds:
                self.ask("0 1", f"GET /reports/{kind}/{number}", "", cell(self.books.report(kind, number)))

    def rolls(self):
        piece, length = roll("supervisor", ",4", 0, SUPERVISORS, 2)
        self.bring("supervisors", sheet("code,name,quota", [piece], length), SUPERVISORS, False)
        self.bring_projects(0, False)
        for first in (0, 250):
            piece, length = roll("student", "", first, first + 250, 0)
            self.bring("students", sheet("code,name", [piece], length), 250, False)
        self.begin("Imports without a record.")
        self.at("full")
        most = IMPORTS - 2 * ROUNDS - 2
        self.ask(f"{self.imports} {most}", f"POST /imports/students/{formula('import', 1, 0, 9999, 0)}", "code,name^n", '{"rows":0}')
        self.imports = most

    def early_round(self, number):
        self.begin(f"Round {number}.")
        self.at("full")
        self.open(number, "generous" if number % 2 else "greedy")
        steps, winner = early(number)
        self.bring_lists([(steps, 1, 0, 0, 288)])
        self.bring_lists([(steps, 1, 0, 288, 486)])
        self.books.projects[number - 1] = 1
        owner, name = code("supervisor", number - 1), label("project", number - 1)
        put = f'{{"name":"{name}","quota":1,"supervisor":"{owner}"}}'
        self.ask("0 1 none", f"PUT /projects/{code('project', number - 1)}", put, '{"ok":true}')
        self.preview()
        self.put_lists(steps, 1, 0, 486, winner)
        self.put_lists(steps[-1:] + steps[:-1], 1, 0, winner, winner + 1)
        self.text(number)
        self.close(number)
        self.reports([number])

    def last_round(self):
        self.bring_projects(1, True)
        self.open(ROUNDS, "greedy")
        self.bring_lists([(late(residue), 12, residue, 0, 24) for residue in range(12)])
        self.preview()
        for residue in range(5):
            self.put_lists(late(residue), 12, residue, 32, 33)
        self.put_lists(rivals(), 1, 0, 483, STUDENTS - ROUNDS + 1)
        self.begin("The other lists come by a file, and the round is closed by a command.")
        self.bring_lists([(late(residue), 12, residue, 24, 32) for residue in range(12)] + [(rivals(), 1, 0, 389, 483)], False)
        self.command("close-round full.db", self.closing(ROUNDS)[1])
        self.begin("The last round is opened again and closed as before; another import, and another round, is one too many.")
        self.at("full")
        self.reports(range(1, ROUNDS + 1))
        self.ask("0 1 none", "POST /rounds/reopen", "", f'{{"round":{ROUNDS}}}')
        self.books.rounds[-1] = (True, self.books.rounds[-1][1], {})
        self.preview()
        self.text(ROUNDS)
        self.close(ROUNDS)
        self.reports([ROUNDS])
        self.add('0 1 | POST /imports/students/LAST | code,name^n | 409 Conflict | {"fault":"RollFull","number":12}')
        self.add('0 1 | POST /rounds | | 409 Conflict | {"fault":"RoundsFull","number":21}')

    def earlier(self):
        """Files of the earlier editions, at their limits."""
        self.begin("Files of the earlier editions, made by SQL, are migrated.")
        names = {kind: f"{PREFIX[kind]}@1 0 9999 {FIRST}@" for kind in PREFIX}

        def insert(table, rows, count):
            return f"INSERT INTO {table} VALUES ^{{0 1 {rows}^}}^{{1 {count} ,{rows}^}};^n"

        def values(kind, more=""):
            return f"('{names[kind]}','{label(kind, 0).replace(str(FIRST), f'@1 0 9999 {FIRST}@')}'{more})"

        choices = ",".join(f"(1,'{names['student']}',{place},'{formula('project', 1, 50 * (place - 1), 400, 0)}')" for place in range(1, 9))
        sql = insert("supervisor", values("supervisor", ",4"), SUPERVISORS)
        sql += insert("project", values("project", f",'{formula('supervisor', 1, 0, 100, 0)}',1"), PROJECTS) + insert("student", values("student"), STUDENTS)
        sql += insert("round", "(@1 0 9999 1@,0)", ROUNDS) + insert("choice", choices, STUDENTS)
        sql += "INSERT INTO choice SELECT number, student, place, project FROM choice, round WHERE choice.round = 1 AND number > 1;^n"
        sql += insert("placement", f"('{names['student']}',{ROUNDS},'{formula('project', 1, 350, 400, 0)}',8)", PROJECTS)
        sql += insert("import", f"('{names['import']}','students',x'636F64652C6E616D65',0)", IMPORTS)
        self.add(f"file full.sql | {sql}")
        self.books = PersistentOffice()
        self.books.projects = [1] * PROJECTS
        lists = {at: [(at + 50 * k) % PROJECTS for k in range(8)] for at in range(STUDENTS)}
        self.books.aims = ["greedy"] * ROUNDS
        self.books.rounds = [(False, lists, {at: 8 for at in range(PROJECTS)} if number == ROUNDS else {}) for number in range(1, ROUNDS + 1)]
        self.add("sql oldest.db edition1.sql", "sql oldest.db full.sql", "copy oldest.db older.db", "sql older.db edition2.sql")
        self.command(f"report oldest.db placements {ROUNDS}", self.books.report("placements", ROUNDS))
        self.at("oldest")
        self.reports((1, ROUNDS))
        self.at("older")
        self.reports((1, ROUNDS))
        self.ask("0 1", "POST /rounds/reopen", "", f'{{"round":{ROUNDS}}}')
        self.books.rounds[-1] = (True, lists, {})
        self.reports((1, ROUNDS))


def main():
    rows = Rows()
    rows.add("# Made by tools/makers/school_rows.py: a school at all limits, with names of 200 bytes and imports of 65,536.")
    rows.rolls()
    for number in range(1, ROUNDS):
        rows.early_round(number)
    rows.last_round()
    rows.earlier()
    print("\n".join(rows.lines).rstrip())


if __name__ == "__main__":
    main()
