"""The trials of sheets as schools have them, and of acts that cannot be taken back, which page.py runs with its own.

No sheet makes an entry that nobody meant, what forms and course systems export comes in, and no act goes wrong by one press.
"""
import random
import re

from messy_sheets import MESSY, NEEDS, NO_SHEETS, SCHOOL
from people_pages import FOCUS

SUPERVISORS = "code,name,quota\nLIN,Dr Lin Wei,3\nMUELLER,Prof. Seán Müller,4\n"
PROJECTS = (
    "code,name,supervisor,quota\nBRIDGES,Seven bridges,LIN,2\nMAPS,\"Old maps, read anew\",LIN,1\nTWIN-1,Twins,MUELLER,1\n"
    "TWIN-2,Twins,MUELLER,1\nRAILS,Rails,MUELLER,2\n"
)
STUDENTS = (
    "Matrikel,Nachname,Vorname,E-Mail\n4711001,Meyer,Anna,anna.meyer@uni.example\n4711002,Okafor,Ben,b.okafor@uni.example\n"
    "4711003,Çelik,Ayşe,ayse.celik@uni.example\n4711004,Diaz,Eva,eva@uni.example\n"
)
# What Microsoft Forms exports of a ranking, as Excel saves it where numbers have a comma.
MICROSOFT = (
    "ID;Start time;Completion time;Email;Name;Rank the projects\r\n"
    '1;11/02/26 9:01:10;11/02/26 9:03:44;anna.meyer@uni.example;Anna Meyer;"Seven bridges;Old maps, read anew;Rails;"\r\n'
    '2;11/02/26 9:02:00;11/02/26 9:05:12;b.okafor@uni.example;Ben Okafor;"Rails;Seven bridges;"\r\n'
)
# What Google Forms exports where each choice is a question, the second one before the first.
GOOGLE = (
    '"Timestamp","Email Address","Second choice","First choice"\n'
    '"2026/11/02 9:01:10 AM GMT+1","ayse.celik@uni.example","Old maps, read anew","Seven bridges"\n'
    '"2026/11/02 9:02:11 AM GMT+1","eva@uni.example","","rails"\n'
)
# What the questionnaire of Moodle exports.
MOODLE = (
    '"Response","Submitted on:","Course","ID","Full name","Username","Q01_First choice","Q02_Second choice"\n'
    '"1","Monday, 2 November 2026, 9:01 AM","Thesis","77","Celik, Ayse","ac77","Rails","Seven bridges"\n'
    '"2","Monday, 2 November 2026, 9:01 AM","Thesis","78","Somebody Else","se78","Rails","Twins"\n'
)
# A grid of Google Forms, with the place of each project, and answers without an account, in a sheet with a column of numbers.
GRID = (
    'Timestamp,Email Address,Rank [Seven bridges],Rank [Rails],"Rank [Old maps, read anew]"\n'
    "2026/11/02,eva@uni.example,2,1,\n"
)
ANONYMOUS = "ID,Email,Your student number,Wishes\n1,anonymous,4711002,\"1. Rails, 2. Old maps, read anew\"\n"


# What stands in the office, by the kind of sheet that brings it in.
STANDS = {
    "supervisors": "SELECT code, label, quota FROM supervisor",
    "projects": "SELECT code, label, supervisor, quota FROM project",
    "students": "SELECT code, label FROM student",
    "lists": "SELECT student, project FROM choice12 ORDER BY student, place",
}


class Sheets:
    def read_so(self, kind, **columns):
        """Says what the sheet that is asked about is, and what some of its columns have, by their places."""
        self.it.pick(".asked [name=kind]", kind)
        for key, place in columns.items():
            self.it.pick(f".asked [name='{place}']", key.replace("_", " "))
        self.it.press(".asked button.main")

    def chosen(self, name, content):
        self.it.choose(self.file(name, content))

    def is_asked(self, name, content):
        """A sheet of which another reading fits as well is not read before somebody has said what it is."""
        start = self.sent()
        self.chosen(name, content)
        seen = [self.it.run(f"return document.querySelectorAll('{css}').length") for css in (".asked", "#send", ".asked td select")]
        seen.append(self.it.run("return document.querySelector('.asked [name=kind]')?.value"))
        self.check(f"{name} is asked about", seen, [1, 0, 0, ""])
        self.check("and nothing is sent", self.sent(), start)

    def traps(self):
        """Sheets that look like another kind, or have rows that are no entries."""
        it = self.it
        topics = "code,name,quota,Supervisor name,description\nP1,Seven bridges,2,Lin Wei,On graphs\nP2,Rails,1,Sean Mueller,On steel\n"
        self.is_asked("topics 2027.csv", topics)
        self.is_asked("all of it.csv", topics)
        self.is_asked("topics.csv", "code,name,quota\nP1,Seven bridges,2\n")
        self.is_asked("people.csv", "code,name,Tutor\nS1,Ann,Lin Wei\n")
        self.is_asked("unknown.csv", "No.;Title;Supervisor;Places\nP1;Seven bridges;LIN;2\nP2;Rails;LIN;1\nP3;Maps;LIN;1\nP4;Ships;LIN;1\n")
        it.pick(".asked [name=kind]", "projects")
        self.check("three cells of each column", it.table(".asked")[1][2], "Seven bridges | Rails | Maps")
        self.check("the columns that words speak for", self.picked(), ["code", "name", "supervisor", "quota"])
        self.shot("sheet-asked")
        self.fits("what a sheet is")
        it.pick(".asked [name='3']", "")
        it.press(".asked button.main")
        self.check("what no column has is asked for", it.text("#told").splitlines()[:1], ["Say which one column has the quota."])
        hint = self.hinted("projects", "code,name,supervisor,seats\nP1,A,L,2\n")
        self.check("and by its cells it is named", "by its cells perhaps the quota" in hint)
        self.totals()
        self.twice_read()

    def hinted(self, kind, content):
        self.chosen("seats.csv", content)
        self.it.pick(".asked [name=kind]", kind)
        return self.it.text(".asked table")

    def totals(self):
        """Rows that look wrong are shown, asked about, and left out by one press."""
        it = self.it
        self.chosen("roll.csv", "code,name\nS1,Ann\nS2,S2\ns3,Cy\nTotal,140\n")
        doubts = [["3", "S2", "S2", "the name is a code?"], ["5", "Total", "140", "a row of totals?"]]
        self.check("what looks wrong", it.table(".doubt"), doubts)
        self.check("what would be made", it.text(".fresh"), "New students: S1 Ann; S2 S2; s3 Cy; Total 140.")
        self.check("a row of totals is not mended", it.table(".mend"), [["4", "code", "s3", "S3"]])
        self.shot("sheet-doubts")
        self.fits("what looks wrong")
        it.press("#mend-0")
        it.press("#leave-0")
        it.press("#send")
        there = [code for code in ("S1", "S2", "S3", "TOTAL") if self.entry(f"/students/{code}")]
        self.check("without them", there, ["S1", "S3"])
        self.chosen("roll.csv", "code,name\nS5,Eve\nS6,S6\n")
        it.press("#send")
        self.check("it is asked before", "roll.csv would make 2 new students, and 1 of them look wrong." in it.text("#sure p"))
        it.press("#sure button:not(.main)")
        self.check("and nothing comes in", self.entry("/students/S5"), None)
        self.chosen("staff.csv", "code,name,quota\nLEE,Lee,2027\nSUM,,5\n")
        self.check("a quota that is a year", [row[3] for row in it.table(".doubt")], ["the quota is a year?", "a row of totals?"])
        self.chosen("roll.csv", "Roll 2027,\n,\nCode,Name\nS1,Ann\nCode,Name\nMAR-1,Mo\n1-Mar,Max\n")
        doubts = [[row[1], row[3]] for row in it.table(".doubt")]
        self.check("headings and dates", doubts, [["Code", "a row of headings?"], ["1-Mar", "a code that became a date?"]])
        self.check("a title above the headings", "what stands above the headings, Roll 2027." in it.text("#chosen"))
        self.chosen("staff.csv", "code,name,quota\nLEE,Lee von der Aa,2\nP1,Seven bridges,2\nDEE,dee,2\nP2,A history of bugs,2\n")
        self.check("a title is no name", [row[1] for row in it.table(".doubt")], ["P1", "P2"])

    def twice_read(self):
        """A name in two columns, a first row that is an entry, and columns that are read otherwise a second time."""
        it = self.it
        self.chosen("roll.csv", STUDENTS)
        self.read_so("students")
        self.check("a name of two columns", it.text(".fresh").split(";")[0], "New students: 4711001 Anna Meyer")
        it.press("#anew-0")
        self.check("what was said stands there", self.picked(), ["code", "surname", "first name", ""])
        it.pick(".asked [name='1']", "name")
        it.pick(".asked [name='2']", "")
        it.press(".asked button.main")
        self.check("columns read otherwise", it.text(".fresh").split(";")[0], "New students: 4711001 Meyer")
        self.chosen("bare.csv", "S8,Ida Berg\nS9,Jon Lund\n")
        it.pick(".asked [name=kind]", "students")
        it.press(".asked [name=headless]")
        self.read_so("students", code=0, name=1)
        self.check("a first row that is an entry", it.text(".fresh"), "New students: S8 Ida Berg; S9 Jon Lund.")

    def exports(self):
        """Supervisors by name, students by e-mail address or name, and choices by title, as forms and course systems export them."""
        it = self.it
        by_name = PROJECTS.replace(",LIN,", ',"Wei, Lin",').replace("Rails,MUELLER", "Rails,Nobody").replace("MUELLER", "Sean Müller")
        it.choose(self.file("supervisors.csv", SUPERVISORS), self.file("projects.csv", by_name))
        mended = [[str(row), "supervisor", "Wei, Lin", "LIN (Dr Lin Wei)"] for row in (2, 3)]
        self.check("supervisors by name", it.table(".mend")[:2], mended)
        self.check("who is nobody", it.table(".lost"), [["6", "supervisor", "Nobody", "none has this name"]])
        it.choose(self.file("supervisors.csv", SUPERVISORS), self.file("projects.csv", PROJECTS), self.file("roll.csv", STUDENTS))
        self.read_so("students")
        it.press("#send")
        self.check("all of them are there", self.entry("/students/4711003")["name"], "Ayşe Çelik")
        self.open()
        for name, sheet, wanted in (
            ("Project wishes(1-2).csv", MICROSOFT, {1: ["BRIDGES", "MAPS", "RAILS"], 2: ["RAILS", "BRIDGES"]}),
            ("Form Responses 1.csv", GOOGLE, {3: ["BRIDGES", "MAPS"], 4: ["RAILS"]}),
            ("questionnaire.csv", MOODLE, {3: ["RAILS", "BRIDGES"]}),
            ("grid.csv", GRID, {4: ["RAILS", "BRIDGES"]}),
            ("anonymous.csv", ANONYMOUS, {2: ["RAILS", "MAPS"]}),
        ):
            self.chosen(name, sheet)
            self.read_so("lists")
            if name == "questionnaire.csv":
                lost = [["3", "student", "Somebody Else", "none has this name"], ["3", "choices", "Twins", "TWIN-1, TWIN-2"]]
                self.check("two of one title", it.table(".lost"), lost)
            it.press(".mend button")
            it.press("#send")
            if it.text(".wrong button"):
                it.press(".wrong button")
            self.check(f"lists of {name}", {at: self.entry(f"/students/471100{at}")["list"] for at in wanted}, wanted)

    def messy(self):
        """Sheets as schools have them come in as they were meant; what is not meant is named, and nothing else is made."""
        it = self.it
        for name, content, words in NO_SHEETS:
            self.chosen(name, content)
            self.check(name, (it.text("#chosen").startswith(words), it.text("#send")), (True, None))
        topics = next(sheet[2] for sheet in MESSY if sheet[0] == "projects_merged")
        self.chosen("topics.csv", topics)
        self.read_so("projects")
        self.check("before the first round", {row[3] for row in it.table(".lost")}, {"choose the sheet of supervisors with this one"})
        for name, kind, content, *wanted, columns in MESSY:
            self.anew("messy")
            files = [self.file(f"{before}.csv", SCHOOL[before]) for before in NEEDS[kind]]
            if kind == "lists":
                it.choose(*files)
                it.press("#send")
                self.does(("POST", "/rounds", None))
                it.go()
            it.choose(*(files if kind != "lists" else ()), self.file(f"{name}.csv", content))
            if it.text(".asked"):
                it.pick(".asked [name=kind]", kind)
                for place, key in columns.items():
                    it.pick(f".asked [name='{place}']", key)
                it.press(".asked button.main")
            self.check(name, self.brought(kind), wanted)
        answers = self.file("answers.csv", "Email,Choice 1\nzoe@uni.example,P01\n")
        it.choose(answers)
        self.read_so("lists")
        self.check("addresses alone", [row[3] for row in it.table(".lost")], ["choose the sheet of students with this one"])
        it.choose(self.file("roll.csv", "code,name,E-Mail\nS1003,Zoë Brontë,zoe@uni.example\n"), answers)
        self.check("with those who have them", it.table(".mend")[0], ["2", "student", "zoe@uni.example", "S1003 (Zoë Brontë)"])
        it.press(".mend button")
        it.press("#send")
        self.check("told with a sheet that need not come in", it.text("#told").startswith("All imported: answers.csv, 1 row: 1 new."))

    def brought(self, kind):
        """What is told of a sheet and brought in of it: all that stands, what looked wrong, who is unclear, and the refused rows."""
        it, doubts = self.it, [[row[0], row[-1]] for row in self.it.table(".doubt")]
        for css in (".gap", ".doubt"):
            if it.text(f"{css} button"):
                it.press(f"{css} button")
        lost = [[row[0], row[2]] for row in it.table(".lost")]
        if it.text(".mend button"):
            it.press(".mend button")
        left = it.table(".mend")
        if it.text("#send"):
            it.press("#send")
        wrong = [[str(row), reason] for row, reason in self.refused_rows()]
        if it.text(".wrong button"):
            it.press(".wrong button")
        rows = self.rows(STANDS[kind])
        lists = {row[0]: " ".join(what for who, what, *_ in rows if who == row[0]) for row in rows}
        there = lists if kind == "lists" else sorted(map(list, rows))
        return [there, doubts, lost, sorted(wrong, key=lambda row: int(row[0]))] + left

    def long(self):
        """A sheet that needs several imports comes in whole, or not at all."""
        it = self.it
        rows = [f"S{at},{'Anna ' * 39}Lee" for at in range(400)]
        start, sheet = self.sent(), "code,name\n" + "\n".join(rows) + "\n"
        self.chosen("students.csv", sheet.replace("S399", "s 399"))
        self.check("it is said", "It goes in 2 parts" in it.text("#chosen"))
        it.press("#send")
        self.check("a wrong row in the last part", (it.table(".wrong")[0][0], self.entry("/students/S0")), ("401", None))
        self.chosen("students.csv", sheet)
        it.press("#send")
        self.check("all parts", ([self.entry(f"/students/S{at}") is None for at in (0, 399)], self.sent() - start), ([False, False], 7))
        self.check("it is told once", it.text("#told").splitlines()[0], "All imported: students.csv, 400 rows: 400 new.")

    def acts(self):
        """What a final question says, and whom a lower quota, a project of another supervisor or a student who leaves hits."""
        it = self.it
        supervisor = lambda code, name, quota: ("PUT", f"/supervisors/{code}", {"name": name, "quota": quota})
        project = lambda code, owner, quota: ("PUT", f"/projects/{code}", {"name": code.title(), "supervisor": owner, "quota": quota})
        self.does(
            *(supervisor("LIN", "Lin Wei", 3), supervisor("MAY", "Ida May", 3), project("BRIDGES", "LIN", 2), project("RAILS", "MAY", 2)),
            *(("PUT", f"/students/S{at}", {"name": f"Ann {at}"}) for at in range(1, 7)),
            ("POST", "/rounds", None),
            *(("PUT", f"/lists/S{at}", {"choices": ["BRIDGES", "RAILS"][at == 6 : 1 + (at in (2, 6))]}) for at in (1, 2, 3, 5, 6)),
        )
        it.go()
        it.press("#close-round")
        words = "1 student with a list would have no place. 1 student without a list can get none."
        self.check("what closing would leave", f"{words} {self.office.shown}" in it.text("#sure p"))
        self.fits("a final question")
        self.check("the harmless button has the focus", it.run(FOCUS), "Not now")
        if not it.firefox:
            nodes = it.chrome("Accessibility.getFullAXTree")["nodes"]
            names = [node["name"]["value"][:14] for node in nodes if node.get("role", {}).get("value") == "dialog"]
            self.check("a name for a reader", names, ["Close round 1?"])
        for _ in range(3):
            self.keyed("Enter")
            self.rested()
        self.check("pressed twice", it.text("#state"), "Round 1 is open, greedy, with 5 lists.")
        self.filled("supervisor", "LIN", quota=1)
        words = "4 lists of the open round have it: S1, S2, S3, S5. The round would place 3 students, and not 4."
        self.check("whom fewer places hit", it.text("#sure p").startswith(f"Lower the quota of LIN, Lin Wei, from 3 to 1? {words}"))
        it.press("#sure button:not(.main)")
        self.chosen("supervisors.csv", "code,name,quota\nLIN,Lin Wei,0\n")
        words = "Fewer places where students of the open round have a choice: LIN: quota 3, now 0 (S1, S2, S3, S5)."
        self.check("and in a sheet", words in it.text("#chosen"))
        words = "BRIDGES stands on 4 lists of the open round: S1, S2, S3, S5. They have to list the new project."
        self.filled("project", "BRIDGES", supervisor="MAY")
        self.check("a project of another supervisor", words in it.text("#told"))
        self.chosen("projects.csv", "code,name,supervisor,quota\nBRIDGES,Bridges,MAY,2\n")
        it.press("#send")
        self.check("the same in a sheet", words in it.text(".wrong"))
        self.looked_up()
        self.left()

    def looked_up(self):
        """An entry that is looked up by its name, and one that somebody else changes meanwhile."""
        it = self.it
        self.filled("supervisor", "WEI")
        names = it.run("return [...document.querySelectorAll('[id^=alike-]')].map(it => it.textContent)")
        self.check("an entry by its name", names, ["LIN Lin Wei"])
        self.filled("student", "ANN")
        it.press("#alike-S4")
        self.check("a student by the name", it.text("#found p"), "Ann 4 has no place.")
        self.does(("PUT", "/students/S4", {"name": "Ann Four"}))
        it.press("#keep button")
        self.check("changed by somebody else", it.text("#sure p").startswith("Somebody has changed this entry since it was shown."))
        it.press("#sure button:not(.main)")
        self.check("and it stays so", self.entry("/students/S4")["name"], "Ann Four")

    def further(self):
        """Which further place would help, against the program: each is tried at each project, with each supervisor, and at both."""
        it, lot = self.it, random.Random(5)
        offers = {f"P{at}": ("AB"[at % 2], 1 + at // 4) for at in range(6)}
        wishes = {f"S{at}": lot.sample(sorted(offers), 2 + at % 2) for at in range(9)}
        self.does(
            *(("PUT", f"/supervisors/{code}", {"name": code, "quota": quota}) for code, quota in (("A", 3), ("B", 9))),
            *(("PUT", f"/projects/{code}", {"name": code, "supervisor": by, "quota": quota}) for code, (by, quota) in offers.items()),
            *(("PUT", f"/students/{code}", {"name": code}) for code in wishes),
            ("POST", "/rounds", {"aim": "generous"}),
            *(("PUT", f"/lists/{code}", {"choices": choices}) for code, choices in wishes.items()),
        )
        it.go()
        it.press("#help")
        text, places = self.entry("/roundtext"), [(None, by) for by in "AB"] + [(code, None) for code in offers]
        worth = {place: self.worth(text, *place) for place in [(None, None), *places, *((code, by) for code, (by, _) in offers.items())]}
        alone = lambda what, by: max(worth[what, None], worth[None, by])
        helps = {place: it for place, it in worth.items() if it > (worth[None, None] if None in place else alone(*place))}
        wanted = sorted(helps.values(), reverse=True)
        said = lambda what, by: " ".join(filter(None, (what, by and f"{'and ' * bool(what)}with {by}")))
        rows = it.table("#helps")
        self.shot("further")
        self.check("some help", (len(rows) > 2, worth[None, None][0] < max(it[0] for it in helps.values())), (True, True))
        self.check("what would help", sorted(row[0] for row in rows), sorted(said(*place) for place in helps))
        self.check("the most first", [helps[place] for row in rows for place in helps if said(*place) == row[0]], wanted)
        more = [sum(max(it[0] - worth[None, None][0], 0) for place, it in helps.items() if said(*place) == row[0]) for row in rows]
        told = [re.match(r"(?:(\d+) more student)?", row[1])[1] for row in rows]
        self.check("more students", [int(it or 0) for it in told], more)
        self.check("and it changes nothing", self.entry("/roundtext"), text)

    def worth(self, text, what=None, by=None):
        """What the round is worth with one place more, generous: the students, and then the fewest at the last ranks."""
        is_its = lambda line: what and line.startswith(f"P,{what},") or by and line.startswith(f"S,{by},")
        lines = [re.sub(r"\d+$", lambda it: str(int(it[0]) + 1), line) if is_its(line) else line for line in text.splitlines()]
        round = self.file("further.txt", "".join(f"{line}\n" for line in lines))
        told = self.line("check", self.file("best.txt", self.line("solve", round))).split()
        return int(told[2]), *(-int(it) for it in reversed(told[4:]))

    def filled(self, kind, code, **fields):
        """Fills in the form of an entry, and sends it."""
        self.it.pick("#what", kind)
        self.it.write("#code", code)
        self.it.press("#asked button")
        for key, value in fields.items():
            self.it.run("document.querySelector('#keep').elements[arguments[0]].value = arguments[1]", key, value)
        if fields:
            self.it.press("#keep button")

    def left(self):
        """A supervisor who falls ill, and a student who leaves, once the round is closed."""
        it = self.it
        it.press("#close-round")
        it.press("#sure .main")
        rows = [line.split()[:2] for line in self.line("report", "DB", "placements", "1").splitlines()]
        placed = ", ".join(f"{who} Ann {who[1]} ({what})" for who, what in rows if what == "BRIDGES")
        self.filled("supervisor", "LIN", quota=0)
        self.check("who is placed there", f"Placed there: {placed}." in it.text("#told"))
        self.chosen("supervisors.csv", "code,name,quota\nLIN,Lin Wei,1\n")
        it.press("#send")
        self.check("and in a sheet too", f"Placed there: {placed}." in it.text(".wrong"))
        self.filled("student", rows[0][0])
        it.press("#leaving summary")
        self.check("if a student leaves", "Reopen round 1 under 3 Close, withdraw the list" in it.text("#leaving"))


# As those of `people_pages.py`.
SHEET_MUTANTS = [
    ("messy", "office.html", "/\\0|^\\s*<(", "/^\\s*<(", "old.csv"),
    ("messy", "office.html", "named.get(upper(code)).size > 1", "named.get(code)?.size > 1", "notes_below"),
    ("messy", "office.html", "isMostly && !", "!isMostly && !", "notes_below"),
    ("messy", "office.html", "sheets.some(it => it.kind === KIND_OF[key])", "true", "before the first round"),
    ("messy", "office.html", "if (text !== whole) notes.push", "if (false) notes.push", "separator_named_alone"),
    ("messy", "office.html", "it => it.told || it.isOld", "it => it.told", "told with a sheet that need not come in"),
    ("messy", "office.html", 'rounds.length && !cell.includes("@")', "rounds.length", "addresses alone"),
    ("messy", "office.html", 'bytes[0] === 0xff && bytes[1] === 0xfe ? "utf-16le"', 'false ? "utf-16le"', "unicode_text"),
    ("messy", "office.html", "99 * sizes.filter(it => it === size).length", "0", "title_alone"),
    ("messy", "office.html", "if (!isLower || upper.every", "if (true || upper.every", "two_rows_of_headings"),
    ("messy", "office.html", "if (head.some((cell, at) => !cell &&", "if (head.some((cell, at) => false &&", "columns_without_headings"),
    ("messy", "office.html", '(kind === "lists" && over.some(', '(kind === "none" && over.some(', "another_word"),
    ("messy", "office.html", "(titles.length > 1 ?", "(titles.length > 9 ?", "google_grid"),
    ("messy", "office.html", "|n\\/?a)$/i.test", ")$/i.test", "typing_errors"),
    ("messy", "office.html", "=== (plainly(title) || code)", "!== title", "french"),
    ("messy", "office.html", "^(max\\w* |", "^(m\\w* |", "quotas_in_words"),
    ("messy", "office.html", "[.,]0{1,2}$/", "[.,]0+$/", "quotas_in_words"),
    ("messy", "office.html", "if (row[2]?.trim()) above = row[2];", "if (row[2]?.trim()) above ||= row[2];", "projects_merged"),
    ("messy", "office.html", "if (isMail && there.has(student(code.split", "if (false && there.has(student(code.split", "microsoft_forms"),
    ("messy", "office.html", "row.length === columns(kind).length &&", "", "separator_named"),
    ("messy", "office.html", '!code.trim() ? "no code?"', 'false ? "no code?"', "footers"),
    ("traps", "office.html", "others.some(word => word.test(plainly(head[at])))", "false", "all of it.csv is asked about"),
    ("traps", "office.html", "(files.length > 0 && !files.includes(kind))", "false", "topics.csv is asked about"),
    ("traps", "office.html", "if (plan.lacking.length) return tell", "if (false) return tell", "what no column has is asked for"),
    ("traps", "office.html", "given.slice(1, 4)", "given.slice(2, 4)", "three cells of each column"),
    ("traps", "office.html", "it === row && isTotal(row)", "false", "a row of totals is not mended"),
    ("traps", "office.html", "if (!(await mayMake())) return;", "await mayMake();", "and nothing comes in"),
    ("traps", "office.html", 'return isTotal(row) ? "a row of totals?" : ', "return ", "what looks wrong"),
    ("traps", "office.html", "filled.slice(titleRows(filled))", "filled", "headings and dates"),
    ("traps", "office.html", "DATE.test(code) ?", "false ?", "headings and dates"),
    ("traps", "office.html", "&& isTitle(name)", "&& false", "a title is no name"),
    ("traps", "office.html", "BOTH.flatMap(of)", "[...BOTH].reverse().flatMap(of)", "a name of two columns"),
    ("traps", "office.html", "plan.isHeadless ? 0 : 1", "1", "a first row that is an entry"),
    ("exports", "office.html", "const only = codes => (codes.length === 1 ?", "const only = codes => (codes.length ?", "two of one title"),
    ("exports", "office.html", "if (isGrid(head, row, from)) return", "if (false) return", "lists of grid.csv"),
    ("exports", "office.html", "(student|matriculation) (code|id|no|number)|id number", "^id number", "lists of anonymous.csv"),
    ("exports", "office.html", "inOrder(head, of(key)) :", "of(key) :", "lists of Form Responses 1.csv"),
    ("exports", "office.html", "projectIn(pieces.slice(0, most).join(\",\"))", "projectIn(pieces[0])", "lists of Project wishes(1-2).csv"),
    ("exports", "office.html", '.sort().join(" "));', '.join(" "));', "supervisors by name"),
    (
        "acts",
        "office.html",
        '<button value="no">Not now</button><button class="main" value="yes"></button>',
        '<button class="main" value="yes"></button><button value="no">Not now</button>',
        "the harmless button has the focus",
    ),
    ("acts", "office.html", "return was === now ||", "return true ||", "changed by somebody else"),
    ("acts", "office.html", 'plainly(name ?? "").includes(plainly(word))', 'plainly(name ?? "") === plainly(word)', "an entry by its name"),
    ("acts", "office.html", ' aria-labelledby="question"', "", "a name for a reader"),
    ("acts", "office.html", "part(all - seen.size,", "part(0,", "what closing would leave"),
    ("acts", "office.html", ".filter(([, owner]) => owner === code)", "", "whom fewer places hit"),
    ("acts", "office.html", 'kind === "projects" ? [code]', 'kind ? [code]', "whom fewer places hit"),
    ("acts", "office.html", 'inner === 16 ? listers("projects", code) : []', "[]", "a project of another supervisor"),
    ("acts", "office.html", "await whomItHits(kind, code, fault.number)", 'await ""', "who is placed there"),
    ("acts", "office.html", "[it, owner].includes(code)", "it === code", "and in a sheet too"),
    ("acts", "office.html", "isLast = round === rounds.length, stays", "isLast = false, stays", "if a student leaves"),
    ("further", "office.html", "[...part(more - size", "[...part(size - more", "more students"),
    ("further", "office.html", "price.some(Number)", "price.every(Number)", "what would help"),
    ("further", "office.html", "line.startsWith(`P,${what},`) ||", "", "what would help"),
    ("further", "office.html", "compared(worth(it.aim, b[2])", "-compared(worth(it.aim, b[2])", "the most first"),
    ("long", "office.html", "if (!isWhole && sheet.wrong.length) return undefined;", "", "a wrong row in the last part"),
    ("long", "office.html", "for (const body of bodies) came", "for (const body of bodies.slice(0, 1)) came", "all parts"),
]
