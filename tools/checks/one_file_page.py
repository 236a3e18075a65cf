"""The trials of spadesk.html, the whole office in one file, which page.py runs with its own from disk: where the office is, its copies,
tabs, a browser that stores nothing more or is killed, a term from messy sheets, and how long each act takes.

`InOneFile` stands in the place of the web server and the service: what the trials of the office's page ask there it asks the page.
"""
import base64
import contextlib
import os
import pathlib
import random
import signal
import sqlite3
import subprocess
import time

from messy_sheets import term
from office import EXAMPLE, FIRST_EDITION, SECOND_EDITION, alter, copy, told
from makers.one_file import one_file
from people_pages import LEAVING

KINDS = ("supervisors", "projects", "students", "lists")
# The tables of the office, but for the ids of imports.
TABLES = ("supervisor", "project", "student", "choice12", "placement12")
CLOSED = "Round 1 is closed, greedy: 20 of 20 students placed."
# What a request is answered, and where it is refused why.
ASKED = """const [method, path, body] = arguments;
return ask(method, path, body ?? undefined).then(it => [it], it => [null, it.number ?? it.status ?? String(it)])"""
# The imports that are asked for are counted.
COUNTED = """const real = window.ask;
window.ask = (method, path, body) => {
  if (method === "POST" && path.startsWith("/imports/")) sessionStorage.sent = Number(sessionStorage.sent ?? 0) + 1;
  return real(method, path, body);
};"""
# What is done in the browser's storage, in one transaction: `done` is given what the page has stored, once that is known.
STORED = """return new Promise(done => { indexedDB.open("spadesk").onsuccess = ({ target: { result } }) => {
  const change = result.transaction("office", "readwrite"), office = change.objectStore("office");
  const asked = office.get("school.db");
  change.oncomplete = () => { result.close(); done(asked.result?.file && btoa(Array.from(asked.result.file, it => String.fromCharCode(it)).join(""))); };
  %s }; });"""
# Four acts over and over, each of which is seen afterwards: a name, a closing, a name, a reopening. `told` is the last that was answered.
ACTS = """window.told = arguments[0] - 1;
(async () => { for (let n = arguments[0]; ; n += 1) {
  await (n % 2 === 0 ? ask("PUT", "/students/S01", JSON.stringify({ name: String(n) })) : ask("POST", `/rounds/${n % 4 === 1 ? "close" : "reopen"}`));
  window.told = n; } })();"""
# The longest time between two frames while the page says that it works, and how often it said so.
FRAMES = """window.still = 0; window.busy = 0; let last = performance.now(), was = false;
const frame = now => { const is = document.body.classList.contains("busy");
  if (is && was) window.still = Math.max(window.still, now - last); if (is) window.busy += 1;
  was = is; last = now; requestAnimationFrame(frame); };
requestAnimationFrame(frame);"""


def rows(path, table):
    with contextlib.closing(sqlite3.connect(path)) as it:
        return sorted(it.execute(f"SELECT * FROM {table}"))


LOCKLESS = "Object.defineProperty(navigator, 'locks', { value: undefined })"
# A file that somebody has chosen, with the words of the browser for it.
CHOSEN = """window.chosen = { name: "school.db", createWritable: async () => {
  let parts;
  return { write: async it => { parts = it.slice(); }, close: async () => { chosen.bytes = parts; } }; } };
window.showSaveFilePicker = async () => chosen;"""


class InOneFile:
    """The page of the office from disk, with the office in it."""

    shown, seen, own_words = "Nobody sees it before you print it or pass it on.", " Whoever was told a place has to be told anew.", {1}
    once_open = COUNTED

    def __init__(self, module, folder):
        self.module, self.folder = pathlib.Path(module).read_bytes(), folder

    def renew(self):
        """Makes the one file of the pages as they are now."""
        pathlib.Path(self.folder, "page", "spadesk.html").write_text(one_file(self.module, f"{self.folder}/page"), encoding="utf-8")

    def end(self):
        """Nothing runs but the browser."""

    def address(self):
        return f"file://{self.folder}/page/spadesk.html"

    def anew(self, it, _):
        it.run(STORED % "office.clear();")

    def told(self, it, *request):
        return it.run(ASKED, *request)[0]

    def copied(self, it, to):
        """A copy of what is stored."""
        held = it.run(STORED % "")
        if held:
            pathlib.Path(f"{to}.stored").write_bytes(base64.b64decode(held))
        return copy(f"{to}.stored" if held else None, to)

    def sent(self, it):
        return it.run("return Number(sessionStorage.sent ?? 0)")


class Alone:
    """Part of the class `Trial` of page.py."""

    def bytes_of_copy(self):
        """The copy that the page saves."""
        self.it.press("#copy")
        return self.saved("school.db")

    def report(self, file, kind, number=1):
        """A report, as the program prints it of these bytes."""
        return self.line("report", self.file("read.db", file), kind, str(number))

    def example(self, edition=""):
        """The bytes of a file of the program with the first round, of an edition."""
        path = copy(None, f"{self.folder}/program.db")
        for words in (*(f"import DB {kind} {kind.upper()} {EXAMPLE}/{kind}.csv" for kind in KINDS[:3]), "open-round DB",
                      f"import DB lists LISTS {EXAMPLE}/lists.csv", "close-round DB"):
            told(self.program[-1], words, path)
        alter(path, edition)
        return pathlib.Path(path).read_bytes()

    def bring(self, name, content):
        """Chooses a file as a copy of an office."""
        self.it.give("#brought", self.file(name, content))

    def copies(self):
        """Files of each edition from the program and back to it, and files that are none."""
        it, wanted = self.it, self.report(self.example(), "placements")
        self.check("where it will be", "The office will be in this browser" in it.text("#where") and "It is empty." in it.text("#where"))
        it.press("#small")
        self.check("a small school to try", it.text("#state"), "Round 1 is open, greedy, with 20 lists.")
        self.does(("POST", "/rounds/close", None))
        file = self.bytes_of_copy()
        self.check("its placements, as the program prints them", self.report(file, "placements"), wanted)
        self.check("a copy was saved", "You have saved a copy since the last change." in it.text("#where"))
        it.go()
        self.check("it is there when the page is loaded again", it.text("#state"), CLOSED)
        with contextlib.closing(sqlite3.connect(self.file("sound.db", file))) as sound:
            self.check("the copy is sound", sound.execute("PRAGMA integrity_check").fetchall(), [("ok",)])
        self.check("it goes on at the program", told(self.program[-1], "open-round DB generous", f"{self.folder}/sound.db"), "round 2\n")
        for name, edition in (("first", FIRST_EDITION), ("second", SECOND_EDITION), ("latest", "")):
            self.bring(f"{name}.db", self.example(edition))
            question = it.text("#sure p")
            self.check(f"what is in a file of the {name} edition", f"5 supervisors and 10 projects: {CLOSED}" in question)
            it.press("#sure button.main")
            self.check("it is open", it.text("#state"), CLOSED)
            self.does(("PUT", "/students/NEW", {"name": "New"}))
            self.check("it goes on", self.entry("/students/NEW")["name"], "New")
            self.check("and back at the program", self.report(self.bytes_of_copy(), "placements"), wanted)
        other = copy(None, f"{self.folder}/other.db")
        alter(other, "CREATE TABLE student (code TEXT);")
        held = self.bytes_of_copy()
        for name, content in (("words.db", b"no database"), ("torn.db", held[:5000]), ("other.db", pathlib.Path(other).read_bytes())):
            self.bring(name, content)
            is_asked = it.run("return !!document.querySelector('dialog[open]')")
            self.check(f"{name} is not opened", (is_asked, self.bytes_of_copy() == held), (False, True))

    def tabs(self):
        """Two tabs: one has the office, the other reads it, and has it once the first is closed."""
        it = self.it
        self.does(("PUT", "/students/NEW", {"name": "New"}))
        name = lambda: self.entry("/students/NEW")["name"]
        renamed = lambda name: it.run(ASKED, "PUT", "/students/NEW", f'{{"name":"{name}"}}')
        first = it.send("GET", "/window")
        second = it.send("POST", "/window/new", {"type": "tab"})["handle"]
        it.send("POST", "/window", {"handle": second})
        it.go()
        self.check("the second tab says so", "Another tab of this browser has the office." in it.text("#where"))
        self.check("it reads", name(), "New")
        self.check("and changes nothing", renamed("Other"), [None, 423])
        it.send("POST", "/window", {"handle": first})
        self.check("the first tab does", renamed("Newer"), [{"ok": True}])
        self.bytes_of_copy()
        it.send("DELETE", "/window")
        it.send("POST", "/window", {"handle": second})
        time.sleep(0.5)
        it.rest()
        self.check("then the second has it", "Another tab" not in it.text("#where"))
        self.check("as the first left it", name(), "Newer")
        self.check("and changes it", renamed("Last"), [{"ok": True}])
        if not it.firefox:
            self.without_locks(renamed, name)

    def without_locks(self, renamed, name):
        """Where the browser lends no locks each tab changes the office, and still none over what it has not read."""
        it, first = self.it, self.it.send("GET", "/window")
        gone = it.chrome("Page.addScriptToEvaluateOnNewDocument", source=LOCKLESS)["identifier"]
        it.go()
        second = it.send("POST", "/window/new", {"type": "tab"})["handle"]
        it.send("POST", "/window", {"handle": second})
        it.chrome("Page.addScriptToEvaluateOnNewDocument", source=LOCKLESS)
        it.go()
        self.check("a tab without locks", renamed("Second"), [{"ok": True}])
        it.send("POST", "/window", {"handle": first})
        self.check("another that has not read it", renamed("First"), [None, 2])
        self.check("has read it now", (name(), renamed("First")), ("Second", [{"ok": True}]))
        it.chrome("Page.removeScriptToEvaluateOnNewDocument", identifier=gone)
        it.send("POST", "/window", {"handle": second})
        it.send("DELETE", "/window")
        it.send("POST", "/window", {"handle": first})

    def storing(self):
        """What the browser stores, what it does not, and what is said of it."""
        it = self.it
        asks = lambda *request: it.run(ASKED, *request)
        it.run("window.kept = IDBObjectStore.prototype.put; navigator.storage.persist = () => Promise.resolve(false)")
        self.check("nothing is lost by leaving an empty office", it.run(LEAVING), False)
        self.does(("PUT", "/students/NEW", {"name": "New"}))
        self.check("a change without a copy warns", (it.run(LEAVING), "No copy was saved since" in it.text("#where")), (True, True))
        self.check("the browser may clear it", "The browser may clear it by itself when space is short." in it.text("#where"))
        self.bytes_of_copy()
        self.check("with a copy it may be left", it.run(LEAVING), False)
        it.run("IDBObjectStore.prototype.put = function () { this.transaction.abort(); return {}; }")
        self.check("full storage is refusal 2", asks("PUT", "/students/FULL", '{"name":"Full"}'), [None, 2])
        self.check("and nothing is changed", asks("GET", "/students/FULL"), [None, 15])
        self.check("a copy can still be saved", len(self.bytes_of_copy()) > 10000)
        it.run("IDBObjectStore.prototype.put = window.kept")
        self.check("then it is stored", asks("PUT", "/students/FULL", '{"name":"Full"}'), [{"ok": True}])
        it.run(STORED % "office.clear();")
        self.check("after the storage was cleared a change", asks("PUT", "/students/AFTER", '{"name":"After"}'), [{"ok": True}])
        it.run("navigator.storage.persist = () => Promise.resolve(true)")
        it.go()
        self.check("stores the whole office again", self.entry("/students/FULL")["name"], "Full")

    def written(self):
        """A file that each change is written to, where the browser can; here one of the trial's own, since nobody is there to choose."""
        it = self.it
        self.check("the browser can", it.run("return !!window.showSaveFilePicker"))
        self.does(("PUT", "/students/NEW", {"name": "New"}))
        it.run(CHOSEN)
        it.press("#write")
        self.check("it is said", it.text("#told").startswith("The office is in school.db, and each change will be written there"))
        self.check("where it is", "Each change is written to school.db too." in it.text("#where"))
        self.does(("PUT", "/students/NEW", {"name": "Newer"}))
        self.check("the file has the change", bytes(it.run("return Array.from(chosen.bytes ?? [])")) == self.stored())
        self.check("it may be left", it.run(LEAVING), False)
        it.run("chosen.createWritable = () => Promise.reject(new Error('The disk is full.'))")
        self.does(("PUT", "/students/NEW", {"name": "Newest"}))
        self.check("a file that cannot be written", "school.db could not be written: The disk is full." in it.text("#told"))
        self.check("the office has the change", (self.entry("/students/NEW")["name"], it.run(LEAVING)), ("Newest", True))

    def stored(self):
        """The bytes that are stored."""
        return pathlib.Path(self.office.copied(self.it, f"{self.folder}/looked.db")).read_bytes()

    def terms(self):
        """A term of 160 students from the sheets of a school, by the one file alone, to a printed and published result; and one at all limits."""
        for size in ((40, 80, 160, 5), (100, 400, 500, 12)):
            self.anew("terms")
            self.term_of(*size)

    def term_of(self, *size):
        """A school of so many supervisors, projects and students with so many choices."""
        it, (clean, files), self.timed, began = self.it, term(*size), [], time.monotonic()
        it.chrome("Performance.enable")
        self.act("the page is loaded", it.go)
        it.run(f"{FRAMES} window.printed = 0; window.print = () => {{ printed += 1; }}")
        self.brought_in("sheets of supervisors, projects and students", files[:3])
        it.press("#open")
        self.act("the round is opened", lambda: it.press("#sure button.main"))
        self.brought_in("the answers of a form", files[3:])
        self.act("closing is asked, with a preview", lambda: it.press("#close-round"))
        self.act("the round is closed and proved", lambda: it.press("#sure button.main"))
        for css in ("#print", "#each", "#save", "#proof1", "#result1"):
            it.press(css)
        printed = it.run("return [printed, busy > 0]")
        self.act("a copy is saved", lambda: it.press("#copy"))
        seconds = time.monotonic() - began
        self.check("printed, and it shows that it works", printed, [2, True])
        self.check("its proof", self.line("check", self.file("proof.txt", self.saved("proof1.txt"))).startswith("best size "))
        self.check("its result for everybody", self.line("check", self.file("result.txt", self.saved("result1.txt"))).startswith("accepted "))
        self.check("its placements", self.saved("placements-1.csv").count(b"\r\n") > size[2] / 2)
        path = copy(None, f"{self.folder}/clean.db")
        for kind, text in clean.items():
            if kind == "lists":
                told(self.program[-1], "open-round DB", path)
            told(self.program[-1], f"import DB {kind} {kind.upper()} {self.file('clean.csv', text)}", path)
        told(self.program[-1], "close-round DB", path)
        copied = self.file("copied.db", self.saved("school.db"))
        same = [rows(path, kind) == rows(copied, kind) for kind in TABLES]
        self.check("all that the program makes of the same sheets without a mess", dict(zip(TABLES, same)), dict.fromkeys(TABLES, True))
        self.told_acts(size, seconds)

    def act(self, name, work):
        """Does something, and notes its seconds of the clock and of the page's processors, and how long the page stood still at most."""
        used = lambda: {it["name"]: it["value"] for it in self.it.chrome("Performance.getMetrics")["metrics"]}["ProcessTime"]
        self.it.run("window.still = 0")
        began, before = time.monotonic(), used()
        work()
        taken = used() - before
        self.timed.append((name, time.monotonic() - began, taken, self.it.run("return window.still ?? 0") / 1000))

    def brought_in(self, name, files):
        """Chooses sheets, says what is asked, takes each mend that is offered, and imports them."""
        it = self.it
        self.act(f"{name} are chosen", lambda: it.choose(*(self.file(file, content) for file, _, content, _ in files)))
        while it.text(".asked b"):
            _, kind, _, columns = next(row for row in files if row[0] == it.text(".asked b"))
            it.pick(".asked [name=kind]", kind)
            for place, key in columns.items():
                it.pick(f".asked [name='{place}']", key)
            self.act(f"it is said that a sheet has {kind}", lambda: it.press(".asked button.main"))
        for css, words in (("fill", "cells are filled from above"), ("leave", "rows of totals are left out"), ("mend", "what is clear is mended")):
            while it.text(f"[id^={css}-]"):
                self.act(words, lambda: it.press(f"[id^={css}-]"))
        self.check("nothing is unclear", it.table(".lost"), [])
        self.act(f"{name} are imported", lambda: it.press("#send"))
        self.check("all came in", it.text("#told").startswith("All imported"))

    def told_acts(self, size, seconds):
        """The acts, and the longest of them."""
        supervisors, projects, students, choices = size
        print(f"{supervisors} supervisors, {projects} projects, {students} students with {choices} choices: {len(self.timed)} acts, {seconds:.0f} s")
        print("   clock  processor  still")
        for name, clock, processor, still in self.timed:
            print(f"  {clock:6.2f} {processor:10.2f} {still:6.2f}  {name}")

    def kills(self):
        """The browser is killed while it works: what was told stands, and each act is done whole or not at all."""
        by, n = random.Random(), 0
        self.school()
        self.does(("POST", "/rounds", None), ("PUT", "/students/S01", {"name": "-1"}))
        self.told("POST", "/imports/lists/LISTS", pathlib.Path(EXAMPLE, "lists.csv").read_text())
        for at in range(self.many):
            self.it.run(ACTS, n)
            time.sleep(by.uniform(0.1, 2.5))
            said = self.it.run("return told")
            self.killed()
            last, is_open = int(self.entry("/students/S01")["name"]), self.entry("/rounds/1")["open"]
            done = last + (is_open != (last % 4 == 0)) if last >= n else n - 1
            self.check(f"killed {at + 1}: of the acts to {said} that were told all are done, to {done}", said <= done)
            self.check("the round is whole", self.line("report", "DB", "placements", "1").count("\n"), 0 if is_open else 20)
            if not is_open:
                self.does(("POST", "/rounds/reopen", None))
            n = done + 4 - done % 4

    def killed(self):
        """Ends the browser as the machine would, each of its processes at once, and begins another one."""
        profile = f"{self.folder}/profile"
        for it in subprocess.run(["pgrep", "-f", f"user-data-dir={profile}"], capture_output=True, text=True).stdout.split():
            with contextlib.suppress(ProcessLookupError):
                os.kill(int(it), signal.SIGKILL)
        with contextlib.suppress(Exception, SystemExit):
            self.it.end()
        for name in ("SingletonLock", "SingletonSocket", "SingletonCookie"):
            with contextlib.suppress(FileNotFoundError):
                os.remove(f"{profile}/{name}")
        self.it = self.Browser(self.folder, self.office)
        self.it.go()


# What runs over the one file alone; of the parts that run in Firefox those of these, and mistakes as those of `people_pages.py`.
ALONE = ("copies", "tabs", "storing", "written", "terms", "kills")
ALONE_IN_FIREFOX = ("copies", "tabs", "storing")
ALONE_MUTANTS = [
    ("copies", "alone.js", 'if (!(await sure(question, "Open it"))) return;', "", "what is in a file of the first edition"),
    ("copies", "alone.js", "return status ? refuse(JSON.parse(refused(status).text)) :", "return", "torn.db is not opened"),
    ("copies", "alone.js", "try { await store({ file, turn, copied: turn }); }", "try { has({ file, turn, copied: turn }); }", "and back at the program"),
    ("tabs", "alone.js", 'if (!isRead && !here.isOurs) return { status: ELSEWHERE, type: "", text: "" };', "", "and changes nothing"),
    ("tabs", "alone.js", "takeOver(); return forever;", "return forever;", "then the second has it"),
    ("tabs", "alone.js", "if (!here.isOurs) has(await stored());", "", "as the first left it"),
    ("tabs", "alone.js", "(was.result ?? EMPTY).turn <= turn", "true", "another that has not read it"),
    ("tabs", "alone.js", "if (now.turn > turn) has(now);", "", "has read it now"),
    ("storing", "alone.js", "if (here.isOurs && !isCopied()) event.preventDefault();", "", "a change without a copy warns"),
    ("storing", "alone.js", "here.office.turn === here.office.copied", "false", "with a copy it may be left"),
    ("storing", "alone.js", "      return part.map(() => refused(2));", "", "full storage is refusal 2"),
    ("storing", "alone.js", "here.isKept === false ?", "false ?", "the browser may clear it"),
    ("storing", "alone.js", "  if (office.turn !== here.office.turn) here.known.clear();\n", "", "then it is stored"),
    ("written", "alone.js", "if (here.copy && !isCopied()) await writeCopy();", "", "the file has the change"),
    ("written", "alone.js", "await to.close();", "", "the file has the change"),
    ("written", "alone.js", "    here.copy = undefined;\n    showPlace();", "", "the office has the change"),
    ("kills", "alone.js", "try { await store({ file: left", "try { store({ file: left", "killed 1"),
]
