"""The trials of the student's and the supervisor's page, which page.py runs with its own, and mutants of both.

A mutant is a page, or the file of nginx, with one mistake in it: `page.py SPADESK --mutants` shows for each the trial that fails.
"""
import contextlib
import csv
import hashlib
import io
import json
import pathlib
import re
import shutil
import time

from office import read, sealed

STUDENT, SUPERVISOR = "S02:s02", "HOPPER:hopper"
KEYS = {"Tab": "\ue004", "Enter": "\ue007", "Shift": "\ue008", "Escape": "\ue00c"}
AIMS = {
    "greedy": "as many first choices as possible, then as many second choices, and so on.",
    "generous": "as few students as possible far down their lists: it looks at the lowest choices first, then at those above them.",
}
TITLES = {"CIPHER": "Breaking an old cipher", "NOTES": "Notes on the engine", "BUGS": "A history of bugs"}
# Whether the browser would ask before the page is left.
LEAVING = "const it = new Event('beforeunload', { cancelable: true }); dispatchEvent(it); return it.defaultPrevented"
# What has the focus: its name for a reader, and nothing where it is the whole page.
FOCUS = "const it = document.activeElement; return it === document.body ? null : it.getAttribute('aria-label') ?? it.textContent"
SEEN = """const it = document.activeElement, { x, y, width, height } = it.getBoundingClientRect();
return [getComputedStyle(it).outline, it.contains(document.elementFromPoint(x + width / 2, y + height / 2))]"""
CARDS = """return [...document.querySelectorAll('#projects > li:not([hidden])')].map(it =>
  [...it.querySelectorAll('.what > :not(a)'), it.querySelector('button')].map(part => part.textContent))"""
CHOICES = "return [...document.querySelectorAll('#list .what')].map(it => [...it.children].map(part => part.textContent))"
TABLES = """return [...document.querySelectorAll('main section')].map(it => [it.querySelector('h2').firstChild.textContent,
  ...[...it.querySelectorAll('tbody tr')].map(row => [...row.cells].map(cell => cell.textContent))])"""
# All texts whose contrast with what is under them is below 4.5, as WCAG 2 counts it.
PALE = """
const light = ([r, g, b]) => { const part = it => (it /= 255) <= .04045 ? it / 12.92 : ((it + .055) / 1.055) ** 2.4;
  return .2126 * part(r) + .7152 * part(g) + .0722 * part(b); };
const numbers = color => color.match(/[\\d.]+/g).map(Number);
const behind = it => { for (; it; it = it.parentElement) { const color = numbers(getComputedStyle(it).backgroundColor);
  if (color[3] !== 0) return color; } return [255, 255, 255]; };
const isSeen = it => it.checkVisibility() && [...it.childNodes].some(node => node.nodeType === 3 && node.data.trim());
const ratio = it => { const [a, b] = [numbers(getComputedStyle(it).color), behind(it)].map(light).sort((a, b) => b - a);
  return (a + .05) / (b + .05); };
return [...document.body.querySelectorAll('*')].filter(it => isSeen(it) && ratio(it) < 4.5).map(it => it.textContent)"""
# Notes what the page says, the sign that it waits, and how many answers it has had, whenever one of these texts changes.
WATCHED = """window.said = [];
const note = () => said.push([document.getElementById('told').textContent, document.getElementById('state').textContent,
  document.getElementById('state').className, getComputedStyle(document.getElementById('bar'), '::before').height,
  performance.getEntriesByType('resource').length]);
const all = { subtree: true, childList: true, characterData: true, attributes: true };
new MutationObserver(note).observe(document.getElementById('bar'), all)"""


# Which buttons and fields have neither a border nor a ground of their own, and whether the bar and the parts of a page have a ground.
LOOKS = """const look = it => getComputedStyle(it), solid = it => !/, 0\\)$|^transparent$/.test(look(it).backgroundColor);
const isEdged = it => look(it).borderTopStyle === 'solid' && look(it).borderTopWidth !== '0px';
const all = [...document.querySelectorAll('main button, main input')].filter(it => it.checkVisibility() && !it.closest('th'));
const grounds = [...document.querySelectorAll('#bar, section')];
return [all.filter(it => !isEdged(it) && !solid(it)).map(it => it.id || it.textContent), grounds.every(solid)]"""


def numbered(code):
    """The number of a student, by which the lot goes."""
    return hashlib.sha256(code.encode()).hexdigest()


class People:
    """What a trial of page.py has beside the trials of the office's page."""

    def keyed(self, *names):
        """Presses keys one after another, and with Shift-Tab both at once."""
        actions = []
        for name in names:
            keys = [KEYS[it] for it in name.split("-")]
            actions += [{"type": "keyDown", "value": it} for it in keys] + [{"type": "keyUp", "value": it} for it in reversed(keys)]
        self.it.send("POST", "/actions", {"actions": [{"type": "key", "id": "keys", "actions": actions}]})

    def tabbed(self, name, back=False):
        """Goes to what has this name by the keyboard alone; it must show its focus, and nothing may cover it."""
        for _ in range(120):
            self.keyed("Shift-Tab" if back else "Tab")
            if self.it.run(FOCUS) == name:
                seen = self.it.run(SEEN)
                return self.check(f"the focus of {name} is seen", ("solid 3px" in seen[0], seen[1]), (True, True))
        return self.check(f"{name} by the keyboard", self.it.run(FOCUS), name)

    def rested(self):
        """Waits until nothing is under way, also where what was pressed has closed a question: the page hears of that a task later."""
        self.it.run("return new Promise(done => setTimeout(done, 50))")
        self.it.rest()

    def acted(self, name, told, focus):
        """After an act: what is told of it, and where the focus is."""
        self.rested()
        self.check(name, (self.it.text("#told"), self.it.run(FOCUS)), (told, focus))

    def requests(self):
        with open(f"{self.folder}/asked") as file:
            return len(file.readlines())

    def slow(self, latency):
        """Each answer comes so many milliseconds later."""
        words = {"offline": False, "latency": latency, "download_throughput": -1, "upload_throughput": -1}
        self.it.send("POST", "/chromium/network_conditions", {"network_conditions": words})

    def window(self, width, height=780):
        self.it.chrome("Emulation.setDeviceMetricsOverride", width=width, height=height, deviceScaleFactor=1, mobile=False)

    def fits(self, name):
        """The page is never wider than its window, and on a phone each button is high enough and inside it."""
        if self.it.firefox:
            return
        for width in (360, 640, 1280):
            self.window(width)
            wide = self.it.run("const it = document.scrollingElement; return [innerWidth, it.scrollWidth <= it.clientWidth]")
            self.check(f"{name}, {width} px wide", wide, [width, True])
            if width == 360:
                small = """return [...document.querySelectorAll('button:not(th button)')].filter(it => it.checkVisibility()).map(it =>
                  [it.textContent, it.getBoundingClientRect()]).filter(([, it]) =>
                  it.height < 40 || it.left < 0 || it.right > innerWidth)"""
                self.check(f"{name}, buttons for a thumb", self.it.run(small), [])
        self.it.chrome("Emulation.clearDeviceMetricsOverride")
        for scheme in ("light", "dark"):
            self.it.chrome("Emulation.setEmulatedMedia", features=[{"name": "prefers-color-scheme", "value": scheme}])
            self.check(f"{name}, contrast, {scheme}", self.it.run(PALE), [])
        self.it.chrome("Emulation.setEmulatedMedia", features=[])

    def beside(self, name, text=None):
        """Puts a file beside the pages, or takes it away."""
        path = pathlib.Path(self.folder, "page", name)
        path.parent.mkdir(exist_ok=True)
        if text is not None:
            path.write_text(text, encoding="utf-8")
        elif path.is_dir():
            shutil.rmtree(path)
        else:
            path.unlink()

    def school(self):
        """Brings in the first round of the examples."""
        for kind in ("supervisors", "projects", "students"):
            self.told("POST", f"/imports/{kind}/{kind[:2].upper()}", read("examples", "first-round", f"{kind}.csv"))

    def does(self, *requests):
        """What the office asks for, which must be done."""
        for method, path, body in requests:
            if self.told(method, path, json.dumps(body) if body else None) is None:
                raise SystemExit(f"page.py: {method} {path} is refused")

    def listed(self):
        """The list that the office has of the student."""
        return json.loads(self.asked("GET", "/students/S02")[1])["list"]

    def student(self):
        it = self.it
        self.school()
        it.go("/student/", STUDENT)
        self.check("a student before a round", "No round is open" in it.text("#me"))
        self.does(
            ("POST", "/rounds", {"aim": "generous"}),
            ("PUT", "/supervisors/HOPPER", {"name": "Grace Hopper", "quota": 1}),
            ("PUT", "/projects/LANDING", {"name": "Software for a landing", "supervisor": "HAMILTON", "quota": 0}),
        )
        it.go("/student/", STUDENT)
        rows = lambda kind: csv.DictReader(io.StringIO(read("examples", "first-round", f"{kind}.csv")))
        names = {row["code"]: row["name"] for row in rows("supervisors")}
        left = {row["code"]: "1" if row["supervisor"] == "HOPPER" else row["quota"] for row in rows("projects")}
        wanted = [
            [row["name"], names[row["supervisor"]], f"{left[row['code']]} place{'s' * (left[row['code']] != '1')} left", "Add"]
            for row in sorted(rows("projects"), key=lambda row: row["name"])
            if row["code"] != "LANDING"
        ]
        self.check("projects with a place", it.run(CARDS), wanted)
        self.check("the aim", f"it takes one with {AIMS['generous']}" in it.text("#me"))
        number = numbered("S02")
        share = round(100 * int(number[:8], 16) / 2**32)
        lot = f"Yours begins with {number[:8]}: of 100 students some {share} come before you. It is made of your code S02 alone"
        self.check("the own number", lot in it.text("#me"))
        self.check("no word that is not explained", re.findall("greedy|generous|twelfth", it.text("body")), [])
        it.write("#filter", "turing")
        self.check("the filter", it.run(CARDS), [row for row in wanted if row[1] == "Alan Turing"])
        it.run("const it = document.querySelector('#filter'); it.value = ''; it.dispatchEvent(new Event('input'))")
        for code in ("CIPHER", "NOTES", "BUGS"):
            it.press(f"#add-{code}")
        it.press("#up-BUGS")
        self.shot("student")
        self.check("not handed in", (it.text("#state"), it.run(LEAVING)), ("3 chosen, not handed in yet", True))
        it.press("#save")
        self.check("handed in", self.listed(), ["CIPHER", "BUGS", "NOTES"])
        words = "Your list is handed in: 3 choices. You may change it while the round is open."
        self.check("it is told", (it.text("#told"), it.text("#state")), (words, "3 chosen, handed in"))
        it.press("#down-CIPHER")
        it.press("#off-CIPHER")
        self.check("changed", it.run(CHOICES), [[TITLES["BUGS"]], [TITLES["NOTES"]]])
        it.press("#save")
        self.check("it may be left", it.run(LEAVING), False)
        it.press("#save")
        self.check("nothing to hand in", it.text("#told"), "This list is handed in already.")
        it.run("window.fetch = () => Promise.resolve(new Response('', { status: 504 }))")
        it.press("#drop")
        it.press("#sure .main")
        self.rested()
        self.check("no answer in time", it.text("#told").startswith("No answer in time: it may still be done."))
        it.go("/student/", STUDENT)
        self.check("handed in again", self.listed(), ["BUGS", "NOTES"])
        self.named()
        it.press("#drop")
        it.press("#sure button:not(.main)")
        self.rested()
        self.check("not withdrawn", (it.text("#told"), self.listed()), ("Your list stays handed in.", ["BUGS", "NOTES"]))
        it.press("#drop")
        it.press("#sure .main")
        self.rested()
        words = "Your list is withdrawn. Your choices stay here: you can hand them in again."
        self.check("withdrawn", (it.text("#told"), self.listed()), (words, None))
        self.check("the choices stay", it.run(CHOICES), [[TITLES["BUGS"]], [TITLES["NOTES"]]])
        self.asked("POST", "/rounds/close")
        it.press("#save")
        self.check("a round that was closed", it.text("#told").startswith("No round is open now, so nothing was changed."))
        self.check("the choices stay then too", it.run(CHOICES), [[TITLES["BUGS"]], [TITLES["NOTES"]]])
        self.check("the bar stays with a list in a closed round", it.run("return document.querySelector('#save').checkVisibility()"))
        self.asked("POST", "/rounds/reopen")
        it.press("#save")
        self.check("after the reopening", self.listed(), ["BUGS", "NOTES"])
        self.does(
            ("PUT", "/lists/S02", {"choices": ["BUGS", "CIPHER"]}),
            ("PUT", "/supervisors/HOPPER", {"name": "Grace Hopper", "quota": 0}),
            ("POST", "/rounds/close", None),
        )
        it.go("/student/", STUDENT)
        self.check("a place", "You have “Breaking an old cipher”, with Alan Turing." in it.text("#me"))
        self.check("which", "It is your 2nd choice, from round 1." in it.text("#me"))
        self.check("and the number with it", lot in it.text("#me"))
        self.check("no list any more", it.run("return document.querySelector('#mine').hidden"), True)
        self.fits("a place")

    def roles(self):
        """What a student and a supervisor can reach."""
        self.school()
        self.does(("POST", "/rounds", None))
        none = (401, 403, 404, 405)
        for method, path, user in (
            ("GET", "/preview", STUDENT),
            ("GET", "/students/S03", STUDENT),
            ("GET", "/student/students/S03", STUDENT),
            ("PUT", "/student/lists/S03", STUDENT),
            ("GET", "/student/list", STUDENT),
            ("PUT", "/student/me", STUDENT),
            ("GET", "/student/../roundtext", STUDENT),
            ("GET", "/student/%2e%2e/roundtext", STUDENT),
            ("GET", "/student/projects/..%2froundtext", STUDENT),
            ("POST", "/student/rounds/1", STUDENT),
            ("GET", "/student/rounds/close", STUDENT),
            *(("GET", f"/student/reports/{kind}/1", STUDENT) for kind in ("placements", "loads", "missing", "text", "unplaced")),
            ("GET", "/student/projects/BUGS", STUDENT),
            ("GET", "/student/about/..%2fnginx.conf", STUDENT),
            ("GET", "/supervisor/reports/placements/1", STUDENT),
            ("GET", "/supervisor/", STUDENT),
            ("GET", "/", STUDENT),
            ("GET", "/student/me", self.KEEPER),
            ("GET", "/student/me", "guest:guest"),
            ("GET", "/student/me", "S02:wrong"),
            ("GET", "/student/me", SUPERVISOR),
            ("GET", "/", SUPERVISOR),
            ("GET", "/preview", SUPERVISOR),
            ("GET", "/students/S02", SUPERVISOR),
            ("GET", "/supervisor/students/S02", SUPERVISOR),
            ("GET", "/supervisor/lists/S02", SUPERVISOR),
            ("GET", "/supervisor/roundtext", SUPERVISOR),
            *(("GET", f"/supervisor/reports/{kind}/1", SUPERVISOR) for kind in ("unplaced", "missing", "text")),
            ("GET", "/supervisor/supervisors/TURING", SUPERVISOR),
            ("PUT", "/supervisor/me", SUPERVISOR),
            ("PUT", "/supervisor/projects/BUGS", SUPERVISOR),
            ("POST", "/supervisor/rounds/1", SUPERVISOR),
            ("GET", "/supervisor/projects/..%2f..%2froundtext", SUPERVISOR),
            ("GET", "/supervisor/me", self.KEEPER),
            ("GET", "/supervisor/me", "HOPPER:wrong"),
            ("GET", "/supervisor/me", "guest:guest"),
        ):
            self.check(f"{method} {path} as {user}", self.asked(method, path, user)[0] in none)
        for method, path, body, user in (
            ("PUT", "/student/list", '{"choices":["CHESS"]}', STUDENT),
            ("GET", "/supervisor/me", None, SUPERVISOR),
        ):
            self.check(f"{path} by a page of another site", self.asked(method, path, user, body, Origin="https://other.example")[0], 403)
        for user, told in ((SUPERVISOR, "HOPPER"), ("HOPPER:wrong", "-")):
            answer = self.answer_to("GET", "/supervisor/me", user)
            self.check(f"the code that {user} is told", answer.getheader("Spadesk-Code"), told)
        for path in ("/student/nothing", "/student"):
            self.check(f"and at {path}", self.answer_to("GET", path, "S02:wrong").getheader("Spadesk-Code"), "-")
        self.addresses()
        self.it.go("/student/", "s02:s02")
        self.check("small letters, a student", "Your login is not matched with a code." in self.it.text("#me"))
        self.it.go("/supervisor/", "hopper:hopper")
        self.check("small letters, a supervisor", "Your login is not matched with a code." in self.it.text("#state"))

    def addresses(self):
        """Addresses as people type them, and how often a password may be tried."""
        at = lambda *words, **how: (lambda it: (it.status, it.getheader("Location")))(self.answer_to(*words, **how))
        for role in ("student", "supervisor"):
            self.check(f"/{role} without the slash", at("GET", f"/{role}"), (301, f"/{role}/"))
        self.check("without https", at("GET", "/student/?x", port=self.REDIRECTED), (301, "https://127.0.0.1/student/?x"))
        tries = [self.asked("GET", "/student/me", "tries:wrong")[0] for _ in range(330)]
        self.check("tries of a password", (tries[0], tries[-1]), (401, 429))
        self.check("and another account", self.asked("GET", "/student/me", STUDENT)[0], 200)

    def held(self):
        """What is held back while held.txt is there, and seen once it is gone."""
        it, words = self.it, "The office looks at the result. Come back on Friday."
        self.school()
        self.does(("POST", "/rounds", None))
        it.go("/student/", STUDENT)
        it.press("#add-BUGS")
        self.beside("held.txt", f"{words}\n")
        it.press("#save")
        self.check("no list is taken", (it.text("#told"), self.listed()), (words, None))
        self.does(("PUT", "/lists/S02", {"choices": ["BUGS"]}))
        it.go()
        it.press("#close-round")
        self.check("the office is told", "see it once whoever looks after the web server takes held.txt away." in it.text("#sure p"))
        it.press("#sure .main")
        it.go("/student/", STUDENT)
        self.check("a student meanwhile", it.text("#me"), words)
        it.go("/supervisor/", SUPERVISOR)
        self.check("a supervisor meanwhile", (it.text("#state"), it.text("#tables")), (words, ""))
        for role, user, paths in (
            ("student", STUDENT, ("me", "list", "rounds/1", "reports/offers/1")),
            ("supervisor", SUPERVISOR, ("me", "rounds/1", "reports/placements/1")),
        ):
            self.check(f"what a {role} reaches", {self.asked("GET", f"/{role}/{path}", user)[0] for path in paths}, {503})
        it.go()
        it.press("#reopen")
        self.check("reopened unseen", "may have seen" in it.text("#sure p"), False)
        self.keyed("Escape")
        self.beside("held.txt")
        it.go("/student/", STUDENT)
        self.check("published", "You have “A history of bugs”" in it.text("#me"))

    def keyboard(self):
        """A student without a mouse, on a line with a latency of 100 ms: each act keeps the focus, is told, and takes three requests."""
        it, (first, second, third) = self.it, TITLES.values()
        self.school()
        self.does(("POST", "/rounds", None))
        it.go("/student/", STUDENT)
        self.slow(100)
        for at, title in enumerate((third, first, second), 1):
            self.tabbed(f"Add {title}")
            self.keyed("Enter")
            self.acted(f"added, {at}", f"Added as choice {at}: {title}.", f"{title}: choice {at}")
        self.keyed("Tab")
        self.check("the next stop behind what was added", (it.run(FOCUS), it.run(SEEN)[1]), ("To “Hand in”", True))
        self.keyed("Enter")
        self.check("goes to the end", it.run(FOCUS), "Hand in my list")
        self.tabbed(f"{second}: choice 3")
        self.keyed("Enter")
        self.acted("added already", f"It is choice 3 already: {second}.", f"{second}: choice 3")
        self.tabbed(f"{third}: down", back=True)
        self.keyed("Enter")
        self.acted("moved down", f"Now choice 2: {third}.", f"{third}: down")
        self.keyed("Enter")
        self.acted("moved to the end", f"Now choice 3: {third}.", f"{third}: down")
        self.keyed("Enter")
        self.acted("the last", f"It is the last choice already: {third}.", f"{third}: down")
        self.tabbed("Hand in my list")
        it.run(WATCHED)
        start = self.requests()
        answers = it.run("return performance.getEntriesByType('resource').length")
        self.keyed("Enter")
        words = "Your list is handed in: 3 choices. You may change it while the round is open."
        self.acted("handed in by a key", words, "Hand in my list")
        self.check("requests of handing in", self.requests() - start <= 3)
        said = it.run("return said")
        self.check("told before it is read", [answers + 1], sorted({count for told, *_, count in said if told == words})[:1])
        self.check("a sign while it waits", (said[0][0], said[0][3]), ("Handing in your list …", "4px"))
        took = it.run("return performance.getEntriesByType('resource').slice(-3).map(it => it.duration)")
        self.check("the latency is played", min(took) >= 100)
        self.check("nothing red meanwhile", [row for row in said if row[2] == "bad"], [])
        self.check("the list of the office", self.listed(), ["CIPHER", "NOTES", "BUGS"])
        self.tabbed(f"{second}: remove", back=True)
        self.keyed("Enter")
        self.acted("removed", f"Removed: {second}. 2 chosen.", f"{third}: remove")
        self.keyed("Enter")
        self.acted("removed, the last", f"Removed: {third}. 1 chosen.", f"{first}: remove")
        self.tabbed("Hand in my list")
        start = self.requests()
        self.keyed("Enter")
        self.acted("handed in changed", words.replace("3 choices", "1 choice"), "Hand in my list")
        self.check("requests of a change", self.requests() - start <= 3)
        self.check("the changed list", self.listed(), ["CIPHER"])
        self.tabbed("Withdraw my list", back=True)
        self.keyed("Enter")
        self.check("asked first", it.run("return document.querySelector('#sure').open"))
        self.keyed("Escape")
        self.acted("not withdrawn by a key", "Your list stays handed in.", "Withdraw my list")
        self.keyed("Enter")
        self.tabbed("Withdraw it")
        start = self.requests()
        self.keyed("Enter")
        words = "Your list is withdrawn. Your choices stay here: you can hand them in again."
        self.acted("withdrawn by a key", words, "Withdraw my list")
        self.check("requests of withdrawing", self.requests() - start <= 3)
        self.check("no list", (self.listed(), it.run(CHOICES)), (None, [[first]]))
        self.tabbed(f"{first}: remove", back=True)
        self.keyed("Enter")
        self.acted("the last one removed", f"Removed: {first}. 0 chosen.", "My list, first choice first")
        self.twice()
        self.slow(0)

    def twice(self):
        """A list is changed and handed in again while the first answer is still read behind."""
        it = self.it
        it.run(
            "const of = id => document.getElementById(id);"
            "const until = async test => { while (!test()) await new Promise(done => setTimeout(done, 5)); };"
            "of('add-BUGS').click(); of('save').click(); of('save').click(); window.waits = of('told').textContent;"
            "return until(() => of('told').textContent.startsWith('Your list is handed in: 1 choice.'))"
            ".then(() => { of('add-NOTES').click(); of('save').click(); })"
        )
        it.rest()
        self.check("pressed twice", it.run("return waits"), "Wait a moment: the office has not answered yet.")
        self.check("handed in again at once", (it.text("#state"), self.listed()), ("2 chosen, handed in", ["BUGS", "NOTES"]))

    def phone(self):
        """A student's page with all that widens it, and what is beside the pages."""
        it, same, alike = self.it, "Brücken: eine Kritik", "Bru\u0308cken: eine  kritik"
        hostile = "<img src=x onerror=alert(1)>"
        self.school()
        self.does(
            ("PUT", "/supervisors/LONG", {"name": "L" * 200, "quota": 3}),
            *(
                ("PUT", f"/projects/{code}", {"name": name, "supervisor": by, "quota": 2})
                for code, name, by in (
                    ("BR-1", same, "TURING"),
                    ("BR-2", alike, "NOETHER"),
                    ("ABCDEFGH-1234567", "W" * 200, "LONG"),
                    ("IMG", hostile, "LONG"),
                    ("GONE", "A project that is withdrawn", "LONG"),
                )
            ),
            ("POST", "/rounds", None),
            ("PUT", "/lists/S02", {"choices": ["GONE", "BR-2", "BR-1", "ABCDEFGH-1234567", "IMG"]}),
            ("PUT", "/projects/GONE", {"name": "A project that is withdrawn", "supervisor": "LONG", "quota": 0}),
        )
        it.go("/student/", STUDENT)
        gone = ["A project that is withdrawn", "Withdrawn or full: it can’t give a place."]
        wanted = [gone, [f"{alike} (BR-2)"], [f"{same} (BR-1)"], ["W" * 200], [hostile]]
        self.check("a withdrawn project is marked", it.run(CHOICES)[:1], wanted[:1])
        self.check("equal titles have codes", it.run(CHOICES)[1:], wanted[1:])
        self.check("the withdrawn project cannot be added", it.run("return document.querySelector('#add-GONE')"), None)
        names = it.run("return [...document.querySelectorAll('#list button')].map(it => it.getAttribute('aria-label'))")
        self.check("the names of the buttons", len(set(names)), len(names))
        self.check("a code in them", f"{same} (BR-1): up" in names)
        links = "return [...document.querySelectorAll('#projects a')].map(it => [it.getAttribute('aria-label'), it.getAttribute('href')])"
        self.check("nothing beside the pages", (it.text("#closes"), it.run(links)), ("", []))
        self.fits("a list")
        self.window(360)
        under = """return [...document.querySelectorAll('#projects > li')].every(it =>
          it.querySelector('button').getBoundingClientRect().top >= it.querySelector('b').getBoundingClientRect().bottom)"""
        self.check("the button is under the title", it.run(under))
        bar = """const it = document.querySelector('#save').getBoundingClientRect();
          return it.top > innerHeight / 2 && it.bottom <= innerHeight"""
        it.go("/student/", STUDENT)
        top = it.run("return document.querySelector('#h-mine').getBoundingClientRect().top")
        self.check("the list is on the first screen", top < 400)
        self.check("the bar is at the foot", (it.run(bar), it.text("#state")), (True, "5 chosen, handed in"))
        self.shot("phone")
        it.chrome("Emulation.clearDeviceMetricsOverride")
        it.write("#filter", "brucken")
        self.check("found without its accent", (len(it.run(CARDS)), it.text("#none")), (2, ""))
        it.write("#filter", "zeppelin")
        self.check("nothing found", it.text("#none"), "No project has “zeppelin” in its title or in its supervisor’s name.")
        it.run("const it = document.querySelector('#filter'); it.value = ''; it.dispatchEvent(new Event('input'))")
        it.press("#off-BR-1")
        it.press("#save")
        words = "Your list is handed in: 4 choices, of which 1 can’t give a place. You may change it while the round is open."
        self.check("a choice for nothing is told", it.text("#told"), words)
        it.press("#drop")
        self.fits("the question")
        self.keyed("Escape")
        it.press("#off-GONE")
        it.press("#save")
        self.beside("closes.txt", "Friday, 14 May 2027, 12:00\n")
        self.beside("about/index.html", "no description")
        self.beside("about/BR-2.html", "<title>On bridges</title><p>Seven of them.<script>document.title = 1</script>")
        it.go("/student/", STUDENT)
        self.check("until when", it.text("#closes"), "Lists are taken until Friday, 14 May 2027, 12:00.")
        self.check("a description", it.run(links), [[f"Description of {alike} (BR-2), in a new tab", "about/BR-2.html"]])
        self.fits("what is beside the pages")
        it.go("/student/about/BR-2.html", STUDENT)
        self.check("a description runs nothing", it.run("return document.title"), "On bridges")
        it.errors()
        self.beside("closes.txt")
        self.beside("about")

    def older(self):
        """The pages where a browser knows none of the newest words of CSS: what is a button looks like one, and no text shows through."""
        it, whole = self.it, {}
        self.school()
        self.does(("POST", "/rounds", None), ("PUT", "/lists/S02", {"choices": ["BUGS"]}))
        for name in self.PAGES:
            path = pathlib.Path(self.folder, "page", name)
            whole[path] = path.read_text(encoding="utf-8")
            path.write_text(sealed(re.sub(r"light-dark\(|color-mix\(|:has\(", "unknown(", whole[path])), encoding="utf-8")
        for path, user in (("/", self.KEEPER), ("/student/", STUDENT), ("/supervisor/", SUPERVISOR), ("/check.html", self.KEEPER)):
            it.go(path, user)
            for scheme in ("light", "dark"):
                it.chrome("Emulation.setEmulatedMedia", features=[{"name": "prefers-color-scheme", "value": scheme}])
                self.check(f"{path} in an older browser, {scheme}", (it.run(LOOKS), it.run(PALE)), ([[], True], []))
        it.chrome("Emulation.setEmulatedMedia", features=[])
        for path, text in whole.items():
            path.write_text(text, encoding="utf-8")

    def supervisor(self):
        """The page of a supervisor, against what the program prints of this supervisor."""
        it = self.it
        self.school()
        it.go("/supervisor/", SUPERVISOR)
        self.check("a supervisor before a round", it.text("#state").startswith("There has been no round yet."))
        self.does(
            ("PUT", "/projects/LONG", {"name": "W" * 200, "supervisor": "HOPPER", "quota": 1}),
            ("PUT", "/projects/BUGS", {"name": "A <b>history</b> of bugs", "supervisor": "HOPPER", "quota": 9}),
            ("POST", "/rounds", None),
        )
        self.asked("POST", "/imports/lists/L1", body=read("examples", "first-round", "lists.csv").encode())
        self.does(("PUT", "/lists/S02", {"choices": ["LONG"]}))
        it.go("/supervisor/", SUPERVISOR)
        self.check("nothing of an open round", [row[0][:11] for row in it.run(TABLES)], ["My projects"])
        self.check("that it is open", "Round 1 is open: who comes to you is known once it is closed." in it.text("#state"))
        self.does(("POST", "/rounds/close", None))
        quota = json.loads(self.asked("GET", "/supervisors/HOPPER")[1])["placed"] + 2
        self.does(
            ("PUT", "/supervisors/HOPPER", {"name": "Grace Hopper", "quota": quota}),
            ("PUT", "/students/S90", {"name": "Late"}),
            ("POST", "/rounds", None),
            ("PUT", "/lists/S90", {"choices": ["LONG", "BUGS"]}),
            ("POST", "/rounds/close", None),
        )
        it.go("/supervisor/", SUPERVISOR)
        self.check("whose it is", it.text("#name"), "Grace Hopper")
        titles, owner, room, wanted, lefts = {}, None, 0, [], []
        for line in self.line("report", "DB", "loads", "2").splitlines():
            code, placed, quota = line.split()
            if line[0] != " ":
                owner, room = code, (int(quota) - int(placed) if code == "HOPPER" else room)
            elif owner == "HOPPER":
                titles[code] = f"{json.loads(self.asked('GET', f'/projects/{code}')[1])['name']} ({code})"
                lefts.append(max(0, min(room, int(quota) - int(placed))))
                wanted.append([titles[code], placed, quota, str(lefts[-1])])
        whole = min(room, sum(lefts))
        tables = it.run(TABLES)
        self.check("my projects", tables[-1], [f"My projects after round 2: {whole} place{'s' * (whole != 1)} left in all", *wanted])
        for number, shown in ((2, tables[0]), (1, tables[1])):
            rows = [line.split() for line in self.line("report", "DB", "placements", str(number)).splitlines()]
            mine = [[student, titles[project], self.ordinal(int(rank))] for student, project, rank in rows if project in titles]
            head = f"Round {number}: {len(mine)} student{'s' * (len(mine) != 1)}"
            self.check(f"who comes in round {number}", [shown[0], *sorted(shown[1:])], [head, *sorted(mine)])
        self.check("somebody comes in both, and a place is left", [len(tables[0]), len(tables[1]) > 3, whole], [2, True, 1])
        self.check("for each round a table", len(tables), 3)
        self.check("without names", "Late" in it.text("#tables"), False)
        self.beside("names.csv", 'code,name\nS90,"Late, ""Al"""\nS02,Ben\n')
        it.go("/supervisor/", SUPERVISOR)
        self.check("with the names that the school puts there", it.run(TABLES)[0][1][0], 'Late, "Al" (S90)')
        self.check("for no student", self.asked("GET", "/student/names.csv", STUDENT)[0], 404)
        names = it.run("return [...document.querySelectorAll('table')].map(it => it.getAttribute('aria-label'))")
        self.check("the names of the tables", names, [table[0] for table in tables])
        self.beside("names.csv")
        it.go("/supervisor/", SUPERVISOR)
        self.tabbed("Print")
        self.fits("a supervisor's page")
        self.named()
        self.shot("supervisor")
        it.chrome("Emulation.setEmulatedMedia", media="print")
        heads = it.run("return [...document.querySelectorAll('h2')].map(it => it.innerText)")
        day = time.strftime("%-d %B %Y")
        ok = [f"Round {2 - at}" in head and "Grace Hopper" in head and day in head for at, head in enumerate(heads[:2])]
        self.check("on paper: name, round and date", ok, [True, True])
        self.check("no button on paper", it.run("return document.querySelector('#print').checkVisibility()"), False)
        it.chrome("Emulation.setEmulatedMedia", media="")


    def mutants(self, mutants):
        """Whether each mutant is seen by the trial that it is for."""
        for part, name, old, new, wanted in mutants:
            path = pathlib.Path(self.folder, "" if name == "nginx.conf" else "page", name)
            text = path.read_text(encoding="utf-8")
            if text.count(old) != 1:
                raise SystemExit(f"page.py: a mutant's place stands {text.count(old)} times in {name}: {old}")
            changed = text.replace(old, new)
            came, self.came = self.came, []
            path.write_text(sealed(changed) if name.endswith(".html") else changed, encoding="utf-8")
            self.office.renew()
            ended = None
            with contextlib.redirect_stdout(io.StringIO()):
                try:
                    self.all([part])
                except (Exception, SystemExit) as it:  # a trial of a mutant may find less than it looks for
                    ended = repr(it)
            path.write_text(text, encoding="utf-8")
            failed, self.came = [name for name, told, must in self.came if told != must], came
            seen = "seen" if wanted in failed else (failed, ended)
            words = f"{new.strip()[:60]!r} for {old.strip()[:40]!r}"
            self.check(f"a mutant of {name}, {words}, by {wanted!r}", seen, "seen")


# The part that has the trial, the file, what stands there, what a mutant has in its place, and the trial that must fail.
MUTANTS = [
    ("student", "student.html", "/ 2 ** 32", "/ 2 ** 33", "the own number"),
    (
        "student",
        "student.html",
        "[round, equals] = [await lastRound(), await numbered()]",
        "round = await lastRound()",
        "and the number with it",
    ),
    ("keyboard", "student.html", "  cards.get(code).add.after(skip);\n", "", "the next stop behind what was added"),
    (
        "older",
        "student.html",
        "var(--card); border-top: 2px",
        "light-dark(#fff, #000); border-top: 2px",
        "/student/ in an older browser, light",
    ),
    ("keyboard", "student.html", "byId(held)?.focus();", "", "moved down"),
    ("keyboard", "student.html", "await look(now).catch", "await start().catch", "requests of handing in"),
    ("keyboard", "student.html", "    tell(done());", "    await look(now);\n    tell(done());", "told before it is read"),
    ("keyboard", "student.html", 'isSending || isSame ? "soft"', 'isSame ? "soft"', "nothing red meanwhile"),
    ("keyboard", "student.html", 'off(byId("save"), isSame', 'byId("save").disabled = (isSame', "handed in by a key"),
    (
        "keyboard",
        "student.html",
        'return byId("sure").showModal();',
        'byId("sure").returnValue = "yes";\n  return answered();',
        "asked first",
    ),
    ("student", "student.html", "kept = [];\n    return", "kept = mine = [];\n    return", "the choices stay"),
    ("student", "student.html", "!round?.open && !mine.length", "!round?.open", "the bar stays with a list in a closed round"),
    ("phone", "student.html", "isGone = !(projects", "isGone = (projects", "a withdrawn project is marked"),
    ("phone", "student.html", "twins.get(seen(it.title)) > 1", "twins.get(it.title) > 1", "equal titles have codes"),
    ("phone", "student.html", "overflow-wrap: anywhere", "overflow-wrap: normal", "a list, 360 px wide"),
    ("phone", "student.html", "min-height: 2.6rem", "min-height: 2.3rem", "a list, buttons for a thumb"),
    ("phone", "student.html", "(max-width: 480px)", "(max-width: 48px)", "the button is under the title"),
    (
        "phone",
        "student.html",
        'if (closes?.trim()) byId("closes").textContent = `Lists are taken until ${closes.trim()}.`;',
        'byId("closes").textContent = `Lists are taken until ${closes}.`;',
        "nothing beside the pages",
    ),
    ("phone", "nginx.conf", "sandbox allow-popups; default-src 'none';", "", "a description runs nothing"),
    ("supervisor", "supervisor.html", "owner === own && isProject", "isProject", "my projects"),
    ("supervisor", "supervisor.html", "Math.min(room, quota - placed)", "quota - placed", "my projects"),
    ("supervisor", "supervisor.html", "ordinal(rank), ", "ordinal(1), ", "who comes in round 1"),
    ("supervisor", "supervisor.html", "rounds.filter(it => !it.open)", "rounds.filter(() => true)", "nothing of an open round"),
    ("supervisor", "supervisor.html", ".paper { display: inline; }", "", "on paper: name, round and date"),
    ("supervisor", "supervisor.html", "overflow-wrap: anywhere", "overflow-wrap: normal", "a supervisor's page, 360 px wide"),
    ("supervisor", "nginx.conf", "/supervisors/$own;", "/supervisors/TURING;", "whose it is"),
    ("roles", "nginx.conf", 'default "-";                                  #', "default $own; #", "the code that HOPPER:wrong is told"),
    ("roles", "nginx.conf", "location = /student { return 301 /student/; }", "", "/student without the slash"),
    ("roles", "nginx.conf", "return 301 https://$host$request_uri;", "return 301 https://$host/;", "without https"),
    ("roles", "nginx.conf", "limit_req zone=own_tries", "# limit_req zone=own_tries", "tries of a password"),
    ("held", "nginx.conf", "|rounds|reports)\\b", "|rounds)\\b", "what a student reaches"),
    ("held", "student.html", 'isHeld ? await readIfThere("held.txt") :', 'isHeld ? "" :', "a student meanwhile"),
    ("held", "office.html", "(await held()) === undefined ? service.shown", "(await held()) !== 0 ? service.shown", "the office is told"),
    ("phone", "student.html", 'isWide ? { open: "" } : {}', '{ open: "" }', "the list is on the first screen"),
    ("phone", "student.html", '.normalize("NFKD")', '.normalize("NFC")', "found without its accent"),
    ("phone", "student.html", "[...cards.values()].every(", "[...cards.values()].some(", "found without its accent"),
    ("supervisor", "supervisor.html", ".replaceAll('\"\"', '\"')", "", "with the names that the school puts there"),
    ("roles", "nginx.conf", "|placements))", "|placements|unplaced))", f"GET /supervisor/reports/unplaced/1 as {SUPERVISOR}"),
    ("roles", "nginx.conf", "|reports/offers)", "|reports/offers|reports/missing)", f"GET /student/reports/missing/1 as {STUDENT}"),
]
