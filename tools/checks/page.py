#!/usr/bin/env python3
"""Runs the pages of page/ in a browser: what they show is what the program prints.

tools/checks/page.py SPADESK [--one-file MODULE] [--only PART,..] [--shots FOLDER] [--seal] [--mutants] [--in-firefox] [--kills N]

Without --one-file they come from nginx, in front of `spadesk serve`. With it spadesk.html is made, of MODULE that page_module.py made
of crates/page_office, and opened from disk: there are the same trials of the office's page, told once, and those of one_file_page.py.
ELSEWHERE says which run over HTTP alone. Further trials stand in people_pages.py, school_sheets.py and posted_pages.py; --mutants runs all
on pages with one mistake each, of which every one must be seen. --kills says how often the browser is killed, ten times if not told.

It needs chromium and chromedriver (Debian: chromium-driver), over HTTP nginx too, and no other package: chromedriver is spoken to by HTTP;
where one of them is missing it says so. Where firefox-esr is installed some parts run in it too. --shots keeps pictures of the pages, of
which docs/office.png is one. --seal writes into the pages the hashes of their style and script, by which alone the browser takes them;
without it other hashes are a difference. --only runs some of the parts. Three things of page/nginx.conf are others here: there is no
certificate, and so no `ssl`; the ports; the folders.
"""
import base64
import contextlib
import csv
import fnmatch
import http.client
import io
import json
import os
import random
import re
import shutil
import sqlite3
import subprocess
import sys
import tempfile
import time

sys.path.append(f"{sys.path[0]}/..")
from firefox import Firefox
from nginx import plain, started
from office import TOP, copy, free_port, read, sealed, serving
from one_file_page import ALONE, ALONE_IN_FIREFOX, ALONE_MUTANTS, Alone, InOneFile
from people_pages import MUTANTS, People, numbered
from posted_pages import POSTED_MUTANTS, Posted
from school_sheets import SHEET_MUTANTS, Sheets
from sheets import guided

ELEMENT = "element-6066-11e4-a52e-4f735466cecf"
KEEPER = "keeper:secret"
FIRST, TERM = (
    [os.path.join(TOP, "examples", folder, f"{kind}.csv") for kind in ("lists", "students", "projects", "supervisors")]
    for folder in ("first-round", "term")
)
# Mistakes in the pages of the office and in the page that checks, as those of `people_pages.py`: the part that has the trial, the file,
# what stands there, what a mutant has in its place, and the trial that must fail.
OFFICE_MUTANTS = [
    ("first_round", "office.html", 'kind === "best" && /^C,/m', 'kind === "best" && /^/m', "no proof: ''"),
    ("first_round", "office.html", "file.slice(0, MAX_TEXT + 1)", "file.slice(0, 8)", "by the page, opened again"),
    ("first_round", "office.html", 'const isIts = proof => String(', 'const isIts = proof => true || String(', "quotas that have changed"),
    ("first_round", "office.html", "read(`/reports/text/${number}`)", "read(`/reports/text/${number}`).then(() => \"\")", "its text"),
    ("term", "office.html", 'students("missing", number)', 'students("unplaced", number)', "who has no list"),
    ("first_round", "check.html", 'kind === "best" && !rowOf("C")', 'kind === "never" && !rowOf("C")', "by check.html: ''"),
    ("first_round", "check.html", "|| bytes.includes(0x0d)", "", "a proof that was saved anew"),
    ("first_round", "check.html", "sum + Number(row.at(-1))", "sum + 1", "what no proof can vouch for"),
    ("first_round", "check.html", "list?.indexOf(place) + 1}", "list?.indexOf(place)}", "the list of S01"),
    ("first_round", "check.html", "[await number(code), code]))).sort()", "[await number(code), code])))", "the list of S01"),
    ("first_round", "check.html", '"page_check", bytes', '"page_solve", bytes', "by check.html: ''"),
    ("first_round", "office.html", "`Open round ${rounds.length + 1}`))) return;", "`Open round ${rounds.length + 1}`))) ;", "not opened"),
    ("drawn", "office.html", "`Round ${before.round} can then not", "`Round ${before.round} may then not", "what becomes final is said"),
    ("drawn", "office.html", "rows = foundRows();\n  const part", "rows = shown.rows;\n  const part", "saved as filtered"),
    ("term", "office.html", 'byId("list").elements.list.value = choices.join(" ");', "", "what it was"),
    ("habits", "office.html", "Math.max(0, now - placed)", "Math.max(1, now - placed)", "whose lists a withdrawal hits"),
    ("habits", "office.html", "Number(now) < Number(old)", "Number(now) > Number(old)", "and in a sheet"),
    ("habits", "office.html", "code => !standing(kind, code)", "code => standing(kind, code)", "what hangs on a row that is left out"),
    ("habits", "office.html", "cell.trim().toUpperCase();", "cell.toUpperCase();", "what is clear is shown"),
    ("habits", "office.html", ' && (sheet.kind !== "lists" || openOne())', "", "lists wait for a round"),
    ("habits", "office.html", "bytes[0] === 0x50", "bytes[0] === 0x51", "a workbook"),
    ("habits", "office.html", "plans.set(head.join()", "plans.set(sheet.name", "a first row that was asked about"),
    ("habits", "office.html", "isDoubtful(at) || others", "others", "numbers under another word are asked after"),
    ("refusals", "office.html", '[el("b", {}, what), then]', "[then]", "refusal 28 "),
    ("server", "office.html", "animation: go 1s linear 1s infinite;", "", "a sign while the service is slow"),
    ("mistakes", "office.html", "(size > room && found.at(-1).length)", "(false)", "long.csv, its rows"),
    ("drawn", "office.html", "const FEW = 20;", "const FEW = 200;", "folded"),
    ("drawn", "office.html", "Math.sign(order) * compare", "compare", "and back"),
    ("drawn", "office.html", '"A,generous\\n" : "") + text', '"" : "") + text', "by the aim 2"),
    ("drawn", "office.html", "[...row, rounds[at].round]", "[...row, rounds.length]", "all rounds"),
    ("drawn", "office.html", "rows.filter(row => row[at] === name)", "rows", "a page each"),
    ("drawn", "office.html", ".wide { overflow-x: auto; }", "", "the step publish, 360 px wide"),
    ("server", "office.html", "return work(); };", "};", "and up again"),
]
# The rows of the guide that speak of a terminal, for which the page has words of its own.
OWN_WORDS = {2, 3, 4, 5, 6, 7, 8, 9, 12, 27, 28, 29, 30}


AIMS = {
    "greedy": "the most first choices, then the most second, and so on",
    "generous": "the fewest last choices, then the fewest next to last, and so on",
}
REPORTS = {
    "placements": ("Placements", "Student,Name,Project,Title,Supervisor,Choice"),
    "loads": ("Loads", "Supervisor,Project,Name or title,Placed,Quota"),
    "profile": ("Profile", "Choice,Students"),
    "unplaced": ("Without a place", "Student,Name,Choices"),
    "room": ("Places left", "Project,Title,Supervisor,Project has,Supervisor has,Places left"),
    "lists": ("Lists", "Student,Name,Choices"),
}
ZEROS = ",0" * 11
# Two prices near 2^53 lose in floating point what they pay too little: three first choices are possible, and one is called best.
FORGED_PRICES = f"""S,A,1
S,B,2
P,PA,A,1
P,PB,B,1
P,PC,B,1
C,S2,PB,PC
C,S3,PC,PB
C,S9,PA
M,S2,PC
M,S3,PB
M,S9,PA
U,S2,1,1,1{ZEROS[2:]}
U,S3,1,1,1{ZEROS[2:]}
U,S9,1,-9007199254740991{ZEROS}
Y,PA,0,0{ZEROS}
Y,PB,0,0{ZEROS}
Y,PC,0,0{ZEROS}
Z,A,0,9007199254740992{ZEROS}
Z,B,0,0{ZEROS}
"""
# Each student's list, and then another one under the same code.
FORGED_LIST = f"""S,B,2
P,PB,B,1
P,PC,B,1
C,S2,PB,PC
C,S3,PC,PB
C,S2,PC,PB
C,S3,PB,PC
M,S2,PC
M,S3,PB
U,S2,1,1{ZEROS}
U,S3,1,1{ZEROS}
Y,PB,0,0{ZEROS}
Y,PC,0,0{ZEROS}
Z,B,0,0{ZEROS}
"""


def ordinal(rank):
    return f"{rank}{({1: 'st', 2: 'nd', 3: 'rd'}).get(rank, 'th')}"


SHEETS = ("habits", "traps", "exports", "messy", "long", "acts", "further")
OFFICE = ("first_round", "term", *SHEETS, "hostile", "refusals", "mistakes", "drawn", "greatest")
# What runs over HTTP alone, and why.
ELSEWHERE = {
    "server": "a service that is down, and statuses that the web server answers in its place",
    **{part: "pages, logins and files of the school's web server" for part in ("student", "roles", "held", "keyboard", "phone", "supervisor")},
    "older": "the styles of all pages, of which the one file has none of its own",
}
IN_FIREFOX = ("first_round", "habits", "traps", "exports", "messy", "acts", "drawn", "server", "student", "held")
PAGES = ("office.html", "student.html", "supervisor.html", "check.html")
SERVICE, WEB, REDIRECTED, DRIVER = (free_port() for _ in range(4))


def config(folder):
    """The whole file of nginx around page/nginx.conf."""
    text = plain(WEB, REDIRECTED)
    for old, new in (
        ("127.0.0.1:8080", f"127.0.0.1:{SERVICE}"),
        ("/usr/share/spadesk", f"{folder}/page"),
        ("https://office.school.example", f"http://127.0.0.1:{WEB}"),
        ("/etc/nginx", folder),
        ("/var/lib/nginx/spadesk", f"{folder}/cache"),
    ):
        text = text.replace(old, new)
    paths = "".join(f"{it}_temp_path {folder}/{it};\n" for it in ("client_body", "proxy", "fastcgi", "uwsgi", "scgi"))
    main = f"daemon off;\nmaster_process off;\npid {folder}/nginx.pid;\nerror_log stderr;\nevents {{}}\n"
    return f"{main}http {{\ntypes {{ text/html html; }}\naccess_log {folder}/asked;\n{paths}{text}}}\n"


def answer_to(method, path, user=KEEPER, body=None, port=WEB, **fields):
    """An answer of the web server."""
    connection = http.client.HTTPConnection("127.0.0.1", port, timeout=60)
    fields["Authorization"] = "Basic " + base64.b64encode(user.encode()).decode()
    connection.request(method, path, body, fields)
    return connection.getresponse()


def asked(*words, **how):
    """Status and body of an answer of the web server."""
    answer = answer_to(*words, **how)
    return answer.status, answer.read().decode()


class Served:
    """The pages over HTTP: nginx, in front of `spadesk serve`."""

    shown, seen, own_words = "Students and supervisors see it at once.", " Students may have seen their places.", set()
    once_open = ""

    def __init__(self, program, folder):
        self.program, self.folder, self.service, self.web = program, folder, contextlib.ExitStack(), contextlib.ExitStack()

    def renew(self):
        """Begins with the pages and the file of nginx as they are now, and an empty database."""
        self.end()
        self.serve("start.db")
        nginx = started(WEB, "nginx", "-p", self.folder, "-c", f"{self.folder}/nginx.conf")
        self.web.callback(lambda: (nginx.terminate(), nginx.wait(timeout=60)))

    def end(self):
        self.stop()
        self.web.close()

    def address(self, path="/", user=KEEPER):
        return f"http://{user}@127.0.0.1:{WEB}{path}"

    def serve(self, database):
        self.database = f"{self.folder}/{database}"
        self.service.enter_context(serving(self.program, self.database, 1_000_000, SERVICE, is_read=False))

    def stop(self):
        self.service.close()

    def anew(self, _, part):
        """An empty office."""
        self.stop()
        for name in fnmatch.filter(os.listdir(self.folder), f"{part}.db*"):
            os.remove(f"{self.folder}/{name}")
        self.serve(f"{part}.db")
        shutil.rmtree(f"{self.folder}/cache", ignore_errors=True)

    def told(self, _, method, path, body=None):
        """What a request is answered, or nothing where it is refused."""
        status, text = asked(method, path, body=body and body.encode())
        return None if status != 200 else json.loads(text) if text.startswith("{") else text

    def copied(self, _, to):
        """A copy of the database as it is now, with its log."""
        return copy(self.database, to)

    def sent(self, _):
        """How many imports were asked for."""
        with open(f"{self.folder}/asked") as file:
            return file.read().count('"POST /imports/')


class Browser:
    """A browser without a window, by the words of WebDriver, and the office whose pages it opens."""

    def __init__(self, folder, office, is_firefox=False):
        self.folder, self.office = folder, office
        self.firefox = Firefox(folder) if is_firefox else None
        if is_firefox:
            return
        words = [
            "--headless=new",
            "--no-sandbox",
            "--disable-dev-shm-usage",
            "--disable-gpu",
            "--window-size=1200,900",
            f"--user-data-dir={folder}/profile",
        ]
        wanted = {
            "goog:chromeOptions": {"args": words, "prefs": {"download.default_directory": f"{folder}/saved"}},
            "goog:loggingPrefs": {"browser": "ALL"},
        }
        self.path = "/session"
        self.path += "/" + self.send("POST", "", {"capabilities": {"alwaysMatch": wanted}})["sessionId"]

    def send(self, method, path, body=None):
        if self.firefox:
            return self.firefox.send(method, path, body)
        connection = http.client.HTTPConnection("127.0.0.1", DRIVER, timeout=180)
        connection.request(method, self.path + path, json.dumps(body) if method == "POST" else None, {"Content-Type": "application/json"})
        value = json.loads(connection.getresponse().read())["value"]
        if isinstance(value, dict) and "error" in value:
            raise SystemExit(f"page.py: {path}: {value['message'][:300]}")
        return value

    def end(self):
        if self.firefox:
            self.firefox.end()
        else:
            self.send("DELETE", "")  # without it the browser stays

    def run(self, script, *words):
        return self.send("POST", "/execute/sync", {"script": script, "args": list(words)})

    def rest(self):
        """Waits until nothing is under way but a question."""
        for _ in range(1200):
            time.sleep(0.05)
            if self.run(
                "return document.readyState === 'complete'"
                " && (!document.body.classList.contains('busy') || !!document.querySelector('dialog[open]'))"
            ):
                return
        raise SystemExit("page.py: the page stays busy")

    def go(self, *at):
        self.send("POST", "/url", {"url": self.office.address(*at)})
        self.rest()
        self.run(self.office.once_open)

    def give(self, css, file):
        """A file for a field that is not seen."""
        self.send("POST", f"/element/{self.found(css)}/value", {"text": file})
        self.rest()

    def reveal(self, css):
        """Goes to the step of the page that has an element."""
        self.run("const it = document.querySelector(arguments[0])?.closest('main > section[hidden]'); if (it && window.go) go(it.id)", css)

    def found(self, css):
        self.reveal(css)
        return self.send("POST", "/element", {"using": "css selector", "value": css})[ELEMENT]

    def press(self, css):
        self.reveal(css)
        self.run("document.querySelector(arguments[0]).scrollIntoView({ block: 'center' })", css)
        self.send("POST", f"/element/{self.found(css)}/click", {})
        self.rest()

    def write(self, css, text):
        self.run("document.querySelector(arguments[0]).value = ''", css)
        self.send("POST", f"/element/{self.found(css)}/value", {"text": text})
        self.rest()

    def choose(self, *files, field="#files"):
        """Files for a field, in the place of those that it has: WebDriver would add them."""
        self.run("document.querySelector(arguments[0]).value = ''", field)
        self.send("POST", f"/element/{self.found(field)}/value", {"text": "\n".join(files)})
        self.rest()

    def pick(self, css, value):
        self.run(
            "const it = document.querySelector(arguments[0]); it.value = arguments[1];"
            " it.dispatchEvent(new Event('change', { bubbles: true }))",
            css,
            value,
        )
        self.rest()

    def text(self, css):
        self.reveal(css)
        return self.run("return document.querySelector(arguments[0])?.innerText", css)

    def numbers(self):
        """The numbers of the bars."""
        return [int(row[1]) for row in self.table("#doing .bars")]

    def marks(self, css=".wrong"):
        return self.run("return [...document.querySelectorAll(arguments[0] + ' mark')].map(it => it.textContent)", css)

    def table(self, css="#table"):
        return self.run(
            "const rows = [...document.querySelectorAll(arguments[0] + ' tbody tr')].filter(it => !it.hidden);"
            "return rows.map(it => [...it.cells].map(cell => cell.textContent))",
            css,
        )

    def chrome(self, word, **more):
        return self.send("POST", "/goog/cdp/execute", {"cmd": word, "params": more})

    def errors(self):
        """What the browser's console has, but the statuses of refusals, and that it does not ask nobody whether to leave."""
        said = [it["message"] for it in self.send("POST", "/se/log", {"type": "browser"})]
        return [it for it in said if "Failed to load resource" not in it and "show a 'beforeunload'" not in it]


class Trial(People, Sheets, Posted, Alone):
    REDIRECTED = REDIRECTED
    answer_to, asked, ordinal = map(staticmethod, (answer_to, asked, ordinal))
    KEEPER, PAGES, Browser = KEEPER, PAGES, Browser

    def __init__(self, program, folder, office, shots, kills):
        self.program, self.folder, self.office, self.shots, self.many, self.came = program, folder, office, shots, kills, []

    def check(self, name, told, wanted=True):
        self.came.append((name, told, wanted))
        print(f"{name}: {'as wanted' if told == wanted else f'{told!r}, and not {wanted!r}'}", flush=True)

    def anew(self, part):
        """The page of an empty office."""
        for name in os.listdir(f"{self.folder}/saved"):
            os.remove(f"{self.folder}/saved/{name}")
        self.office.anew(self.it, part)
        self.it.go()

    def told(self, *request):
        """What a request is answered, beside the page; nothing where it is refused."""
        return self.office.told(self.it, *request)

    def entry(self, path):
        return self.told("GET", path)

    def sent(self):
        return self.office.sent(self.it)

    def line(self, *words, either=False):
        """What a line prints, of a copy of the database and its log where it has one; also what it prints as an error, if that is wanted."""
        file = self.office.copied(self.it, f"{self.folder}/copy.db") if "DB" in words else ""
        ran = subprocess.run([*self.program, *(file if it == "DB" else it for it in words)], capture_output=True, text=True)
        return ran.stdout + (ran.stderr if either else "")

    def file(self, name, content):
        with open(f"{self.folder}/{name}", "wb") as file:
            file.write(content if isinstance(content, bytes) else content.encode())
        return f"{self.folder}/{name}"

    def saved(self, name):
        """A file that the page saves, once it is whole."""
        for _ in range(100):
            time.sleep(0.1)
            if os.path.exists(f"{self.folder}/saved/{name}"):
                with open(f"{self.folder}/saved/{name}", "rb") as file:
                    content = file.read()
                os.remove(f"{self.folder}/saved/{name}")
                return content
        return b""

    def shot(self, name, dark=False, **part):
        """Keeps a picture of the page, or of a part of it."""
        if self.shots:
            it = self.it
            it.chrome("Emulation.setEmulatedMedia", features=[{"name": "prefers-color-scheme", "value": "dark" if dark else "light"}])
            clip = {**it.chrome("Page.getLayoutMetrics")["cssContentSize"], "x": 0, "y": 0, "scale": 1, **part}
            it.run("scrollTo(0, 0)")
            picture = it.chrome("Page.captureScreenshot", captureBeyondViewport=True, clip=clip)["data"]
            with open(f"{self.shots}/{name}.png", "wb") as file:
                file.write(base64.b64decode(picture))

    def open(self):
        """Opens the next round: that is asked first."""
        self.it.press("#open")
        if before := (self.entry("/rounds/1") or {}).get("placed"):
            final = f"Round 1 can then not be reopened: its {before} places are final." if before > 1 else "its 1 place is final"
            self.check("what becomes final is said", final in self.it.text("#sure p"))
        self.it.press("#sure button.main")

    def refused(self, name, content, number, inner=None, row=1):
        """A sheet of one's own is refused, and told with its words; the row counts from 1 under the first."""
        it = self.it
        it.choose(self.file(name, content))
        it.press("#send")
        words, told = it.run("return REFUSALS[arguments[0]]", inner or number), it.text("#told") or ""
        if inner in (None, 19):
            self.check(
                f"refusal {number} {inner or ''}",
                (not inner or told.startswith(f"Row {row + 1} of {name}: "))
                and words[1] in told
                and words[2] in told
                and f"Refusal {inner or number}, {words[0]}" in told,
            )
        else:
            told += it.text(".wrong") or ""
            self.check(
                f"refusal {number} {inner}",
                told.startswith(f"1 row of {name} is refused.") and f"{words[1]} {words[2]} Refusal {inner}, {words[0]}" in told,
            )
            self.check("its row", [cells[0] for cells in it.table(".wrong")], [str(row + 1)])

    def profile(self, number):
        """The numbers of a round: its students, those who are placed, and how many at each rank."""
        students, placed, *ranks = [int(line.split()[-1]) for line in self.line("report", "DB", "profile", str(number)).splitlines()[1:]]
        return students, placed, ranks

    def bars(self, name, caption, students, ranks):
        """What the bars of the round say, and how long they are."""
        it = self.it
        used = max([3, *(at for at, number in enumerate(ranks, 1) if number)])
        numbers = [*ranks[:used], students - sum(ranks)]
        widths = it.run("return [...document.querySelectorAll('.bar')].map(it => Math.round(Number.parseFloat(it.style.width)))")
        wanted = [int(100 * number / max(1, *numbers) + 0.5) for number in numbers]
        looks = it.run("return [...document.querySelectorAll('.bar')].map(it => it.className)")
        self.check("looks of the bars", looks, [*(f"bar r{min(at, 4)}" for at in range(1, used + 1)), "bar none"])
        words = [*(ordinal(at) + " choice" for at in range(1, used + 1)), "no place"]
        shown = it.run("return [...document.querySelectorAll('.bars th')].map(it => it.textContent)")
        self.check(name, (it.text(".bars caption"), shown, it.numbers(), widths), (caption, words, numbers, wanted))

    def preview(self, number, students):
        """The bars of an open round."""
        seen = self.entry("/preview")
        caption = f"If round {number} closed now, {seen['size']} of {students} students with a list would be placed:"
        self.bars("the preview", caption, students, seen["profile"])

    def closed(self, number, aim):
        """All that is told of a round that was closed just now."""
        it, (students, placed, ranks) = self.it, self.profile(number)
        all = f"{placed} of {students} student{'s' * (students != 1)}"
        self.check("closed", it.text("#state"), f"Round {number} is closed, {aim}: {all} placed.")
        self.bars("its bars", f"Round {number} has placed {all} with a list:", students, ranks)
        choices = "".join(f", {count} with the {ordinal(at)} choice" for at, count in enumerate(ranks, 1) if count)
        words = f"Round {number} is closed. It placed {all}{choices}. Now save its proof."
        self.check("told", it.text("#told").splitlines()[0], words)
        best = f"no placing has more students than {placed}, and none of {placed} has a better profile than {' '.join(map(str, ranks))} "
        best += "(how many have their first choice, their second, and so on)."
        words = f"Round {number}: checked here. It is the best: {best}"
        self.check("proved", it.run("return [...document.querySelectorAll('#proofs .proved')].pop().textContent"), words)

    def picture(self, number, listed):
        """The picture of a round, against its reports."""
        it, (_, placed, ranks) = self.it, self.profile(number)
        loads = [line.split() for line in self.line("report", "DB", "loads", str(number)).splitlines()]
        places = {line.split()[0]: line.split()[2] for line in self.line("report", "DB", "placements", str(number)).splitlines()}
        owners = [line.split()[0] for line in self.line("report", "DB", "loads", str(number)).splitlines() if line[0] != " "]
        boxes = [[code, f"{taken}/{quota}"] for code, taken, quota in loads]
        boxes = sorted(boxes, key=lambda box: box[0] in owners)
        students = [[code, places.get(code, "–")] for code in sorted(listed)]
        texts = it.run("return [...document.querySelectorAll('#picture text')].map(it => it.textContent)")
        wanted = ["students", "projects: placed/quota", "supervisors", *(word for pair in [*boxes, *students] for word in pair)]
        self.check(f"the picture of round {number}", texts, wanted)
        self.check("full", it.run("return document.querySelectorAll('#picture rect.full').length"), sum(it[1] == it[2] for it in loads))
        bold = "return [...document.querySelectorAll('#picture text')].filter(it => getComputedStyle(it).fontWeight === '700').length"
        self.check("who has none is bold", it.run(bold), len(listed) - placed)
        self.check("lines", self.lines()[:4], [*ranks[:3], sum(ranks[3:])])
        words = f"Round {number}: {placed} of {len(listed)} students have a place."
        self.check("for a reader", it.run("return document.querySelector('#picture svg').getAttribute('aria-label')").startswith(words))

    def lines(self):
        """The lines of the picture that are seen, by the look of the choice."""
        looks = "['r1', 'r2', 'r3', 'r4', 'wish']"
        return self.it.run(f"return {looks}.map(it => document.querySelectorAll(`#picture path.${{it}}:not(.away)`).length)")

    def head(self, kind, number):
        """What a report is called, and its first row."""
        words, head = REPORTS[kind]
        self.check(f"the caption of {kind}", self.it.text("#table caption").split(":")[0], f"{words}, round {number}")
        heads = self.it.run("return [...document.querySelectorAll('#table th')].map(it => it.textContent)")
        self.check("its head", heads, head.split(","))

    def reports(self, number):
        """Each report of the page against that of the program."""
        it = self.it
        it.pick("#number", str(number))
        for kind, picked in (("placements", (0, 2, 5)), ("loads", None), ("profile", (0, 1)), ("unplaced", (0, 1))):
            it.pick("#kind", kind)
            self.head(kind, number)
            wanted = [
                re.split(r" {2,}|(?<=\d) +(?=\d)|(?<!RANK) (?=\d+$)", line.strip())
                for line in self.line("report", "DB", kind, str(number)).splitlines()
            ]
            rows = it.table()
            if kind == "loads":
                bold = "return [...document.querySelectorAll('#table td')].filter(it => getComputedStyle(it).fontWeight === '600').length"
                self.check("supervisors are bold", it.run(bold), 5 * sum(row[0] != "" for row in rows))
                rows, picked = [[row[0] or row[1], row[3], row[4]] for row in rows], (0, 1, 2)
            self.check(
                f"report {kind} of round {number}",
                [[row[at] for at in picked] for row in rows],
                [[*row] for row in (wanted[1:] if kind == "profile" else wanted)],
            )

    def proof(self, number):
        """The saved proof, by the page, the program and the page of Python."""
        it = self.it
        it.press(f"#proof{number}")
        name = self.file(f"proof{number}.txt", self.saved(f"proof{number}.txt"))
        told = self.line("check", name)
        self.check(f"the proof of round {number}, by check", told.startswith("best size "))
        self.check(
            "by check_round.py",
            subprocess.run([sys.executable, f"{TOP}/tools/check_round.py", name], capture_output=True, text=True).stdout,
            told,
        )
        it.choose(name, field="#opened")
        self.check("by the page, opened again", it.text("#verdict").startswith(f"proof{number}.txt: checked here"))
        return name

    def changed_since(self, proof):
        """Places that came after the closing of round 1: the page shows the proof that it kept. Without that it proves nothing until they are
        gone again."""
        it, best = self.it, "checked here. It is the best"
        for more, kept, words in ((1, True, best), (1, False, "supervisors, projects or quotas have changed since it was closed"), (0, False, best)):
            self.does(
                ("PUT", "/supervisors/TURING", {"name": "Alan Turing", "quota": 6 + more}),
                ("PUT", "/projects/CIPHER", {"name": "Breaking an old cipher", "supervisor": "TURING", "quota": 3 + more}),
            )
            if not kept:
                it.run("localStorage.clear()")
            it.go()
            name = "a proof that was kept" if kept else "quotas that have changed" if more else "and changed back"
            self.check(name, it.text("#proofs").startswith(f"Round 1: {words}"))
            self.check("of when it is", "this is the proof of then, which this browser has kept" in it.text("#proofs"), kept)
            if kept:
                it.press("#proof1")
                self.check("the proof of then", self.saved("proof1.txt"), proof)

    def no_proofs(self, name):
        """What the page says of texts that are no proof: of a forger, or of a proof of which a line stands twice or half."""
        with open(name, encoding="ascii") as file:
            proof = file.read()
        lines = proof.splitlines(keepends=True)
        pair = next(at for at, line in enumerate(lines) if line.startswith("M,"))
        none = "is no round’s file"
        return [
            (f"{none}: line 1 is wrong", "hello"),
            (f"{none}: line 1 is wrong", "M,x,y\nU,x,1\n"),
            ("has no student, so there is nothing to prove", ""),
            (f"{none}: line 14 is wrong", FORGED_PRICES),
            (f"{none}: line 6 is wrong", FORGED_LIST),
            (f"{none}: line {pair + 2} is wrong", "".join(lines[: pair + 1] + lines[pair:])),
            (f"{none}: line {len(lines)} is wrong", proof[:-9]),
            (f"{none}: it is too large", "\n" * 524289),
        ]

    def certified(self, name, codes):
        """The page that only checks, from disk: of the proof, of forged ones and of files that are none, and each student's own line."""
        it, proof = self.it, open(name, encoding="ascii").read()
        it.send("POST", "/url", {"url": f"file://{self.folder}/page/check.html"})
        told = lambda: [line for line in it.text("#said").splitlines() if line][1]
        for words, content in [("", proof), *self.no_proofs(name)]:
            file = self.file("given.txt", content)
            it.choose(file, field="#file")
            time.sleep(0.3)
            wanted = f"This {words}." if words else "Proved: no other way to give out the places is better."
            answer = self.line("check", file, either=True).strip()
            self.check(f"by check.html: {content[:20]!r}", (told(), it.text("#line")), (wanted, answer))
            self.check("an own line is asked for", it.run("return !document.querySelector('#own').hidden"), content == proof)
        it.choose(self.file("given.txt", proof.replace("\n", "\r\n")), field="#file")
        time.sleep(0.3)
        self.check("a proof that was saved anew", "A program has saved it anew, with other line ends." in it.text("#said"))
        it.choose(name, field="#file")
        time.sleep(0.3)
        self.check("what no proof can vouch for", "what the file says: 20 lists, 10 projects with 25 places, and 5 super" in it.text("#said"))
        rows = [line.split(",") for line in proof.splitlines()]
        places = {row[1]: row[2] for row in rows if row[0] == "M"}
        numbers = sorted(numbered(row[1]) for row in rows if row[0] == "C")
        for code, *choices in (row[1:] for row in rows if row[0] == "C" and row[1] in codes):
            it.write("#code", code.lower())
            has = f"You have {places[code]}, your choice {choices.index(places[code]) + 1}." if code in places else "You have no place."
            has += " Between students with equal claims the lower number goes first. Yours, "
            has += f"{numbered(code)[:8]}…, is number {numbers.index(numbered(code)) + 1} of 20 in this round. It is made of your code alone."
            self.check(f"the list of {code}", it.text("#mine"), f"Your list: {', '.join(choices)}. {has}")
        it.write("#code", "NOBODY")
        self.check("a code without a list", it.text("#mine"), "This code has no list in the round.")
        self.fits("the page that checks")

    def first_round(self):
        it, start = self.it, self.sent()
        self.check("at first", it.text("#state"), "There has been no round yet.")
        self.check("the aims", all(f"{aim}: {words}" in it.text("#opening") for aim, words in AIMS.items()))
        it.choose(*FIRST)
        saved = time.strftime("%Y, %H:%M", time.localtime(os.path.getmtime(FIRST[1])))
        self.check("when it was saved", f"{saved}: students, 20 rows: 20 new" in it.text("#chosen"))
        self.shot("sheets")
        it.press("#send")
        self.check("lists before a round", ("This file waits: lists come in" in it.text("#chosen"), it.text("#send")), (True, None))
        it.press("#open")
        words = f"It will be greedy, and stay so: of the ways to place as many students as possible it takes one with {AIMS['greedy']}"
        self.check("the question", it.text("#sure p").startswith(f"Open round 1? {words}"))
        it.press("#sure button:not(.main)")
        self.check("not opened", it.text("#state"), "There has been no round yet.")
        self.open()
        self.check("opened", it.text("#told").splitlines()[0], "Round 1 is open, greedy. Now the lists can come in.")
        it.run("const it = document.querySelector('#send'); it.click(); it.click()")
        it.rest()
        self.check("lists in a round, pressed twice", it.text("#state"), "Round 1 is open, greedy, with 20 lists.")
        words = "All imported: supervisors.csv, 5 rows: 5 new; projects.csv, 10 rows: 10 new; "
        self.check("all came in", it.text("#told").startswith(words))
        self.check("as no refusal", it.run("return document.querySelector('#told').className"), "")
        self.preview(1, 20)
        self.check("its aim", f"it takes one with {AIMS['greedy']}" in it.text("#doing"))
        it.press("#text1")
        self.check("its text", self.saved("round1.txt").decode(), self.entry("/roundtext"))
        self.shot("open")
        it.press("#close-round")
        it.press("#sure button:not(.main)")
        self.check("not closed", it.text("#state").startswith("Round 1 is open"))
        it.press("#close-round")
        places = "20 of 20 students, 14 with the 1st choice, 4 with the 2nd choice, 2 with the 3rd choice"
        words = f"{self.office.shown} They keep their places in later rounds. As long as round 1 is the last, it can be reopened."
        self.check("the question", it.text("#sure p"), f"Close round 1? It would place {places}. {words}")
        it.press("#sure button.main")
        self.closed(1, "greedy")
        it.reveal("#table")
        self.shot("office", height=1180, scale=0.75)
        it.press("#drawing summary")
        self.shot("closed")
        self.shot("closed-dark", dark=True)
        self.check("the picture", self.lines(), [14, 4, 2, 0, 45])
        name = self.proof(1)
        other = re.sub(rb"(?m)^M,S04,CIPHER$", b"M,S04,PATTERNS", open(name, "rb").read())
        it.choose(self.file("other.txt", other), field="#opened")
        words = "other.txt: not proved, since the prices are worth more than the places that were given."
        self.check("another pair in the proof", it.text("#verdict"), words)
        for words, content in self.no_proofs(name):
            it.choose(self.file("none.txt", content), field="#opened")
            self.check(f"no proof: {content[:20]!r}", it.text("#verdict"), f"none.txt {words}.")
        self.reports(1)
        it.pick("#kind", "placements")
        it.write("#filter", "hopper")
        self.check("the filter", {row[4] for row in it.table()}, {"Grace Hopper"})
        self.check("in the picture", sum(self.lines()[:4]), len(it.table()))
        self.check("how many", it.text("#about"), f"{len(it.table())} of 20 rows")
        it.write("#filter", " ")
        it.press("#save")
        content = self.saved("placements-1.csv")
        self.check("in UTF-8 with its mark", content[:3], b"\xef\xbb\xbf")
        rows = list(csv.reader(io.StringIO(content.decode("utf-8-sig"))))
        self.check("saved as CSV", rows[1:], [row for row in it.table()])
        self.room(1)
        self.shot("room")
        self.certified(name, ("S01", "S04", "S20"))
        it.go()
        self.check("loaded anew, the proof again", it.text("#proofs").startswith("Round 1: checked here. It is the best"))
        it.press("#proof1")
        self.check("the same", self.saved("proof1.txt"), open(name, "rb").read())
        self.posted(1, name)
        it.go()
        self.changed_since(open(name, "rb").read())
        it.press("#drawing summary")
        self.check("the same picture", self.lines(), [14, 4, 2, 0, 45])
        it.press("#reopen")
        words = f"Reopen round 1? Its placements go, and its lists stay. Another closing may place other students.{self.office.seen}"
        self.check("the question", it.text("#sure p"), words)
        it.press("#sure button.main")
        self.check("reopened", it.text("#state"), "Round 1 is open, greedy, with 20 lists.")
        self.check("the lists", it.table()[0], ["S01", "Amina", "CIPHER CHESS LOOM"])
        self.head("lists", 1)
        self.check("imports sent, one of them pressed twice", self.sent() - start, 4)

    def term(self):
        it, folder = self.it, os.path.dirname(TERM[0])
        it.choose(*TERM[1:])
        it.press("#send")
        self.open()
        it.choose(TERM[0], f"{folder}/more-lists.csv")
        it.press("#send")
        it.write("#code", "s11")
        it.press("#asked button")
        it.write("#list input", "plates")
        it.press("#list button")
        self.check("a list by hand", self.entry("/students/S11"), {"list": ["PLATES"], "name": "José", "placed": None})
        it.write("#code", "S12")
        it.press("#asked button")
        self.check("not known yet", it.text("#found p"), "No student has the code S12. Fill this in to add one.")
        it.write("#keep input", "Zoë")
        it.press("#keep button")
        it.write("#list input", "PRIMES DOSE")
        it.press("#list button")
        self.shot("entry")
        it.press("#drop")
        self.check("the question", it.text("#sure p"), "Withdraw the list of S12? It is PRIMES DOSE.")
        it.press("#sure button.main")
        self.check("what it was", it.run("return document.querySelector('#list').elements.list.value"), "PRIMES DOSE")
        late = {"list": None, "name": "Zoë", "placed": None}
        self.check("a late student, with a list that is taken away", self.entry("/students/S12"), late)
        it.pick("#kind", "missing")
        self.check("who has no list", it.table(), [["S12", "Zoë"]])
        it.press("#close-round")
        it.press("#sure button.main")
        self.reports(1)
        it.pick("#kind", "placements")
        self.check("names", it.table()[1], ["S02", "Björn", "RADIUM", "Radium, then and now", "Curie, Marie", "1"])
        it.choose(self.file("renamed.csv", "code,name\nS02,Björn Ek\n"))
        it.press("#send")
        self.check("a name that a sheet has changed", it.table()[1][1], "Björn Ek")
        self.refused("withdrawn.csv", read("examples", "term", "withdrawn.csv"), 29, 17)
        self.check("the row that is refused", it.table(".wrong"), [["2", "NEURONS", "Counting neurons", "RAMON", "0"]])
        self.check("the cell", it.marks(), ["0"])
        it.press("#reopen")
        it.press("#sure button.main")
        it.choose(f"{folder}/withdrawn.csv")
        it.press("#send")
        self.check("withdrawn", self.entry("/projects/NEURONS")["quota"], 0)
        it.choose(TERM[2])
        self.does(("PUT", "/projects/PLATES", {"name": "An archive of plates", "supervisor": "MERIAN", "quota": 3}))
        it.choose(TERM[2])
        self.check(
            "what an older file would change",
            (it.table("#chosen details[open]"), "8 rows: 2 with a change, 6 as before" in it.text("#chosen")),
            ([["7", "PLATES", "quota", "3", "1"], ["8", "NEURONS", "quota", "0", "2"]], True),
        )
        self.shot("older")
        it.press("#send")
        self.check("it is told no more", it.table("#chosen details[open]"), [])
        self.check("an older file, chosen again, is another import", self.entry("/projects/NEURONS")["quota"], 2)
        it.choose(f"{folder}/withdrawn.csv")
        it.press("#send")
        it.press("#close-round")
        it.press("#sure button.main")
        self.proof(1)
        it.choose(*(f"{folder}/{name}.csv" for name in ("more-places", "more-supervision", "late")))
        it.press("#send")
        it.press("input[value=generous]")
        self.open()
        waiting = [line.split()[0] for line in self.line("report", "DB", "unplaced", "1").splitlines()] + ["S12", "S13"]
        it.choose(self.file("second.csv", "student,choices\n" + "".join(f"{code},PLATES DOSE MEMORY\n" for code in waiting)))
        it.press("#send")
        it.pick("#kind", "missing")
        self.check("nobody is without a list or a place", it.table(), [])
        it.press("#close-round")
        it.press("#sure button.main")
        self.closed(2, "generous")
        second = next(line.split()[0] for line in self.line("report", "DB", "placements", "1").splitlines() if line.endswith(" 2"))
        for kind, code in (("student", "S02"), ("student", second), ("project", "PLATES")):
            it.pick("#what", kind)
            it.write("#code", code)
            it.press("#asked button")
            told = self.entry(f"/{kind}s/{code}")
            place = told["placed"]
            if kind == "project":
                words = f"{told['name']}: {place} of {told['quota']} places taken."
            else:
                words = f"{told['name']} has {place['project']}, the {ordinal(place['rank'])} choice, from round {place['round']}."
            self.check(f"the entry {code}", it.text("#found p"), words)
        self.reports(2)
        self.proof(2)

    def habits(self):
        """Sheets as people have them: further columns, choices in columns, other first rows, workbooks, and what can be mended."""
        it = self.it
        it.press("#empty-lists")
        self.check("an empty sheet", self.saved("lists.csv"), b"student,choices\n")
        it.choose(self.file("book.xlsx", b"PK\x03\x04 sheet"))
        self.check("a workbook", "book.xlsx is a workbook of a spreadsheet. Save it as CSV there" in it.text("#chosen"))
        supervisors = self.file("supervisors.csv", "code,name,quota\nL,Lee,2.0\nm,May,1\n")
        projects = self.file("projects.csv", "Titel;K\u00fcrzel;Pl\u00e4tze;Wer\nBridges;P1;2;L\nRails;P2;1;M\nSails;P3;0;M\n")
        students = self.file("students.csv", "email,Code,Name\na@x,S1,Ann\nb@x,S2,Bob\nc@x, s3,Cy\n")
        it.choose(self.file("guests.csv", "code,name,places\nK,Kim,2\n"))
        self.check("a quota under another word is asked after", it.run("return document.querySelectorAll('.asked').length"), 1)
        it.choose(self.file("guests.csv", "code,name,seats\nK,Kim,2\n"))
        self.check("numbers under another word are asked after", it.run("return document.querySelectorAll('.asked').length"), 1)
        it.choose(supervisors, projects, students)
        self.check("columns that are passed over", "Passed over: the column email." in it.text("#chosen"))
        it.pick(".asked [name=kind]", "projects")
        self.check("what a column has is guessed by its words alone", self.picked(), ["name", "code", "quota", ""])
        it.pick(".asked [name='3']", "supervisor")
        it.press(".asked button.main")
        self.check("a first row that was asked about", "projects, 3 rows: 3 new" in it.text("#chosen"))
        mended = [["2", "quota", "2.0", "2"], ["3", "code", "m", "M"], ["4", "code", " s3", "S3"]]
        self.check("what is clear is shown", it.table("#chosen .mend"), mended)
        while it.text(".mend button"):
            it.press(".mend button")
        it.press("#send")
        read = self.entry
        found = [read("/supervisors/M")["quota"], read("/projects/P1"), read("/students/S3")["name"]]
        self.check("and is mended", found, [1, {"name": "Bridges", "placed": 0, "quota": 2, "supervisor": "L"}, "Cy"])
        it.choose(self.file("own.csv", "K\u00fcrzel,Titel\n"), projects)
        self.check("it is not asked again", it.run("return document.querySelectorAll('.asked').length"), 1)
        self.check("nothing new", ("All of it is there already" in it.text("#chosen"), it.text("#send")), (True, None))
        lists = self.file("lists.csv", "student,choice 1,choice 2,comment\nS1,P1,P2,none\nS2,P2,,late\nS3,\"p2; p1\",,\n")
        it.choose(lists)
        self.check("lists wait for a round", ("This file waits: " in it.text("#chosen"), it.text("#send")), (True, None))
        self.open()
        self.check("and then do no more", it.text("#send"), "Import 1 file")
        it.press(".mend button")
        it.press("#send")
        self.check("choices in columns", [read(f"/students/S{at}")["list"] for at in (1, 2, 3)], [["P1", "P2"], ["P2"], ["P2", "P1"]])
        it.pick("#what", "project")
        it.write("#code", "P2")
        it.press("#asked button")
        it.run("document.querySelector('#keep').elements.quota.value = 0")
        it.press("#keep button")
        words = "Withdraw P2, Rails? 3 lists of the open round have it: S1, S2, S3. The round would place 2 students, and not 3. "
        self.check("whose lists a withdrawal hits", it.text("#sure p"), f"{words}Tell these students, so that they can change their lists.")
        it.press("#sure button:not(.main)")
        self.check("not withdrawn", read("/projects/P2")["quota"], 1)
        it.choose(self.file("projects.csv", "code,name,supervisor,quota\nP2,Rails,M,0\n"))
        words = "Fewer places where students of the open round have a choice: P2: quota 1, now 0 (S1, S2, S3)."
        self.check("and in a sheet", words in it.text("#chosen"))
        rest = self.file("rest.csv", "code,name,supervisor,quota\nP8,Eight,K,1\nP9,Nine,L,1\n")
        it.choose(self.file("more.csv", "code,name,quota\nK,,1\nN,Ned,1\n"), rest)
        it.press("#send")
        self.check("what hangs on a row that is left out", "What is left out is named in 1 row of the other files" in it.text(".wrong"))

    def picked(self):
        """What each column of the sheet that is asked about has, as it is picked."""
        return self.it.run("return [...document.querySelectorAll('.asked td select')].map(it => it.value)")

    def sides(self):
        """Both aims side by side, for the open round as it is now."""
        text, rows = self.entry("/roundtext").removeprefix("A,generous\n"), self.it.table("#aims")
        for at, aim in enumerate(("", "A,generous\n"), 1):
            told = self.line("check", self.file("best.txt", self.line("solve", self.file("round.txt", aim + text)))).split()
            self.check(f"by the aim {at}", [row[at] for row in rows], [told[2], *told[4:]][: len(rows)])

    def shown(self):
        """Folded, sorted, filtered, saved and printed."""
        it = self.it
        it.pick("#number", "1")
        it.pick("#kind", "placements")
        rows = it.table()
        it.reveal("#table")
        seen = "return [...document.querySelectorAll('#table tbody tr')].filter(it => it.offsetParent).length"
        self.check("folded", (it.run(seen), it.text("#whole")), (20, f"Show all {len(rows)} rows"))
        it.press("#whole")
        self.check("whole", it.run(seen), len(rows))
        it.press("#table th:last-child button")
        self.check("by choice", [row[5] for row in it.table()], sorted((row[5] for row in rows), key=int))
        it.press("#table th:last-child button")
        self.check("and back", [row[5] for row in it.table()], sorted((row[5] for row in rows), key=int, reverse=True))
        it.run("window.print = () => { window.pages = [...document.querySelectorAll('#table .page')].map(it => it.innerText) }")
        it.press("#each")
        pages, names = it.run("return window.pages.map(it => [it.split(':')[0], it.split('\\n').length - 2])"), [row[4] for row in rows]
        self.check("a page each", pages, [[name, names.count(name)] for name in sorted(set(names))])
        self.check("and the report again", len(it.table()), len(rows))
        it.write("#filter", rows[0][0])
        it.press("#save")
        part = csv.reader(io.StringIO(self.saved("placements-1-part.csv").decode("utf-8-sig")))
        self.check("saved as filtered", [row[0] for row in part], ["Student", rows[0][0]])
        words = f"1 of {len(rows)} rows, those with “{rows[0][0]}”."
        paper = it.run("return document.querySelector('#printed').textContent")
        self.check("printed as filtered", words in paper)
        it.write("#filter", " ")
        it.pick("#number", "2")
        it.pick("#kind", "all")
        report = lambda number: self.line("report", "DB", "placements", str(number)).splitlines()
        wanted = sorted([*line.split(), str(number)] for number in (1, 2) for line in report(number))
        self.check("all rounds", [[row[0], row[2], row[5], row[6]] for row in it.table()], wanted)

    def hostile(self):
        labels = [
            "<script>window.hit = 1</script>",
            "<img src=x onerror='window.hit = 1'>",
            '"><svg onload=window.hit=1>',
            "=1+1",
            "\u202eevil\u2066",
            "a\u2028b\u0085c",
            "&lt;b&gt;",
            "😀" * 50,
            " x ",
            "__proto__",
            "</table>",
        ]
        rows = [[f"S{at}", label] for at, label in enumerate(labels)]
        text = io.StringIO()
        csv.writer(text).writerows([["code", "name"], *rows])
        it = self.it
        it.choose(
            self.file("supervisors.csv", 'code,name,quota\nCONSTRUCTOR,"<b>Lee</b>, ""X""",500\n'),
            self.file(
                "projects.csv",
                'code,name,supervisor,quota\nTOSTRING,"<a href=""javascript:window.hit=1"">x</a>",CONSTRUCTOR,500\nU,None,CONSTRUCTOR,0\n',
            ),
            self.file("students.csv", text.getvalue()),
        )
        it.press("#send")
        if it.text(".doubt"):
            it.press("#sure .main")
        self.open()
        it.choose(
            self.file("lists.csv", "student,choices\n" + "".join(f"S{at},{'U' if at == 1 else 'TOSTRING'}\n" for at in range(len(labels))))
        )
        it.press("#send")
        self.check("hostile names in the lists", [row[1] for row in it.table()], [label for _, label in sorted(rows)])
        it.press("#close-round")
        it.press("#sure button.main")
        self.shot("hostile")
        self.check(
            "in the placements",
            {tuple(row[1:5:2]) for row in it.table()},
            {(label, '<a href="javascript:window.hit=1">x</a>') for at, (_, label) in enumerate(rows) if at != 1},
        )
        for step in ("sheets", "publish"):
            it.run("go(arguments[0])", step)
            self.fits(f"hostile names, the step {step}")
        it.press("#save")
        self.check(
            "a formula when saved",
            ["S3", "'=1+1"] in [row[:2] for row in csv.reader(io.StringIO(self.saved("placements-1.csv").decode("utf-8-sig"), newline=""))],
        )
        it.pick("#kind", "unplaced")
        self.check("in those without a place", it.table(), [[*rows[1], "U"]])
        it.write("#code", "S0")
        it.press("#asked button")
        it.run(
            "document.body.insertAdjacentHTML('beforeend',"
            '\'<img alt=y src=y onerror="window.hit = 2"><a id=link href="javascript:window.hit=3">x</a>\');'
            "document.querySelector('#link').click()"
        )
        time.sleep(0.5)
        self.check("what was run", it.run("return window.hit ?? null"), None)

    def refusals(self):
        it = self.it
        guide = {
            number: tuple(re.sub(r"\[([^]]*)\]\([^)]*\)", r"\1", cell).replace("`", "") for cell in cells)
            for number, cells in guided(read("docs", "GUIDE.md")).items()
        }
        own = {int(number): tuple(row) for number, row in it.run("return REFUSALS").items()}
        other = {number for number in guide if own.get(number) != guide[number]}
        self.check("the words of the guide", (other, len(own)), (OWN_WORDS | self.office.own_words, 30))
        self.check("the names", [own[number][0] for number in sorted(own)], [row[0] for row in guide.values()])
        it.choose(*(os.path.join(TOP, "examples", "refusals", f"{kind}.csv") for kind in ("supervisors", "projects", "students")))
        it.press("#send")
        for name, text, *numbers in (
            ("quote.csv", 'code,name\nS4,"Dev\n', 28),
            ("cells.csv", "code,name\nS4,Dev,Pune\n", 29, 8),
            ("small.csv", "code,name\ns4,Dev\n", 29, 9),
            ("nameless.csv", "code,name\nS4,\n", 29, 10),
            ("half.csv", "code,name,quota\nM,May,2.5\n", 29, 11),
            ("many.csv", "code,name,quota\n" + "".join(f"V{n},Name,1\n" for n in range(99)), 29, 12, 99),
            ("rails.csv", "code,name,supervisor,quota\nR,Rails,M,1\n", 29, 13),
            ("moved.csv", "code,name,supervisor,quota\nP,Pumps,K,1\n", 29, 16),
                    ):
            self.refused(name, text, *numbers)
        it.choose(
            self.file("half.csv", "code,name,quota\nM,May,2.5\n"),
            self.file("rails.csv", "code,name,supervisor,quota\nR,Rails,L,1\n"),
            self.file("late.csv", "code,name\nS7,Ida\n"),
            self.file("later.csv", "code,name\nS8,\n"),
        )
        it.press("#send")
        self.check(
            "what needs a refused sheet waits, and another does not",
            ([self.entry(path) is None for path in ("/projects/R", "/students/S7")], it.text("#send")),
            ([True, False], "Import 3 files"),
        )
        self.check(
            "both refused sheets are told",
            (it.text("#told").splitlines()[:3:2], it.table(".wrong")),
            (["1 row of half.csv is refused.", "1 row of later.csv is refused."], [["2", "M", "May", "2.5"], ["2", "S8", "empty"]]),
        )
        self.open()
        for name, text, inner in (
            ("unknown.csv", "S1,P X", 14),
            ("stranger.csv", "S9,P", 15),
            ("empty.csv", "S1,", 23),
            ("twice.csv", "S1,P P", 24),
        ):
            self.refused(name, f"student,choices\n{text}\n", 29, inner)
        self.does(("POST", "/rounds/close", None))
        it.press("#close-round")
        self.check(
            "closed by somebody else",
            ("Refusal 19, NoRoundOpen" in it.text("#told"), it.text("#state"), it.text("#proofs").startswith("Round 1 has no student")),
            (True, "Round 1 is closed, greedy: 0 of 0 students placed.", True),
        )
        it.choose(self.file("german.csv", "Code;Name\r\nS4;Jörg; Müller\r\n".replace("; M", ", M").encode("cp1252")))
        self.check("a sheet of Excel in German", "It is not in UTF-8" in it.text("#chosen") and "semicolons" in it.text("#chosen"))
        it.press("#send")
        self.check("came in", self.entry("/students/S4"), {"list": None, "name": "Jörg, Müller", "placed": None})
        it.choose(self.file("large.csv", "code,name\n" + "S1,Ann\n" * 10000), self.file("other.csv", "a,b\n1,2\n"))
        told = it.text("#chosen")
        seen = ["longer than one import" in told, "has other words in its first row" in told, bool(it.text("#send"))]
        self.check("too large, and no sheet", seen, [True, True, False])
        self.open()
        it.run(
            "const real = ask, list = () => real('PUT', '/lists/S1', '{\"choices\":[\"P\"]}');"
            "window.ask = async (...it) => { if (it[1].endsWith('/close')) await list(); return real(...it); }"
        )
        it.press("#close-round")
        it.press("#sure button.main")
        self.check("a list in the midst of closing", it.text("#proofs").startswith("Round 2: checked here. It is the best"))

    def looked(self, kind, name, content, rows, marks, empty=()):
        """A sheet is refused: each of its wrong rows is told with its reason, by the page and by tools/sheets.py, and nothing came in."""
        it, before = self.it, self.rows()
        it.choose(self.file(name, content))
        start = self.sent()
        it.press("#send")
        self.check(f"{name}: the rows", sorted(self.refused_rows()), rows)
        self.check("marks", it.marks(), marks)
        self.check("requests", self.sent() - start, len(rows) + 2)
        self.check("nothing came in", self.rows(), before)
        words = self.sheets(kind, f"{self.folder}/{name}")
        found = [
            (int(row), int(reason))
            for reason, cells in re.findall(r"(?m)^(\d+) [A-Z].*\n(?:\S.*\n)*?((?:  row .*\n)+)", words)
            for row in re.findall(r"  row (\d+):", cells)
        ]
        self.check(
            "by tools/sheets.py", (sorted(found), words.count(f"{len(found)} rows are refused: nothing of ")), (sorted([*rows, *empty]), 1)
        )
        return words

    def refused_rows(self):
        """The rows of a sheet that the page names as refused, each with the number of its reason."""
        found = self.it.run(
            "const reason = it => Number.parseInt(it.closest('div').previousSibling.querySelector('span').textContent.split(' ')[1]);"
            "const numbers = it => [...it.tBodies[0].rows].map(row => Number.parseInt(row.cells[0].textContent));"
            "return [...document.querySelectorAll('.wrong table')].map(it => [reason(it), numbers(it)])"
        )
        return [(number, reason) for reason, numbers in found for number in numbers]

    def rows(self, query=None):
        """The rows of a query of the office's tables, or all that is in them."""
        self.line("report", "DB", "profile", "1")  # on a copy, into which it brings the log
        with contextlib.closing(sqlite3.connect(f"{self.folder}/copy.db")) as it:
            return list(it.execute(query) if query else it.iterdump())

    def sheets(self, kind, name):
        file = self.office.copied(self.it, f"{self.folder}/looked.db")
        words = [sys.executable, f"{TOP}/tools/sheets.py", self.program[-1], file, kind, name]
        return subprocess.run(words, capture_output=True, text=True).stdout

    def mistakes(self):
        it, head = self.it, "code,name,supervisor,quota\n"
        it.choose(*FIRST[1:])
        self.check(
            "all new", [line.split(": ")[-1] for line in it.text("#chosen").splitlines() if ".csv" in line], ["5 new", "10 new", "20 new"]
        )
        it.press("#send")
        # Thirteen mistakes, among empty rows, cells with a line break, quotes and a code that is there three times. The program refuses a
        # row of empty cells, which the page leaves out.
        words = self.looked(
            "projects",
            "projects.csv",
            head
            + 'CHESS,"Chess, and\nmore",TURING,1\n\nchess,Chess,TURING,1\nNEW1,,TURING,1\nNEW2,New,turing,1\nNEW3,New,NOBODY,1\n,,,\n'
            + 'NEW4,New,TURING,2.0\nNEW5,New,TURING,501\nNEW6,New\n"NEW7","A ""new"", one",TURING,1\nCHESS,Chess,LOVELACE,1\n'
            + "NEW7,Twice,TURING,2\nNEW8,New, TURING,1\nA-CODE-OF-17-CHAR,New,TURING,1\nNEW9,New,TURING,1,\nNEW7,Thrice,LOVELACE,2\n\n"
            + "GOOD,Good,TURING,2\n",
            [(2, 10), (4, 9), (5, 10), (6, 9), (7, 13), (9, 11), (10, 11), (11, 8), (13, 16), (15, 9), (16, 9), (17, 8), (18, 16)],
            [
                "empty",
                "chess",
                "turing",
                " TURING",
                "A-CODE-OF-17-CHAR",
                "Chess, and\nmore",
                "empty",
                "2.0",
                "501",
                "NOBODY",
                "LOVELACE",
                "LOVELACE",
            ],
            [(8, 9)],
        )
        self.check(
            "more than once",
            "More than once, and the last row counts: CHESS in the rows 2 and 13; NEW7 in the rows 12 and 14 and 18." in it.text("#chosen")
            and "NEW7 stands in the rows 12, 14, 18" in words,
        )
        self.shot("mistakes")
        it.press(".wrong button")
        self.check(
            "the others came in",
            (
                it.text("#chosen summary").split(": ")[-1],
                "Left out: the rows 2, 4, 5, 6, 7, 9, 10, 11, 12, 13, 14, 15, 16, 17, 18." in it.text("#chosen"),
                self.entry("/projects/NEW7"),
                self.entry("/projects/GOOD"),
            ),
            ("1 imported", True, None, {"name": "Good", "placed": 0, "quota": 2, "supervisor": "TURING"}),
        )
        start = self.sent()
        it.choose(self.file("lists.csv", "student,choices\nS01,CHES\nS02,CHESS\nS99,CHESS\n"))
        self.check("without a round lists wait", ("This file waits: " in it.text("#chosen"), self.sent() - start), (True, 0))
        self.open()
        self.looked(
            "lists",
            "lists.csv",
            "student,choices\nS01,CHES LOOM CIFER\nS02,CHESS LOOM\nS99,CHESS\nS03,\nS04,LOOM  CHESS\nS05,CHESS LOOM CHESS LOOM\n"
            "S06,CHESS \nS02,LOOM\nS07,CHESS\nS07,NONE\nS08,NO\nS08,LOOM\n",
            [(2, 14), (4, 15), (5, 23), (6, 14), (7, 24), (8, 14), (11, 14), (12, 14)],
            ["CHES", "CIFER", "a space too many", "a space too many", "NONE", "NO", "S99", "empty", "CHESS", "LOOM"],
        )
        self.shot("mistakes-lists")
        self.check(
            "who has two lists", "S02 in the rows 3 and 9; S07 in the rows 10 and 11; S08 in the rows 12 and 13." in it.text("#chosen")
        )
        it.press(".wrong button")
        self.check("left out", "Left out: the rows 2, 4, 5, 6, 7, 8, 10, 11, 12." in it.text("#chosen"))
        self.check(
            "the last of them counts, and none before a refused one",
            [self.entry(f"/students/{code}")["list"] for code in ("S02", "S07", "S08")],
            [["LOOM"], None, ["LOOM"]],
        )
        self.does(("PUT", "/lists/S09", {"choices": ["CHESS", "LOOM"]}))
        it.choose(self.file("lists.csv", "student,choices\nS02,CHESS\nS10,LOOM\n,\nS09,CHESS LOOM\nS08,LOOM CHESS\n"))
        self.check(
            "what lists would change",
            (it.text("#chosen summary").split(": ")[-1], it.table("#chosen details[open]")),
            (
                "1 new, 2 with a change, 1 as before",
                [["2", "S02", "choices", "LOOM", "CHESS"], ["6", "S08", "choices", "LOOM", "LOOM CHESS"]],
            ),
        )
        self.check("an empty row", "Its empty rows are left out." in it.text("#chosen"))
        it.press("#send")
        self.check("without it", it.text("#chosen summary").endswith(": 4 imported"))
        # One mistake many times: fifty rows are named, and no others may come in.
        many, start = self.file("many.csv", "code,name\n" + "".join(f"s{at},Name\n" for at in range(51)) + "S90,Name\n"), self.sent()
        it.choose(many)
        it.press("#send")
        self.check(
            "fifty and more",
            (
                len(it.table(".wrong")),
                "50 rows of many.csv are refused, and there may be more." in it.text("#told"),
                it.text(".wrong button"),
                self.sent() - start,
            ),
            (50, True, None, 52),
        )
        self.check("by tools/sheets.py", "50 rows are refused, and there may be more" in self.sheets("students", many))
        it.choose(self.file("fifty.csv", "code,name\n" + "".join(f"s{at},Name\n" for at in range(50)) + "S90,Name\n"))
        it.press("#send")
        self.check("fifty and no more", it.text(".wrong button"), "Leave 50 rows out, and import 1 row")
        it.choose(self.file("all.csv", "code,name\ns1,Name\n"))
        it.press("#send")
        self.check("no other row", (it.text("#told").splitlines()[0], it.text(".wrong button")), ("1 row of all.csv is refused.", None))
        # A full roll is named at each row that it has no room for, and a row of a wrong code does not fill it.
        self.looked(
            "supervisors",
            "full.csv",
            "code,name,quota\n" + "x,Name,1\n" + "".join(f"V{at},Name,1\n" for at in range(97)) + "TURING,Alan Turing,6\n",
            [(2, 9), (98, 12), (99, 12)],
            ["x", "V95", "V96"],
        )
        # As long as it may be: there is no room for the last row, so that it is asked after in two parts.
        long = "code,name\nS01,\nS02,\n" + "S03,Clara\n" * 6550
        it.choose(self.file("long.csv", long + "S03," + "C" * (65536 - len(long) - 5) + "\n"))
        it.press("#send")
        self.check("long.csv, its rows", [row[0] for row in it.table(".wrong")], ["2", "3"])
        self.looked(
            "students",
            "quotes.csv",
            'code,name\r"S"x"01",Name\r""\rS02,\r\nS01,"A"",\n""B"\r"S04",a"b"\r\r,\rs5,""\n',
            [(2, 9), (4, 10), (5, 10), (9, 9)],
            ['Sx"01"', "s5", "empty", 'A",\n"B'],
            [(3, 8), (8, 9)],
        )
        start = self.sent()
        it.choose(self.file("quotes.csv", 'code,name\nS01,A"\ns2,B\n'))
        it.press("#send")
        self.check("quotes that are no pairs, once", ("Refusal 28, Header" in it.text("#told"), self.sent() - start), (True, 1))
        it.pick("#kind", "room")
        self.room(1)
        # No answer in the midst of the asking, and an office that has kept 200 imports.
        it.run(
            "const real = ask; let asked = 0; const isLost = path => path.includes('/LOOK-') && ++asked > 2;"
            "window.ask = (...it) => (isLost(it[1]) ? Promise.reject({ fault: 'no answer' }) : real(...it))"
        )
        it.choose(self.file("lost.csv", "code,name\ns1,Name\ns2,Name\ns3,Name\nS91,Name\n"))
        it.press("#send")
        self.check(
            "some of the rows",
            (it.text("#told").splitlines()[0], [row[0] for row in it.table(".wrong")], it.text(".wrong button")),
            ("2 rows of lost.csv are refused, and there may be more.", ["2", "3"], None),
        )
        for at in range(200):
            self.told("POST", f"/imports/students/N{at}", "code,name\n")
        time.sleep(1)  # nginx writes down a request after it was answered
        start = self.sent()
        self.refused("lost.csv", "code,name\ns1,Name\nS91,Name\n", 12)
        self.check("no room for an import, once", self.sent() - start, 1)

    def room(self, number):
        """The places that are left, from the report of loads."""
        rows, owner = [], None
        for line in self.line("report", "DB", "loads", str(number)).splitlines():
            code, left = line.split()[0], int(line.split()[2]) - int(line.split()[1])
            if line[0] != " ":
                owner = [code, left, 0]
                rows.append((owner, []))
            else:
                rows[-1][1].append((code, left))
        self.it.pick("#kind", "room")
        wanted = [
            [code, str(left), str(owner[1]), str(min(left, owner[1]))]
            for owner, projects in rows
            for code, left in projects
            if min(left, owner[1]) > 0
        ]
        self.check(f"places left in round {number}", [[row[0], *row[3:]] for row in self.it.table()], wanted)
        self.head("room", number)
        read = self.entry
        found = [read(f"/projects/{code}") for code, *_ in wanted]
        names = [[it["name"], read(f"/supervisors/{it['supervisor']}")["name"]] for it in found]
        self.check("the names of their projects and supervisors", [row[1:3] for row in self.it.table()], names)
        whole = sum(min(owner[1], sum(left for _, left in projects)) for owner, projects in rows)
        self.check("in all", self.it.text("#table caption").startswith(f"Places left, round {number}: {whole} in all for "))

    def drawn(self):
        """A school drawn by lot, with lists of up to twelve projects and too few places: a round of each aim, and what is left."""
        it, lot = self.it, random.Random(12)
        students, projects = [f"S{at:02}" for at in range(60)], [f"P{at:02}" for at in range(25)]

        def lists(name, students):
            return self.file(
                name,
                "student,choices\n"
                + "".join(f"{student},{' '.join(lot.sample(projects, lot.choice((1, 3, 12))))}\n" for student in students),
            )

        it.choose(
            self.file(
                "supervisors.csv", "code,name,quota\nZ,Zoe,1\n" + "".join(f"L{at},Lee {at},{lot.randint(2, 7)}\n" for at in range(8))
            ),
            self.file(
                "projects.csv",
                "code,name,supervisor,quota\nZERO,Nobody lists it,Z,3\n"
                + "".join(f"{code},Title,L{at % 8},{lot.randint(0, 3)}\n" for at, code in enumerate(projects)),
            ),
            self.file("students.csv", "code,name\n" + "".join(f"{code},Name\n" for code in students)),
        )
        it.press("#send")
        for number, aim in ((1, "generous"), (2, "greedy")):
            it.press(f"input[value={aim}]")
            self.open()
            left = (
                students
                if number == 1
                else [line.split()[0] for line in self.line("report", "DB", "unplaced", "1").splitlines()] + students[40:]
            )
            it.choose(lists("lists.csv", left[:40]))
            it.press("#send")
            self.preview(number, len(left[:40]))
            self.sides()
            it.press("#close-round")
            it.press("#sure button.main")
            self.closed(number, aim)
            self.reports(number)
            if number == 1:
                it.press("#drawing summary")
            self.picture(number, left[:40])
            self.room(number)
            self.proof(number)
        self.shown()
        for step in it.run("return [...document.querySelectorAll('main > section')].map(it => it.id)"):
            it.run("go(arguments[0])", step)
            self.fits(f"the step {step}")

    def greatest(self):
        """A school at all limits: 500 students with lists of twelve, 400 projects, 100 supervisors."""
        it, lot = self.it, random.Random(7)
        projects, students = [f"P{at:03}" for at in range(400)], [f"S{at:03}" for at in range(500)]
        sheets = {
            "supervisors": ["code,name,quota", *(f"L{at:02},Lee {at},5" for at in range(100))],
            "projects": ["code,name,supervisor,quota", *(f"{code},Title,L{at % 100:02},2" for at, code in enumerate(projects))],
            "students": ["code,name", *(f"{code},Name" for code in students)],
            "lists": ["student,choices", *(f"{code},{' '.join(lot.sample(projects[:240], 12))}" for code in students)],
        }
        *first, lists = [self.file(f"{kind}.csv", "\n".join(rows) + "\n") for kind, rows in sheets.items()]
        it.choose(*first)
        it.press("#send")
        self.open()
        it.choose(lists)
        it.press("#send")
        self.check("all lists", it.text("#state"), "Round 1 is open, greedy, with 500 lists.")
        it.press("#close-round")
        it.press("#sure button.main")
        self.reports(1)
        self.proof(1)

    def server(self):
        """A service that is down, and what is told where the web server answers in its place."""
        it = self.it
        self.school()
        self.does(("POST", "/rounds", None))
        it.go()
        self.office.stop()
        it.press("#again")
        told = "The service cannot be reached. Wait a moment and try again: "
        self.check("the service is down", it.text("#told").startswith(told))
        it.choose(FIRST[1])
        self.check("a sheet that cannot be compared", it.text("#told").startswith("The service cannot be reached"))
        self.check("it is shown", it.text("#chosen").endswith("students, 20 rows\nRead its columns otherwise\nImport 1 file"))
        self.office.serve("server.db")
        it.press("#retry")
        self.check("and up again", ("students, 20 rows: 20 as before" in it.text("#chosen"), it.text("#told")), (True, ""))
        self.statuses()

    def statuses(self):
        """What is told where the web server answers in the place of the service."""
        for status, words in (
            (401, "You are not signed in any more. Load this page again."),
            (403, "You may not do this here."),
            (413, "The file has more than 65,536 bytes."),
            (504, "The service did not answer in time. Nothing was changed."),
        ):
            self.it.run("const status = arguments[0]; window.fetch = () => Promise.resolve(new Response('', { status }))", status)
            self.it.write("#code", "S1")
            self.it.press("#asked button")
            title = "Refusal 4, TooLarge" if status == 413 else f"The web server answers {status}."
            self.check(f"status {status}", (title in self.it.text("#told"), words in self.it.text("#told")), (True, True))
        self.it.run("window.fetch = () => new Promise(done => { window.answer = () => done(new Response('')) })")
        self.it.run("document.querySelector('#asked button').click()")
        sign = "const it = getComputedStyle(document.body, '::before'); return [it.position, it.height, it.animationName]"
        self.check("a sign while the service is slow", self.it.run(sign), ["fixed", "4px", "go"])
        self.it.run("window.answer(); window.fetch = () => Promise.resolve(new Response('', { status: 504 }))")
        self.it.rest()
        self.it.run("return ask('PUT', '/students/S1').catch(tellRefusal)")
        words = "what was sent may still be done. Load this page again and look before you send it again."
        self.check("no answer to a change", words in self.it.text("#told"))

    def named(self):
        """What a reader of the screen is told: each field and button has a name."""
        if self.it.firefox:
            return
        nodes = self.it.chrome("Accessibility.getFullAXTree")["nodes"]
        roles = ("button", "textbox", "searchbox", "combobox", "radio", "link", "spinbutton", "img", "image")
        without = [
            node["role"]["value"]
            for node in nodes
            if not node.get("ignored") and node["role"]["value"] in roles and not node.get("name", {}).get("value")
        ]
        self.check("without a name for a reader", without, [])

    def all(self, parts, is_firefox=False):
        self.it = Browser(self.folder, self.office, is_firefox)
        try:
            self.it.go()
            for part in parts:
                print(f"-- {part}")
                self.anew(part)
                getattr(self, part)()
                self.named()
                if not is_firefox:
                    blocked = [it for it in self.it.errors() if part != "hostile" or "Content Security Policy" not in it]
                    self.check("errors in the console", blocked, [])
        finally:
            self.it.end()


def parts_of(words, module):
    """The parts that run in Chromium, and those in Firefox."""
    here = (*OFFICE, *(ALONE if module else ELSEWHERE))
    if "--only" in words:
        wanted = words[words.index("--only") + 1].split(",")
        return ((), wanted) if "--in-firefox" in words else (wanted, ())
    second = [it for it in (*IN_FIREFOX, *ALONE_IN_FIREFOX) if it in here] if shutil.which("firefox-esr") else ()
    return () if "--in-firefox" in words else here, second


def main(*words):
    of = lambda word, other=None: words[words.index(word) + 1] if word in words else other
    module = of("--one-file")
    for name in PAGES:
        page = read("page", name)
        if "--seal" in words and sealed(page) != page:
            with open(os.path.join(TOP, "page", name), "w", encoding="utf-8") as file:
                file.write(sealed(page))
        elif sealed(page) != page:
            sys.exit(f"page.py: {name} has other hashes than its style and script: --seal writes them")
    missing = [it for it in ("chromium", "chromedriver", *(() if module else ("nginx",))) if not shutil.which(it)]
    if missing:
        print(f"there is no {missing[0]} here: the pages were not tried")
        return
    program = [sys.executable, words[0]] if words[0].endswith(".py") else [os.path.abspath(words[0])]
    with tempfile.TemporaryDirectory(ignore_cleanup_errors=True) as folder:
        os.mkdir(f"{folder}/saved")
        shutil.copytree(f"{TOP}/page", f"{folder}/page")
        for name, text in (
            ("office.users", "keeper:{PLAIN}secret\n"),
            ("students.users", "S02:{PLAIN}s02\ns02:{PLAIN}s02\nguest:{PLAIN}guest\n"),
            ("supervisors.users", "HOPPER:{PLAIN}hopper\nhopper:{PLAIN}hopper\n"),
            ("nginx.conf", config(folder)),
        ):
            with open(f"{folder}/{name}", "w") as file:
                file.write(text)
        office = InOneFile(module, folder) if module else Served(program, folder)
        trial, (parts, second) = Trial(program, folder, office, of("--shots"), int(of("--kills", 10))), parts_of(words, module)
        driver = started(DRIVER, "chromedriver", f"--port={DRIVER}", stdout=subprocess.DEVNULL)
        try:
            office.renew()
            if "--mutants" in words:
                own = ALONE_MUTANTS if module else OFFICE_MUTANTS + SHEET_MUTANTS + POSTED_MUTANTS + MUTANTS
                trial.mutants([it for it in own if it[0] in parts])
            else:
                if parts:
                    trial.all(parts)
                if second:
                    trial.all(second, is_firefox=True)
        finally:
            office.end()
            driver.terminate()
            driver.wait(timeout=60)
    failed = [it for it in trial.came if it[1] != it[2]]
    print(f"{len(trial.came)} trials, {len(failed)} otherwise")
    for name, told, wanted in failed:
        print(f"otherwise: {name}: {told!r}, and not {wanted!r}")
    if failed:
        sys.exit(1)


if __name__ == "__main__":
    main(*sys.argv[1:])
