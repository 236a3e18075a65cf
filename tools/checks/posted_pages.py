"""The trials of page.py of a result without lists: the office's page makes it, everybody checks it in check.html, and each student."""
import hashlib
import subprocess
import sys
import time

from office import TOP

# Mistakes in both pages, as in page.py: the part that has the trial, the file, what stands there, what a mutant has, the trial that fails.
POSTED_MUTANTS = [
    ("first_round", "office.html", 'proved("page_publish", bytesIn(proof)', 'proved("page_check", bytesIn(proof)', "the result of round 1"),
    ("first_round", "office.html", "find(isIts)", "find(it => isIts(it) && it === solved)", "a proof that was kept"),
    ("first_round", "check.html", "list.indexOf(place) + 1;", "list.indexOf(place);", "the own part of S01"),
    ("first_round", "check.html", "more > 0 ?", "more >= 0 ?", "why it is the own place"),
    ("first_round", "check.html", 'sum(price("Y", project), price("Z"', 'sum(price("Z", project), price("Z"', "why it is the own place"),
    ("first_round", "check.html", '!(/^accepted/.test(line) && rowOf("R"))', "true", "an own part is asked for"),
]


def fields(text, kind):
    """The fields behind the kind of the lines of a kind."""
    return [line.split(",")[1:] for line in text.splitlines() if line.startswith(f"{kind},")]


class Posted:
    """Part of the class `Trial` of page.py."""

    def told_own(self, said, place, choices):
        """What the page says first of what `check-own` prints."""
        word, *rest = said.split()
        if word == "accepted":
            return "Right: there is no place for you." if rest == ["none"] else f"Right: you have {rest[0]}, your {self.ordinal(int(rest[1]))} choice."
        if word == "not":
            return "No line has this code: this result is not about you. If you handed in a list, tell the office."
        if rest[0] == "6":
            return f"Not right. The result gives you {place}, which is not on this list."
        if rest[0] == "7":
            return "Not right. This is no list of the round: a project in it is not in the result, or stands twice."
        better = f"your {self.ordinal(int(rest[2]))} choice, {choices[int(rest[2]) - 1]}, would be better than what you have."
        return f"Not right. By this result {better if rest[2] != '0' else 'going without would be better than your place.'}"

    def result(self, number, proof):
        """The office's page makes the result of a round for everybody, which is what `publish` prints of the proof."""
        it = self.it
        it.press(f"#result{number}")
        text = self.saved(f"result{number}.txt").decode()
        self.check(f"the result of round {number}", text, self.line("publish", proof))
        self.check("its hash", hashlib.sha256(text.encode()).hexdigest() in it.text("#for-all"))
        self.check("no list is in it", (fields(text, "C"), fields(text, "U")), ([], []))
        return text

    def judged_by_all(self, text):
        """What check.html, `check` and check_round.py say of a result."""
        file = self.file("result.txt", text)
        self.it.choose(file, field="#file")
        time.sleep(0.3)
        said = self.line("check", file, either=True)
        by_python = subprocess.run([sys.executable, f"{TOP}/tools/check_round.py", file], capture_output=True, text=True).stdout
        self.check(f"by check_round.py: {said!r}", by_python, said)
        self.check(f"by check.html: {said!r}", self.it.text("#line"), said.strip())
        self.check("an own part is asked for", self.it.run("return !document.querySelector('#own').hidden"), said.startswith("accepted"))
        return said

    def own_part(self, text, code, choices):
        """A student's own part, in the page and by `check-own`."""
        it, file = self.it, self.file("result.txt", text)
        it.write("#code", code.lower())
        it.write("#list", ", ".join(choices).lower())
        time.sleep(0.3)
        said = self.line("check-own", file, code, *choices, either=True)
        place = dict(row for row in fields(text, "R") if len(row) == 2).get(code)
        self.check(f"the own part of {code}", it.text("#mine").splitlines()[:1], [self.told_own(said, place, choices)])
        return said

    def posted(self, number, proof_file):
        """A result that was posted: everybody's part and each student's, and where something in it is false."""
        it = self.it
        with open(proof_file, encoding="ascii") as file:
            proof = file.read()
        text, lists = self.result(number, proof_file), {code: choices for code, *choices in fields(proof, "C")}
        it.send("POST", "/url", {"url": f"file://{self.folder}/page/check.html"})
        said = self.judged_by_all(text).split()
        words = f"{said[2]} of {said[4]} students have a place."
        self.check("what it stands on", words in it.text("#said") and f"The rest is for the {said[4]} students" in it.text("#said"))
        self.check("no word of the best", "best" not in it.text("#said"))
        for code, choices in lists.items():
            self.own_part(text, code, choices)
        self.why(text, lists)
        self.own_part(text, "NOBODY", ["CIPHER"])
        self.own_part(text, "S01", ["NOTHING"])
        who, what = next(row for row in fields(text, "R") if len(row) == 2 and len(lists[row[0]]) > 1)
        self.own_part(text, who, [choice for choice in lists[who] if choice != what])
        self.falsified(text, lists)
        self.fits("a result that is checked")

    def why(self, text, lists):
        """Entry by entry what a list was worth: whose second choice it is sees what the first would have cost."""
        places = dict(row for row in fields(text, "R") if len(row) == 2)
        code = next(code for code, place in places.items() if lists[code].index(place) == 1)
        self.own_part(text, code, lists[code])
        rows = self.it.run("return [...document.querySelectorAll('#mine tr')].slice(1).map(row => [...row.cells].map(it => it.textContent))")
        self.check("each choice", [row[0] for row in rows], [f"{at}. {choice}" for at, choice in enumerate(lists[code], 1)])
        owners = {row[0]: row[1] for row in fields(text, "P")}
        priced = {row[0] for kind in "YZ" for row in fields(text, kind)}
        costs = [row[1] != "nothing" for row in rows]
        self.check("what a choice costs", costs, [choice in priced or owners[choice] in priced for choice in lists[code]])
        self.check("why it is the own place", (rows[1][2], rows[0][2] in ("it would take more from others than it gives you",
                   "as good for all as what you have: between equals a number decides")), ("yours", True))

    def falsified(self, text, lists):
        """Two who change places, a place more, a price that is another: some part of the check sees it."""
        placed = [row for row in fields(text, "R") if len(row) == 2]
        one, two = next((a, b) for a in placed for b in placed if a[1] not in lists[b[0]])
        swapped = text.replace(f"R,{one[0]},{one[1]}\n", f"R,{one[0]},{two[1]}\n").replace(f"R,{two[0]},{two[1]}\n", f"R,{two[0]},{one[1]}\n")
        self.check("places that were changed", self.judged_by_all(swapped).startswith("accepted"))
        self.check("are seen by who has one", self.own_part(swapped, two[0], lists[two[0]]), "fault 6\n")
        code, owner, quota = fields(text, "P")[0]
        taken = sum(row[1] == code for row in placed)
        few = text.replace(f"P,{code},{owner},{quota}\n", f"P,{code},{owner},{max(0, taken - 1)}\n")
        self.check("a quota that is too small", self.judged_by_all(few), "fault 1\n" if taken else self.line("check", self.file("r", few), either=True))
        free = next(row for row in fields(text, "P") if int(row[2]) > sum(it[1] == row[0] for it in placed))
        lines = text.splitlines()
        at = next((at for at, line in enumerate(lines) if line[:2] in ("Y,", "Z,")), len(lines))
        lines.insert(at, f"Y,{free[0]},1{',0' * 12}")
        lines[at:] = sorted(lines[at:], key=lambda line: line.split(",")[:2])
        self.check("a price where there is room", self.judged_by_all("\n".join(lines) + "\n"), "fault 5\n")
