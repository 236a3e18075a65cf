#!/usr/bin/env python3
"""Says what is wrong in comments and pages: with what they name, with how a page reads, and with the lemmas of docs/PROOF.md.

tools/checks/texts.py             each with its place; ends with status 1 where there is one
tools/checks/texts.py --words     the words of each page

What is named is there: a file, by its path from the top, from the crate or from the folder of who names it; and a figure, which counts
where it has a comma, as 65,536, and stands in a comment of the code: some constant or text of the code has it. Of a name in backquotes, as
`Desk::ask`, and of a label in italics after it some file has all words, outside comments or in its own name. A link goes to a file that is
there and to a heading that it has, an anchor in backquotes to a heading of some page. A name of the code stands in backquotes: a word with
an underscore or `::` does, and one with a capital inside that the code has.

A page can be read: no line is above 140 columns, no sentence above 45 words, no cell of a table above 30 words, and no word stands for
two things. A page is a text in Markdown outside crates. Commands and texts in code are not sentences, and definitions that a page shows
are as wide as in their files. Comments too have no line above 140 columns, no word for two things, and no word of the house where the field
has one (`WORDS`); and the doc of a function that returns something begins with a verb.

docs/PROOF.md names a lemma, a definition or a law in backquotes, and then the file in which it stands: `settles`
(`network/proofs/Settle.antt`); several names in a row have one file. Each must stand there. Above each lemma, which is what stands in
`proofs/`, two lines or more tell its idea and begin with its step: "Step 6 of docs/PROOF.md.", of one named before the first step "The
question of docs/PROOF.md.". And no other lemma's comment names a step.
"""
import collections
import os
import re
import sys

sys.path.append(f"{sys.path[0]}/..")
from office import TOP, listed, read

PATH = re.compile(r"`((?:[\w.-]+/)*[\w-]+\.(?:rt|antt|py|md|csv|edit|svg|yaml|c|rs|html|conf|service|sql|txt))`")
FIGURE = re.compile(r"(?<![\d,.])\d{1,3}(?:,\d{3})+(?![\d,])")
COMMENT = re.compile(r"\s*(?://|--|why:|# )")
# files that a school has, or that a line makes
ELSEWHERE = re.compile(r"(school|later|older|first|round\d*|served|held|monday|tuesday)\b.*|spadesk\.html")
# a name in backquotes that is no hash, and the labels after it; files whose words are no names
NAMED = re.compile(r"`(?![0-9a-f]{40})([^\W\d]\w*(?:(?:::|\.)\w+)*)(?:\(\))?`((?:,?(?: and)? \(?\*\w+\*)*)")
TEXTS = (".md", ".html", ".yaml", ".csv", ".svg", ".png", ".txt", ".edit")
# names of Apache, nginx, HTTP, SQLite, std and valgrind, and the account of an example
FOREIGN = "authnz_ldap LDAPCacheTTL keepalive proxy_read_timeout Host auto_vacuum Display callgrind s01"
WORD = re.compile(r"[^\W\d]\w*")
# what of a line is no prose: code, addresses, paths, and what is in italics or bold, as a label is
ASIDE = re.compile(r"`[^`]*`|\]\([^)]*\)|[\w.-]*/\S+|\*+[^*]+\*+")
BARE = re.compile(r"\w*[^\W_]_[^\W_]\w*|\b[A-Z]\w*[a-z][A-Z]\w*|\w+::\w+")
LINK = re.compile(r"\]\(([^)\s:#]*)#?([\w-]*)\)")
SECTION = re.compile(r"`#([a-z][\w-]*)`")

COLUMNS, SENTENCE, CELL = 140, 45, 30
COMMANDS = "serve|import|open-round|close-round|reopen-round|report|solve|check"
PAGES, COMMENTS, BOTH = (True,), (False,), (True, False)
# what is not said, what is said instead, and where
WORDS = [
    (rf"\blines? `(?:spadesk )?(?:{COMMANDS})\b", "a line is one of a text; of the program say command", PAGES),
    (r"\blines? of the program\b", "a line is one of a text; of the program say command", PAGES),
    (r"\bline (?:that|which) (?:opens|opened|raises|raised|is killed|was killed|was refused|is refused)\b", "say command", PAGES),
    (r"\bmoods?\b", "say phase", BOTH),
    (r"\bthe rank of settling\b", "a rank is a pair's; of settling say turn", BOTH),
    (r"\b[Ww]ant of memory\b", "say out of memory", BOTH),
    (r"\b(?:[Tt]akes?|[Tt]aking|[Ff]inds?|[Ff]ound) no memory\b|\bwants? memory\b", "say allocates nothing, or runs out of it", BOTH),
    (r"\b[Mm]emory (?:is|was) refused\b|\b[Rr]efused memory\b|\bgrowth of memory\b", "say an allocation fails", BOTH),
    (r"\b[Tt]ables? [^.;:]*\b(?:is|are|was|were) (?:not )?raised\b|\b[Rr]ais(?:e|es|ing) (?:the|its) tables\b", "say migrate", BOTH),
    (r"\b[Bb]ehind\b(?! a pointer)", "say after, or under", COMMENTS),
    (r"(?<!/)\b[Bb]eside\b(?!/)", "say next to", BOTH),
    (r"\b[Aa]part\b", "say distinct, separate, or except for", COMMENTS),
    (r"\ball the same\b", "say still, or unchanged", BOTH),
    (r"\b[Ss]o many\b", "say which count it is", BOTH),
    (r"\bin turn\b", "say in order, or one after another", BOTH),
    (r"(?<![\w`*/])(?:[Tt]old|[Tt]ells?|[Tt]elling)\b(?![_.]\w)", "say returns, prints, writes, declares, decodes or names", COMMENTS),
    (r"\bkept (?:session|import|number)s?\b|\b(?:session|import) (?:that )?is kept\b", "say cached, or stored of an import", BOTH),
    (r"\bturns? (?:(?:the|their|its|no) )?rows?\b", "say transform", BOTH),
]
# sentences that stood here and were not so, and what is so
UNTRUE = {
    "Sessions and audits stay on `network`": "an audit solves, by the search first",
    "20 in nine files": "they stand in ten",
    "After any of them office and tables are as before.": "after refusal 2 a crash may still leave the change",
    "Nothing here chooses a matching; `network` and `solver` do": "the search chooses it",
    "ables, each told once": "columns stand in code and definition",
    "A further table is a variant of `Table`, its shape and its texts in": "it stands at more places: CONTRIBUTING.md",
    "A further table of rows is one of `TABLES` more;": "the editions that have it and lack it are named too",
    "that need a loop": "some of them need none",
    "in the definitions also its number and its CHECK": "the number is in the model of rows",
    "a change of the tables is always of one row": "one takes out many",
    "2026-11-27: what a request means is one record": "its changes were taken out of it",
    "one that takes a list away": "placements too",
    "each row by its key, and a list or the placements of a round": "those are taken out so, not written",
    "a page of Python": "it is 150 lines",
    "`fit_law` of `step_laws`": "no code calls it",
    "Between students with equal claims a lot decides, which": "only on the first way: on the second they come by code",
}
WORDS += [(re.escape(sentence), say, BOTH) for sentence, say in UNTRUE.items()]
# the doc of a function that returns something, and how one begins that names a thing and no deed; a law returns nothing
DOC = re.compile(r"(?:^ *///.*\n)+(?: *#\[.*\n)*(?= *(?:pub(?:\(crate\))? )?fn \w[^{;]*->)", re.MULTILINE)
NOUN = re.compile(r" */// (?:What|How|Why|Where|Whom?|Which|The|An?|All|Each|These|Is|Are|Do)\b.*")

PROOF = "docs/PROOF.md"
QUESTION = "The question"
STEP = re.compile(r"^(\d+[a-z]?)\. ", re.MULTILINE)
FILE = re.compile(r"[\w/]+\.(?:antt|rt)")
NAME = re.compile(r"[A-Za-z]\w*")
BEGINS = re.compile(r"-- (?:Step (\w+)|(The question)) of docs/PROOF\.md\. \S")


def is_there(path, name, files):
    """Whether some file has this path from the top, from a folder above the one that names it, or from one of a crate's parts."""
    places = [""] + [os.path.join(*name.split("/")[:n]) for n in range(1, name.count("/") + 1)]
    places += [os.path.join(place, part) for place in places for part in ("src", "specs", "proofs")] + ["crates", "tools", "docs"]
    tail = "/" + path
    return any(os.path.normpath(os.path.join(place, path)) in files for place in places) or any(it.endswith(tail) for it in files)


def prose(name, text):
    """The lines of a page outside code, or the comments of a file, each with its number."""
    is_code = False
    for number, line in enumerate(text.splitlines(), 1):
        is_fence = name.endswith(".md") and line.lstrip().startswith("```")
        is_code ^= is_fence
        if not (is_code or is_fence) if name.endswith(".md") else COMMENT.match(line):
            yield number, line


def misnamed(texts):
    """What is named and not there."""
    files = set(listed())
    lines = [line for name, text in texts.items() if name.endswith(".rt") for line in text.splitlines()]
    held = {figure for line in lines if not COMMENT.match(line) for figure in re.findall(r"\d+", line.replace("_", ""))}
    for name, text in texts.items():
        for at, line in prose(name, text):
            paths = [path for path in PATH.findall(line) if not ELSEWHERE.match(path)]
            yield from (f"{name}:{at}: {path}" for path in paths if not is_there(path, name, files))
            if not name.endswith((".md", ".py")):
                yield from (f"{name}:{at}: {figure}" for figure in FIGURE.findall(line) if figure.replace(",", "") not in held)


def standing():
    """By each word the files that have it outside comments, or in their own names."""
    where = collections.defaultdict(set, {word: {"elsewhere"} for word in FOREIGN.split()})
    for name in listed():
        lines = [] if name.endswith(TEXTS) else read(name).splitlines()
        for word in WORD.findall("\n".join([name, *(line for line in lines if not COMMENT.match(line))])):
            where[word].add(name)
    return where


def unheld_names(name, text, where):
    """The names in backquotes that nothing has, and those of the code that stand outside backquotes."""
    for at, line in prose(name, text):
        for named, labels in NAMED.findall(line):
            for said in [named, *(f"{named} {label}" for label in re.findall(r"\w+(?=\*)", labels))]:
                if not set.intersection(*(where[word] for word in WORD.findall(said))):
                    yield f"{name}:{at}: {said}: nothing has this name"
        for word in BARE.findall(ASIDE.sub("", line)):
            if "_" in word or any(path.endswith((".rt", ".antt")) for path in where[word.partition("::")[0]]):
                yield f"{name}:{at}: {word}: a name without backquotes"


def anchors(name, text):
    """The anchors of a page's headings, as GitHub makes them."""
    headings = [re.sub(r"\]\([^)]*\)", "", line.lstrip("# ")) for _, line in prose(name, text) if line.startswith("#")]
    return {re.sub(r"[^\w -]", "", heading).lower().replace(" ", "-") for heading in headings}


def unlinked(pages):
    """The links of pages to a file or a heading that is not there."""
    heads = {name: anchors(name, text) for name, text in pages.items()}
    for name, text in pages.items():
        for at, line in prose(name, text):
            for path, head in LINK.findall(line):
                to = os.path.normpath(os.path.join(os.path.dirname(name), path)) if path else name
                if not os.path.exists(os.path.join(TOP, to)) or head and head not in heads.get(to, ()):
                    yield f"{name}:{at}: {path}#{head}: it leads nowhere"
            lost = [head for head in SECTION.findall(line) if not any(head in those for those in heads.values())]
            yield from (f"{name}:{at}: #{head}: no page has it" for head in lost)


def is_page(name):
    return name.endswith(".md") and not name.startswith("crates/")


def words(text):
    """How many words a text has: a piece of code is one."""
    return len(re.findall(r"\S*\w\S*", re.sub(r"`[^`]*`", "code", re.sub(r"\]\([^)]*\)", "]", text))))


def parts(text):
    """The paragraphs and the cells of a page outside code, each with the number of its first line."""
    paragraph, first, is_code = [], 0, False
    for number, line in enumerate([*text.splitlines(), ""], 1):
        is_fence = line.lstrip().startswith("```")
        begins = re.match(r"\s*(?:[-*] |\d+\. |#|<|\||>|$)", line)
        if (begins or is_fence or is_code) and paragraph:
            yield first, " ".join(paragraph), SENTENCE
            paragraph = []
        is_code ^= is_fence
        if is_code or is_fence:
            continue
        if line.startswith("|"):
            yield from ((number, cell, CELL) for cell in line.strip("|").split("|"))
        elif line.strip():
            first = first if paragraph else number
            paragraph.append(re.sub(r"^\s*(?:[-*] |\d+\. )?", "", line))


def unreadable(name, text):
    """What is hard to read in a page; definitions that it shows are as wide as in their files."""
    lines = re.sub(r"^```antt\n.*?^```$", lambda block: "\n" * block[0].count("\n"), text, flags=re.M | re.S).splitlines()
    for number, line in enumerate(lines, 1):
        if len(line) > COLUMNS:
            yield f"{name}:{number}: {len(line)} columns"
    for number, part, most in parts(text):
        for sentence in re.split(r"(?<=[.!?])[)\"*]*\s+(?=[\w`*\[(\"])", part) if most == SENTENCE else [part]:
            if words(sentence) > most:
                yield f"{name}:{number}: {words(sentence)} words: {sentence[:60]} .."


def doubled(name, text):
    """The words of a page, or of the comments of a file, that stand for two things, and the comments that are too long."""
    for number, line in prose(name, text):
        if len(line) > COLUMNS and not is_page(name):
            yield f"{name}:{number}: {len(line)} columns"
        for pattern, say, where in WORDS:
            if is_page(name) in where and (hit := re.search(pattern, line)):
                yield f"{name}:{number}: {hit[0]}: {say}"


def nouns(name, text):
    """The docs of functions that begin with no verb."""
    for doc in DOC.finditer(text if name.endswith(".rt") else ""):
        if hit := NOUN.match(doc[0]):
            yield f"{name}:{text.count(chr(10), 0, doc.start()) + 1}: {hit[0].strip()[4:50]} ..: begin with what the function does"


def steps(page):
    """Each step of the page with its text, the part before the first as the question."""
    pieces = STEP.split(page)
    return [(QUESTION, pieces[0])] + [(f"Step {number}", text) for number, text in zip(pieces[1::2], pieces[2::2])]


def named(text):
    """The names of a step, each with its file or none: crates, calls and labels in backquotes are no names."""
    found, waiting = [], []
    for word in re.findall(r"`([^`]+)`", text):
        if FILE.fullmatch(word):
            found += [(name, "crates/" + word) for name in waiting]
            waiting = []
        elif NAME.fullmatch(word) and not os.path.isdir(os.path.join(TOP, "crates", word)):
            waiting.append(word)
    return found + [(name, None) for name in waiting]


def place(name, lines):
    """The line that declares the name, in a file of definitions, of lemmas or of code."""
    head = re.compile(rf"\s*(?:pub(?:\(crate\))? )?(?:abbrev (?:pub )?|(?:record|data|fn) )?{name}\b\s*(?:[:{{(<]|$)")
    return next((at for at, line in enumerate(lines) if head.match(line)), None)


def idea(lines, at):
    """The comment right above a line."""
    start = at
    while start and lines[start - 1].lstrip().startswith("--"):
        start -= 1
    return lines[start:at]


def unheld(texts, held):
    """What the page of the proof and its lemmas lack; `held` comes to have the place of each lemma's comment."""
    for step, text in steps(texts[PROOF]):
        for name, path in named(text):
            lines = texts.get(path, "").splitlines()
            at = place(name, lines)
            if path is None:
                yield f"{PROOF}: {step}: no file for {name}"
            elif at is None:
                yield f"{PROOF}: {step}: {name} does not stand in {path}"
            elif "/proofs/" in path:
                comment = idea(lines, at)
                begins = BEGINS.match(comment[0].lstrip()) if comment else None
                if begins is None or (begins[2] or f"Step {begins[1]}") != step:
                    yield f"{path}:{at + 1}: {name}: its comment does not begin with '{step} of {PROOF}.'"
                elif len(comment) < 2:
                    yield f"{path}:{at + 1}: {name}: its idea is less than two lines"
                held.add((path, at - len(comment)))
    for path, text in texts.items():
        for at, line in enumerate(text.splitlines() if path.endswith(".antt") else []):
            if BEGINS.match(line.lstrip()) and (path, at) not in held:
                yield f"{path}:{at + 1}: {PROOF} names no lemma here"


def main(*asked):
    texts = {name: read(name) for name in listed("*.rt", "*.antt", "*.md", "*.edit", "*.py")}
    pages = {name: text for name, text in texts.items() if is_page(name)}
    if asked == ("--words",):
        for name, text in pages.items():
            print(f"{len(text.split()):6} {name}")
        return 0
    held = set()
    where = standing()
    found = [*misnamed(texts), *unlinked(pages), *unheld(texts, held)]
    found += [fault for page in pages.items() for fault in unreadable(*page)]
    found += [fault for one in texts.items() for fault in [*unheld_names(*one, where), *doubled(*one), *nouns(*one)]]
    well = f"all that is named is there, each page can be read, and each of {len(held)} lemmas of {PROOF} names its step"
    print("\n".join(found) or well)
    return 1 if found else 0


if __name__ == "__main__":
    sys.exit(main(*sys.argv[1:]))
