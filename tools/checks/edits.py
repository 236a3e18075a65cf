"""Edits of a crate's bodies: mutants, mistakes and twins, and the functions that each strikes.

An edit is a file crates/CRATE/FOLDER/NAME.edit: a line `why:`, and for each text that it changes lines `file:`, `old:` and `new:`. One that
changes a constant names in a line `strikes:` a function that shows it. One that no stored answer refuses may name in a line `at:` the goal
at which a search fails, with its arguments, as `returns c`. Of `must-fail` `rt ci` tries each by itself; of `mistakes` and `twins`
`mistakes.py` tries many in one check. A mutant and a mistake must be refused, a twin must be proved. A twin that says `refused:` is right,
and is refused for its shape alone, as that line tells.
"""
import itertools
import re

from office import listed, read

FOLDERS = ["must-fail", "mistakes", "twins"]
FUNCTION = re.compile(r"^( *)(?:pub(?:\([a-z]+\))? )?(?:const )?(?:unsafe )?(?:extern \"C\" )?fn (\w+)")
OWNER = re.compile(r"^(?:pub(?:\([a-z]+\))? )?(?:impl|trait)\b(.*)\{$")
ASIDE = re.compile(r"^(?:pub )?(?:ghost )?use ")


def bare(name):
    """A type or a trait without what it takes."""
    while "<" in name:
        name = re.sub(r"<[^<>]*>", "", name)
    return name.split("::")[-1].split()[0] if name.split() else ""


def owner_of(head):
    """How the prover names the block of an `impl` or a `trait`: the type, and after it the trait."""
    head = re.sub(r"^<(?:[^<>]|<[^<>]*>)*>", "", head.replace("->", "")).split(" where ")[0].strip()
    trait, of, kind = head.partition(" for ")
    named = re.sub(r"(\w+)<(\w+).*", r"\1\2", trait)  # as From<AllocError>, by what it takes
    return bare(kind) + bare(named) if of else bare(head.split(":")[0])


def is_aside(old, new):
    """Whether an import is changed, or a function put before another one: it strikes nothing."""
    return ASIDE.match(old) or FUNCTION.match(old) and new.endswith(old)


class Text:
    """A file of code: where its functions stand, by line, and how the prover names them below the crate."""

    def __init__(self, path, text):
        parts = path.removeprefix("src/").removesuffix(".rt").split("/")
        module = self.module = [part for part in parts if part not in ("lib", "main", "mod")]
        # a trait's own functions, and those of an impl of one, stand there once
        self.functions, self.once, owner, is_once, self.text = [], set(), [], False, text
        for number, line in enumerate(text.split("\n")):
            block, function = OWNER.match(line), FUNCTION.match(line)
            if block:
                owner, is_once = [owner_of(block[1])], "trait" in line.split("<")[0] or " for " in line
            elif line == "}":
                owner = []
                self.functions.append((number + 1, None))
            if function:
                # a method by its type alone: the prover names it by the module of the type, or of the impl of a trait
                self.functions.append((number, "::".join([*(owner if function[1] and owner else module), function[2]])))
                if owner and is_once:
                    self.once.add(self.functions[-1][1])

    def at(self, position):
        """The function in which this position stands, or nothing."""
        line, found = self.text.count("\n", 0, position), None
        for number, name in self.functions:
            if number > line:
                break
            found = name
        return found

    def lines_of(self, name):
        """The lines of the file, where each begins, and of a function the number of its first line and its indent."""
        lines = self.text.split("\n")
        at = next(number for number, it in self.functions if it == name)
        return lines, [0, *itertools.accumulate(len(line) + 1 for line in lines)], at, FUNCTION.match(lines[at])[1]

    def span(self, name):
        """Where a function begins and ends, with its attributes and without its comments."""
        lines, begins, at, indent = self.lines_of(name)
        first = at
        while lines[first - 1].startswith(indent + "#["):
            first -= 1
        return begins[first], begins[lines.index(indent + "}", at) + 1]

    def body(self, name):
        """Where the lines between the braces of a function begin and end; nothing of one whose braces stand in one line."""
        lines, begins, at, indent = self.lines_of(name)
        opens = next(number for number in range(at, len(lines)) if re.match(rf"{indent}(?:\S.*)?[{{}}]$", lines[number]))
        return (begins[opens + 1], begins[lines.index(indent + "}", opens)]) if lines[opens].endswith("{") else None


def place(crate, name):
    """Where the prover has a function, below the crate: a method is below the module of its type."""
    parts, declares = name.split("::"), re.compile(rf"^(?:pub(?:\([a-z]+\))? )?(?:struct|enum) {name.split('::')[0]}\b", re.M)
    if not parts[0][:1].isupper():
        return parts
    file = next(path for path in listed(f"crates/{crate}/src/*.rt") if declares.search(read(path)))
    return [*Text(file.split("/", 2)[2], "").module, *parts]


class Edit:
    """A mutant, a mistake or a twin. One that changes a constant may change any function, so it is tried alone."""

    def __init__(self, path):
        _, self.crate, self.folder, name = path.split("/")
        self.name, self.pairs, self.texts, self.struck, self.fault = name.removesuffix(".edit"), [], {}, set(), None
        said = {"why": [], "also": [], "refused": [], "strikes": [], "at": []}
        file = old = ""
        for line in read(path).split("\n"):
            word, _, rest = line.partition(":")
            rest = rest.removeprefix(" ")
            if word in said:
                said[word].append(rest.strip())
            elif word == "file":
                file = rest.strip()
            elif word == "old":
                old = rest
            elif word == "new":
                self.pairs.append((file, old, rest))
        self.whys, self.is_refused_for_shape = [*said["why"], *said["also"]], bool(said["refused"])
        self.is_twin, self.goals = self.folder == "twins", said["at"]
        self.wanted = "proved" if self.is_twin and not self.is_refused_for_shape else "refused"
        if len(said["why"]) != 1:
            self.fault = "it says what goes wrong in one line `why:`"
        for file, old, new in self.pairs:
            text = self.texts.get(file) or read("crates", self.crate, file)
            if text.count(old) != 1:
                self.fault = f"its old text stands in {file} {text.count(old)} times"
                return
            at = text.index(old)
            if not is_aside(old, new):
                self.struck.add(Text(file, text).at(at + len(old) - len(old.lstrip())))
            self.texts[file] = text.replace(old, new)
        self.is_alone = not self.struck or None in self.struck
        self.struck.update(said["strikes"])
        # edits of one part may stand in one round
        self.part = ()
        self.struck.discard(None)
        if not self.struck and self.folder != FOLDERS[0]:
            self.fault = "it stands in no function, and names none in a line `strikes:`"
        self.copied = None

    def copy(self, number):
        """Has the edit strike a copy of its function, with this number, where one can stand beside it."""
        files = {file for file, old, new in self.pairs if not is_aside(old, new)}
        if self.is_alone or len(self.struck) > 1 or len(files) > 1:
            return
        (name,), (file,) = self.struck, files
        text = Text(file, read("crates", self.crate, file))
        if name not in text.once:
            self.copied, self.struck = name, {f"{name}_tried_{number}"}

    def changes(self):
        """What the edit puts into its crate: of a file, from where to where, which text."""
        found, copies = [], {}
        for file, old, new in self.pairs:
            text = Text(file, read("crates", self.crate, file))
            at = text.text.index(old)
            if not self.copied or is_aside(old, new):
                found.append((file, at, at + len(old), new))
                continue
            first, last = text.span(self.copied)
            copy = copies.get(file) or text.text[first:last]
            copies[file] = copy.replace(old, new)
        for file, copy in copies.items():
            last = Text(file, read("crates", self.crate, file)).span(self.copied)[1]
            own, tried = self.copied.rpartition("::")[2], next(iter(self.struck)).rpartition("::")[2]
            found.append((file, last, last, re.sub(rf"\bfn {own}\b", f"fn {tried}", copy, count=1)))
        return found


def edits(crates, folders):
    """The edits of these crates, or of all, in these folders."""
    return [Edit(path) for path in listed(*(f"crates/{crate}/{folder}/*.edit" for crate in crates or ["*"] for folder in folders))]
