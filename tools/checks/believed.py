#!/usr/bin/env python3
"""What has to be believed to read a clause: the definitions that it rests on, in reading order, and how many lines they have.

tools/checks/believed.py CRATE FUNCTION CLAUSE     as: tools/checks/believed.py desk Desk::run run
tools/checks/believed.py --readme                  compares the figures that README.md names, row by row of "What has to be believed"
tools/checks/believed.py --page [--check]          writes docs/SPEC.md anew, each definition as in the code; or says what would change
tools/checks/believed.py --inside                  names the definitions that no public clause cites and that do not stand in specs/Inside/,
                                            and the reverse

A definition is counted once, with the comment above it. Of a law what follows is counted: its premise is what a function promises. The
closure follows the names in the clause, and then in each definition, by the `use` lines of its file, through the crates of this repository.
Of the types that the function takes or returns, and of their fields that a view reads, it follows how their values are read (`ghost view`);
of the traits that it is over, what they promise. Types of the program are named apart. What stands in the toolchain's libraries is counted
apart, as far as it is written there: words that the prover itself makes have no lines.

The page has its own frame: what is outside its blocks stays, and so does the order in them. A block has a file's path and then definitions
of it. One that is new goes after the last of its file, and one on which nothing rests goes. Whoever wants one elsewhere writes `name :`
there, on a line of its own. What is named is what the page lacks: a block for a file, or what a name from beneath means.
"""
import difflib
import functools
import itertools
import pathlib
import re
import shutil
import subprocess
import sys

sys.path.append(f"{sys.path[0]}/..")
from office import TOP, listed, read

BENEATH = pathlib.Path(shutil.which("rt") or "rt").resolve().parent.parent / "rattle"
FILES = listed("crates/*.antt", "crates/*.rt")
CRATES = sorted({path.split("/")[1] for path in FILES})
NAME = r"[^\W\d][\w\-'⁺]*"
MARKS = r"(?:(?:pattern|unfoldable|abbrev|pub|axiom)\s+)*"
SIGNATURE = re.compile(rf"^(\s*){MARKS}(?:(record|data)\s+)?({NAME})\s+(?:\{{[^}}]*\}}\s+)*(?::|\(|where)")
OPENS_RECORD = re.compile(rf"^(\s*){MARKS}(?:record|data)\s+({NAME})")
# the page, the clause that it is of, a file's part of a block, and an item of the code with its doc
PAGE, CLAUSE = "docs/SPEC.md", ("desk", "Desk::run", "run")
PART = re.compile(r"^((?:--|//) (crates/\S+)\n)(.*?)(?=^(--|//) crates/|^```$)", re.M | re.S)
SHOWN = r"^(?:pub (?:struct|enum|const|fn) )?(\w+)(?=:|\(| \{| :)"
ITEM = re.compile(r"(?:^ *///.*\n)*(?:^#.*\n)*^pub (?:const (\w+).*;|(?:struct|enum) (\w+).*\n(?:.*\n)*?\})$", re.M)


def files(crate, part):
    """The files of a crate's code or definitions."""
    return [path for path in FILES if path.startswith(f"crates/{crate}/{part}/")]


def uses_of(text, word):
    """The names that the `use` lines of a file bring in, each with its module and the name that it has there; a module has no name."""
    brought = {}
    for line in re.findall(rf"^\s*(?:pub )?{word} ([^;\n]*);?", text, re.M):
        group = re.match(r"(.*)\.\{(.*)\}$", line.strip())
        if group:
            for item in group.group(2).split(","):
                there, _, here = item.strip().partition(" as ")
                brought[here or there] = (group.group(1), there)
        else:
            module, _, here = line.strip().partition(" as ")
            brought[here or module.rsplit(".", 1)[-1]] = (module, None)
    return brought


def definitions(lines):
    """The text of each definition in these lines, with the comment above it."""
    found, comment, name, indent = {}, [], None, 0
    for line in lines:
        bare = line.strip()
        begins = OPENS_RECORD.match(line) or SIGNATURE.match(line)
        depth = len(line) - len(line.lstrip())
        if not bare or bare.startswith(("use ", "pub use ", "module ")):
            comment, name = [], None
        elif bare.startswith("--"):
            if name is None or depth <= indent:
                comment, name = comment + [line], None
        elif begins and (name is None or depth <= indent and not bare.startswith(name + " ")):
            name, indent = begins.groups()[-1], depth
            found[name] = comment + [line]
            comment = []
        elif name is not None:
            found[name].append(line)
    return found


class File:
    """A file of definitions: its module, what it brings in, and the text of each definition with the comment above it."""

    def __init__(self, path, module, text):
        self.path, self.module = path, module
        self.brought = uses_of(text, "use")
        self.found = definitions(text.split("\n"))


@functools.cache
def modules():
    """The files of definitions of the repository, by module."""
    names = {path: ".".join(["Rattle", *path.removesuffix(".antt").split("/")[1:]]) for crate in CRATES for path in files(crate, "specs")}
    return {module: File(path, module, read(path)) for path, module in names.items()}


@functools.cache
def module_beneath(module):
    """A file of definitions of the toolchain's libraries, if it has one of this module."""
    path = BENEATH.joinpath(*module.split(".")[1:]).with_suffix(".antt")
    return File(str(path), module, path.read_text(encoding="utf-8")) if path.is_file() else None


@functools.cache
def code_items():
    """By name, what the repository's types and traits promise: the lines that say how a type is read, or what a trait gives; the names that these
    lines bring in; and the types of the fields that they read."""
    found = {}
    for path in FILES:
        text = read(path) if "/src/" in path and path.endswith(".rt") else ""
        brought = uses_of(text, "ghost use")
        for block in re.finditer(r"^(?:impl\b.*\bModel for (\w+)|pub trait (\w+)).*\{\n((?:.*\n)*?)\}$", text, re.M):
            said = re.findall(r"^    ghost (?:Value|view) = .*" if block[1] else r"^    ghost \w+: .*|^ +(?:ensures|requires) .*(?:\n +[^ f}].*)*", block[3], re.M)
            fields = re.search(rf"struct {block[1]}\b.*\{{\n((?:.*\n)*?)\}}", text) if block[1] else None
            read_fields = set(re.findall(r"\b\w+\.(\w+)", "\n".join(said)))
            types = [of for name, of in re.findall(r"(\w+): (.*),", fields[1]) if name in read_fields] if fields else []
            found[block[1] or block[2]] = path, said, {**brought, **uses_of(block[3], "ghost use")}, " ".join(types)
    return found


class Book:
    """Of the definitions that were followed the order in which they are read, types of the program, and those and names from beneath."""

    def __init__(self):
        self.modules = modules()
        self.order, self.seen, self.types, self.beneath, self.lower, self.is_beneath = [], set(), set(), set(), [], False

    def follow(self, module, name):
        """Takes a definition and what it rests on, what it rests on first."""
        it = self.modules.get(module)
        if (".specs.declared" in module or ".specs.contracts" in module) and not self.is_beneath:
            mine = module.split(".")[1] in CRATES and not module.endswith("TheConstants")
            (self.types if mine else self.beneath).add(module.removesuffix(".TheVariants") if mine else (module, name))
        elif it is None:
            if not self.is_beneath:
                self.beneath.add((module, name))
            self.follow_beneath(module, name)
        elif name not in it.found and name in it.brought:
            self.follow(it.brought[name][0], it.brought[name][1] or name)
        elif name in it.found and (module, name) not in self.seen:
            self.seen.add((module, name))
            self.words("\n".join(line for line in it.found[name] if not line.strip().startswith("--")), it.brought, it)
            self.order.append((it, name))

    def follow_beneath(self, module, name):
        """Takes a definition of the toolchain's libraries and what it rests on."""
        it, was_beneath = module_beneath(module), self.is_beneath
        if it is None or (module, name) in self.seen:
            return
        self.seen.add((module, name))
        self.is_beneath = True
        if name in it.found:
            self.lower.append((it, name))
            self.words("\n".join(line for line in it.found[name] if not line.strip().startswith("--")), it.brought, it)
        elif name in it.brought:
            self.follow_beneath(it.brought[name][0], it.brought[name][1] or name)
        self.is_beneath = was_beneath

    def code(self, text):
        """Takes how the types of this text are read, and what its traits promise."""
        for name in re.findall(r"\b[A-Z]\w+", text):
            if name in code_items() and ("code", name) not in self.seen:
                path, said, brought, types = code_items()[name]
                self.seen.add(("code", name))
                self.words("\n".join(said), brought)
                self.code(types)
                self.order.append((types_file(path, name, said), name))

    def words(self, text, brought, it=None):
        for word in re.findall(rf"{NAME}(?:\.{NAME})*|◌[^\s]*◌", text):
            first, _, rest = word.partition(".")
            if it is not None and first in it.found:
                self.follow(it.module, first)
            elif first in brought:
                module, there = brought[first]
                if there is not None:
                    self.follow(module, there)
                elif rest:
                    self.follow(module, rest.partition(".")[0])


def types_file(path, name, said):
    """How a type is read, or what a trait promises, as a file of one definition."""
    it = File(path, None, "")
    it.found = {name: "\n".join(said).split("\n")}
    return it


def clause_of(crate, function, label):
    """The text of a clause, of a law what follows; what its file brings in; and the types and traits of the function."""
    owner, _, name = function.rpartition("::")
    for text in map(read, files(crate, "src")):
        if owner and not re.search(rf"impl[^\n]*\b{owner}\b", text):
            continue
        head = re.search(rf"\bfn {name}\b.*?\n\s*\{{\}}?\n", text, re.S)
        if head:
            for clause in re.finditer(r"ensures ?(\w*) ?\{ (.*?) \}\n", head.group(0), re.S):
                if (clause[1] or "-") == label:
                    said = clause[2].rpartition(" → ")[2] if name.endswith("_law") else clause[2]
                    return said, uses_of(text, "ghost use"), f"{owner} {head.group(0).partition(' ensures ')[0].partition(' requires ')[0]}"
    sys.exit(f"no clause {label} of {function} in {crate}")


def closure(crate, function, label, has_code=True):
    """What a clause rests on; of code, types and traits, too, if that is asked."""
    book = Book()
    said, brought, head = clause_of(crate, function, label)
    book.words(said, brought)
    if has_code:
        book.code(head)
    return book


def lines_of(order):
    return sum(len(it.found[name]) for it, name in order)


def figures(book):
    return len(book.order), lines_of(book.order)


def show(crate, function, label):
    book = closure(crate, function, label)
    for path, entries in itertools.groupby(book.order, lambda entry: entry[0].path):
        print(f"---- {path}\n")
        for it, name in entries:
            print("\n".join(it.found[name]) + "\n")
    count, lines = figures(book)
    print(f"{count} definitions, {lines} lines", end="; ")
    print(f"types of the program: {len(book.types)}; in the toolchain's libraries {len(book.lower)} definitions, {lines_of(book.lower)} lines")


def compare():
    readme = read("README.md")
    row = r"^\|[^|]*\| `([\w:]+)` \*(\S+)\* of `(\w+)` " + r"\| ([\d,]+) " * 4 + r"\|$"
    # another toolchain may have its libraries otherwise
    kit = subprocess.run(["rt", "version"], capture_output=True, text=True).stdout.split()
    is_known = bool(kit) and f"`{kit[0]}`" in re.search(r"this text was proved with (\S+)", readme)[1]
    rows = re.findall(row, readme, re.M)
    wrong, above = 0, set()
    for function, label, crate, *told in rows:
        book = closure(crate, function, label)
        more = {(it.path, name): len(it.found[name]) for it, name in book.order}
        there = [f"{n:,}" for n in (*figures(book), sum(n for one, n in more.items() if one not in above), lines_of(book.lower))]
        above |= more.keys()
        differs = there != told if is_known else there[:3] != told[:3]
        wrong += differs
        print(f"{function} {label}: {there[0]} definitions, {there[1]} lines, {there[2]} of them in no row above, {there[3]} beneath"
              + (f"; README says {', '.join(told)}" if differs else ""))
    sys.exit("README.md is to be mended" if wrong or not rows else 0)


def on_page(book):
    """By file what the page has to show: the clause, the definitions, the types of the program, and the limits."""
    crate, function, label = CLAUSE
    clause = f"    ensures {label} {{ {clause_of(*CLAUSE)[0]} }}"
    path = next(it for it in files(crate, "src") if f"\n    {clause}\n" in read(it))
    name = function.rpartition("::")[2]
    wanted = {path: {name: [re.search(rf"pub fn {name}\b.*", read(path))[0], clause]}}
    for it, name in book.order:
        wanted.setdefault(it.path, {})[name] = it.found[name]
    limits = [(module.replace("declared.TheConstants", "declared.lib"), name) for module, name in book.beneath if "TheConstants" in module]
    for module, name in sorted(limits + [tuple(it.rsplit(".", 1)) for it in book.types]):
        _, crate, _, _, *inside = module.split(".")
        path = f"crates/{crate}/src/{'/'.join(inside)}.rt"
        item = next(it for it in ITEM.finditer(read(path)) if name in it.groups())[0]
        wanted.setdefault(path, {})[name] = [line for line in item.split("\n") if not line.startswith("#")]
    return wanted


def page(text):
    """The page with each definition as it stands in the code, and what it lacks."""
    book = closure(*CLAUSE, has_code=False)
    wanted, lacks = on_page(book), []
    parts = []
    for part in PART.finditer(text):
        is_code = part[2].endswith(".rt")
        names = re.findall(SHOWN, part[3], re.M) if is_code else definitions(part[3].split("\n"))
        parts.append((part[2], [name for name in names if name in wanted.get(part[2], ())]))
    for path, shown in wanted.items():
        homes = [names for where, names in parts if where == path]
        new = [name for name in shown if not any(name in names for names in homes)]
        lacks += [f"{path}: no block for {', '.join(new)}"] if new and not homes else []
        if new and homes:
            homes[-1] += new
    shown = iter(parts)

    def renewed(part):
        path, names = next(shown)
        return "\n".join([part[1], *("\n".join(wanted[path][name]) + "\n" for name in names)]) + ("\n" if part[4] else "")

    frame = re.sub(r"^```.*?^```$", "", text, flags=re.M | re.S)
    beneath = sorted({name for module, name in book.beneath if "TheConstants" not in module})
    lacks += [f"{PAGE}: nothing says what {name} is" for name in beneath if f"`{name}`" not in frame]
    return PART.sub(renewed, text), lacks


def write_page(is_check):
    """Writes the page, or only prints where it differs; gives whether it lacks something."""
    text = read(PAGE)
    new, lacks = page(text)
    if is_check:
        lacks += difflib.unified_diff(text.split("\n"), new.split("\n"), PAGE, "as it would be written", lineterm="", n=0)
    else:
        pathlib.Path(TOP, PAGE).write_text(new, encoding="utf-8")
    print("\n".join(lacks) or f"{PAGE} has what {CLAUSE[1]} {CLAUSE[2]} rests on")
    return 1 if lacks else 0


def exported(crate):
    """What the root of a crate gives out: names, and modules."""
    text = "".join(read(path) for path in files(crate, "src") if path.endswith("/src/lib.rt"))
    names = re.findall(r"\w+", " ".join(re.findall(r"^pub use ([^;]*);", text, re.M)))
    return set(names), set(re.findall(r"^pub mod (\w+);", text, re.M)) | {"lib"}


def public_words(path, names, modules):
    """The clauses of the public functions of a file, what its public traits promise, and how its public types are seen."""
    text = read(path)
    is_open = path.split("/")[-1].removesuffix(".rt") in modules
    owner, in_trait = None, False
    private = re.findall(r"^(?:pub\(crate\) )?trait (\w+)", text, re.M)
    lines = text.split("\n")
    for at, line in enumerate(lines):
        block = re.match(r"(pub )?(impl|trait)\b(.*)\{$", line)
        if block:
            of = re.sub(r"<[^<>]*>", "", block.group(3).split(" for ")[-1])
            owner, in_trait = re.search(r"\w+", re.sub(r"<[^<>]*>", "", of)), block.group(2) == "trait" or " for " in block.group(3)
            of_private = re.match(rf"\s*(?:{'|'.join(private)})\b.* for ", block.group(3)) if private else None
            owner = owner and not of_private and owner.group(0)
        elif line == "}":
            owner, in_trait = None, False
        function = re.match(r"\s*(pub )?(?:const )?fn (\w+)", line)
        is_public = is_open or (owner or (function and function.group(2))) in names
        ghost = re.match(r"\s*ghost (?:Value|view) = \{(.*)\};$|\s*ghost \w+: \{(.*)\};$", line)
        if ghost and is_public:
            yield ghost.group(1) or ghost.group(2)
        if function and is_public and (function.group(1) or in_trait):
            head = []
            for more in lines[at:]:
                head.append(more)
                if more.strip() == "{" or (more.endswith(("{", ";")) and not re.match(r"\s*(ensures|requires)", more)):
                    break
            yield from re.findall(r"^\s*(?:ensures|requires) ?\w* ?\{(.*?)\};?$", "\n".join(head), re.M | re.S)


def cited():
    """The definitions that the public clauses of all crates rest on."""
    book = Book()
    for crate in CRATES:
        for path in files(crate, "src"):
            brought = uses_of(read(path), "ghost use")
            for words in public_words(path, *exported(crate)):
                book.words(words, brought)
    return book


def parted():
    book = cited()
    is_cited = {(it.module, name) for it, name in book.order}
    wrong = 0
    for module, it in sorted(book.modules.items()):
        for name in it.found:
            if ((module, name) in is_cited) == (".Inside." in module):
                wrong += 1
                print(f"{it.path}: {name} " + ("is cited by a public clause" if ".Inside." in module else "is cited by no public clause"))
    print(f"{len(is_cited)} definitions are cited by public clauses")
    sys.exit(1 if wrong else 0)


def main(*words):
    if words == ("--readme",):
        compare()
    elif words in (("--page",), ("--page", "--check")):
        sys.exit(write_page("--check" in words))
    elif words == ("--inside",):
        parted()
    elif len(words) == 3:
        show(*words)
    else:
        sys.exit(__doc__)


if __name__ == "__main__":
    main(*sys.argv[1:])
