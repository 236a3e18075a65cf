#!/usr/bin/env python3
"""Writes the licence texts of all that is linked into the program and the pages and was not written here.

tools/checks/notices.py            writes packaging/notices, the last part of packaging/copyright, and what the pages hold of it
tools/checks/notices.py --check    says where one of these lacks a text, and fails

It walks from crates.txt through what each crate of the toolchain stands on, and takes every file LICENSE* that lies beside one. It fails at
a crate that is linked and has none, unless it is one of the toolchain's own.
"""
import os
import re
import subprocess
import sys

sys.path.append(f"{sys.path[0]}/..")
from office import TOP, read, written

KIT = os.path.dirname(subprocess.run(["rt", "doc"], check=True, stdout=subprocess.PIPE, text=True).stdout.strip())
# What the toolchain has of its own: the standard library with its parts, and a reader of JSON that is no port. They have no licence text.
OWN = {"core", "io", "json", "libc", "os", "std"}
HEAD = """spadesk and the proved code in its pages are linked from this repository, which is MIT OR Apache-2.0, and from crates of the toolchain. Most
are ports, made from the text of crates of other authors. Here are the licence texts of those. The toolchain gives no licence text for what
is its own: its standard library (core, std, io, os, libc) and its reader of JSON (json).

"""
# the pages that have the module, and where their notices stand
PAGES = ("page/check.html", "page/office.html")
HELD = re.compile(r'(?<=<pre id="notices">).*?(?=</pre>)', re.S)
STANZA = "Files: debian/notices\n"
RULE = "=" * 100 + "\n"


def crates():
    """What each crate of the repository stands on, by name."""
    return {name: below.split() for name, below in re.findall(r"^(\w+)(?: staticlib)?:(.*)$", read("crates.txt"), re.M)}


def licences(name):
    """The licence texts beside a crate of the toolchain, by file."""
    beside = f"{KIT}/rattle/{name}"
    names = sorted(it for it in os.listdir(beside) if it.startswith("LICENSE")) if os.path.isdir(beside) else []
    return {it: text(f"{beside}/{it}") for it in names}


def port(name):
    """The port that a crate of the toolchain is, or is a part of; nothing of the toolchain's own."""
    whole = name.partition("_")[0]
    if whole in OWN:
        return None
    found = next(filter(licences, (name, whole)), None)
    return found or sys.exit(f"notices: {name} is linked, and no licence text lies beside it")


def linked(root):
    """The ports that the crate is linked from."""
    own, found, left = crates(), set(), [root, "std"]
    while left:
        name = left.pop()
        if name not in found:
            found.add(name)
            left += own[name] if name in own else re.findall(r"^dep (\S+)$", text(f"{KIT}/rlibs/{name}.rlib/format"), re.M)
    return set(filter(None, map(port, found - own.keys())))


def text(path):
    with open(path, encoding="utf-8") as file:
        return file.read().strip("\n") + "\n"


def by_text(names, is_short=False):
    """Each text once, with the crates that stand under it; a short list has no second licence of a crate that offers a choice."""
    found = {}
    for name in sorted(names):
        texts = licences(name)
        for file in texts:
            if not (is_short and file == "LICENSE-APACHE" and "LICENSE-MIT" in texts):
                found.setdefault(texts[file], []).append(name)
    return found


def notice(it, names):
    return f"{', '.join(names)}\n\n{it}"


def notices(found):
    return RULE + RULE.join(notice(*it) + "\n" for it in found.items())


def holders(found):
    """Who holds the copyright of what, line by line."""
    lines = {}
    for it, names in found.items():
        for holder in re.findall(r"^Copyright (?:\(c\) )?(.*(?:\d{4}|contributors|authors).*)$", it, re.M | re.I):
            lines.setdefault(holder, set()).update(names)
    return "".join(f" {holder} ({', '.join(sorted(names))})\n" for holder, names in sorted(lines.items()))


def cited(name):
    return f" * {name}: {', '.join(sorted(licences(name)))}\n"


def stanza(names):
    """What packaging/copyright says of the notices, in the format that Debian reads."""
    return f"""{STANZA}Copyright:
{holders(by_text(names))}License: notices
 The program and the proved code in the pages are linked from ports of these
 crates. /usr/share/doc/spadesk/notices has each licence text, by crate:
 .
{''.join(map(cited, sorted(names)))}"""


def escaped(it):
    return it.replace("&", "&amp;").replace("<", "&lt;")


def wanted():
    """Of each file that has notices: how it is written anew, and what must stand in it. Another version of the toolchain may link fewer crates."""
    names = linked("spadesk") | linked("page_check")
    whole, short = by_text(names), by_text(linked("page_check"), is_short=True)
    yield "packaging/notices", lambda old: HEAD + notices(whole), [notice(*it) for it in whole.items()]
    yield "packaging/copyright", lambda old: old.partition(STANZA)[0] + stanza(names), list(map(cited, names))
    for page in PAGES:
        yield page, lambda old: HELD.sub(lambda _: escaped(notices(short)), old), [escaped(notice(*it)) for it in short.items()]


def main(*words):
    if words not in ((), ("--check",)):
        sys.exit(__doc__)
    failed = False
    for path, anew, parts in wanted():
        old = read(path)
        if not words:
            written(anew(old), f"{TOP}/{path}")
        elif any(part not in old for part in parts):
            print(f"notices: {path} lacks a licence text of what is linked; `python3 tools/checks/notices.py` writes it")
            failed = True
    return failed


if __name__ == "__main__":
    sys.exit(main(*sys.argv[1:]))
