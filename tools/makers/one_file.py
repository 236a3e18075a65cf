#!/usr/bin/env python3
"""Makes spadesk.html, the whole office in one file: the page of the office with the proved office in it.

tools/makers/one_file.py MODULE OUT     MODULE is the WebAssembly module that tools/makers/page_module.py made of crates/page_office

It is page/office.html with another service: page/alone.js stands in it, with the module (gzip, in base64) and the small school of
examples/first-round, where the page has a line for them. It asks nothing of any server: its policy lets it reach none. The same module and
text give the same bytes.
"""
import base64
import gzip
import html
import json
import re
import sys

sys.path.append(f"{sys.path[0]}/..")
from office import EXAMPLE, read, sealed

LINE = "// In spadesk.html page/alone.js stands here.\n"
# what the page's policy lets it reach, and what that of the one file does
FAR, HERE = "connect-src 'self'; img-src data:;", "worker-src blob:; img-src data:;"
KINDS = ("supervisors", "projects", "students", "lists")


def put(text, old, new):
    """The text with a new part, where the old one stands once."""
    if text.count(old) != 1:
        sys.exit(f"one_file.py: page/office.html has {text.count(old)} times: {old}")
    return text.replace(old, new)


def one_file(module, folder="page"):
    """The page with this module in it, of the pages in a folder."""
    packed = base64.b64encode(gzip.compress(module, mtime=0)).decode()
    small = {kind: read(EXAMPLE, f"{kind}.csv") for kind in KINDS}
    service = f'(() => {{\nconst OFFICE = "{packed}";\nconst SMALL = {json.dumps(small)};\n{read(folder, "alone.js")}}})();\n'
    page = put(put(read(folder, "office.html"), LINE, service), FAR, HERE)
    notices = html.escape(read("packaging", "notices"), quote=False)
    page = re.sub(r'(<pre id="notices">).*?(</pre>)', lambda it: it[1] + notices + it[2], page, flags=re.S)
    return sealed(page)


def main(module, out):
    with open(module, "rb") as it:
        page = one_file(it.read())
    with open(out, "w", encoding="utf-8") as it:
        it.write(page)
    print(f"{out}: {len(page.encode())} bytes")


if __name__ == "__main__":
    if len(sys.argv) != 3:
        sys.exit(__doc__)
    main(*sys.argv[1:])
