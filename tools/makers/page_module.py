#!/usr/bin/env python3
"""Makes the WebAssembly modules of the pages, of proved crates: of crates/page_check, the checker and solver of round texts, which it puts into
the pages, and of crates/page_office, the whole office, which one_file.py puts into the one file.

tools/makers/page_module.py [--compare] [CRATE..]     needs the toolchain, and wasm-opt (Debian: binaryen); `rt lib` was run in the crates

1. `rattle build` takes the crate, which it proves or has kept, to a static library for x86-64. Its --toolchain is a folder whose clang
   keeps the LLVM module that it is handed. (The toolchain builds no crate for wasm64 that allocates.)
2. The same clang compiles this module for wasm64, with page_host.c and, for the office, page_wide.c. What names x86-64 is taken
   out of the module first, and it may call nothing but the heap, LLVM's own functions and what its row of MODULES names. wasm-opt brings
   its addresses down to 32 bits, so that each browser runs it.
3. The pages get it in base64, and the hash of the script in which it stands; that of the office is left as crates/page_office/out/office.wasm.
   The hash of each stands in page/README.md.

The same text gives the same bytes. --compare writes nothing, and ends with status 1 where a page, or page/README.md, has another module.
"""
import base64
import collections
import gzip
import hashlib
import os
import re
import shutil
import subprocess
import sys
import tempfile

sys.path.append(f"{sys.path[0]}/..")
from office import TOP, read, sealed

CRATE, EXPORTS, PAGES = "page_check", ("page_room", "page_check", "page_solve", "page_publish", "page_own"), ("office.html", "check.html")
# A module: its crate, what it gives, the pages that have it, the C files next to it, how clang optimizes it, and what it may call besides
Module = collections.namedtuple("Module", "crate exports pages host level calls")
SHUFFLE = "llvm.x86.ssse3.pshuf.b.128"  # the scan of a text for a byte
LANES = ("llvm.vector.reduce.or.v8i1", "llvm.arithmetic.fence.f64")  # LLVM's own, of any machine
CLOCK = ("clock_gettime", "rattle_errno")
MODULES = (
    Module(CRATE, EXPORTS, PAGES, ("page_host.c",), "-O3", ()),
    # SQL's functions of dates ask the clock; no statement of the office uses one, and `page_wide.c` has none
    Module("page_office", ("page_room", "page_office"), (), ("page_host.c", "page_wide.c"), "-O2", (*CLOCK, *LANES, SHUFFLE)),
)
LAYOUT = "e-m:e-p:64:64-p10:8:8-p20:8:8-i64:64-i128:128-n32:64-S128-ni:1:10:20"  # clang's for wasm64
MAY_CALL = r"(rattle_alloc|rattle_realloc|rattle_dealloc|llvm\.(memset|memmove|memcpy|trap|cttz|ctlz|ctpop)[a-z0-9.]*)"
# as the toolchain has clang compile each module, without what is x86's: passes with known faults are off, and what cannot come traps
CAREFUL = "-trap-unreachable -no-trap-after-noreturn -disable-machine-licm -disable-postra-machine-licm -sink-common-insts=false".split()
FEATURES = "memory64 bulk-memory sign-ext nontrapping-float-to-int mutable-globals multivalue".split()
LINKED = "-mwasm64 --no-entry --stack-first -z stack-size=1048576 --gc-sections --strip-all --threads=1 --fatal-warnings".split()


def run(*words, **how):
    ran = subprocess.run(words, stdout=subprocess.PIPE, stderr=subprocess.STDOUT, text=True, **how)
    if ran.returncode:
        sys.exit(f"{' '.join(words)[:300]}\n{ran.stdout[-3000:]}")


def uses():
    """What each crate stands on, by crates.txt."""
    lines = [line.partition("#")[0].partition(":") for line in read("crates.txt").splitlines()]
    return {name.split()[0]: below.split() for name, _, below in lines if name.split()}


def libraries(kit, crate):
    """The words that name the libraries of the crate, its own and those below them."""
    below, reached, waiting = uses(), [], list(uses()[crate])
    while waiting:
        name = waiting.pop()
        if name in below and name not in reached:
            reached.append(name)
            waiting += below[name]
    at = lambda name: f"{TOP}/crates/{name}/out/rlib" if name in below else f"{kit}/rlibs"
    externs = [word for name in ("std", *below[crate]) for word in ("--extern", f"{name}={at(name)}/{name}.rlib")]
    return externs + [word for name in reached for word in ("-L", f"dependency={at(name)}")] + ["-L", f"dependency={kit}/rlibs"]


def llvm_module(kit, room, crate):
    """The LLVM module of the proved crate, as the toolchain hands it to its clang. What clang makes of it for x86-64 is let go."""
    os.makedirs(f"{room}/toolchain/bin")
    os.symlink(f"{kit}/toolchain/lib", f"{room}/toolchain/lib")
    for name in set(os.listdir(f"{kit}/toolchain/bin")) - {"clang"}:
        os.symlink(f"{kit}/toolchain/bin/{name}", f"{room}/toolchain/bin/{name}")
    with open(f"{room}/toolchain/bin/clang", "w", encoding="utf-8") as it:
        it.write(f'#!/bin/sh\n[ -f module.bc ] && cp module.bc "{room}/module.bc"\nexec "{kit}/toolchain/bin/clang" "$@" -O0\n')
    os.chmod(f"{room}/toolchain/bin/clang", 0o755)
    logic = ["--antt-project", f"{kit}/rattle/logic/antt-project.json", "--logic-built", f"{kit}/logic_built"]
    how = ["--links", f"{crate}=", "--toolchain", f"{room}/toolchain", "--backend", "llvm", "--incremental", "out/incremental"]
    words = [f"{kit}/bin/rattle", "build", "--crate-name", crate, "src/lib.rt", "--crate-type", "staticlib", *libraries(kit, crate), *logic, *how]
    run(*words, "-o", f"{room}/lib.a", cwd=f"{TOP}/crates/{crate}")
    return f"{room}/module.bc"


def by_lanes():
    """What SHUFFLE does, in LLVM's own words: byte i is that of `a` at the low four bits of byte i of `b`, or 0 where the high bit is set."""
    lines = []
    for i in range(16):
        lines += [
            f"  %b{i} = extractelement <16 x i8> %b, i32 {i}",
            f"  %i{i} = and i8 %b{i}, 15",
            f"  %z{i} = zext i8 %i{i} to i32",
            f"  %v{i} = extractelement <16 x i8> %a, i32 %z{i}",
            f"  %n{i} = icmp slt i8 %b{i}, 0",
            f"  %s{i} = select i1 %n{i}, i8 0, i8 %v{i}",
            f"  %r{i} = insertelement <16 x i8> {f'%r{i - 1}' if i else 'poison'}, i8 %s{i}, i32 {i}",
        ]
    return "\n".join(["define internal <16 x i8> @shuffled(<16 x i8> %a, <16 x i8> %b) {", *lines, "  ret <16 x i8> %r15", "}"])


def for_wasm(clang, module, room, more):
    """The text of the module without what names x86-64."""
    target = ["--target=x86_64-unknown-linux-gnu", "-x", "ir", "-S", "-emit-llvm", "-Xclang", "-disable-llvm-passes"]
    run(clang, *target, module, "-o", f"{room}/x86.ll")
    with open(f"{room}/x86.ll", encoding="utf-8") as it:
        text = re.sub(r' "(probe-stack|stack-probe-size|target-cpu)"="[^"]*"', "", it.read())
    text, layouts = re.subn(r"^target datalayout = .*", f'target datalayout = "{LAYOUT}"', text, flags=re.M)
    text, triples = re.subn(r"^target triple = .*", 'target triple = "wasm64-unknown-unknown"', text, flags=re.M)
    calls = re.findall(r"^declare .*?@([^(]+)\(", text, re.M)
    strange = [it for it in calls if it not in more and not re.fullmatch(MAY_CALL, it)] + re.findall(r'"target-features"|\basm\b.*sideeffect|x86_fp80', text)
    if layouts != 1 or triples != 1 or strange:
        sys.exit(f"page_module.py: the LLVM module is not as it was when this tool was written: {strange[:5]}")
    if SHUFFLE in more:
        text = re.sub(rf"^declare .*@{re.escape(SHUFFLE)}\(.*$", lambda _: by_lanes(), text, flags=re.M).replace(f"@{SHUFFLE}(", "@shuffled(")
    return text


def wasm(kit, room, module, level=None):
    """The bytes of the module, for addresses of 32 bits."""
    clang = f"{kit}/toolchain/bin/clang"
    with open(f"{room}/wasm.ll", "w", encoding="utf-8") as it:
        it.write(for_wasm(clang, llvm_module(kit, room, module.crate), room, module.calls))
    for name in module.host:
        shutil.copyfile(f"{TOP}/tools/makers/{name}", f"{room}/{name}")
    words = [clang, "--target=wasm64-unknown-unknown", "--no-default-config", "-mcpu=lime1", "-mbulk-memory", "-Werror", "-c"]
    words += ["-ffunction-sections", "-fdata-sections", *(word for it in CAREFUL for word in ("-mllvm", it))]
    run(*words, level or module.level, "-x", "ir", "wasm.ll", "-o", "page.o", cwd=room)
    for name in module.host:
        run(*words, "-O2", "-ffreestanding", "-nostdinc", "-Wall", name, "-o", f"{name}.o", cwd=room)
    os.symlink(clang, f"{room}/wasm-ld")
    exports, objects = [f"--export={it}" for it in module.exports], [f"{name}.o" for name in module.host]
    run("./wasm-ld", "-flavor", "wasm", *LINKED, *exports, "-o", "long.wasm", "page.o", *objects, cwd=room)
    run("wasm-opt", *(f"--enable-{it}" for it in FEATURES), "--memory64-lowering", "long.wasm", "-o", "short.wasm", cwd=room)
    with open(f"{room}/short.wasm", "rb") as it:
        return it.read()


def module_of(page):
    """The module that stands in a page."""
    return base64.b64decode(re.search(r'const MODULE = "([^"]*)"', read("page", page))[1])


def made(kit, module, is_compared):
    """Makes a module, and puts it where it belongs, or compares it; whether another one stands somewhere."""
    with tempfile.TemporaryDirectory() as room:
        code = wasm(kit, room, module)
    own, others = hashlib.sha256(code).hexdigest(), [page for page in module.pages if module_of(page) != code]
    print(f"{module.crate}: {len(code)} bytes, {len(gzip.compress(code, mtime=0))} by gzip, sha256 {own}")
    if is_compared:
        others += [] if own in read("page", "README.md") else ["page/README.md"]
        print(f"page_module.py: another module stands in {', '.join(others)}" if others else "it is the one that is told")
        return bool(others)
    for page in others:
        text = re.sub(r'const MODULE = "[^"]*"', f'const MODULE = "{base64.b64encode(code).decode()}"', read("page", page))
        with open(os.path.join(TOP, "page", page), "w", encoding="utf-8") as it:
            it.write(sealed(text))
    if not module.pages:
        with open(f"{TOP}/crates/{module.crate}/out/office.wasm", "wb") as it:
            it.write(code)
    return False


def main(*words):
    missing = [it for it in ("rt", "wasm-opt") if not shutil.which(it)]
    if missing:
        sys.exit(f"page_module.py: there is no {missing[0]} here")
    kit = os.path.dirname(os.path.dirname(os.path.realpath(shutil.which("rt"))))
    names = [it for it in words if it != "--compare"]
    sys.exit(max(made(kit, it, "--compare" in words) for it in MODULES if not names or it.crate in names))


if __name__ == "__main__":
    main(*sys.argv[1:])
