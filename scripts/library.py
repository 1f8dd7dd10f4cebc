#!/usr/bin/env python3
"""Makes librv.a and librv.so of the crate rv_library, as include/rv.h says them.

usage: library.py FOLDER            proves what is not proved yet
       library.py --quick FOLDER    in minutes, with nothing proved
       library.py WORD ..           (in the crate's folder, with all libraries built: what `rt` does with these words)

The archive of the crate, and the three functions over malloc that the kit brings for it, are linked into one object, of
which the functions of rv.h alone stay visible. That object is librv.a, and the shared library is made of it. So a
program that links librv.a meets no other name.
"""

import os
import re
import shutil
import signal
import subprocess
import sys
import tempfile
from pathlib import Path

import build
import kit
import quick

ROOT = Path(kit.ROOT)
CRATE = "rv_library"
# Where `make library` puts it, the module that a proved build was made of, for the page, and the gate's archive.
FOLDER = ROOT / "out/library"
MODULE = ROOT / "crates" / CRATE / "out" / f"{CRATE}.bc"
ARCHIVE = MODULE.with_suffix(".a")
# The version is the header's; the first number is that of what programs were linked with.
VERSION = re.search(r'#define RV_VERSION "(.*)"', (ROOT / "include/rv.h").read_text())[1]
SONAME = f"librv.so.{VERSION.split('.')[0]}"
VERSION_SCRIPT = f"RV_{VERSION.split('.')[0]} {{ global: rv_*; local: *; }};\n"


def tool(*words):
    """Runs a tool; where it fails, the script ends with what it says."""
    process = subprocess.run([str(it) for it in words], stdout=subprocess.PIPE, stderr=subprocess.STDOUT, text=True)
    if process.returncode:
        sys.exit(f"{process.stdout}{words[0]}: status {process.returncode}")


def proved():
    """Proves and builds the crate and those below it; its archive."""
    # (with Python's own handler, Ctrl-C would wait for the checks)
    signal.signal(signal.SIGINT, signal.SIG_DFL)
    with kit.libraries(CRATE) as needed:
        built = [it for it in needed if it.is_built]
        crates = [it for it in needed if not it.is_built]
        at_once = build.lanes()
        print(f"{len(crates)} of {len(needed)} libraries to prove, up to {at_once} checks at once", flush=True)
        build.build_all(crates, built, at_once)
    own = ROOT / "crates" / CRATE
    how = {"cwd": own, "stdout": subprocess.PIPE, "stderr": subprocess.STDOUT, "text": True}
    process = subprocess.run([sys.executable, os.path.realpath(__file__), "lib"], **how)
    if process.returncode:
        build.stop(CRATE, process.returncode, process.stdout)
    return own / "out" / f"lib{CRATE}.a"


def build_in_gate(rt):
    """Changes the kit's module, here alone, so that `rt ci` also builds a static library, which it only proves: as a
    program, it is compiled from what that check proved, and what was built is kept for the next run."""
    prove, made, is_whole = rt.Crate.ci, rt.Kept.made, rt.Kept.is_whole
    own = [ARCHIVE.name, MODULE.name]

    def ci(crate, flags, tests):
        if tests or not crate.is_static:
            return prove(crate, flags, tests)
        words = crate.words(flags, keeps=False)
        with tempfile.TemporaryDirectory(prefix="proved-") as room:
            status = crate.prove(["check", *words, "-o", f"{room}/checked"])
            for flag in ("--logic-built", "--jobs"):
                at = words.index(flag)
                words[at : at + 2] = []
            toolchain = kit.keeping_toolchain(f"{crate.folder}/out/{own[1]}", room)
            words += ["--crate-checked", f"{room}/checked", "--toolchain", toolchain, "--backend", "llvm"]
            return status or crate.call(rt.rtlib.RATTLE, "build", *words, "-o", f"out/{own[0]}")

    def built(crate):
        return [it for it in own if os.path.isfile(f"{crate.folder}/out/{it}")]

    rt.Crate.ci = ci
    rt.Kept.made = (
        lambda kept, crate, tests: built(crate) if crate.is_static and not tests else made(kept, crate, tests)
    )
    rt.Kept.is_whole = lambda kept, crate, tests, files: (
        files == own if crate.is_static and not tests else is_whole(kept, crate, tests, files)
    )


def join(made, folder, *more):
    """Makes both libraries of an archive, or an object, of the crate; `more` are archives that it needs."""
    heap = [Path(kit.folder()) / "c" / it for it in ("liblibc_c.a", *more)]
    shutil.rmtree(folder, ignore_errors=True)
    folder.mkdir(parents=True)
    with tempfile.TemporaryDirectory(prefix="library-") as room:
        whole, script = Path(room) / "rv.o", Path(room) / "rv.map"
        tool("ld", "-r", "--whole-archive", made, "--no-whole-archive", *heap, "-o", whole)
        tool("objcopy", "--wildcard", "--keep-global-symbol=rv_*", whole)
        tool("ar", "rcsD", folder / "librv.a", whole)
        script.write_text(VERSION_SCRIPT)
        shared = folder / f"librv.so.{VERSION}"
        words = ["-shared", f"-Wl,-soname,{SONAME}", f"-Wl,--version-script={script}", "-Wl,-z,defs", "-Wl,-z,now"]
        tool(os.environ.get("CC", "cc"), *words, "-Wl,-z,relro", "-Wl,--gc-sections", "-o", shared, whole)
    (folder / SONAME).symlink_to(shared.name)
    (folder / "librv.so").symlink_to(SONAME)


def main(*words):
    if words[0] == "lib":
        with tempfile.TemporaryDirectory(prefix="library-") as room:
            return kit.run(["lib"], kit.keeping(MODULE, room))
    folder = Path(words[-1])
    if words[0] == "--quick":
        with tempfile.TemporaryDirectory(prefix="quick-") as room:
            # (a program needs more of the system than the library does)
            join(quick.library(CRATE, room), folder, "libos_c.a")
        print(f"{folder}: NOT PROVED", flush=True)
        return 0
    join(proved(), folder)
    return 0


if __name__ == "__main__":
    sys.exit(main(*sys.argv[1:]))
