#!/usr/bin/env python3
"""Makes the page on which `rv` runs in a browser: plain files, for any web server.

usage: page.py --code FILE      compiles the library for WebAssembly, and writes what it is made of beside it
       page.py FOLDER FILE      makes the page with this code

The code is the module of the library (library.py), compiled for another target: that of the proved build where there is
one of today's sources, else one that is made in minutes with nothing proved. The page says which. The rest comes from
web/, with the words of the language (language.py) and the examples and lessons of the repository.
"""

import gzip
import json
import re
import shutil
import subprocess
import sys
import tempfile
from pathlib import Path

import kit
import language
import library
import marks
import quick

ROOT = Path(kit.ROOT)
WEB = ROOT / "web"
HEADER = ROOT / "include/rv.h"
# The page's own room is made by these.
ROOM = ["page_take", "page_give"]
EXAMPLES = ["hello.s", "sum.s", "number.s", "exit7.s", "streams/cat.s"]
LESSONS = ["tour.md", "test.md", "gdb.md"]
# The page with all that it loads, packed as servers send it.
MOST_PACKED = 400_000


def is_proved():
    """Whether the library is proved and built of today's sources."""
    words = ["make", "--question", "--no-print-directory", str(library.FOLDER.relative_to(ROOT) / "librv.a")]
    made = subprocess.run(words, cwd=ROOT, stdout=subprocess.DEVNULL, stderr=subprocess.DEVNULL)
    return made.returncode == 0 and library.MODULE.exists()


def module(room):
    """The module of the library, and what is to be said of it."""
    if is_proved():
        return library.MODULE, marks.PROVED
    return quick.library_module(library.CRATE, room), marks.UNPROVED


def exports():
    """The functions of the header."""
    return re.findall(r"^uint32_t (rv_\w+)\(", HEADER.read_text(), re.M) + ROOM


def first_comment(text):
    """What the first line of a program says of it."""
    found = re.match(r"# (.*)", text)
    return found[1] if found else ""


def examples():
    """The programs of examples/, and those in the pages of the manual, each with the lines of its head."""
    found = []
    for name in EXAMPLES:
        text = (ROOT / "examples" / name).read_text()
        found.append({"group": "Examples", "name": Path(name).name, "text": text, "about": first_comment(text)})
    for page in LESSONS:
        text = (ROOT / "docs/manual" / page).read_text()
        title = re.match(r"# (.*)", text)[1].replace("`", "")
        for at, program in enumerate(re.findall(r"^```asm\n(.*?)^```", text, re.M | re.S)):
            if "_start:" in program:
                name = f"{page[:-3]}{at or ''}.s"
                found.append({"group": "Lessons", "name": name, "text": program, "about": f"The manual: {title}"})
    for path in sorted((WEB / "lessons").glob("*.s")):
        text = path.read_text()
        found.append({"group": "Exercises", "name": path.name, "text": text, "about": first_comment(text)})
    return found


def write(file, value):
    file.write_text(json.dumps(value, separators=(",", ":"), ensure_ascii=False))


def packed(folder):
    """The bytes of all files as servers send them."""
    return sum(len(gzip.compress(it.read_bytes(), 9)) for it in folder.rglob("*") if it.is_file())


def compile_code(file):
    """Makes the code, with the facts beside it."""
    file.parent.mkdir(parents=True, exist_ok=True)
    with tempfile.TemporaryDirectory(prefix="page-") as room:
        made, kind = module(room)
        with quick.step("3 of 3  compiles it for WebAssembly", 60):
            kit.wasm(str(made), room, sorted(map(str, (WEB / "wasm").glob("*.c"))), exports(), str(file))
    write(file.with_suffix(".json"), {"kind": kind, "commit": marks.commit(), "version": library.VERSION})


def make_page(folder, code):
    """Makes the folder of the page; whether it is small enough."""
    shutil.rmtree(folder, ignore_errors=True)
    shutil.copytree(WEB, folder, ignore=shutil.ignore_patterns("wasm", "lessons"))
    shutil.copy(code, folder / "rv.wasm")
    (folder / "data").mkdir()
    write(folder / "data/language.json", language.language())
    write(folder / "data/examples.json", examples())
    facts = json.loads(code.with_suffix(".json").read_text())
    # (the last of all, by whose time `make` knows that the page is there)
    write(folder / "data/facts.json", facts)
    size = packed(folder)
    print(f"{folder}: {facts['kind']}, {size:,} bytes packed", flush=True)
    return size <= MOST_PACKED


def main(*words):
    if words[0] == "--code":
        compile_code(Path(words[1]).resolve())
        return 0
    folder, code = (Path(it).resolve() for it in words)
    return 0 if make_page(folder, code) else 1


if __name__ == "__main__":
    sys.exit(main(*sys.argv[1:]))
