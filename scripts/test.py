#!/usr/bin/env python3
"""The whole gate: make test.

First `rt ci` (ci.py), with what each crate cost (gate_times.py): every proof from nothing, the wrong bodies that must
be refused, the tests of the library. Then, over the programs and the library that it built, the cases of tests/, the
programs in other languages that call the library, and each request for memory refused; and the links of the
documents, where want of memory is made, that a word of the definitions leads to one thing, what each storey names,
which lemmas stand twice, and that the list of definitions and the lines on modules are today's. The last lines name
each script where something failed, with what it wrote of that, say what the proofs took, and sum all up as 'N passed,
M failed'; the exit status is 0 if nothing failed.
"""

import re
import shutil
import subprocess
import sys
from pathlib import Path

import gate_times
import library
import marks

ROOT = Path(__file__).resolve().parent.parent
# Where `make` looks for the program that it made.
PROVED = ROOT / "out/proved/rv"
OF_PROGRAMS = [
    ["tests/run.py"],
    ["tests/agreeing.py"],
    ["tests/collected.py"],
    ["tests/debugged.py"],
    ["tests/damaged.py", "--all"],
    ["tests/explained.py"],
    ["tests/documents.py", "--all"],
    ["scripts/pictures.py", "--check"],
    ["tests/shells.py"],
    ["tests/terminal.py"],
    ["tests/streams.py"],
    ["tests/editors.py"],
    ["tests/gdb.py"],
    ["tests/carried.py"],
    ["tests/making.py"],
    ["tests/page.py"],
    ["tests/refused.py"],
]
OF_LIBRARY = [["tests/library.py", "out/library"]]
OF_FILES = [
    ["scripts/links.py"],
    ["scripts/want_of_memory.py"],
    ["scripts/definitions.py"],
    ["scripts/storeys.py"],
    ["scripts/copies.py"],
    ["scripts/lib_lines.py"],
    ["scripts/trusted.py", "--check"],
]


def counts(line):
    """The numbers of a line 'N passed, M failed'; one failure where it is none."""
    found = re.match(r"(\d+) passed, (\d+) failed", line)
    return (int(found[1]), int(found[2])) if found else (0, 1)


# How many of the lines that a script wrote stand at the end once more, where something failed.
SHOWN_AGAIN = 20


def outcome(words, status, lines):
    """The numbers of the last line, and what stands at the end of the whole: nothing unless something failed."""
    passed, failed = counts(lines[-1].strip() if lines else "")
    failed = failed or int(status != 0)
    again = [f"== {' '.join(words)}", *(it.rstrip("\n") for it in lines[-SHOWN_AGAIN:])] if failed else []
    return passed, failed, again


def result(words):
    """Runs a script of the repository, shows what it writes, and gives its outcome."""
    process = subprocess.run([sys.executable, *words], cwd=ROOT, stdout=subprocess.PIPE, text=True)
    print(f"== {words[0]}\n{process.stdout}", end="", flush=True)
    return outcome(words, process.returncode, process.stdout.splitlines())


def copy(built, program, by=shutil.copy):
    """Copies a program that was built; without one, none of an earlier run stays."""
    program.unlink(missing_ok=True)
    if built.exists():
        by(built, program)


def main():
    status, lines = gate_times.measured([sys.executable, "scripts/ci.py"])
    outcomes = [outcome(["rt", "ci"], status, lines)]
    copy(ROOT / "crates/rv_cli/out/rv_cli", PROVED, marks.mark)
    copy(PROVED, ROOT / "rv")
    copy(ROOT / "crates/rv_refusal_tests/out/rv_refusal_tests", ROOT / "rv_refusal_tests")
    scripts = [*(OF_PROGRAMS if (ROOT / "rv").exists() else []), *OF_FILES]
    shutil.rmtree(library.FOLDER, ignore_errors=True)
    if library.ARCHIVE.exists():
        library.join(library.ARCHIVE, library.FOLDER)
        scripts += OF_LIBRARY
    outcomes += [result(words) for words in scripts]
    print(*(line for *_, again in outcomes for line in again), "", gate_times.spent(), sep="\n")
    passed, failed = (sum(it[at] for it in outcomes) for at in (0, 1))
    print(f"\n{passed} passed, {failed} failed", flush=True)
    return 1 if failed else 0


if __name__ == "__main__":
    sys.exit(main())
