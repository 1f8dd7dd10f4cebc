#!/usr/bin/env python3
"""Runs the commands of the documents over ./rv, and compares what they print with the page.

usage: documents.py [--all]     with those that prove a crate, which take a minute of a processor

A block ```sh has commands behind `$`, each with what it prints to both streams; where a page shows nothing, the command
may print anything, but has to succeed. One shell runs a block. One below `<!-- needs THING ..` is passed over where
there is no such program or file. A block ```asm is the file that the line before it names last, as `digits.s`. The
commands of a page share a folder, in which `rv`, `examples`, `tests` and `crates` are those of the repository, and `P`
is where it was installed; but those of a block below `<!-- in crates/NAME` are run in a copy of that crate, which uses
no other. Standard library alone; the last line is 'N passed, M failed'.
"""

import os
import re
import shutil
import subprocess
import sys
import tempfile
from pathlib import Path

ROOT = Path(__file__).resolve().parent.parent
PAGES = [ROOT / it for it in ("README.md", "CONTRIBUTING.md", "tests/README.md", "examples/README.md")]
PAGES += [ROOT / "examples/board/README.md", ROOT / "docs/CHANGING.md", *sorted(ROOT.glob("docs/manual/*.md"))]
BLOCK = re.compile(r"(?m)^```(sh|asm)\n((?:(?!```).*\n)*)```$")
COMMAND = re.compile(r"(?m)^\$ (.*)\n((?:(?!\$ ).*\n)*)")
# The most that a block may take.
SECONDS = 600
# Stands before and behind the status of a command.
MARK = "\x1e"
# What a page's folder has of the repository.
LINKS = {it: it for it in ("rv", "examples", "tests", "crates")}
LINKS |= {"P/bin/rv": "rv", "P/libexec/rv/as": "scripts/as.sh"}


def is_there(needed):
    """Whether the machine has all that a block needs."""
    return all(shutil.which(it) or os.path.exists(it) for it in needed[1].split()) if needed else True


def blocks(text):
    """The kind of each block for which the machine has what it needs, its text, and the line before it."""
    found = [*BLOCK.finditer(text)]
    if len(found) != len(re.findall(r"(?m)^ *```(?:sh|asm)", text)):
        sys.exit("a block is indented or has no end")
    for block in found:
        before = text[: block.start()].rstrip().rpartition("\n")[2]
        if is_there(re.match(r"<!-- needs (.*) -->", before)):
            yield block[1], block[2], before


def copy_of(crate, folder):
    """The folder of a copy of a crate, the one of a repository that is made in a page's folder."""
    copy = Path(folder, "copy", crate)
    if not copy.exists():
        shutil.copytree(ROOT / crate, copy, ignore=shutil.ignore_patterns("out"))
        shutil.copy(ROOT / "HANDLES", f"{folder}/copy")
        Path(folder, "copy/crates.txt").write_text(f"{copy.name}:\n")
    return copy


def ran(commands, folder, at):
    """What each command of a block prints to both streams, and its status; `rv` is that of a page's folder."""
    words = {**os.environ, "PATH": f"{folder}:{os.environ['PATH']}", "LC_ALL": "C"}
    done = subprocess.run(
        ["sh", "-c", "".join(f"{it}\nprintf '{MARK}%s{MARK}' $?\n" for it in commands)],
        cwd=at,
        env=words,
        stdin=subprocess.DEVNULL,
        stdout=subprocess.PIPE,
        stderr=subprocess.STDOUT,
        text=True,
        timeout=SECONDS,
    )
    pieces = [*done.stdout.split(MARK), *(2 * len(commands) * ["none"])]
    for came, status in zip(pieces[: 2 * len(commands) : 2], pieces[1::2]):
        yield came.removesuffix("\n") + "\n" * bool(came), status


def faults(page, folder, is_all):
    """Each command of a page, with what is wrong with it, or nothing."""
    for name, target in LINKS.items():
        Path(folder, name).parent.mkdir(parents=True, exist_ok=True)
        os.symlink(ROOT / target, f"{folder}/{name}")
    for kind, block, before in blocks(page.read_text()):
        if kind == "asm":
            Path(folder, re.findall(r"`(\w+\.s)`", before)[-1]).write_text(block)
            continue
        crate = re.match(r"<!-- in (\S+)", before)
        if crate and not is_all:
            continue
        rows = COMMAND.findall(block)
        at = copy_of(crate[1], folder) if crate else folder
        for (command, wanted), (came, status) in zip(rows, ran([it[0] for it in rows], folder, at)):
            is_right = came == wanted if wanted else status == "0"
            yield "" if is_right else f"{command}\n  wanted {wanted!r}\n  came   {came!r}, status {status}"


def main(words):
    if words not in ([], ["--all"]):
        sys.exit(__doc__)
    passed = failed = 0
    for page in PAGES:
        with tempfile.TemporaryDirectory() as folder:
            for fault in faults(page, folder, bool(words)):
                passed += not fault
                failed += bool(fault)
                if fault:
                    print(f"{page.relative_to(ROOT)}: {fault}")
    print(f"{passed} passed, {failed or int(not passed)} failed")
    return int(failed or not passed)


if __name__ == "__main__":
    sys.exit(main(sys.argv[1:]))
