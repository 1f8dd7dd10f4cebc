#!/usr/bin/env python3
"""Copies a program that was built, with the words in it by which `rv --version` says what it is.

usage: marks.py BUILT PROGRAM

A program that `rt` builds is proved, and is marked so; quick.py marks its own. The words are written over those that
the source has in their place, as many bytes, so the program stays what it was but for them.
"""

import os
import shutil
import subprocess
import sys
from pathlib import Path

ROOT = Path(__file__).resolve().parent.parent
UNMARKED = b"(not marked, commit not recorded)"
PROVED, UNPROVED = "all proved", "not proved"


def git(*words):
    """What git says of the repository, if it is one and git is there."""
    if not shutil.which("git") or not (ROOT / ".git").exists():
        return ""
    return subprocess.run(["git", *words], cwd=ROOT, capture_output=True, text=True).stdout.strip()


def commit():
    """Twelve letters for the commit of the sources, the last a + where they have changed since."""
    name = git("rev-parse", "HEAD") or "not recorded"
    return f"{name[:11]}+" if git("status", "--porcelain", "crates", "crates.txt") else name[:12]


def mark(built, program, kind=PROVED):
    """Copies what was built to `program`, with its mark, and sees that it says so itself."""
    held = Path(built).read_bytes()
    words = f"({kind}, commit {commit()})"
    if held.count(UNMARKED) != 1 or len(words) != len(UNMARKED):
        sys.exit(f"{built}: there is not one place for the mark {words}")
    program = Path(program).absolute()
    program.parent.mkdir(parents=True, exist_ok=True)
    program.unlink(missing_ok=True)
    program.write_bytes(held.replace(UNMARKED, words.encode()))
    os.chmod(program, 0o755)
    version = subprocess.run([program, "--version"], capture_output=True, text=True).stdout
    if words not in version:
        program.unlink()
        sys.exit(f"{built}: with its mark, --version says {version!r}, and not {words}")


if __name__ == "__main__":
    mark(*sys.argv[1:])
