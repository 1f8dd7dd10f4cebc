#!/usr/bin/env python3
"""Tests that each list of modules says in a line what each of them is: the first sentence of the module's own head.

A list is a Lib.antt, or the file of a folder of modules, whose own head stands first and says what the folder is.
--write writes the lines anew, in the order in which the modules stand. Lists what differs, and the modules without a
head; the last line is 'N passed, M failed'.
"""

import re
import sys
from pathlib import Path

TOP = Path(__file__).resolve().parent.parent
MODULE = re.compile(r"(?:pub )?mod (\w+)$")
WIDTH = 120


def head(path):
    """The first sentence of the comment at a file's head, as one line of a comment."""
    if not path.exists():
        return None
    comment = re.match(r"(?:--.*\n)*", path.read_text(encoding="utf-8"))[0]
    words = " ".join(line.removeprefix("--").strip() for line in comment.splitlines()).split()
    # (the sections of standards stand in the module itself)
    sentence = re.sub(r" \([^()]*\)", "", re.split(r"(?<=\.) ", " ".join(words))[0]).rstrip(".:;")
    while len(sentence) > WIDTH - len("-- ."):
        sentence = sentence[: max(sentence.rfind(mark) for mark in ":;,")] if re.search("[:;,]", sentence) else ""
    return f"-- {sentence}." if sentence else None


def folder(listing):
    """Where the modules of a list stand."""
    return listing.parent if listing.name == "Lib.antt" else listing.with_suffix("")


def told(listing, text):
    """The lines that a list should have: before each module what it is; others, and a folder's head, as they are."""
    own, blank, rest = ("", "", text) if listing.name == "Lib.antt" else text.partition("\n\n")
    yield own + blank
    for line in rest.splitlines(keepends=True):
        found = MODULE.match(line)
        what = found and head(folder(listing) / f"{found[1]}.antt")
        if what:
            yield f"{what}\n"
        if found or not line.startswith("--"):
            yield line


def headless(listing, text):
    """The modules of a list whose file says nothing of them."""
    names = [found[1] for found in map(MODULE.match, text.splitlines()) if found]
    return [name for name in names if not head(folder(listing) / f"{name}.antt")]


def listings():
    """The files that list modules, with their text."""
    for path in sorted((TOP / "crates").glob("*/*/**/*.antt")):
        text = path.read_text(encoding="utf-8")
        if path.name == "Lib.antt" or (
            path.with_suffix("").is_dir() and re.search(r"^(pub )?mod \w+$", text, re.MULTILINE)
        ):
            yield path, text


def main():
    failed = passed = 0
    for listing, text in listings():
        written = "".join(told(listing, text))
        if "--write" in sys.argv:
            listing.write_text(written, encoding="utf-8")
            text = written
        faults = [f"{name} has no head" for name in headless(listing, text)]
        if written != text:
            faults.append("scripts/lib_lines.py --write says other lines")
        passed, failed = passed + (not faults), failed + bool(faults)
        for fault in faults:
            print(f"{listing.relative_to(TOP)}: {fault}")
    print(f"{passed} passed, {failed} failed")
    sys.exit(failed > 0)


if __name__ == "__main__":
    main()
