#!/usr/bin/env python3
"""Tests that each crate names what its storey may name, and something of each crate that crates.txt lists for it.

crates.txt has three lists, each below its heading: '# definitions', '# theorems', '# code'; a line '# types: ..' names
the crates of definitions whose types have tables beside them. Definitions name definitions. Theorems name definitions
and theorems. Code names definitions and code; of theorems it calls laws and names their statements, and no proofs.
Among definitions and theorems nothing runs but the tables beside types: a body calls laws alone.

Lists each line that breaks the rule; the last line is 'N passed, M failed', where a crate with such a line has failed.
"""

import re
import sys
from pathlib import Path

TOP = Path(__file__).resolve().parent.parent
NAMED = re.compile(r"^[ ]*(?:pub |ghost |unfoldable )*use (?:Rattle\.)?(rv_\w+)(?:\.(specs|proofs)|::).*$", re.M)
RUNS = re.compile(
    r"^ *(?:pub(?:\(\w+\))? )?fn (\w+)(?:(?!^ *(?:pub )?fn ).*\n)*?( *)\{\n(?! *(?:\w+\(\);\n *)*\2\})", re.M
)
MAY = {
    ("definitions", "definitions"),
    ("theorems", "definitions"),
    ("theorems", "theorems"),
    ("code", "definitions"),
    ("code", "code"),
    ("code", "theorems", None),
    ("code", "theorems", "specs"),
}


def storeys():
    """The storey of each crate, the crates that it stands on, and the crates of types."""
    storey, below, types, heading = {}, {}, set(), None
    for line in (TOP / "crates.txt").read_text(encoding="utf-8").splitlines():
        heading = next((word for word in ("definitions", "theorems", "code") if line.startswith(f"# {word}")), heading)
        types |= set(re.findall(r"rv_\w+", line)) if line.startswith("# types:") else set()
        for name, listed in re.findall(r"^(rv_\w+).*?:(.*)", line):
            storey[name], below[name] = heading, listed.split()
    return storey, below, types


def faults(crate, text, storey, runs):
    """What a file of a crate names that it may not, and what runs in it and may not: where, and how it is said."""
    for found in NAMED.finditer(text):
        pair = storey[crate], storey.get(found[1])
        if found[1] in storey and found[1] != crate and not MAY & {pair, (*pair, found[2])}:
            yield found.start(), f"{pair[0]} name {pair[1]}: {found[0].strip()}"
    for found in RUNS.finditer(text) if runs else ():
        yield found.start(), f"among {storey[crate]} runs {found[1]}"


def main():
    storey, below, types = storeys()
    failed = 0
    for crate in storey:
        broken, named = [], set()
        for path in sorted(
            p for part in ("src", "specs", "proofs") for p in (TOP / "crates" / crate / part).rglob("*.*t*")
        ):
            text = re.sub(r"//.*", "", path.read_text(encoding="utf-8"))
            named |= {*re.findall(r"\w+", text)}
            runs = path.suffix == ".rt" and storey[crate] != "code" and crate not in types
            for place, fault in faults(crate, text, storey, runs):
                broken.append(f"{path.relative_to(TOP)}:{text.count(chr(10), 0, place) + 1}: {fault}")
        broken += [f"crates.txt: {crate} names nothing of {it}" for it in below[crate] if it not in named]
        failed += bool(broken)
        print(*broken, sep="\n", end="\n" if broken else "")
    print(f"{len(storey) - failed} passed, {failed} failed")
    sys.exit(failed > 0)


if __name__ == "__main__":
    main()
