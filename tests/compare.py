#!/usr/bin/env python3
"""Runs a comparison of rv with other tools, or with random or damaged files: a module of tests/against.

usage: compare.py                   lists the comparisons
       compare.py NAME --help       what it compares, which words it takes and which tools it needs
       compare.py NAME [WORD ..]    runs it; the status is 0 where nothing differs

They take minutes and tools that are not installed everywhere, so `make check` runs none of them.
"""

import ast
import importlib
import sys
from pathlib import Path

FOLDER = Path(__file__).resolve().parent / "against"


def documents():
    """What each comparison says of itself, by its name."""
    for path in sorted(FOLDER.glob("*.py")):
        document = ast.get_docstring(ast.parse(path.read_text(encoding="utf-8")))
        if path.stem not in ("__init__", "common"):
            yield path.stem, document


def main(words):
    known = dict(documents())
    if not words:
        print("\n".join(f"{name:17} {document.splitlines()[0]}" for name, document in known.items()))
        return 0
    name = words[0]
    if name in ("-h", "--help"):
        print(__doc__)
        return 0
    if name not in known:
        sys.exit(f"no comparison {name}: compare.py lists them")
    if words[1:] in (["-h"], ["--help"]):
        print(known[name])
        return 0
    sys.argv = [f"compare.py {name}", *words[1:]]
    return importlib.import_module(f"against.{name}").main()


if __name__ == "__main__":
    sys.exit(main(sys.argv[1:]))
