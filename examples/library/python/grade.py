#!/usr/bin/env python3
"""Grades answers to an exercise: a source has to exit with the sum of the numbers from 1 to 4, in 100 instructions.

usage: grade.py SOURCE ..

Prints a line for each source: what it comes to, or its first fault, and then its warnings.
"""

import sys
from pathlib import Path

import rv

WANTED, LIMIT = 10, 100


def grade(source: bytes, name: str) -> str:
    """What a source comes to."""
    try:
        executable = rv.build(source).executable
    except rv.Fault:
        first = rv.check(source, names=[name])[0]
        return f"line {first.line}: {first.message}"
    run = rv.run(executable, limit=LIMIT)
    if run.end.kind is not rv.EndKind.EXITED:
        return f"does not exit: {run.end.kind.name} after {run.count} instructions"
    return f"right, in {run.count} instructions" if run.end.code == WANTED else f"exits with {run.end.code}"


def main(*names: str) -> None:
    for name in names:
        print(f"{name}: {grade(Path(name).read_bytes(), name)}")


if __name__ == "__main__":
    main(*sys.argv[1:])
