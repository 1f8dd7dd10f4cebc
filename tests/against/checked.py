"""Damages sources and compares what `./rv check` says of them with `./rv build`.

usage: compare.py checked COUNT [SEED]

One source or two are drawn from tests/ and examples/, each changed at up to four places: a byte, a line of another
source, a cut, a target. `check` and `build` must end with the same status, the first line of a check must be the fault
of the build, and no check may take more than 2 seconds. Source N of a seed is the same in each run. Standard library
alone; the last line is 'N passed, M failed'.
"""

import random
import sys
import tempfile
import time
from pathlib import Path

from against.common import ROOT, RV, completed

LONGEST, SECONDS = 20_000, 2
BYTES = b'\n\t ,()+-%.:abcx0159"#;\xff\x00'
TARGETS = [b"1f+1", b"1f+0x100000", b"g", b"1b"]


def sources():
    """The sources of the repository, in an order that does not change."""
    paths = sorted(path for folder in ("tests", "examples") for path in (ROOT / folder).rglob("*.s"))
    return [text for text in (path.read_bytes() for path in paths) if len(text) < LONGEST]


def damaged(draw, texts, lines):
    """A source with up to four changes."""
    text = bytearray(draw.choice(texts))
    for _ in range(draw.randint(0, 4)):
        place, change = draw.randrange(len(text) + 1), draw.randint(0, 4)
        if change == 0:
            text[place : place + 1] = bytes([draw.choice(BYTES)])
        elif change == 1:
            text[place:place] = draw.choice(lines) + b"\n"
        elif change == 2:
            del text[place : place + draw.randint(1, 30)]
        elif change == 3:
            text = text.replace(b"1f", draw.choice(TARGETS), 1)
        else:
            text[:0] = b".globl _start\n_start:\n"
    return bytes(text)


def fault(folder, names):
    """What differs between a check and a build of sources, if anything."""
    begun = time.monotonic()
    check = completed([RV, "check", *names], cwd=folder)
    if check is None or time.monotonic() - begun > SECONDS:
        return "a check of over 2 seconds"
    build = completed([RV, "build", "-o", "exe", *names], cwd=folder)
    if build is None:
        return "a build of over a minute"
    if check.returncode != build.returncode:
        return f"status {check.returncode} and {build.returncode}"
    first = (check.stdout + check.stderr).split(b"\n")[0]
    wanted = build.stderr.split(b"\n")[0].removeprefix(b"rv: ")
    return f"{first} and {wanted}" if build.returncode and first != wanted else None


def main():
    if not 2 <= len(sys.argv) <= 3:
        sys.exit(__doc__)
    count, draw = int(sys.argv[1]), random.Random(sys.argv[2] if len(sys.argv) > 2 else "1")
    texts = sources()
    lines = sorted({line for text in texts for line in text.split(b"\n")})
    failed = 0
    with tempfile.TemporaryDirectory() as folder:
        for number in range(count):
            names = ["a.s", "b.s"][: draw.choice([1, 1, 1, 2])]
            for name in names:
                Path(folder, name).write_bytes(damaged(draw, texts, lines))
            differs = fault(folder, names)
            if differs is not None:
                failed += 1
                print(f"{number}: {differs}", flush=True)
    print(f"{count - failed} passed, {failed} failed")
    return int(failed > 0)
