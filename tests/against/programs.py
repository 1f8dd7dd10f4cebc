"""Draws random C programs, and compares what rv and GNU's tools with qemu make of GCC's assembly of each.

usage: compare.py programs [--first SEED] [--count N] [--jobs N] [--limit N] [--keep FOLDER] [--rv RV]

It takes 500 programs from seed 1 on unless told otherwise.
csmith draws a program from its seed alone. GCC writes it as assembly in each of five ways;
every second program has its start and its printing in a source of their own. rv builds the sources and runs the
program, GNU as and ld and qemu-riscv64 do the same, and the console and the status are compared.

Each program ends as one of:
  same       in both
  differs    its files are kept in FOLDER, which is a new one unless said, and a line says which
  refused    by rv, with the code of its fault and the first word of its line; those that the language does not leave
             out are kept too
  past end   rv stops at a load that begins in a region and ends past it: GCC reads an aligned object's last bytes
             in one piece with those behind it, and qemu has rights by the page
  too long   over --limit instructions in rv, and 100 times as many where qemu ends within 2 seconds
  none       csmith, GCC or GNU's tools make no program

The last line is 'differs=0' where no program differs, and only then the status is 0.
"""

import tempfile
from collections import Counter
from concurrent.futures import ThreadPoolExecutor
from pathlib import Path

from against.common import (
    GNU,
    LEFT_OUT,
    QEMU,
    assemblies,
    completed,
    csmith_options,
    draw,
    gnu_link,
    is_limit,
    is_past_end,
    keep,
    need,
    outcome,
    refusal,
    run_by_qemu,
    run_by_rv,
    summary,
)

# GCC writes variables that begin as zero with .comm at -O0, which rv refuses, but not in sections of their own.
WAYS = ["-O0", "-O0 -fdata-sections", "-O1", "-O2", "-Os"]


def compare(folder, sources, options):
    """How a program ends."""
    build = completed([options.rv, "build", "-o", folder / "ours", "--map", folder / "map", *sources])
    if build is None:
        return "differs"
    if build.returncode != 0:
        return refusal(build)
    ours = None
    for times in (1, 100):
        ours = run_by_rv(options, folder / "ours", times)
        if ours is not None and not is_limit(ours):
            break
        if run_by_qemu(folder / "theirs", 2) is None:
            return "too long"
    if ours is None or is_limit(ours):
        return "too long"
    if is_past_end(folder, ours):
        return "past end"
    return "same" if outcome(run_by_qemu(folder / "theirs")) == outcome(ours) else "differs"


def program(seed, options):
    """How the program of a seed ends, for each way."""
    with tempfile.TemporaryDirectory() as name:
        folder = Path(name)
        if not draw(folder, seed):
            return [(way, "none") for way in WAYS]
        ends = []
        for way in WAYS:
            sources = assemblies(folder, way, seed % 2 == 1)
            usable = sources is not None and gnu_link(folder, sources)
            end = compare(folder, sources, options) if usable else "none"
            if end == "none":
                print(f"{seed} {way}: none", flush=True)
            if end == "differs" or (end.startswith("refused") and end not in LEFT_OUT):
                keep(folder, seed, way, end, options)
            ends.append((way, end))
        return ends


def main():
    options = csmith_options(__doc__, 500)
    need(options.rv, "csmith", QEMU, *(f"{GNU}{tool}" for tool in ("gcc", "as", "ld")))
    counts = Counter()
    seeds = range(options.first, options.first + options.count)
    with ThreadPoolExecutor(options.jobs) as lanes:
        for ends in lanes.map(lambda seed: program(seed, options), seeds):
            counts.update(ends)
    return summary(counts, WAYS)
