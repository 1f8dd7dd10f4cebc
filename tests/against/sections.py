"""Compares which sections of random C programs rv and GNU ld leave out with --gc-sections.

usage: compare.py sections [--first SEED] [--count N] [--jobs N] [--limit N] [--keep FOLDER] [--rv RV]

It takes 200 programs that csmith draws from seed 1 on, unless told otherwise. GCC writes each at four levels, each
function and each variable in a section of its own, and the start and the printing in a source apart. Of the same
objects of GNU as, `rv ld --gc-sections` and GNU ld with `--gc-sections -e _start` make programs; so does `rv build
--gc-sections` of the sources. Each program ends as one of:

  same       rv leaves out the sections that GNU ld names, but for those without bytes, which that does not name, and
             all three programs end as the whole one does
  differs    it does not, or a run ends in another way: the files are kept in FOLDER, and a line says which sections
  refused    by rv, with the code of its fault
  too long   a run does not end in time
  none       csmith, GCC or GNU's tools make no program

Below the counts stand the bytes of text that are left of all programs, by rv and by GNU ld, which shortens addresses by
`gp` as well, and the sections that one of the two keeps alone, by their names' first part. The last line is 'differs=0'
where nothing differs, and only then the status is 0.
"""

import re
import tempfile
from collections import Counter
from concurrent.futures import ThreadPoolExecutor
from pathlib import Path

from against.common import (
    GNU,
    QEMU,
    assemblies,
    completed,
    csmith_options,
    draw,
    gnu_link,
    is_limit,
    is_past_end,
    keep,
    need,
    outcome,
    refusal,
    run_by_qemu,
    run_by_rv,
    summary,
)

LEVELS = ["-O0", "-O1", "-O2", "-Os"]
APART = "-ffunction-sections -fdata-sections -fno-asynchronous-unwind-tables -fno-ipa-icf"
ALLOC, EXEC = "A", "X"


def headers(path):
    """The section headers of a file: name, type, size and flags."""
    shown = completed([f"{GNU}readelf", "-S", "-W", path]).stdout.decode()
    return re.findall(r"^ *\[ *\d+\] (\S*) +(\S+) +[0-9a-f]+ [0-9a-f]+ ([0-9a-f]+) [0-9a-f]+ +([A-Z]*)", shown, re.M)


def sections(path):
    """The sections of an object that have an address, by their number among those that rv keeps: name and size."""
    kept = [row for row in headers(path) if row[1] in ("PROGBITS", "NOBITS", "NOTE")]
    return {number: (name, int(size, 16)) for number, (name, _, size, flags) in enumerate(kept, 1) if ALLOC in flags}


def left_out(folder, objects):
    """The sections with bytes that a map of rv leaves out: file and name."""
    inside = [sections(path) for path in objects]
    lines = re.findall(r"^drop (\d+) (\d+)$", (folder / "map").read_text(), re.M)
    found = [(objects[int(file) - 1].name, *inside[int(file) - 1][int(number)]) for file, number in lines]
    return {(file, name) for file, name, size in found if size}


def left_out_by_gnu(folder, objects):
    """The same of GNU ld; none where it makes no program."""
    words = [f"{GNU}ld", "--no-warn-rwx-segments", "--gc-sections", "-e", "_start", "--print-gc-sections"]
    link = completed([*words, "-o", folder / "theirs", *objects])
    if link is None or link.returncode != 0:
        return None
    message = (link.stdout + link.stderr).decode()
    return {
        (Path(path).name, name) for name, path in re.findall(r"removing unused section '(.*)' in file '(.*)'", message)
    }


def text_bytes(path):
    """The bytes of a program's code: those of its sections, or, as rv writes none, of its executable segments."""
    code = sum(int(size, 16) for _, _, size, flags in headers(path) if EXEC in flags)
    shown = completed([f"{GNU}readelf", "-l", "-W", path]).stdout.decode()
    return code or sum(int(size, 16) for size in re.findall(r"LOAD +\S+ \S+ \S+ (\S+) \S+ [RW ]*E", shown))


def compared(folder, sources, options, sizes, alone):
    """How a program ends."""
    objects = [source.with_suffix(".o") for source in sources]
    if not gnu_link(folder, sources):
        return "none"
    wanted = run_by_qemu(folder / "theirs", 20)
    theirs = left_out_by_gnu(folder, objects)
    if wanted is None:
        return "too long"
    if theirs is None:
        return "none"
    words = ["--gc-sections", "--map", folder / "map", "-o"]
    for command, files in (("build", sources), ("ld", objects)):
        process = completed([options.rv, command, *words, folder / command, *files])
        if process is None or process.returncode != 0:
            return refusal(process) if process else "differs"
        run = run_by_rv(options, folder / command)
        if run is None or is_limit(run):
            return "too long"
        if is_past_end(folder, run):
            return "past end"
        if outcome(run) != outcome(wanted):
            return "differs"
    if outcome(run_by_qemu(folder / "theirs", 20)) != outcome(wanted):
        return "none"
    sizes.update(rv=text_bytes(folder / "ld"), GNU=text_bytes(folder / "theirs"))
    ours = left_out(folder, objects)
    alone.update(f"GNU ld keeps {name.split('.')[1]}" for _, name in ours - theirs)
    alone.update(f"rv keeps {name.split('.')[1]}" for _, name in theirs - ours)
    if ours != theirs:
        print(f"{folder.name}: rv alone {sorted(ours - theirs)}, GNU ld alone {sorted(theirs - ours)}", flush=True)
    return "same" if ours == theirs else "differs"


def program(seed, options):
    """How the program of a seed ends at each level, the bytes of text, and the sections that one keeps alone."""
    sizes, alone = Counter(), Counter()
    with tempfile.TemporaryDirectory() as name:
        folder = Path(name)
        drawn = draw(folder, seed)
        ends = []
        for level in LEVELS:
            sources = assemblies(folder, f"{level} {APART}", True) if drawn else None
            end = compared(folder, sources, options, sizes, alone) if sources else "none"
            if end == "differs":
                keep(folder, seed, level, end, options)
            ends.append((level, end))
    return ends, sizes, alone


def main():
    options = csmith_options(__doc__, 200)
    need(options.rv, "csmith", QEMU, *(f"{GNU}{tool}" for tool in ("gcc", "as", "ld", "readelf")))
    counts, sizes, alone = Counter(), Counter(), Counter()
    seeds = range(options.first, options.first + options.count)
    with ThreadPoolExecutor(options.jobs) as lanes:
        for ends, bytes_left, kept in lanes.map(lambda seed: program(seed, options), seeds):
            counts.update(ends)
            sizes.update(bytes_left)
            alone.update(kept)
    print(f"text: {sizes['rv']} bytes by rv, {sizes['GNU']} by GNU ld")
    for why, count in sorted(alone.items()):
        print(f"{why}: {count}")
    return summary(counts, LEVELS)
