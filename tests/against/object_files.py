"""Takes examples and random C programs through object files, rv's and GNU's, and compares what they do.

usage: compare.py object_files [--first SEED] [--count N] [--jobs N] [--limit N] [--keep FOLDER] [--rv RV]

It takes examples/*.s and, unless told otherwise, 200 programs that csmith draws from seed 1 on, each in five ways, as
programs.py beside it does. What GNU as and ld make of a program and qemu-riscv64 runs says which console and which
status are wanted. Of the objects of rv it asks that

  readable   readelf -a and objdump -dr read them without a warning
  by GNU     GNU ld links them without a warning, and qemu-riscv64 ends as wanted
  by rv      rv ld makes of them the executable and the map that rv build makes of the sources, and rv ends as wanted
  mixed      where a program has two sources, rv ld links the object of one and GNU's of the other, and rv ends as
             wanted

and of those of GNU as that rv ld links them and rv ends as wanted. A program's objects end as one of:

  same       all of that holds
  differs    it does not: the program's files are kept in FOLDER, which is a new one unless said, and a line says which
  refused    by rv, with the code of its fault
  past end   rv stops at a load that begins in a region and ends past it, as programs.py says
  too long   qemu does not end within 20 seconds, or rv not within --limit instructions
  none       csmith, GCC or GNU's tools make no program

The last line is 'differs=0' where nothing differs, and only then the status is 0.
"""

import re
import tempfile
from collections import Counter
from concurrent.futures import ThreadPoolExecutor
from pathlib import Path

from against.common import (
    GNU,
    QEMU,
    ROOT,
    assemblies,
    completed,
    csmith_options,
    draw,
    gnu_link,
    is_limit,
    is_past_end,
    keep,
    need,
    outcome,
    run_by_qemu,
    run_by_rv,
    summary,
)
from against.common import refusal as refusal_of_build
from against.programs import WAYS

LD = [f"{GNU}ld", "--no-warn-rwx-segments", "--no-relax"]
# Where rv puts what the examples have: one of them knows the address of its constants.
PLACES = ["-Ttext=0x10000", "--section-start=.rodata=0x11000"]
MAKERS = ("rv", "GNU as")


class Differs(Exception):
    """What a program shows, and should not."""


def silent(words):
    """Runs a tool that has nothing to warn of."""
    tool = completed(words)
    if tool is None or tool.returncode != 0 or tool.stderr or b"arning" in tool.stdout:
        raise Differs(f"{words[0]} {words[1]}: {tool and (tool.stderr or tool.stdout[:200])}")


def same(name, run, wanted):
    """Asks that a run ended as the wanted one."""
    if outcome(run) != outcome(wanted):
        raise Differs(f"{name}: {run and (run.returncode, run.stderr)}, wanted {wanted.returncode}")


def refusal(process):
    """The code for which rv refuses files; none where it takes them."""
    if process.returncode == 0:
        return None
    code = re.match(rb"rv: .*\b(F\d+) ", process.stderr)
    return f"refused {code.group(1).decode()}" if code else refusal_of_build(process)


def ended_as(options, folder, name, wanted):
    """How the run of folder/linked ends, whose map is folder/map."""
    run = run_by_rv(options, folder / "linked")
    if run is None or is_limit(run):
        return "too long"
    if is_past_end(folder, run):
        return "past end"
    same(name, run, wanted)
    return "same"


def linked(options, folder, name, objects, wanted):
    """How objects end that rv ld links."""
    written = ["-o", folder / "linked", "--map", folder / "map"]
    link = completed([options.rv, "ld", *written, *objects])
    if link is None:
        raise Differs(f"{name}: rv ld does not end")
    return refusal(link) or ended_as(options, folder, name, wanted)


def built_the_same(options, folder, sources, objects):
    """Asks that rv ld of objects does what rv build does of their sources; the refusal of both."""
    results = []
    for command, files in (("build", sources), ("ld", objects)):
        paths = [folder / f"{command}.exe", folder / f"{command}.map"]
        for path in paths:
            path.unlink(missing_ok=True)
        process = completed([options.rv, command, "-o", paths[0], "--map", paths[1], *files])
        held = [path.read_bytes() for path in paths if path.exists()]
        results.append((process and (process.returncode, process.stderr), held))
    (build, built), (link, linked_files) = results
    if (build, built) != (link, linked_files):
        other = "" if build != link else ", and other bytes"
        raise Differs(f"rv build: {build}, rv ld: {link}{other}")
    return refusal(process)


def assembled(options, source):
    """The object of a source by rv as, which GNU's tools read; or its refusal."""
    written = source.with_suffix(".ours.o")
    process = completed([options.rv, "as", "-o", written, source])
    if process is None:
        raise Differs("rv as does not end")
    if process.returncode != 0:
        return None, refusal_of_build(process)
    silent([f"{GNU}readelf", "-a", "-W", written])
    silent([f"{GNU}objdump", "-dr", written])
    return written, None


def of_rv(options, folder, sources, places, wanted):
    """How the objects of rv end."""
    objects = []
    for source in sources:
        written, refused = assembled(options, source)
        if refused:
            return refused
        objects.append(written)
    silent([*LD, *places, "-o", folder / "by-gnu", *objects])
    same("by GNU", run_by_qemu(folder / "by-gnu"), wanted)
    refused = built_the_same(options, folder, sources, objects)
    end = refused or linked(options, folder, "by rv", objects, wanted)
    if end == "same" and len(sources) > 1:
        others = [source.with_suffix(".o") for source in sources[1:]]
        return linked(options, folder, "mixed", [objects[0], *others], wanted)
    return end


def of_gnu(options, folder, sources, places, wanted):
    """How the objects of GNU as end."""
    return linked(options, folder, "foreign", [source.with_suffix(".o") for source in sources], wanted)


def taken(options, folder, sources, places=()):
    """How the objects of sources end, by who makes them: GNU's tools first, which say what is wanted."""
    if sources is None or not gnu_link(folder, sources, *places):
        return dict.fromkeys(MAKERS, "none")
    wanted = run_by_qemu(folder / "theirs", 20)
    if wanted is None:
        return dict.fromkeys(MAKERS, "too long")
    ends = {}
    for maker, through in zip(MAKERS, (of_rv, of_gnu)):
        try:
            ends[maker] = through(options, folder, sources, places, wanted)
        except Differs as shown:
            print(f"{folder.name}, objects of {maker}: {shown}", flush=True)
            ends[maker] = "differs"
    return ends


def counted(group, ends):
    """The ends under their groups."""
    return [(f"{group}, objects of {maker}", end) for maker, end in ends.items()]


def example(path, options):
    """How an example ends."""
    with tempfile.TemporaryDirectory() as name:
        source = Path(name) / path.name
        source.write_bytes(path.read_bytes())
        ends = taken(options, Path(name), [source], PLACES)
        print(f"{path.name}: {ends}", flush=True)
        return counted("examples", ends)


def program(seed, options):
    """How the program of a seed ends, for each way."""
    with tempfile.TemporaryDirectory() as name:
        folder = Path(name)
        drawn = draw(folder, seed)
        counts = []
        for way in WAYS:
            sources = assemblies(folder, way, seed % 2 == 1) if drawn else None
            ends = taken(options, folder, sources)
            if "differs" in ends.values():
                keep(folder, seed, way, "differs", options)
            counts += counted(way, ends)
        return counts


def main():
    options = csmith_options(__doc__, 200)
    gnu = [f"{GNU}{tool}" for tool in ("gcc", "as", "ld", "readelf", "objdump")]
    need(options.rv, "csmith", QEMU, *gnu)
    counts = Counter()
    examples = sorted((ROOT / "examples").glob("*.s"))
    seeds = range(options.first, options.first + options.count)
    with ThreadPoolExecutor(options.jobs) as lanes:
        for ends in lanes.map(lambda path: example(path, options), examples):
            counts.update(ends)
        for ends in lanes.map(lambda seed: program(seed, options), seeds):
            counts.update(ends)
    groups = [group for way in ("examples", *WAYS) for group, _ in counted(way, dict.fromkeys(MAKERS, ""))]
    return summary(counts, groups)
