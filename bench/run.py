#!/usr/bin/env python3
"""Measures rv beside its peers, in one run on one machine: make bench.

usage: run.py [NAME ..]     only these benchmarks, as `sources` or `places`; the figures of the others stay

A benchmark is a function below. What it needs and can't find it names, and goes on. Each time is processor time, the
least of some runs, with the start of the program. What is printed goes to bench/out/run.json as well, which keeps the
figures of other benchmarks if they are of the same program.
"""

import json
import shutil
import subprocess
import sys
import tempfile
from pathlib import Path

import cliffs
import guests
import kinds
from links import assembled, assembled_by_rv
from measure import (
    AS,
    CC,
    GCC,
    GNU_AS,
    HERE,
    LD,
    MIB,
    OBJDUMP,
    ROOT,
    RV,
    Missing,
    best,
    mean,
    missing,
    need,
    peak,
    repeated,
    spent,
    turns,
)
from results import Results
from sources import (
    FAULT,
    compile_for,
    write_compiled,
    write_debugged,
    write_lines,
    write_parts,
    write_sources,
    write_texts,
)

# Small programs, and how often each is run.
SMALL = ("exit7", "number")
CALLED = 200
ANSWERED = 4000
SOURCE_BYTES = 16 * MIB
SOURCES = 1000
OBJECTS = 500
OBJECT_BYTES = 16 * 2**10
TEXT_BYTES = 16 * MIB
TEXTS = 16
# For debuggers: a source of so many bytes, and functions of C.
DEBUG_BYTES, FUNCTIONS = 2 * MIB, 600
RESULTS = Results("run")


def hart(folder):
    """Running programs, without and with compressed code: millions of instructions a second, of rv and of others."""
    need(GCC, CC)
    commands = guests.simulators(folder)
    print("Running programs: millions of instructions a second")
    print(f"{'':20}" + "".join(f"{name:>24}" for name in commands) + f"{'rv / interpreter':>20}")
    table = {}
    for architecture in guests.ARCHITECTURES:
        for name in guests.GUESTS:
            program, given = guests.compiled(folder, name, architecture)
            table[name, architecture] = guests.rates(commands, program, given, times=2)
            rate_row(f"{name} {architecture}", table[name, architecture], is_guest=True)
        its = {name: row for (name, kind), row in table.items() if kind == architecture}
        rate_row(f"mean {architecture}", guests.of_all(its.values()))
    rate_row(
        "mean of the first eight", guests.of_all(row for (name, _), row in table.items() if name in guests.PROGRAMS)
    )
    rate_row("mean", guests.of_all(table.values()))
    kinds.shown("Guests", {" ".join(it): row["rv run"] / row["interpreter"] for it, row in table.items()}, "C by rv")
    for kind in commands:
        ratio = mean(table[name, "rv64imac"][kind] / table[name, "rv64ima"][kind] for name in guests.GUESTS)
        print(f"{kind}: compressed code has {ratio:.2f} times the instructions a second of uncompressed code")
        RESULTS.add("hart", "compressed by uncompressed code", kind, ratio=ratio)


def rate_row(name, row, is_guest=False):
    """A line of the table of the rates of simulators."""
    ratio = row["rv run"] / row["interpreter"]
    print(f"{name:20}" + "".join(f"{rate:24.0f}" for rate in row.values()) + f"{ratio:20.2f}")
    for tool, rate in row.items():
        RESULTS.add("hart", name, tool, rate=rate)
    RESULTS.add("hart", name, "rv by the interpreter", ratio=ratio, is_guest=is_guest)


def calls(folder):
    """Small programs, built and run: how many a second of a processor."""
    print("Small programs: runs a second of a processor")
    for name in SMALL:
        source, program = ROOT / "examples" / f"{name}.s", folder / name
        subprocess.run([RV, "build", "-o", program, source], check=True)
        line = json.dumps({"sources": [source.read_text()]}) + "\n"
        commands = {"rv run, of the source": [RV, "run", source], "rv run, of the executable": [RV, "run", program]}
        if not missing("qemu-riscv64"):
            commands["qemu-riscv64"] = ["qemu-riscv64", program]
        rates = {"rv batch": ANSWERED / repeated([RV, "batch"], 1, line.encode() * ANSWERED)}
        rates |= {tool: CALLED / repeated(command, CALLED) for tool, command in commands.items()}
        for tool, rate in rates.items():
            print(f"{name + '.s':12}{tool:28}{rate:10.0f}")
            RESULTS.add("calls", f"{name}.s", tool, programs=rate)


def builders(folder, source):
    """The commands that build a source, by what they do: rv makes the executable and its map; GNU as an object, of
    which GNU ld makes the executable. Calls keep their eight bytes."""
    executable, linked = folder / "executable", folder / "object"
    commands = {
        "rv build": [RV, "build", "--no-relax", "-o", executable, "--map", folder / "map", source],
        "rv as": [RV, "as", "-o", linked, source],
    }
    if not missing(AS):
        commands["as"] = [*GNU_AS, "-o", linked, source]
    if "as" in commands and not missing(LD):
        commands["ld"] = [LD, "--no-relax", "-Map", folder / "map", "-o", executable, linked]
    return commands


def row(benchmark, name, seconds, length, memory, note):
    """A line of the table for a source of a length."""
    rate = length / seconds / 1e6
    print(f"{name:24} {seconds:6.2f} s {rate:7.1f} million bytes per second, {memory / 2**20:5.0f} MiB{note}")
    RESULTS.add(benchmark, "", name, seconds=seconds, bytes=length, memory=memory, is_good=not note)


def measured(benchmark, name, command, length):
    """A line of the table for a command that takes its source."""
    memory, good = peak(command)
    seconds, _ = best(command, b"")
    row(benchmark, name, seconds, length, memory, "" if good else ", BUT REFUSES IT")


def reading_alone(benchmark, folder, source, count, length):
    """A line of the table for a source of so many lines that is read whole: a fault in one line more is found then, and
    before anything is built."""
    faulty = folder / "faulty.s"
    shutil.copy(source, faulty)
    with faulty.open("a") as file:
        file.write(FAULT)
    command = [RV, "build", "-o", folder / "executable", faulty]
    memory, _ = peak(command, status=1)
    message = subprocess.run(command, capture_output=True, text=True).stderr
    seconds, _ = best(command, b"")
    note = "" if f":{count + 1}: " in message else f", BUT ENDS WITH {message.strip()}"
    row(benchmark, "rv, reading alone", seconds, length, memory, note)


def reading(folder):
    """Reading a source of instructions, data and labels: bytes a second, and the memory that it takes."""
    source = folder / "source.s"
    count = write_lines(source, SOURCE_BYTES)
    length = source.stat().st_size
    print(f"Building a source of {length} bytes, {count} lines")
    for name, command in builders(folder, source).items():
        measured("reading", name, command, length)
    reading_alone("reading", folder, source, count, length)


def compiler(folder):
    """Building what a compiler writes: labels, branches, calls, pseudo-instructions and directives."""
    need(GCC)
    source = folder / "compiled_all.s"
    count = write_compiled(folder, source, SOURCE_BYTES)
    length = source.stat().st_size
    print(f"Building the output of {GCC} -O2, {length} bytes, {count} lines")
    for name, command in builders(folder, source).items():
        measured("compiler", name, command, length)
    reading_alone("compiler", folder, source, count, length)


def many(folder):
    """Linking many small sources: bytes a second, and the memory that it takes."""
    sources = write_sources(folder, SOURCE_BYTES, SOURCES)
    length = sum(source.stat().st_size for source in sources)
    print(f"Building {len(sources)} sources of {length} bytes together")
    words = ["-o", folder / "executable", *sources]
    measured("many", "rv build", [RV, "build", "--map", folder / "map", *words], length)
    begun = spent()
    objects = assembled(sources)
    row("many", "as, one by one", spent() - begun, length, peak([AS, "-o", folder / "object", sources[0]])[0], "")
    measured("many", "ld", [LD, "-Map", folder / "map", "-o", folder / "executable", *objects], length)


def objects(folder):
    """Linking many objects, those of rv and those of GNU as: bytes of text a second, and the memory that it takes.
    Calls keep their eight bytes."""
    sources = write_parts(folder, OBJECTS, OBJECT_BYTES)
    length = OBJECTS * OBJECT_BYTES
    print(f"Linking {OBJECTS} objects with {length} bytes of text together")
    for maker, made in (("", assembled_by_rv(sources)), (", of as", assembled(sources))):
        words = ["--no-relax", "-o", folder / "executable", *made]
        measured("objects", f"rv ld{maker}", [RV, "ld", "--map", folder / "map", *words], length)
        measured("objects", f"ld{maker}", [LD, "-Map", folder / "map", *words], length)


def debugging(folder):
    """Builds for debuggers, of GCC's output with debug data and of assembly: processor time, with -g and without."""
    need(AS, LD)
    lines = folder / "lines.s"
    write_lines(lines, DEBUG_BYTES)
    made, executable = folder / "theirs.o", folder / "executable"
    for what, source in (("GCC's output with -g", write_debugged(folder, FUNCTIONS)), ("assembly", lines)):
        ways = {"rv": [], "rv -g": ["-g"], "GNU": [], "GNU -g": ["-g"]}
        for tool, more in ways.items():
            ways[tool] = [[*GNU_AS, *more, "-o", made, source], [LD, "-o", executable, made]]
            if tool.startswith("rv"):
                ways[tool] = [[RV, "build", *more, "-o", executable, source]]
        for tool, seconds in turns(ways, 5).items():
            print(f"{what}, {source.stat().st_size} bytes: {tool} {seconds:.3f} s")
            RESULTS.add("debugging", what, tool, seconds=seconds, bytes=source.stat().st_size)


def listings(folder):
    """Listing an executable: bytes of text a second, and the memory that it takes."""
    executable, shown = folder / "executable", folder / "map"
    subprocess.run([RV, "build", "-o", executable, "--map", shown, *write_texts(folder, TEXT_BYTES, TEXTS)], check=True)
    print(f"Listing {TEXT_BYTES} bytes of text")
    measured("listings", "rv objdump", [RV, "objdump", "--map", shown, executable], TEXT_BYTES)
    if not missing(OBJDUMP):
        # (an executable of rv has no sections, which GNU's would list: so it lists the whole file)
        words = ["-D", "-b", "binary", "-m", "riscv:rv64", "-M", "no-aliases", executable]
        measured("listings", "objdump", [OBJDUMP, *words], TEXT_BYTES)


def sources(folder):
    """Builds of sources of many kinds: host instructions of GNU as and ld by those of `rv build`, and times beside
    LLVM's tools."""
    rows = []
    for row in kinds.source_rows(folder):
        rows.append(row)
        each, length = row.ours / row.bytes, row.bytes
        beside = {"of_gnu": row.beside("GNU"), "of_llvm": row.beside("LLVM")}
        figures = {"family": row.family, "ratio": row.ratio, "each": each, "bytes": length}
        RESULTS.add("sources", row.name, "rv build", **figures, **beside)
    for family in dict.fromkeys(row.family for row in rows):
        kinds.shown(f"Builds of {family}", {it.name: it.ratio for it in rows if it.family == family}, "GNU by rv")
    kinds.shown("Builds of all kinds", {it.name: it.ratio for it in rows}, "GNU by rv")
    kinds.shown_beside("Builds", rows)


def links(folder):
    """Links of objects of many kinds: the same of GNU ld and of ld.lld."""
    rows = []
    for row in kinds.link_rows(folder):
        rows.append(row)
        beside = {"of_gnu": row.beside("GNU"), "of_llvm": row.beside("LLVM")}
        RESULTS.add("links", row.name, "rv ld", ratio=row.ratio, bytes=row.bytes, **beside)
    kinds.shown("Links", {it.name: it.ratio for it in rows}, "GNU ld by rv ld")
    kinds.shown_beside("Links", rows)


def costs(folder):
    """Running programs: host instructions for each of theirs."""
    found = kinds.guest_costs(folder)
    for (architecture, name), cost in found.items():
        RESULTS.add("costs", name, architecture, ratio=cost, is_old=name in guests.PROGRAMS)
    for architecture in guests.ARCHITECTURES:
        of_it = {name: cost for (kind, name), cost in found.items() if kind == architecture}
        kinds.shown(f"Guests of {architecture}", of_it, "host instructions for each", is_more_better=False)


def places(folder):
    """Hot code and data at the ends of segments and pages, beside the same in the middle."""
    found = {}
    for segment, place, form, cost, ratio in cliffs.measured(folder):
        RESULTS.add("places", f"{segment}, {place}", form, cost=cost, ratio=ratio)
        found[f"{segment}, {place}, {form}"] = ratio
    high = {name: ratio for name, ratio in found.items() if ratio > 1.05}
    kinds.shown("Places that cost more than the middle", high or found, "times", is_more_better=False)
    print(f"  {len(found)} places and forms, of which {len(high)} above 1.05")


def watched_program(folder, name):
    """A guest that rv builds of GCC's output, and its map, by which lines are counted."""
    source, program, shown = (folder / f"{name}{it}" for it in (".s", ".watched", ".map"))
    compile_for("rv64imac", HERE / "programs" / f"{name}.c", source, "-S")
    subprocess.run([RV, "build", "-o", program, "--map", shown, source], check=True)
    return program, shown


# What is watched: the words of rv, and how many instructions of each guest.
WATCHED = {"run": 10_000_000, "stats --lines": 10_000_000, "trace": 1_000_000, "trace --events": 1_000_000}


def watching(folder):
    """Runs that are traced or counted: millions of instructions a second."""
    need(GCC)
    rates = {words: {} for words in WATCHED}
    for name, rounds in guests.GUESTS.items():
        program, shown = watched_program(folder, name)
        for words, limit in WATCHED.items():
            more = ["--map", shown, "-o", "/dev/null"][: {"run": 0, "stats --lines": 2}.get(words)]
            command = [RV, *words.split(), "--limit", str(limit), *more, program]
            rates[words][name] = limit / best(command, b"%d" % rounds)[0] / 1e6
            RESULTS.add("watching", name, words, rate=rates[words][name])
    for words, of_it in rates.items():
        kinds.shown(f"rv {words}", of_it, "millions of instructions a second")


BENCHMARKS = {
    it.__name__: it
    for it in (
        sources,
        links,
        costs,
        places,
        watching,
        calls,
        hart,
        reading,
        compiler,
        many,
        objects,
        debugging,
        listings,
    )
}


def main():
    names = sys.argv[1:] or [*BENCHMARKS]
    unknown = [name for name in names if name not in BENCHMARKS]
    if unknown:
        return f"no benchmark: {' '.join(unknown)}; there are {' '.join(BENCHMARKS)}"
    RESULTS.begin(RV, lambda row: row["benchmark"] in names)
    for name in names:
        with tempfile.TemporaryDirectory() as folder:
            try:
                BENCHMARKS[name](Path(folder))
            except Missing:
                print(f"{name}: not measured", flush=True)
    return 0


if __name__ == "__main__":
    sys.exit(main())
