#!/usr/bin/env python3
"""The table of targets: how rv compares with GNU's tools, LLVM's and a plain interpreter, and where it is to be.

usage: targets.py [NAME ..]     only rows whose name begins so, as `build` or `guest`

Host instructions are counted by callgrind, so other work on the machine changes nothing. Times are taken in turns in
one run. Where valgrind or a peer is missing, the row says so. A row that has the worst of a list takes it from what
run.py (or growth.py) measured last with this program, and says so where it has not. `make bench` prints this table
last. It goes to bench/out/targets.json as well.
"""

import re
import subprocess
import sys
import tempfile
from dataclasses import dataclass
from pathlib import Path
from typing import Callable

import guests
import kinds
import sources
from links import assembled, assembled_by_rv, shortening
from measure import (
    AS,
    GCC,
    GNU_AS,
    HELLO,
    HERE,
    LD,
    LLD,
    MIB,
    OBJDUMP,
    RV,
    Missing,
    at_once,
    best,
    best_of_each,
    counted,
    host_instructions,
    mean,
    need,
    page_faults,
    peak_of,
    repeated,
    usual_peak,
)
from results import Results, of_program

FILES = 513
OBJECTS = 500
LARGE_BSS = 200 * MIB
SENTENCES = 4_194_000
ZIGZAG, TAILS = 100_000, 10_000
SMALL_STEPS, RUNS = 4486, 300


def gnu_build(folder, source, name="theirs.o"):
    """The commands by which GNU's tools build a source, over an object of this name."""
    need(AS, LD)
    made = folder / name
    return [*GNU_AS, "-o", made, source], [LD, "-o", folder / "theirs", made]


def build_ratio(folder, source):
    """The host instructions of GNU as and ld by those of `rv build`."""
    assemble, link = gnu_build(folder, source)
    subprocess.run(assemble, check=True)
    # (as that is counted begins with an empty object, of which ld, which is counted meanwhile, would make nothing)
    again, _ = gnu_build(folder, source, "again.o")
    ours, *theirs = counted([[RV, "build", "-o", folder / "ours", source], again, link])
    return sum(theirs) / ours


def compiled(folder, most):
    source = folder / f"compiled_{most}.s"
    if not source.exists():
        need(GCC)
        sources.write_compiled(folder, source, most)
    return source


def generated_ratio(folder, name, write):
    """The same of a source that a function writes."""
    source = folder / f"{name}.s"
    write(source)
    return build_ratio(folder, source)


def listed(benchmark, file="run"):
    """The rows of a list that were measured last with this program."""
    rows = [row for row in of_program(file, RV) if row["benchmark"] == benchmark]
    if not rows:
        raise Missing(f"{file}.py {benchmark}" if file == "run" else f"{file}.py")
    return rows


def worst(benchmark, figure="ratio", tool=None, pick=min, **wanted):
    """The worst figure of a list, of the rows that have it and are as wanted."""
    rows = [row for row in listed(benchmark) if tool in (None, row["tool"])]
    rows = [row for row in rows if all(row.get(key) == value for key, value in wanted.items())]
    figures = [row[figure] for row in rows if row.get(figure)]
    if not figures:
        raise Missing(f"run.py {benchmark}")
    return pick(figures)


def worst_exponent(is_hostile):
    """The worst of the times and the memory of rv."""
    rows = [row for row in listed("growth", "growth") if row["tool"] == "rv" and row["is_hostile"] == is_hostile]
    return max(max(row["exponent"], row["memory_exponent"]) for row in rows)


def linked_ratio(folder):
    """The host instructions of GNU ld, over objects of GNU as, by those of `rv ld`, over objects of `rv as`."""
    paths = sources.write_callers(folder, FILES)
    ours, theirs = [RV, "ld", "-o", folder / "ours"], [LD, "-o", folder / "theirs"]
    mine, gnu = counted([[*ours, *assembled_by_rv(paths)], [*theirs, *assembled(paths)]])
    return gnu / mine


def linked_time(folder, *peer):
    """The time of a linker by that of `rv ld`, over the same objects of GNU as, without relaxation."""
    need(peer[0])
    # (ld.lld takes no object of GNU as with alignments that may shrink, and these have none)
    words = ["--no-relax", "-o", folder / "made", *assembled(sources.write_parts(folder, OBJECTS))]
    least, _ = best_of_each({"rv": [RV, "ld", *words], "peer": [*peer, *words]}, b"", times=5)
    return least["peer"] / least["rv"]


def mapped_time(folder):
    """The time of GNU ld with its map, of sections, by that of `rv ld` with its own, of statements; over objects of
    `rv as`, which tell their statements."""
    need(LD)
    words = ["--no-relax", "-o", folder / "made", *assembled_by_rv(sources.write_parts(folder, OBJECTS))]
    ways = {"rv": [RV, "ld", "--map", folder / "map", *words], "ld": [LD, "-Map", folder / "map", *words]}
    least, _ = best_of_each(ways, b"", times=5)
    return least["ld"] / least["rv"]


def text_left(path):
    """The bytes of text by a map of rv or of GNU ld."""
    shown = path.read_text()
    ours = re.search(r"^text ([0-9a-f]+) ([0-9a-f]+)$", shown, re.MULTILINE)
    if ours:
        return int(ours[2], 16) - int(ours[1], 16)
    return int(re.search(r"^\.text\s+0x[0-9a-f]+\s+0x([0-9a-f]+)", shown, re.MULTILINE)[1], 16)


def text_ratio(folder):
    """The bytes of text that `rv ld` leaves of tails by those that GNU ld leaves, each of its assembler's object."""
    source, left = folder / "tails.s", {}
    sources.write_cascade(folder, source, TAILS)
    for tool, command in shortening(folder, source).items():
        shown = folder / f"{tool}.map"
        subprocess.run([*map(str, command), "--map" if tool == "rv" else "-Map", shown], check=True)
        left[tool] = text_left(shown)
    return left["rv"] / left["GNU"]


def zigzag_time(folder):
    """The time of a link in which each pass over the text shortens one or two of its calls."""
    source, linked = folder / "zigzag.s", folder / "zigzag.o"
    sources.write_zigzag(folder, source, ZIGZAG)
    subprocess.run([RV, "as", "-o", linked, source], check=True)
    return best([RV, "ld", "-o", folder / "made", linked], b"", times=1)[0]


def old_guests(folder, architecture):
    """The host instructions that an instruction takes, the mean of the eight programs that were measured first."""
    programs = [guests.compiled(folder, name, architecture) for name in guests.PROGRAMS]
    return mean(at_once(lambda it: kinds.guest_cost(*it), programs))


def guest_time(folder):
    """The time of the plain interpreter in C by that of `rv run`, the mean of the same programs."""
    ratios = []
    for architecture in guests.ARCHITECTURES:
        for name in guests.PROGRAMS:
            program, given = guests.compiled(folder, name, architecture)
            commands = {"rv": [RV, "run", program], "C": [guests.interpreter(folder), program]}
            least, _ = best_of_each(commands, given, times=2)
            ratios.append(least["C"] / least["rv"])
    return mean(ratios)


def worst_guest_time():
    """The same of the worst of all guests."""
    return min(row["ratio"] for row in listed("hart") if row["tool"] == "rv by the interpreter" and row["is_guest"])


def large_guest(folder):
    source = folder / "large.s"
    exit_0 = "_start: li a0, 0\n\tli a7, 93\n\tecall\n"
    source.write_text(f".globl _start\n{exit_0}.bss\n.zero {LARGE_BSS}\n")
    subprocess.run([RV, "build", "-o", folder / "large", source], check=True)
    return peak_of(RV, "run", folder / "large") / MIB


def hello(folder):
    program = folder / "hello"
    subprocess.run([RV, "build", "-o", program, HELLO], check=True)
    return program


def touched(folder):
    """The page faults of a run of hello, beside those of the program's start."""
    return page_faults(RV, "run", hello(folder)) - page_faults(RV, "--version")


def statement_bytes(folder):
    """The most memory a statement, of sources with very many of one line each."""
    most = 0
    for line in ("nop\n", "1:\n"):
        source = folder / "many.s"
        source.write_text(".globl _start\n_start:\n" + line * SENTENCES)
        most = max(most, peak_of(RV, "build", "-o", folder / "ours", source) / SENTENCES)
    return most


def memory_ratio(folder):
    """The memory of `rv build` by that of GNU as, over 16 MiB of GCC's output."""
    source = compiled(folder, 16 * MIB)
    assemble, _ = gnu_build(folder, source)
    return peak_of(RV, "build", "-o", folder / "ours", source) / peak_of(*assemble)


def listing_memory(folder):
    """The memory of `rv objdump --map` by that of objdump, over 16 MiB of text."""
    need(OBJDUMP)
    made, shown = folder / "made", folder / "map"
    texts = sources.write_texts(folder, 16 * MIB, 16)
    subprocess.run([RV, "build", "-o", made, "--map", shown, *texts], check=True)
    raw = ["-D", "-b", "binary", "-m", "riscv:rv64", "-M", "no-aliases", made]
    return peak_of(RV, "objdump", "--map", shown, made) / peak_of(OBJDUMP, *raw)


def linking_memory(folder):
    """The memory of `rv ld` by that of GNU ld, over objects with 8 MiB of text."""
    words = ["--no-relax", "-o", folder / "made", *assembled(sources.write_parts(folder, OBJECTS))]
    return peak_of(RV, "ld", *words) / peak_of(LD, *words)


def collecting_memory(folder):
    """The memory of `rv build --gc-sections` by that of `rv build`, over 4 MiB of GCC's output."""
    words = ["-o", folder / "made", compiled(folder, 4 * MIB)]
    return peak_of(RV, "build", "--gc-sections", *words) / peak_of(RV, "build", *words)


def checking_time(folder):
    return best([RV, "check", compiled(folder, 4 * MIB)], b"", times=5)[0]


def small_run(folder):
    """The processor time of building and running GCC's output of 729 lines, in milliseconds, with the start of the
    program."""
    need(GCC)
    source = folder / "dhrystone.s"
    sources.compile_for("rv64imac", HERE / "programs" / "dhrystone.c", source, "-S")
    return repeated([RV, "run", "--limit", SMALL_STEPS, source], RUNS, b"1") / RUNS * 1000


@dataclass(frozen=True)
class Row:
    """A row: its name, what measures it, the unit, what is wanted, whether more is better, and whether it is a time."""

    name: str
    measure: Callable[[Path], float]
    unit: str
    wanted: float
    is_more_better: bool = True
    is_time: bool = False


BY_RV, OF_HOST = "GNU by rv", "host instructions"
ROWS = (
    Row("build, GCC's output, 1 MiB", lambda it: build_ratio(it, compiled(it, MIB)), BY_RV, 6),
    Row("build, GCC's output, worst kind", lambda _: worst("sources", family=sources.GCC_FAMILY), BY_RV, 6),
    Row("build, branches and labels", lambda it: generated_ratio(it, "branches", sources.write_branches), BY_RV, 6),
    Row("build, code by hand, worst kind", lambda _: worst("sources", family=sources.HAND_FAMILY), BY_RV, 6),
    Row("build, data", lambda it: generated_ratio(it, "data", sources.write_data), BY_RV, 2),
    Row("build, data, worst kind", lambda _: worst("sources", family=sources.DATA_FAMILY), BY_RV, 2),
    Row("build, time, worst kind", lambda _: worst("sources", "of_llvm"), "LLVM by rv", 3, is_time=True),
    Row("link, 500 objects of GNU as, time", lambda it: linked_time(it, LD), BY_RV, 1.6, is_time=True),
    Row("link, 500 objects of GNU as, beside ld.lld", lambda it: linked_time(it, *LLD), "LLVM by rv", 1, is_time=True),
    Row("link, 513 objects", linked_ratio, BY_RV, 4),
    Row("link, worst kind", lambda _: worst("links"), BY_RV, 1.6),
    Row("link, worst kind, time", lambda _: worst("links", "of_gnu"), BY_RV, 1.6, is_time=True),
    Row("link, worst kind, beside ld.lld", lambda _: worst("links", "of_llvm"), "LLVM by rv", 1, is_time=True),
    Row("link with a map of statements, time", mapped_time, BY_RV, 0.8, is_time=True),
    Row("link, 100,000 calls, one in each pass", zigzag_time, "seconds", 1, False, is_time=True),
    Row("link, 10,000 tails, text left", text_ratio, "rv by GNU ld", 1, False),
    Row("memory, build of 16 MiB", memory_ratio, "rv by GNU as", 0.67, False),
    Row("memory, listing of 16 MiB", listing_memory, "rv by objdump", 0.67, False),
    Row("memory, link of 8 MiB", linking_memory, "rv by GNU ld", 1, False),
    Row("memory, --gc-sections", collecting_memory, "with by without", 1.05, False),
    Row("memory, 4 million statements", statement_bytes, "bytes each", 50, False),
    Row("guest, uncompressed code", lambda it: old_guests(it, "rv64ima"), OF_HOST, 40, False),
    Row("guest, compressed code", lambda it: old_guests(it, "rv64imac"), OF_HOST, 40, False),
    Row("guest, worst of all", lambda _: worst("costs", pick=max), OF_HOST, 40, False),
    Row("guest, time", guest_time, "C by rv", 3.5, is_time=True),
    Row("guest, worst of all, time", lambda _: worst_guest_time(), "C by rv", 3.5, is_time=True),
    Row("place, worst of all", lambda _: worst("places", pick=max), "times the middle", 1.1, False),
    Row("guest with 200 MiB of .bss", large_guest, "MiB", 220, False),
    Row("trace, worst guest", lambda _: worst("watching", "rate", "trace"), "million a second", 40, is_time=True),
    Row(
        "stats --lines, worst guest",
        lambda _: worst("watching", "rate", "stats --lines"),
        "million a second",
        80,
        is_time=True,
    ),
    Row("check of 4 MiB", checking_time, "seconds", 0.35, False, is_time=True),
    Row("small run", small_run, "milliseconds", 1.5, False, is_time=True),
    Row("hello, instructions", lambda it: host_instructions(RV, "run", hello(it)) / 1e6, "millions", 1, False),
    Row("hello, memory", lambda it: usual_peak(RV, "run", hello(it)) / MIB, "MiB", 3, False),
    Row("hello, page faults", touched, "beside --version", 20, False),
    Row("growth, honest input, worst exponent", lambda _: worst_exponent(False), "of n", 1.1, False, is_time=True),
    Row("growth, hostile input, worst exponent", lambda _: worst_exponent(True), "of n", 1.1, False, is_time=True),
)


def main():
    names, results = tuple(sys.argv[1:]) or "", Results("targets")
    results.begin(RV, lambda row: row["what"].startswith(names))
    print(f"{'':44}{'measured':>10}{'wanted':>8}")
    for row in ROWS:
        if not row.name.startswith(names):
            continue
        with tempfile.TemporaryDirectory() as folder:
            try:
                found = row.measure(Path(folder))
            except Missing as tool:
                print(f"{row.name:44}{tool!s:>10} is missing", flush=True)
                continue
        met = found >= row.wanted if row.is_more_better else found <= row.wanted
        about = {"unit": row.unit, "wanted": row.wanted, "is_reached": met, "is_time": row.is_time}
        results.add("targets", row.name, "rv", ratio=found, **about)
        print(f"{row.name:44}{found:10.2f}{row.wanted:8} {row.unit}{'' if met else ', not reached'}", flush=True)


if __name__ == "__main__":
    main()
