#!/usr/bin/env python3
"""Draws how time and memory grow, of rv beside its peers: bench/growth.svg.

usage: growth.py [NAME ..]     only panels whose name begins so, as `relaxation`; the picture then has these alone

Each panel has four sizes, n, 2n, 4n and 8n: the processor seconds, the least of two runs, and the most memory. Some
inputs are honest, as GCC's output; the others are hostile, made so that much of them has to be looked at again.
The exponents between the first and the last size go to standard output, and with the figures to bench/out/growth.json.
Peers that are not installed have no line, and of hostile inputs none is measured beside rv.
"""

import subprocess
import sys
import tempfile
from dataclasses import dataclass
from pathlib import Path
from typing import Callable

import guests
import hostile
import plot
import sources
from links import assembled, shortening, write_unused
from measure import GNU_AS, HERE, LD, LLD, MC, MIB, OBJDUMP, RV, Refused, are_there, exponent, peak, spent
from results import Results

PICTURE = HERE / "growth.svg"
TIMES = (1, 2, 4, 8)
# The status of a run that comes to its limit.
STOPPED = 125
# How many charts are side by side.
ACROSS = 4


def figures(commands, given=b"", status=0, runs=2):
    """The processor seconds of some commands, one after the other, the least of some runs, and their most memory."""
    least, most = float("inf"), 0
    for _ in range(runs):
        start = spent()
        for command in commands:
            memory, is_good = peak(command, status, given)
            if not is_good:
                raise Refused(f"{command[0]} {command[1]} does not end with {status}")
            most = max(most, memory)
        least = min(least, spent() - start)
    return least, most


def build(folder, times):
    """A source of GCC's output becomes an executable."""
    source, made, exe = folder / "build.s", folder / "build.o", folder / "exe"
    sources.write_compiled(folder, source, MIB * times)
    yield "rv", [[RV, "build", "-o", exe, source]]
    if are_there(GNU_AS, [LD]):
        yield "GNU", [[*GNU_AS, "-o", made, source], [LD, "--no-relax", "-o", exe, made]]
    if are_there(MC, LLD):
        yield "LLVM", [[*MC, "-o", made, source], [*LLD, "--no-relax", "-o", exe, made]]


def assembling(folder, times):
    """The same source becomes an object."""
    source, made = folder / "as.s", folder / "as.o"
    sources.write_compiled(folder, source, MIB * times)
    yield "rv", [[RV, "as", "-o", made, source]]
    if are_there(GNU_AS):
        yield "GNU", [[*GNU_AS, "-o", made, source]]
    if are_there(MC):
        yield "LLVM", [[*MC, "-o", made, source]]


def link(folder, times):
    """Objects of GNU as, 16 KiB of text each, become an executable; calls keep their eight bytes."""
    objects = assembled(sources.write_parts(folder, 64 * times))
    words = ["--no-relax", "-o", folder / "exe", *objects]
    yield "rv", [[RV, "ld", *words]]
    yield "GNU", [[LD, *words]]
    if are_there(LLD):
        yield "LLVM", [[*LLD, *words]]


def relaxation(write, first):
    """Calls are shortened: the commands over a source that is written with so many of them, or so many bytes."""

    def commands(folder, times):
        source = folder / "calls.s"
        write(folder, source, first * times)
        yield from ((tool, [command]) for tool, command in shortening(folder, source).items())

    return commands


def growing(line, first):
    """A source becomes an executable that has so much of one kind of statement."""

    def commands(folder, times):
        source, made, exe = folder / "growing.s", folder / "growing.o", folder / "exe"
        sources.write_growing(source, line, first * times)
        yield "rv", [[RV, "build", "--no-relax", "-o", exe, source]]
        if are_there(GNU_AS, [LD]):
            yield "GNU", [[*GNU_AS, "-o", made, source], [LD, "--no-relax", "-o", exe, made]]

    return commands


def collection(folder, times):
    """Functions in sections of their own are linked, of which half are left out."""
    words = ["--no-relax", "--gc-sections", "-o", folder / "exe", *assembled(write_unused(folder, MIB // 4 * times))]
    yield "rv", [[RV, "ld", *words]]
    yield "GNU", [[LD, *words]]
    if are_there(LLD):
        yield "LLVM", [[*LLD, *words]]


def listing(folder, times):
    """An executable is listed with its map."""
    exe, shown = folder / "exe", folder / "map"
    subprocess.run([RV, "build", "-o", exe, "--map", shown, *sources.write_texts(folder, MIB * times, 8)], check=True)
    yield "rv", [[RV, "objdump", "--map", shown, exe]]
    if are_there([OBJDUMP]):
        yield "GNU", [[OBJDUMP, "-D", "-b", "binary", "-m", "riscv:rv64", "-M", "no-aliases", exe]]


def running(folder, times):
    """A guest runs so many rounds."""
    program, _ = guests.compiled(folder, "crc32", "rv64imac")
    given = b"%d" % (6 * times)
    yield "rv", [[RV, "run", program]], given
    yield "C", [[guests.interpreter(folder), program]], given
    if are_there(["qemu-riscv64"]):
        yield "qemu", [["qemu-riscv64", program]], given


def checking(folder, times):
    source = folder / "check.s"
    sources.write_compiled(folder, source, MIB // 2 * times)
    yield "rv", [[RV, "check", source]]


def tracing(folder, times):
    """So many instructions of a guest are traced."""
    program, given = guests.compiled(folder, "crc32", "rv64imac")
    yield "rv", [[RV, "trace", "--limit", 250_000 * times, "-o", "/dev/null", program]], given


@dataclass(frozen=True)
class Panel:
    """What grows: its name, the first size with its unit, the commands of each tool at so many times the size, and the
    status with which they end."""

    name: str
    unit: str
    first: float
    commands: Callable
    status: int = 0
    is_hostile: bool = False


PANELS = (
    Panel("build", "MiB of GCC's output", 1, build),
    *(Panel("build", kind, first, growing(line, first)) for kind, (line, first) in sources.GROWING.items()),
    Panel("as", "MiB of GCC's output", 1, assembling),
    Panel("ld", "objects of GNU as", 64, link),
    Panel("relaxation", "calls", 5_000, relaxation(sources.write_graph, 5_000)),
    Panel("relaxation", "MiB of GCC's output", 0.5, relaxation(sources.write_compiled, MIB // 2)),
    Panel("gc", "functions", MIB / 4 / 110, collection),
    Panel("listing", "MiB of text", 1, listing),
    Panel("run", "rounds", 6, running),
    Panel("check", "MiB of GCC's output", 0.5, checking),
    Panel("trace", "instructions", 250_000, tracing, STOPPED),
    Panel("relaxation", "tails", 5_000, relaxation(sources.write_cascade, 5_000), is_hostile=True),
    *(Panel(*row, is_hostile=True) for row in hostile.PANELS),
)


def measured(panel):
    """The seconds and the memory of each tool at the four sizes; none of a peer that refuses one of them."""
    found, refused = {}, set()
    for times in TIMES:
        with tempfile.TemporaryDirectory() as folder:
            for tool, commands, *given in panel.commands(Path(folder), times):
                # (GNU ld takes long to shorten many calls)
                runs = 1 if tool == "GNU" and times > 2 else 2
                try:
                    seconds, memory = figures(commands, *given, status=panel.status, runs=runs)
                except Refused as why:
                    if tool == "rv":
                        raise
                    print(f"{panel.name}, {panel.unit}, {times} times: {why}")
                    refused.add(tool)
                    continue
                its = found.setdefault(tool, ([], []))
                its[0].append(seconds)
                its[1].append(memory)
    return {tool: its for tool, its in found.items() if tool not in refused}


def shown(panel, found, results):
    """Prints a panel, and keeps its figures."""
    print(f"{panel.name}, {'hostile' if panel.is_hostile else 'honest'}: {panel.unit}")
    for tool, (seconds, memory) in found.items():
        grown, taken = exponent(seconds, TIMES[-1]), exponent(memory, TIMES[-1])
        numbers = " ".join(f"{it:8.3f}" for it in seconds)
        print(f"  {tool:6} {numbers} s, exponent {grown:5.2f}; {memory[-1] / MIB:6.0f} MiB, {taken:5.2f}", flush=True)
        about = {"unit": panel.unit, "is_hostile": panel.is_hostile, "first": panel.first}
        results.add(
            "growth", panel.name, tool, **about, seconds=seconds, memory=memory, exponent=grown, memory_exponent=taken
        )


def charts(panel, found):
    """The charts of its time and its memory."""
    sizes, kind = [panel.first * times for times in TIMES], "hostile " if panel.is_hostile else ""
    title = f"{kind}{panel.name}, {panel.unit}"
    yield plot.Chart(f"{title}: seconds", sizes, {tool: line for tool, (line, _) in found.items()})
    yield plot.Chart("MiB", sizes, {tool: [it / MIB for it in line] for tool, (_, line) in found.items()})


def main():
    names, results, rows = tuple(sys.argv[1:]), Results("growth"), {}
    results.begin(RV)
    for panel in PANELS:
        if not panel.name.startswith(names or ""):
            continue
        found = measured(panel)
        shown(panel, found, results)
        # (a row of the picture has the honest input before the hostile one)
        rows.setdefault(panel.name, []).extend(charts(panel, found))
    across = [row[at : at + ACROSS] for row in rows.values() for at in range(0, len(row), ACROSS)]
    PICTURE.write_text(plot.picture(across))
    print(f"drawn: {PICTURE.name}")


if __name__ == "__main__":
    main()
