#!/usr/bin/env python3
"""Makes the tables of bench/RESULTS.md of what `make bench`, `make growth`, library.py and web.py measured last.

usage: tables.py             prints the tables
       tables.py --write     puts each into RESULTS.md, between the lines `<!-- table NAME -->` and `<!-- end -->`

A table whose benchmark has not run, because a tool is missing, stays as it is. Below each are the day, the commit of
the program and the processors.
"""

import re
import sys
from pathlib import Path

from measure import MIB, mean
from results import read
from targets import ROWS

PAGE = Path(__file__).resolve().parent / "RESULTS.md"
PICTURE = PAGE.with_name("growth.svg")
BESIDE = ", beside other work"


def of(name, benchmark):
    """The rows of a benchmark."""
    return [row for row in read(name)["rows"] if row["benchmark"] == benchmark]


def table(heads, rows):
    """A table of Markdown; nothing without rows."""
    lines = [heads, ["---"] * len(heads), *rows]
    return "\n".join(f"| {' | '.join(map(str, line))} |" for line in lines) if rows else ""


def is_busy(head):
    """Whether the machine had other work before a script began."""
    return head.get("load", 0) > 1


def targets():
    """How rv compares with its peers, and where it is to be."""
    heads, names = ["What", "Measured", "Wanted", "Unit", "Reached"], [row.name for row in ROWS]
    rows = [
        [
            it["what"],
            f"{it['ratio']:.2f}",
            it["wanted"],
            it["unit"] + (BESIDE if it["is_time"] and is_busy(read("targets")) else ""),
            "yes" if it["is_reached"] else "**no**",
        ]
        for it in sorted(of("targets", "targets"), key=lambda it: names.index(it["what"]))
    ]
    return table(heads, rows)


def with_summary(rows, columns, picks):
    """Rows of words and figures with their geometric means and their worst below; a figure may be missing. `picks` are
    what finds the worst of each column."""
    figures = [[row[at] for row in rows if row[at]] for at in columns]
    if not rows:
        return []
    words = [""] * (columns[0] - 1)
    means = ["**geometric mean**", *words, *(f"{mean(it):.2f}" if it else "-" for it in figures)]
    worst = ["**worst**", *words, *(f"{pick(it):.2f}" if it else "-" for it, pick in zip(figures, picks))]
    shown = [[f"{it:.2f}" if isinstance(it, float) else it or "-" for it in row] for row in rows]
    return [*shown, means, worst]


def sources():
    """Builds of sources of many kinds."""
    heads = [
        "Source",
        "Family",
        "GNU by rv, instructions",
        "GNU by rv, time",
        "LLVM by rv, time",
        "Instructions a byte",
    ]
    rows = [
        [it["what"], it["family"], it["ratio"], it["of_gnu"], it["of_llvm"], it["each"]] for it in of("run", "sources")
    ]
    return table(heads, with_summary(rows, (2, 3, 4, 5), (min, min, min, max)))


def links():
    """Links of objects of many kinds."""
    heads = ["Link", "GNU ld by rv, instructions", "GNU ld by rv, time", "ld.lld by rv, time"]
    rows = [[it["what"], it["ratio"], it["of_gnu"], it["of_llvm"]] for it in of("run", "links")]
    return table(heads, with_summary(rows, (1, 2, 3), (min, min, min)))


def guests():
    """Guests: host instructions for each of theirs, and the time of the interpreter in C by that of rv."""
    kinds = ("rv64ima", "rv64imac")
    costs = {(it["what"], it["tool"]): it["ratio"] for it in of("run", "costs")}
    times = {it["what"]: it["ratio"] for it in of("run", "hart") if it.get("is_guest")}
    names = [*dict.fromkeys(name for name, _ in costs)]
    rows = [
        [name, *(costs.get((name, kind)) for kind in kinds), *(times.get(f"{name} {kind}") for kind in kinds)]
        for name in names
    ]
    heads = ["Guest", "Instructions", "of compressed code", "C by rv, time", "of compressed code"]
    return table(heads, with_summary(rows, (1, 2, 3, 4), (max, max, min, min)))


def places():
    """The worst of the forms of a size, at each place."""
    rows = of("run", "places")
    sizes = ("2 bytes", "4 bytes", "both")
    worst = {
        (place, size): max(it["ratio"] for it in rows if it["what"] == place and it["tool"].startswith(size))
        for place, size in dict.fromkeys((it["what"], it["tool"].split(",")[0]) for it in rows)
    }
    names = [*dict.fromkeys(it["what"] for it in rows)]
    shown = [[name, *(worst.get((name, size)) for size in sizes)] for name in names]
    return table(["Place", *sizes], [[name, *(f"{it:.2f}" if it else "-" for it in row)] for name, *row in shown])


def watching():
    """Watched runs: millions of instructions a second."""
    rows = of("run", "watching")
    tools = [*dict.fromkeys(it["tool"] for it in rows)]
    rates = {(it["what"], it["tool"]): it["rate"] for it in rows}
    lines = [[name, *(rates[name, tool] for tool in tools)] for name in dict.fromkeys(it["what"] for it in rows)]
    return table(["Guest", *tools], with_summary(lines, range(1, len(tools) + 1), [min] * len(tools)))


def building():
    """Sources and objects that become an object or an executable, and listings."""
    titles = {
        "reading": "a source of instructions and data",
        "compiler": "GCC's output",
        "many": "many sources",
        "objects": "many objects",
        "listings": "a listing",
    }
    rows = []
    for benchmark, title in titles.items():
        for it in of("run", benchmark):
            size, memory = f"{it['bytes'] / MIB:.0f} MiB", f"{it['memory'] / MIB:.0f} MiB"
            rows.append([f"{title}, {size}", it["tool"], f"{it['seconds']:.2f} s", memory])
    return table(["What", "By", "Time", "Memory"], rows)


def debugging():
    """Builds for debuggers: processor seconds, with -g and without."""
    rows = of("run", "debugging")
    tools = ("rv", "rv -g", "GNU", "GNU -g")
    seconds = {(it["what"], it["tool"]): f"{it['seconds']:.3f}" for it in rows}
    sizes = {it["what"]: f"{it['what']}, {it['bytes'] / MIB:.1f} MiB" for it in rows}
    return table(
        ["Seconds", *tools], [[shown, *(seconds.get((it, tool), "-") for tool in tools)] for it, shown in sizes.items()]
    )


def by_tool(head, rows, figure):
    """A table with a row for what was measured, and a column for each tool."""
    tools = [*dict.fromkeys(it["tool"] for it in rows)]
    figures = {(it["what"], it["tool"]): f"{it[figure]:,.0f}" for it in rows}
    whats = [*dict.fromkeys(it["what"] for it in rows)]
    return table([head, *tools], [[what, *(figures.get((what, tool), "") for tool in tools)] for what in whats])


def running():
    """Guests: millions of instructions a second, the mean of all programs."""
    means = [it for it in of("run", "hart") if "rate" in it and it["what"].startswith("mean")]
    return by_tool("Millions of instructions a second", means, "rate")


def calls():
    """Small programs: runs a second."""
    return by_tool("Runs a second", of("run", "calls"), "programs")


def growth():
    """How times and memory grow from n to 8n, of honest inputs and then of hostile ones."""
    rows = sorted(of("growth", "growth"), key=lambda it: it["is_hostile"])
    shown = [
        [
            f"{it['what']}, {it['unit']}",
            "hostile" if it["is_hostile"] else "honest",
            it["tool"],
            ", ".join(f"{seconds:.2f}" for seconds in it["seconds"]),
            f"{it['exponent']:.2f}",
            f"{it['memory'][-1] / MIB:.0f} MiB",
            f"{it['memory_exponent']:.2f}",
        ]
        for it in rows
    ]
    heads = ["What", "Input", "By", "Seconds", "Exponent", "Memory", "Exponent"]
    drawing = f"![how times and memory grow]({PICTURE.name})\n\n" if PICTURE.exists() else ""
    return drawing + table(heads, shown) if shown else ""


def library():
    """Builds with a run: how many a second of a processor, and how many were measured."""
    rows = of("library", "library")
    cells = [[it["what"], it["tool"], f"{it['times']:,}", f"{it['programs']:,.0f}"] for it in rows]
    return table(["What", "By", "Measured", "Builds with a run a second"], cells)


def page():
    """The page's size, its start, and the pace of runs in it."""
    kilobytes = lambda it: f"{it['bytes'] / 1000:,.0f} kB, {it['packed'] / 1000:,.0f} kB packed"
    rows = [[f"size, {it['what']}", kilobytes(it)] for it in of("page", "page sizes")]
    rows += [[f"first interaction, {it['what']}", f"{it['seconds']:.2f} s"] for it in of("page", "page start")]
    return table(["What", "Measured"], rows)


def pace():
    """Runs in the page and by the program: millions of instructions a second."""
    return by_tool("Millions of instructions a second", of("page", "page pace"), "rate")


# Each table by its name, and the file of bench/out that it is made of.
TABLES = {
    "targets": (targets, "targets"),
    "sources": (sources, "run"),
    "links": (links, "run"),
    "guests": (guests, "run"),
    "places": (places, "run"),
    "watching": (watching, "run"),
    "building": (building, "run"),
    "debugging": (debugging, "run"),
    "running": (running, "run"),
    "calls": (calls, "run"),
    "library": (library, "library"),
    "page": (page, "page"),
    "pace": (pace, "page"),
    "growth": (growth, "growth"),
}


def taken(name):
    """The line that says when and of what program figures were taken."""
    head = read(name)
    kind = "proved" if head.get("is_proved") else "unproved"
    program = f"the {kind} program of {head.get('commit')}"
    return (
        f"Taken on {head.get('date')} with {program}, on {head.get('processors')} processors{BESIDE * is_busy(head)}."
    )


def texts():
    """The text of each table that there is."""
    for name, (make, file) in TABLES.items():
        text = make()
        if text:
            yield name, f"{text}\n\n{taken(file)}"


def main():
    page = PAGE.read_text(encoding="utf-8")
    for name, text in texts():
        if sys.argv[1:] != ["--write"]:
            print(f"{name}\n\n{text}\n")
            continue
        place = re.compile(rf"(?s)(<!-- table {name} -->\n).*?(<!-- end -->)")
        page, count = place.subn(lambda found: f"{found[1]}{text}\n{found[2]}", page)
        if not count:
            print(f"RESULTS.md has no place for the table {name}")
    if sys.argv[1:] == ["--write"]:
        PAGE.write_text(page, encoding="utf-8")
    return 0


if __name__ == "__main__":
    sys.exit(main())
