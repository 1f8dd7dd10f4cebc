"""Figures over lists of kinds: sources, links, guests. Each list is printed with its geometric mean and its worst."""

import subprocess
from dataclasses import dataclass

import guests
from links import LINKS, objects_of
from measure import (
    AS,
    GCC,
    GNU_AS,
    LD,
    LLD,
    MC,
    RV,
    Missing,
    Refused,
    are_there,
    at_once,
    host_instructions,
    mean,
    need,
    turns,
)
from sources import KIND_BYTES, SOURCES

# Of many files that are alike, as many are counted, and stand for the others.
COUNTED_FILES = 20
# Between which limits of a run host instructions are counted.
GUEST_FROM, GUEST_TO = 500_000, 2_500_000


@dataclass
class Row:
    """A kind, its host instructions by rv and by GNU's tools, and the times of all."""

    name: str
    family: str
    bytes: int
    ours: int
    theirs: int
    times: dict

    @property
    def ratio(self):
        return self.theirs / self.ours

    def beside(self, tool):
        """How many times as long a tool takes as rv; none where it refuses its files or isn't there."""
        return self.times[tool] / self.times["rv"] if {tool, "rv"} <= self.times.keys() else None


def worst(figures, is_more_better=True):
    """The name and the figure of the worst."""
    return (min if is_more_better else max)(figures.items(), key=lambda it: it[1])


def count(command):
    """The host instructions of a command; none where it refuses its files, which is said."""
    try:
        return host_instructions(*command, good=0)
    except Refused as fault:
        print(f"REFUSED: {fault}: {command[-1]}")
        return None


def written(kind, folder):
    """The files of a kind of source in a folder of its own; none where a tool is missing."""
    place = folder / f"source_{SOURCES.index(kind)}"
    place.mkdir()
    try:
        return kind.write(place, KIND_BYTES)
    except Missing:
        return []


def gnu_builds(paths):
    """The commands of GNU as for sources, and that of GNU ld for their objects, which are made."""
    made = [path.with_suffix(".o") for path in paths]
    assemblers = [[*GNU_AS, "-o", it, path] for path, it in zip(paths, made)]
    for command in assemblers:
        subprocess.run(command, check=True, capture_output=True)
    return assemblers, [LD, "-o", paths[0].with_suffix(".theirs"), *made]


def llvm_builds(paths):
    """The same of LLVM's tools."""
    made = [path.with_suffix(".llvm.o") for path in paths]
    assemblers = [[*MC, "-o", it, path] for path, it in zip(paths, made)]
    return [*assemblers, [*LLD, "--no-relax", "-o", paths[0].with_suffix(".llvm"), *made]]


def some_of(commands):
    """Some of many commands that are alike, and for how many each stands."""
    step = max(len(commands) // COUNTED_FILES, 1)
    return commands[::step], len(commands) / len(commands[::step])


def built(kind, paths):
    """The row of a kind of source."""
    ours = [RV, "build", "-o", paths[0].with_suffix(".ours"), *paths]
    assemblers, linker = gnu_builds(paths)
    some, each = some_of(assemblers)
    counts = [count(command) for command in (ours, linker, *some)]
    if None in counts:
        return None
    length = sum(path.stat().st_size for path in paths)
    return Row(kind.name, kind.family, length, counts[0], int(counts[1] + each * sum(counts[2:])), {})


def source_times(paths):
    """The times of the builds of a kind of source, in turns; many files are built once."""
    assemblers, linker = gnu_builds(paths)
    ways = {"rv": [[RV, "build", "-o", paths[0].with_suffix(".ours"), *paths]], "GNU": [*assemblers, linker]}
    if are_there(MC, LLD):
        ways["LLVM"] = llvm_builds(paths)
    return turns(ways, times=3 if len(paths) == 1 else 1)


def source_rows(folder):
    """The row of each kind of source; times are taken when all is counted."""
    need("valgrind", AS, LD)
    files = dict(zip(SOURCES, at_once(lambda kind: written(kind, folder), SOURCES)))
    files = {kind: paths for kind, paths in files.items() if paths}
    rows = zip(files, at_once(lambda kind: built(kind, files[kind]), files))
    for kind, row in rows:
        if row is not None:
            row.times = source_times(files[kind])
            yield row


def linked(link, objects):
    """The row of a kind of link."""
    ours, theirs = (objects[0].with_suffix(it) for it in (".ours", ".theirs"))
    counts = [count([RV, "ld", *link.words, "-o", ours, *objects]), count([LD, *link.words, "-o", theirs, *objects])]
    if None in counts:
        return None
    return Row(link.name, "links", sum(it.stat().st_size for it in objects), *counts, {})


def link_rows(folder):
    """The row of each kind of link."""
    need("valgrind", AS, LD, GCC)
    objects = {}
    for number, link in enumerate(LINKS):
        place = folder / f"link_{number}"
        place.mkdir()
        objects[link] = objects_of(link, place)
    for link, row in zip(objects, at_once(lambda link: linked(link, objects[link]), objects)):
        if row is None:
            continue
        made = objects[link][0].with_suffix(".made")
        ways = {"rv": [RV, "ld"], "GNU": [LD]} | ({"LLVM": LLD} if are_there(LLD) else {})
        ways = {name: [[*tool, *link.words, "-o", made, *objects[link]]] for name, tool in ways.items()}
        row.times = turns(ways)
        yield row


def guest_cost(program, given):
    """The host instructions that a guest instruction takes."""
    counts = [
        host_instructions(RV, "run", "--limit", limit, program, given=given, good=125)
        for limit in (GUEST_FROM, GUEST_TO)
    ]
    return (counts[1] - counts[0]) / (GUEST_TO - GUEST_FROM)


def guest_costs(folder):
    """The host instructions that an instruction of each guest takes, by its architecture and its name."""
    need("valgrind", GCC)
    kinds = [(architecture, name) for architecture in guests.ARCHITECTURES for name in guests.GUESTS]
    programs = [guests.compiled(folder, name, architecture) for architecture, name in kinds]
    return dict(zip(kinds, at_once(lambda it: guest_cost(*it), programs)))


def shown(title, figures, unit, is_more_better=True):
    """Prints a list of figures with its mean and its worst."""
    print(f"{title}: {unit}")
    for name, figure in figures.items():
        print(f"    {name:36} {figure:8.2f}")
    name, figure = worst(figures, is_more_better)
    print(f"  geometric mean {mean(figures.values()):.2f}, worst {figure:.2f}, {name}", flush=True)


def shown_beside(title, rows):
    """Prints the times of other tools by those of rv, of what they take."""
    for tool in ("GNU", "LLVM"):
        besides = {row.name: row.beside(tool) for row in rows if row.beside(tool)}
        if besides:
            shown(title, besides, f"time, {tool} by rv")
