#!/usr/bin/env python3
"""Runs the builds and links of tests/ over ./rv once more, with --gc-sections, and compares with those without.

usage: collected.py [NAME ..]     only cases whose path below tests/ begins so

- The map has a `drop` line for each section with an address that nothing keeps, and no other: what keeps them is found
  here in the objects (System V gABI, "Symbol Table", "Relocation"), which `rv as` makes of sources.
- Without such a line the executable and the map are those without the option.
- Each name of the map is one without the option too.
- What is refused is so for the same fault; but a section that is left out has none of L1 to L5 and L8, and L7 comes
  before L5.

Standard library alone; the last line is 'N passed, M failed'.
"""

import re
import struct
import sys

from run import Failed, same
from twice import both, call, main

OPTION = "--gc-sections"
# Is refused beside that option, which would leave out what it adds.
OTHER = "--pad-ends"
OF_A_SECTION = ("rv: L1 ", "rv: L2 ", "rv: L3 ", "rv: L4 ", "rv: L5 ", "rv: L8 ")
PROGBITS, RELA, NOTE, NOBITS, SYMTAB = 1, 4, 7, 8, 2
ALLOC, EXECINSTR = 2, 4
GLOBAL, WEAK = 1, 2
UNDEF, LORESERVE = 0, 0xFF00


class Object:
    """An object's sections with an address, its symbols, and which symbols each section's relocations name."""

    def __init__(self, held):
        at, count, strings = struct.unpack_from("<Q", held, 40)[0], *struct.unpack_from("<HH", held, 60)
        headers = [struct.unpack_from("<IIQQQQIIQQ", held, at + 64 * index) for index in range(count)]
        text = lambda table, index: held[(at := headers[table][4] + index) : held.index(b"\0", at)]
        parts = [index for index, it in enumerate(headers) if it[1] in (PROGBITS, NOTE, NOBITS)]
        parts = [it for it in parts if headers[it][1] != PROGBITS or text(strings, headers[it][0]) != b".rv.rows"]
        self.number = {index: number for number, index in enumerate(parts, 1)}
        self.loaded = {index for index in parts if headers[index][2] & ALLOC}
        self.code = {index for index in self.loaded if headers[index][2] & EXECINSTR}
        self.symbols, self.named = [], {index: set() for index in parts}
        for it in headers:
            records = range(it[4], it[4] + it[5], 24)
            if it[1] == SYMTAB:
                for record in records:
                    name, info, _, section, value = struct.unpack_from("<IBBHQ", held, record)
                    self.symbols.append((text(it[6], name), info >> 4, section, value))
            elif it[1] == RELA and it[7] in self.loaded:
                self.named[it[7]] |= {struct.unpack_from("<QQ", held, record)[1] >> 32 for record in records}


def chosen(objects):
    """The place that each name has for all files: its first global definition, else its first weak one."""
    found = {}
    for wanted in (GLOBAL, WEAK):
        for file, it in enumerate(objects):
            for name, binding, section, value in it.symbols:
                if binding == wanted and section != UNDEF:
                    found.setdefault(name, (file, section, value))
    return found


def left_out(objects):
    """The files and numbers of the sections that nothing keeps."""
    kept, queue, meant = set(), [], chosen(objects)

    def keep(place):
        if place and place not in kept and place[1] in objects[place[0]].loaded:
            kept.add(place)
            queue.append(place)

    def home(file, symbol):
        """The section that a symbol of a file means, by its file and its index there."""
        name, binding, section, _ = objects[file].symbols[symbol]
        if section == UNDEF or binding == WEAK and section < LORESERVE:
            return meant.get(name, (file, section))[:2]
        return file, section

    start = meant.get(b"_start")
    if start and start[1] in objects[start[0]].code and start[2] % 2 == 0:
        keep(start[:2])
    for file, section in queue:
        for symbol in objects[file].named[section]:
            keep(home(file, symbol))
    return {(f + 1, it.number[s]) for f, it in enumerate(objects) for s in it.loaded if (f, s) not in kept}


def lines(folder, name, word):
    return {tuple(it.split()[1:]) for it in (folder / name).read_text().splitlines() if it.startswith(f"{word} ")}


def source_of_definitions(folder, words):
    """The object of the source that the words `--defsym` stand for, behind those that are given; none without such."""
    defined = [after.split("=", 1) for word, after in zip(words, words[1:]) if word == "--defsym"]
    if not defined:
        return []
    # (what is left out does not depend on the values that the link tells)
    used = {it for _, value in defined for it in re.findall(r"(?<![\w$])[A-Za-z_$][\w$]*", value)}
    text = "".join(f".set {name}, 0\n" for name in sorted(used - {name for name, _ in defined}))
    text += "".join(f".globl {name}\n.set {name}, {value}\n" for name, value in defined)
    (folder / "definitions.s").write_text(text)
    call(folder, ["as", "-o", "definitions.of.o", "definitions.s"])
    return ["definitions.of.o"]


def compare(folder, words):
    """Compares what one build or link makes without the option and with it."""
    given, results = both(folder, words, OPTION, ("whole", "left"))
    if results[0] and results[0].startswith(OF_A_SECTION):
        if results[1] is not None and not results[1].startswith(("rv: L7 ", *OF_A_SECTION)):
            raise Failed(f"{results[0].strip()} became {results[1].strip()}")
    elif not (results[0] or "").startswith("error: "):
        same("what is refused", *results)
    if results[1]:
        return
    files = [it for it in given[1:] if (folder / it).exists() and not it.startswith("-")]
    if given[0] == "build":
        for at, source in enumerate(files):
            call(folder, ["as", "-o", f"{at}.of.o", source])
        files = [f"{at}.of.o" for at in range(len(files))]
    files += source_of_definitions(folder, given)
    wanted = left_out([Object((folder / it).read_bytes()) for it in files])
    same("drop lines", wanted, {(int(file), int(section)) for file, section in lines(folder, "left.map", "drop")})
    if results[0]:
        return
    if not wanted:
        for kind in ("", ".map"):
            same(
                f"the bytes of exe{kind}", (folder / f"whole{kind}").read_bytes(), (folder / f"left{kind}").read_bytes()
            )
    alone = {it[0] for it in lines(folder, "left.map", "global")} - {
        it[0] for it in lines(folder, "whole.map", "global")
    }
    same("names alone with the option", set(), alone)


def is_compared(words):
    """Whether a call makes an executable, and may have the option."""
    return words[:1] in (["build"], ["ld"]) and "-o" in words and OTHER not in words


if __name__ == "__main__":
    sys.exit(main(sys.argv[1:], f"builds and links with {OPTION} and without", is_compared, compare))
