"""Links random lists of objects with ./rv, and by a plain walk over their bytes that is written apart.

usage: compare.py walk COUNT [--origin] [--seed N] [--from N] [--jobs N] [--only N] [--rv PROGRAM]

Each list has one to five objects: text with calls, branches, halves of addresses, words and paddings, data, sections
that are not loaded, code without bytes up to 2^63, symbols of each binding at, before and past the ends of sections,
numbers, rows. The walk takes what a link is from the manual and the standards alone: which calls become short (passes
over all calls, and where they are few each family of sizes is tried), paddings, addresses, bytes, the map, or the first
fault. Each list is linked with and without `--no-relax`, and so with `--gc-sections`; the walk's answer must be that of
`rv ld`, byte by byte. List N of a seed is the same in each run; `--only N` takes it alone. With `--origin` a link
begins where that option alone lets it: at the edges of the stack, of 2^31, 2^32, 2^63 and 2^64, and at any page.

Each find is one line; its objects are kept in the folder that the last line names. Exit status 1 if there is a find.
"""

import itertools
import multiprocessing
import random
import signal
import struct
import subprocess
import sys
import tempfile
import time
from collections import Counter
from dataclasses import dataclass, field, replace
from pathlib import Path

from against.common import need, numbers_of, random_parser
from objects import KINDS

PROGBITS, NOTE, NOBITS = 1, 7, 8
WRITE, ALLOC, EXEC = 1, 2, 4
LOCAL, GLOBAL, WEAK = 0, 1, 2
ABSOLUTE, UNDEFINED, UNLOADED = "absolute", "undefined", "unloaded"
WHOLE, STACK, MIB = 1 << 64, 0x3FF00000, 1 << 20
# The page below 2^64, which stays free.
LAST = WHOLE - 4096
NAME = {number: name for name, number in KINDS.items()}
# fmt: off
WIDTH = {
    "32": 4, "64": 8, "BRANCH": 4, "JAL": 4, "CALL": 8, "CALL_PLT": 8, "PCREL_HI20": 4, "PCREL_LO12_I": 4,
    "PCREL_LO12_S": 4, "HI20": 4, "LO12_I": 4, "LO12_S": 4, "RVC_BRANCH": 2, "RVC_JUMP": 2, "SUB6": 1, "SET6": 1,
    "SET8": 1, "SET16": 2, "SET32": 4, "32_PCREL": 4,
    **{it + size: int(size) // 8 for it in ("ADD", "SUB") for size in "8 16 32 64".split()},
}
# fmt: on
LINKER = ["_etext", "__bss_start", "_edata", "_end", "__global_pointer$"]
CALLS = ("CALL", "CALL_PLT")


@dataclass
class Section:
    kind: int
    flags: int
    align: int
    size: int
    body: bytearray | None
    relocs: list = field(default_factory=list)  # place, kind, symbol, addend
    edges: list = field(default_factory=list)


@dataclass
class Symbol:
    name: str
    binding: int
    home: object  # a section's number from 1, or a word
    value: int


@dataclass
class Object:
    rvc: bool
    sections: list
    symbols: list  # the first is symbol 1
    rows: list
    split: int = 99  # so many relocations of a section stand in its first table, the others in a second one


# --- an object's file


def file_of(it):
    """The file of an object."""
    names, held, headers = bytearray(1), bytearray(64), [bytes(64)]

    def add(name, kind, flags, body, size, align, link=0, info=0, record=0):
        held.extend(bytes(-len(held) % 8))
        headers.append(
            struct.pack("<IIQQQQIIQQ", len(names), kind, flags, 0, len(held), size, link, info, align, record)
        )
        names.extend(name.encode() + b"\0")
        held.extend(body)

    tables = [
        (number, section.relocs[part])
        for part in (slice(it.split), slice(it.split, None))
        for number, section in enumerate(it.sections, 1)
        if section.relocs[part]
    ]
    table = 1 + len(it.sections) + len(tables) + bool(it.rows)
    for number, section in enumerate(it.sections, 1):
        add(f"s{number}", section.kind, section.flags, section.body or b"", section.size, section.align)
    for number, relocs in tables:
        body = b"".join(
            struct.pack("<QIIQ", place, KINDS[kind], symbol, addend % WHOLE) for place, kind, symbol, addend in relocs
        )
        add(f".relas{number}", 4, 0, body, len(body), 8, table, number, 24)
    if it.rows:
        body = b"".join(
            struct.pack("<IIIIQII", line, ordinal, section, count, place, size, 0)
            for line, ordinal, section, count, place, size in it.rows
        )
        add(".rv.rows", PROGBITS, 0, body, len(body), 1)
    homes = {ABSOLUTE: 0xFFF1, UNDEFINED: 0, UNLOADED: table}
    strings, body = bytearray(1), bytearray(24)
    for number, symbol in enumerate(it.symbols):
        at = len(strings) if symbol.name else 0
        strings.extend(symbol.name.encode() + b"\0" if symbol.name else b"")
        info = 16 * symbol.binding + number % 5
        body += struct.pack("<IBBHQQ", at, info, number % 4, homes.get(symbol.home, symbol.home), symbol.value, number)
    locals_ = sum(symbol.binding == LOCAL for symbol in it.symbols)
    add(".symtab", 2, 0, body, len(body), 8, table + 1, 1 + locals_, 24)
    add(".strtab", 3, 0, strings, len(strings), 1)
    add(".shstrtab", 3, 0, names + b".shstrtab\0", len(names) + 10, 1)
    held.extend(bytes(-len(held) % 8))
    held[:64] = (
        b"\x7fELF\2\1\1"
        + bytes(9)
        + struct.pack("<HHIQQQIHHHHHH", 1, 243, 1, 0, 0, len(held), it.rvc, 64, 0, 0, 64, len(headers), table + 2)
    )
    return bytes(held) + b"".join(headers)


# --- the walk: what the manual and the standards say of these objects


class Refused(Exception):
    """The first fault of a link."""


def hi(number):
    return (number + 0x800) // 0x1000


def signed(number):
    number %= WHOLE
    return number - WHOLE if number >= WHOLE // 2 else number


def bits(high, low):
    return list(range(high, low - 1, -1))


# for each field the highest bit of the word and the bits of the number from there down
I, U = [(31, bits(11, 0))], [(31, bits(19, 0))]
S = [(31, bits(11, 5)), (11, bits(4, 0))]
B = [(31, [12, *bits(10, 5)]), (11, [*bits(4, 1), 11])]
J = [(31, [20, *bits(10, 1), 11, *bits(19, 12)])]
CB, CJ = [(12, [8, 4, 3]), (6, [7, 6, 2, 1, 5])], [(12, [11, 4, 9, 8, 10, 6, 7, 3, 2, 1, 5])]


def set_field(body, at, size, layout, number):
    word = int.from_bytes(body[at : at + size], "little")
    for top, listed in layout:
        for down, bit in enumerate(listed):
            word = word & ~(1 << top - down) | (number >> bit & 1) << top - down
    body[at : at + size] = word.to_bytes(size, "little")


def region_of(section):
    """Where a section goes, or nothing for one that is not loaded."""
    if not section.flags & ALLOC:
        return None
    return (
        "text"
        if section.flags & EXEC
        else "bss"
        if section.kind == NOBITS
        else "data"
        if section.flags & WRITE
        else "rodata"
    )


def alignment_of(addend):
    """The least power of two above the addend of an ALIGN."""
    return 1 << addend.bit_length()


def ceiling(start):
    """The address up to which a program may go that begins here; None where none may begin."""
    if start % 4096:
        return None
    if start < STACK:
        return STACK
    return LAST if BY_ORIGIN and STACK + MIB <= start < LAST else None


class Link:
    """A link of objects; `answer` is the executable and the map, or the fault."""

    def __init__(self, objects, start, relax, collects=False):
        self.start, self.relax, self.collects, self.drops = start, relax, collects, []
        self.ceiling = ceiling(start)
        self.take(objects)

    def take(self, objects):
        self.objects = objects
        self.loaded = [
            (f, s) for f, it in enumerate(objects) for s in range(1, len(it.sections) + 1) if self.region(f, s)
        ]
        self.text = [at for at in self.loaded if self.region(*at) == "text"]

    def section(self, f, s):
        return self.objects[f].sections[s - 1]

    def region(self, f, s):
        return region_of(self.section(f, s))

    def align(self, at):
        """A section's alignment: at least 2 for code, and at least that of each padding in it."""
        it = self.section(*at)
        if at not in self.text:
            return max(1, it.align)
        return max([2, it.align] + [alignment_of(addend) for _, kind, _, addend in it.relocs if kind == "ALIGN"])

    def answer(self):
        try:
            return self.linked()
        except Refused as it:
            return str(it)

    def linked(self):
        if len(self.objects) > 1024:
            raise Refused("L10 TooManyFiles")
        if self.ceiling is None:
            raise Refused("L9 BadTextStart")
        self.choose()
        self.begin = self.chosen.get("_start", (0, None))
        home = self.begin[1].home if self.begin[1] else None
        begins = (self.begin[0], home) in self.text and self.begin[1].value % 2 == 0
        if self.collects:
            self.collect([(self.begin[0], home)] if begins else [])
        for at in self.loaded:
            for _, _, symbol, _ in self.section(*at).relocs:
                if symbol and self.meaning(at[0], symbol) is None:
                    raise Refused(f"L5 Undefined {self.objects[at[0]].symbols[symbol - 1].name}")
        if not begins:
            raise Refused("L7 EntryMissing")
        self.sizes = self.call_sizes()
        self.place()
        return self.filled()

    def choose(self):
        """What each name means to all files: its global definition, else the first weak one."""
        every = [(f, it) for f, object in enumerate(self.objects) for it in object.symbols if it.home != UNDEFINED]
        self.chosen = {}
        for f, it in every:
            if it.binding == GLOBAL:
                if it.name in self.chosen:
                    raise Refused(f"L6 Duplicate {it.name}")
                self.chosen[it.name] = f, it
        for f, it in every:
            if it.binding == WEAK:
                self.chosen.setdefault(it.name, (f, it))

    def meaning(self, f, symbol):
        """What a reference of a file means: a number, a place (section and offset), a linker's name, or nothing."""
        if symbol == 0:
            return 0
        it = self.objects[f].symbols[symbol - 1]
        if it.home == UNDEFINED or it.binding == WEAK and it.home != ABSOLUTE:
            f, it = self.chosen.get(it.name, (f, it))
        if it.home == UNDEFINED:
            return it.name if it.name in LINKER else 0 if it.binding == WEAK else None
        if it.home == ABSOLUTE:
            return it.value
        return ((f, it.home), it.value) if it.home != UNLOADED and (f, it.home) in self.loaded else None

    def collect(self, kept):
        """Leaves the sections to which something leads from these."""
        for at in kept:
            for _, _, symbol, _ in self.section(*at).relocs:
                place = self.meaning(at[0], symbol)
                if isinstance(place, tuple) and place[0] not in kept:
                    kept.append(place[0])
        self.drops = [at for at in self.loaded if at not in kept]
        off = lambda f, s, it: replace(it, flags=it.flags & ~ALLOC, relocs=[]) if (f, s) in self.drops else it
        self.take(
            [
                replace(
                    object,
                    sections=[off(f, s, it) for s, it in enumerate(object.sections, 1)],
                    rows=[row for row in object.rows if (f, row[2]) not in self.drops],
                )
                for f, object in enumerate(self.objects)
            ]
        )

    # which calls become short

    def is_permitted(self, at, index):
        it = self.section(*at)
        place, kind, symbol, _ = it.relocs[index]
        if not self.relax or kind not in CALLS or at not in self.text or place % 2:
            return False
        first, second = struct.unpack_from("<II", it.body, place)
        if first & 0x7F != 0x17 or second & 0x707F != 0x67 or first >> 7 & 31 != second >> 15 & 31:
            return False
        target = self.meaning(at[0], symbol)
        if not isinstance(target, tuple) or target[0] not in self.text:
            return False
        if any(each.home == at[1] and place < each.value < place + 8 for each in self.objects[at[0]].symbols):
            return False
        if any(
            n != index and other in WIDTH and there < place + 8 and place < there + WIDTH[other]
            for n, (there, other, _, _) in enumerate(it.relocs)
        ):
            return False
        return any(there == place and other == "RELAX" for there, other, _, _ in it.relocs)

    def reaches(self, call, form, sizes):
        """Whether a form reaches, with all paddings in full and the other calls as given.

        A symbol past its section's end moves as the end does, so the distance is that to the end. What the symbol lies
        past it is added as the addend is, in 64 bits: it is no part of what shrinks with paddings.
        """
        at, index = call
        place, _, symbol, addend = self.section(*at).relocs[index]
        there, value = self.meaning(at[0], symbol)
        past = max(value - self.section(*there).size, 0)
        value, constant = value - past, signed(addend + past)
        starts, end = {}, 0
        for each in self.text:
            starts[each] = end + self.align(each) - 2
            end = starts[each] + self.section(*each).size - self.cut(each, sizes, self.section(*each).size)
        distance = (
            starts[there] + value - self.cut(there, sizes, value) - (starts[at] + place - self.cut(at, sizes, place))
        )
        least, most = {2: (-2048, 2046), 4: (-MIB, MIB - 2)}[form]
        return all(least <= it <= most and it % 2 == 0 for it in (constant, distance + constant))

    def leads_past(self, at, index):
        """Whether a call leads past the end of a section."""
        there, value = self.meaning(at[0], self.section(*at).relocs[index][2])
        return value > self.section(*there).size

    def cut(self, at, sizes, before):
        """The bytes that the calls of a section lose before an offset."""
        cuts = ((self.section(*at).relocs[n][0] + size, 8 - size) for (where, n), size in sizes.items() if where == at)
        return sum(min(max(before - begin, 0), count) for begin, count in cuts)

    def forms(self, call):
        """The short forms of a call: `jal rd`, and `c.j` where no register is linked and compressed code is meant."""
        at, index = call
        it = self.section(*at)
        second = struct.unpack_from("<I", it.body, it.relocs[index][0] + 4)[0]
        return [2, 4] if second >> 7 & 31 == 0 and self.objects[at[0]].rvc else [4]

    def call_sizes(self):
        """The greatest family of sizes in which no call has a shorter form that reaches."""
        calls = [(at, n) for at in self.text for n in range(len(self.section(*at).relocs)) if self.is_permitted(at, n)]
        sizes, before = dict.fromkeys(calls, 8), None
        while sizes != before:
            before = sizes
            sizes = {
                it: next((form for form in self.forms(it) if form < size and self.reaches(it, form, before)), size)
                for it, size in before.items()
            }
        if len(calls) <= 3:
            families = [dict(zip(calls, it)) for it in itertools.product(*([8, *self.forms(it)] for it in calls))]
            closed = [
                it
                for it in families
                if not any(
                    self.reaches(call, form, it) for call in calls for form in self.forms(call) if form < it[call]
                )
            ]
            greatest = {call: max(it[call] for it in closed) for call in calls}
            assert greatest in closed and greatest == sizes, "passes find another family"
        return sizes

    # where all stands

    def place(self):
        """The address of each section, its cuts (first and last offset), its paddings, and the bounds of the
        regions."""
        self.address, self.cuts, self.pads, self.gaps, self.bounds = {}, {at: [] for at in self.loaded}, {}, [], {}
        end = self.start
        for at in self.text:
            it, begin = self.section(*at), end + -end % self.align(at)
            if begin > end:
                self.gaps.append((end, begin))
            self.address[at] = begin
            steps = [
                (self.section(*at).relocs[n][0], n, size) for (where, n), size in self.sizes.items() if where == at
            ]
            steps += [(place, n, None) for n, (place, kind, _, _) in enumerate(it.relocs) if kind == "ALIGN"]
            for place, n, size in sorted(steps, key=lambda it: it[:2]):
                if size is not None:
                    self.cuts[at].append((place + size, place + 8))
                    continue
                addend = it.relocs[n][3]
                least = -self.at(at, place) % alignment_of(addend)
                if least > addend:
                    raise Refused("L4 AlignmentShort")
                self.pads[at, n] = least
                self.cuts[at].append((place + least, place + addend))
            end = self.at(at, it.size)
        self.bounds["text"] = self.start, end
        for region in ("rodata", "data", "bss"):
            listed = [at for at in self.loaded if self.region(*at) == region]
            end += -end % (4096 if region != "bss" else max([1, *map(self.align, listed)]))
            first = end
            for at in listed:
                self.address[at] = end + -end % self.align(at)
                end = self.address[at] + self.section(*at).size
            self.bounds[region] = first, end
        if end > self.ceiling or self.memory() > 256 * MIB:
            raise Refused("L8 ImageTooLarge")

    def memory(self):
        """The bytes of all segments; bss belongs to the segment of data."""
        bounds = self.bounds
        return (
            bounds["text"][1]
            - self.start
            + bounds["rodata"][1]
            - bounds["rodata"][0]
            + bounds["bss"][1]
            - bounds["data"][0]
        )

    def at(self, section, offset):
        """The address of an offset of a section."""
        gone = sum(min(max(offset - first, 0), last - first) for first, last in self.cuts[section])
        return self.address[section] + offset - gone

    # the bytes

    def number(self, f, symbol):
        """The address or number that a reference means."""
        it = self.meaning(f, symbol)
        return self.linker(it) if isinstance(it, str) else self.at(*it) if isinstance(it, tuple) else it

    def linker(self, name):
        """The address of one of the linker's names."""
        return {
            "_etext": self.bounds["text"][1],
            "__bss_start": self.bounds["bss"][0],
            "_edata": self.bounds["data"][1],
            "_end": self.bounds["bss"][1],
            "__global_pointer$": self.bounds["data"][0] + 0x800,
        }[name]

    def filled(self):
        image = {it: bytearray(last - first) for it, (first, last) in self.bounds.items() if it != "bss"}
        for at in self.loaded:
            region = self.region(*at)
            if region != "bss":
                first = self.address[at] - self.bounds[region][0]
                body = self.kept(at)
                image[region][first : first + len(body)] = body
        for at in self.loaded:
            region = self.region(*at)
            for n, (place, kind, symbol, addend) in enumerate(self.section(*at).relocs):
                if kind in WIDTH:
                    self.patch(image[region], self.bounds[region][0], at, n, place, kind, symbol, addend)
        return self.executable(image), self.map()

    def kept(self, at):
        """The bytes that a section keeps, with its paddings anew."""
        it, gone = self.section(*at), sorted(self.cuts[at])
        body = bytearray(it.body if it.body is not None else bytes(it.size))
        for n, least in self.pads.items():
            if n[0] == at:
                place = it.relocs[n[1]][0]
                body[place : place + least] = b"\x13\0\0\0" * (least // 4) + b"\x01\0" * (least % 4 // 2)
        for first, last in reversed(gone):
            del body[first:last]
        return body

    def patch(self, body, base, at, n, place, kind, symbol, addend):
        """Fills a field by its relocation."""
        here, width = self.at(at, place), WIDTH[kind]
        where = here - base
        value = signed(self.number(at[0], symbol) + addend)
        away = signed(self.number(at[0], symbol) + addend - here)

        def within(number, least, most):
            if not least <= number <= most:
                raise Refused("L1 Overflow")

        def jump(layout, reach):
            within(away, -reach, reach - 2)
            if away % 2:
                raise Refused("L2 OddTarget")
            set_field(body, where, width, layout, away)

        layouts = {"BRANCH": (B, 4096), "JAL": (J, MIB), "RVC_BRANCH": (CB, 256), "RVC_JUMP": (CJ, 2048)}
        if kind in layouts:
            jump(*layouts[kind])
        elif kind in CALLS and (at, n) in self.sizes and self.sizes[at, n] < 8:
            width = self.sizes[at, n]
            rd = struct.unpack_from("<I", self.section(*at).body, place + 4)[0] & 0xF80
            body[where : where + width] = (0x6F | rd).to_bytes(4, "little") if width == 4 else b"\x01\xa0"
            jump(*((J, MIB) if width == 4 else (CJ, 2048)))
        elif kind in CALLS:
            within(hi(away), -1 << 19, (1 << 19) - 1)
            if away % 2:
                raise Refused("L2 OddTarget")
            set_field(body, where, 4, U, hi(away))
            set_field(body, where + 4, 4, I, away)
        elif kind in ("PCREL_HI20", "HI20"):
            number = away if kind == "PCREL_HI20" else value
            within(hi(number), -1 << 19, (1 << 19) - 1)
            set_field(body, where, 4, U, hi(number))
        elif kind in ("PCREL_LO12_I", "PCREL_LO12_S"):
            set_field(body, where, 4, I if kind[-1] == "I" else S, self.high(at, symbol, addend))
        elif kind in ("LO12_I", "LO12_S"):
            set_field(body, where, 4, I if kind[-1] == "I" else S, value)
        else:
            if kind == "32":
                within(value, -1 << 31, (1 << 32) - 1)
            if kind == "32_PCREL":
                within(away, -1 << 31, (1 << 31) - 1)
            old = int.from_bytes(body[where : where + width], "little")
            new = (
                old + value
                if kind[:3] == "ADD"
                else old - value
                if kind[:3] == "SUB"
                else away
                if "PC" in kind
                else value
            )
            new = old & 0xC0 | new & 0x3F if kind in ("SUB6", "SET6") else new
            body[where : where + width] = (new % (1 << 8 * width)).to_bytes(width, "little")

    def high(self, at, symbol, addend):
        """The value of the PCREL_HI20 at the place of a symbol."""
        it = self.meaning(at[0], symbol)
        if isinstance(it, tuple) and addend == 0:
            for place, kind, other, more in self.section(*it[0]).relocs:
                if kind == "PCREL_HI20" and self.at(it[0], place) == self.at(*it):
                    return signed(self.number(it[0][0], other) + more - self.at(it[0], place))
        raise Refused("L3 DanglingPcrel")

    def executable(self, image):
        """The file: headers, then each segment at its place."""
        file, heads = bytearray(64), []
        bounds = {**self.bounds, "data": (self.bounds["data"][0], self.bounds["bss"][1])}
        for region, right in (("text", 1), ("rodata", 4), ("data", 6)):
            first, last = bounds[region]
            if last > first:
                offset = 4096 + first - self.start
                heads.append(
                    struct.pack("<IIQQQQQQ", 1, right, offset, first, first, len(image[region]), last - first, 4096)
                )
                if image[region]:
                    file.extend(bytes(max(offset - len(file), 0)))
                    file[offset:] = image[region]
        flags = any(it.rvc for it in self.objects)
        file[:64] = (
            b"\x7fELF\2\1\1"
            + bytes(9)
            + struct.pack("<HHIQQQIHHHHHH", 2, 243, 1, self.entry(), 64, 0, flags, 64, 56, len(heads), 0, 0, 0)
        )
        file[64 : 64 + 56 * len(heads)] = b"".join(heads)
        return bytes(file)

    def entry(self):
        return self.at((self.begin[0], self.begin[1].home), self.begin[1].value) % WHOLE

    def map(self):
        """The text of the map."""
        lines = ["rvmap 1"] + [f"{it} {first:x} {last:x}" for it, (first, last) in self.bounds.items()]
        lines += [f"entry {self.entry():x}"]
        lines += [f"gap {first:x} {last:x}" for first, last in self.gaps]
        for f, object in enumerate(self.objects):
            for n, it in enumerate(object.symbols, 1):
                where, chosen = self.chosen.get(it.name, (0, None)) if it.binding != LOCAL else (0, None)
                if where == f and chosen is it and self.meaning(f, n) is not None:
                    lines.append(f"global {it.name} {self.number(f, n) % WHOLE:x}")
        lines += [f"global {it} {self.linker(it):x}" for it in LINKER if it not in self.chosen]
        kept = lambda f, s: sum(it.kind in (PROGBITS, NOTE, NOBITS) for it in self.objects[f].sections[:s])
        lines += [f"drop {f + 1} {kept(f, s)}" for f, s in self.drops]
        for f, object in enumerate(self.objects):
            for line, ordinal, s, count, place, size in sorted(object.rows, key=lambda it: it[1]):
                at = self.at((f, s), place)
                now = max(0, count - self.fewer((f, s), place, place + size))
                lines.append(f"row {f + 1} {line} {ordinal} {at:x} {self.at((f, s), place + size) - at} {now}")
        return "\n".join(lines) + "\n"

    def fewer(self, at, first, last):
        """The instructions that a row loses: one for each short call in it, and those of paddings."""
        calls = [self.section(*at).relocs[n][0] for (where, n), size in self.sizes.items() if where == at and size < 8]
        pads = [(self.section(*at).relocs[n], least) for (where, n), least in self.pads.items() if where == at]
        return sum(first <= it and it + 8 <= last for it in calls) + sum(
            (it[3] + 2) // 4 - (least + 2) // 4 for it, least in pads if first <= it[0] and it[0] + it[3] <= last
        )


# --- random lists

# Where texts begin, and where none may: by --text-start, and by --origin.
STARTS = [0x10000] * 16 + [0, 0x1000, STACK - 4 * MIB, STACK - 12288]
NO_STARTS = [STACK, 4097, 2, 1 << 63, LAST]
ORIGINS = [
    *(0, 0x1000, 0x10000, STACK - 4 * MIB, STACK - 12288, STACK - 4096, STACK + MIB, STACK + MIB + 4096),
    *((1 << 31) - MIB, (1 << 31) - 8192, 1 << 31, 1 << 31, (1 << 32) - 8192, 1 << 32, (1 << 63) - 8192, 1 << 63),
    *(LAST - 256 * MIB, LAST - 4 * MIB, LAST - 12288, LAST - 4096),
]
NO_ORIGINS = [STACK, STACK + 4096, STACK + MIB - 4096, LAST, LAST + 1, WHOLE - 1, 4097, (1 << 31) + 2048]
# fmt: off
ADDENDS = [0] * 30 + [
    2, -2, 4, 8, -8, 1, -1, 2046, -2048, 4094, MIB - 2, -MIB, 1 << 31, -1 << 31, 1 << 62, WHOLE // 2 - 1, -WHOLE // 2,
]
# fmt: on
PADDINGS = [0, 2, 2, 6, 6, 14, 14, 30, 62, 1022, 4094]
FAR = [0, 1, 2, 4, 8, 2046, 4096, MIB, 1 << 31, 1 << 32, 1 << 61, 1 << 63]
# fmt: off
NUMBERS = [
    0, 1, 7, 2047, 2048, 0x10000, 0x11002, (1 << 31) - 2049, (1 << 31) - 2048, (1 << 31) - 1, 1 << 31, (1 << 32) - 1,
    1 << 32, 1 << 63, WHOLE - 1, WHOLE - 2048, WHOLE - (1 << 31) - 2049, WHOLE - (1 << 31) - 2048,
    WHOLE - (1 << 31) - 1, WHOLE - (1 << 31),
]
# fmt: on
REACH = {"BRANCH": 4094, "JAL": MIB - 2, "RVC_BRANCH": 254, "RVC_JUMP": 2046}
# fmt: off
WORDS = {
    "BRANCH": 0x63, "JAL": 0x6F, "RVC_BRANCH": 0xC001, "RVC_JUMP": 0xA001, "PCREL_HI20": 0x17, "HI20": 0x37,
    "LO12_I": 0x13, "LO12_S": 0x23,
}
# fmt: on
PAIRS = ["ADD8", "ADD16", "ADD32", "ADD64", "SUB8", "SUB16", "SUB32", "SUB64", "SUB6", "SET6", "SET8", "SET16", "SET32"]
# fmt: off
STEPS = {
    "call": 30, "padding": 14, "filler": 14, "near": 14, "half": 8, "pair": 6, "word": 8, "field": 6, "odd": 3,
    "limit": 4, "nothing": 4,
}
SIZES_HUGE = [
    1 << 61, 1 << 61, (1 << 61) + 2, (1 << 61) - 2, 1 << 62, (1 << 62) - 2, 1 << 63, (1 << 63) + 6, WHOLE - 2,
    300 * MIB,
]
# fmt: on
WANT = -1


def filled_section(pick, it, steps, huge):
    """Puts steps of code or data into a section: bytes, and relocations whose symbols are still wanted."""
    body, code = it.body, it.flags & EXEC
    for step in steps:
        it.edges.append(len(body))
        at = len(body)
        if at % 2 and code and step != "odd" and pick.random() < 0.75:
            body.append(0)
            at += 1
        if step == "call":
            register, link = pick.choice([1, 1, 1, 6, 6, 0, 31]), pick.choice([0, 0, 0, 0, 1, 1, 5])
            words = 0x17 | register << 7 | (0x67 | link << 7 | register << 15) << 32
            body += (words ^ (1 << pick.randrange(64) if pick.random() < 0.06 else 0)).to_bytes(8, "little")
            it.relocs.append((at, pick.choice(CALLS), WANT, 0))
            if pick.random() < 0.88:
                it.relocs.insert(
                    len(it.relocs) - pick.choice([0, 0, 0, 1]), (at, "RELAX", pick.choice([0] * 9 + [WANT]), 0)
                )
            if pick.random() < 0.1:
                it.edges.append(at + pick.randrange(1, 8))
            if pick.random() < 0.03:
                it.relocs.append(
                    (at + pick.choice([0, 0, 4, 6]), pick.choice(["SET8", "ADD16", "NONE", "RELAX"]), WANT, 0)
                )
        elif step == "padding" and at % 2 == 0:
            addend = pick.choice(PADDINGS) if pick.random() < (0.5 if huge else 0.96) else 2 * pick.randrange(40)
            body += pick.choice([bytes(addend), pick.randbytes(addend)])
            it.relocs.append((at, "ALIGN", pick.choice([0] * 9 + [WANT]), addend))
        elif step == "limit" and code:
            link, count = pick.choice([0, 0, 0, 1]), pick.choice([2046, 2046, 2046, MIB - 2]) + 2 * pick.randrange(
                -6, 8
            )
            call = (0x317 | (0x30067 | link << 7) << 32).to_bytes(8, "little")
            behind = pick.random() < 0.5
            body += bytes(count) + call if behind else call + bytes(count)
            place, aim = (at + count, at) if behind else (at, len(body))
            it.relocs += [(place, "CALL", (aim,), 0), (place, "RELAX", 0, 0)]
        elif step == "filler":
            gone = at - pick.choice(it.edges) + 2 * pick.randrange(-3, 9)
            limits = [254, 2046, 2046, 2046, 4094] + [MIB - 2] * (pick.random() < 0.3)
            body += bytes(max(0, pick.choice([2, 4, 2 * pick.randrange(40)] + [limit - gone for limit in limits])))
        elif step == "near" and code:
            kind = pick.choice([*REACH])
            body += (WORDS[kind] | pick.choice([0, 0x80, 0x200])).to_bytes(WIDTH[kind], "little")
            it.relocs.append((at, kind, WANT, 0))
        elif step == "half":
            kind = pick.choice(["HI20", "LO12_I", "LO12_S", "PCREL_HI20", "PCREL_HI20"])
            body += (WORDS[kind] | pick.getrandbits(5) << 7).to_bytes(4, "little")
            it.relocs += [(at, kind, WANT, pick.choice(ADDENDS[:40])) for _ in range(pick.choice([1] * 30 + [2]))]
            if kind == "PCREL_HI20" and pick.random() < 0.9:
                body += pick.getrandbits(32).to_bytes(4, "little")
                before = it.edges[max(-2, -len(it.edges))]
                is_padding = any(place == before and other == "ALIGN" for place, other, _, _ in it.relocs)
                label = pick.choice(
                    [(before,)] if is_padding and pick.random() < 0.5 else [(at,)] * 30 + [(before,), WANT]
                )
                low = (at + 4, pick.choice(["PCREL_LO12_I", "PCREL_LO12_S"]), label, pick.choice([0] * 40 + [4]))
                it.relocs.insert(len(it.relocs) - pick.choice([0, 0, 1]), low)
        elif step == "pair":
            size = pick.choice([8, 16, 32, 64])
            body += pick.choice([bytes(size // 8), pick.getrandbits(size).to_bytes(size // 8, "little")])
            it.relocs += [(at, f"{kind}{size}", WANT, pick.choice(ADDENDS)) for kind in ("ADD", "SUB")]
        elif step == "word":
            kind = pick.choice(["64", "64", "32", "32_PCREL"])
            body += bytes(WIDTH[kind])
            it.relocs.append((at, kind, WANT, pick.choice(ADDENDS[:34])))
        elif step == "field":
            body += pick.getrandbits(80).to_bytes(10, "little")
            kinds = pick.sample(PAIRS, pick.choice([1, 1, 2]))
            it.relocs += [(at + pick.randrange(3), kind, WANT, pick.choice(ADDENDS)) for kind in kinds]
        elif step == "odd":
            body.append(pick.getrandbits(8))
    if code and len(body) % 2:
        body.append(0)
    it.size = len(body)
    it.edges.append(it.size)


def some_section(pick, first, huge):
    """A section: of text where it is the first."""
    name = (
        "text"
        if first
        else pick.choices(
            ["text", "rodata", "data", "bss", "note", "unloaded", "skipped", "ghost", "hole"],
            [40, 12, 16, 10, 3, 6, 3, 2, 30 if huge else 5],
        )[0]
    )
    kind = {"bss": NOBITS, "hole": NOBITS, "ghost": NOBITS, "note": NOTE, "skipped": 0x70000003}.get(name, PROGBITS)
    flags = {"text": 6, "rodata": 2, "data": 3, "bss": 3, "note": 2, "hole": 6}.get(name, 0) | pick.choice(
        [0, 0, 0, 0, 1]
    )
    it = Section(
        kind, flags, pick.choice([0, 1, 1, 2, 2, 4, 8, 16, 64, 4096]), 0, None if kind == NOBITS else bytearray()
    )
    if kind != NOBITS:
        steps = [*STEPS] if flags & EXEC else ["filler", "pair", "word", "half", "field", "odd", "nothing"]
        weights = [STEPS[step] for step in steps]
        filled_section(pick, it, pick.choices(steps, weights, k=int(24 ** pick.random())), huge)
        return it
    it.size = pick.choice([0, 2, 10, 4096, 2 * pick.randrange(2000), MIB - 2 * pick.randrange(80)])
    if name == "ghost" or name == "bss" and pick.random() < 0.15:
        it.size = pick.choice(
            [1, 255 * MIB, 256 * MIB - 4096 * pick.randrange(4), 256 * MIB, 1 << 32, 1 << 63, WHOLE - 1]
        )
    if name == "hole" and huge:
        it.size = pick.choice(SIZES_HUGE)
    it.edges = [0, it.size // 4 * 2, it.size]
    if name == "hole" and it.size > 60 and pick.random() < 0.3:
        it.relocs = [
            (at, "ALIGN", 0, pick.choice([2, 4, 6, 14])) for at in (0, 16, it.size - 14) if pick.random() < 0.7
        ]
    return it


def some_object(pick, number, huge):
    """An object whose references are still wanted, with symbols at edges of its sections."""
    sections = [some_section(pick, number == 0 and n == 0, huge) for n in range(pick.choice([1, 1, 2, 2, 3, 4, 5]))]
    it = Object(pick.random() < 0.8, sections, [], [], pick.choice([99, 99, 99, 0, 1, 2, 3]))
    for n in range(int(9 ** pick.random())):
        loaded = [s for s, section in enumerate(sections, 1) if section.flags & ALLOC] * (pick.random() < 0.95)
        s = pick.choice(loaded or [len(sections)])
        value = pick.choice([edge for edge in sections[s - 1].edges if edge % 2 == 0 or pick.random() < 0.1] or [0])
        if pick.random() < 0.06:
            value = min(sections[s - 1].size + pick.choice(FAR), WHOLE - 1)
        home = pick.choice([s] * 24 + [ABSOLUTE] * 4 + [UNLOADED])
        binding = pick.choice([LOCAL, GLOBAL, GLOBAL, WEAK])
        name = pick.choice(
            {LOCAL: ["", f".L{n}", "u1"], GLOBAL: [f"g{number}_{n}"], WEAK: ["u0", "u1", "u2", "v0", "v1"]}[binding]
        )
        if binding == GLOBAL and pick.random() < 0.03 or binding == WEAK and pick.random() < 0.1:
            name = pick.choice(["g0_0", "u0", "v1", *LINKER, "_start"])
        if home != s:
            edge = 0x10000 - 0x800 + pick.choice([1 << 31, -1 << 31]) + pick.randrange(-40, 90)
            value = pick.choice([*NUMBERS, edge % WHOLE])
        if all(name != other.name or not name or binding == WEAK for other in it.symbols):
            it.symbols.append(Symbol(name, binding, home, value))
    return it


def named(pick, it, symbol):
    """The number of a symbol of an object, which is put there where it is not."""
    for n, other in enumerate(it.symbols, 1):
        if (symbol.home == UNDEFINED and other.name == symbol.name) or (
            symbol.home != UNDEFINED
            and (other.home, other.value) == (symbol.home, symbol.value)
            and pick.random() < 0.7
        ):
            return n
    it.symbols.append(symbol)
    return len(it.symbols)


def target(pick, objects, it, s, place, kind):
    """The symbol of a reference, in most cases one that the field can take; and an addend."""
    here = it.sections[s - 1]
    if kind in REACH and pick.random() < 0.97:
        near = [edge for edge in here.edges if abs(edge - place) <= REACH[kind] + 4 and (edge - place) % 2 == 0]
        return (named(pick, it, Symbol("", LOCAL, s, pick.choice(near))), None) if near else None
    draw = pick.random()
    if kind in CALLS and draw < 0.5 or draw < 0.25:
        code = [n for n, other in enumerate(it.sections, 1) if region_of(other) == "text"] or [s]
        there = pick.choice(code + [s])
        section = it.sections[there - 1]
        if section.flags & ALLOC:
            edges = section.edges + [min(section.size + pick.choice(FAR[:8]), WHOLE - 1)] * (draw < 0.03)
            edges = [edge for edge in edges if (edge - place) % 2 == 0 or kind not in CALLS or draw < 0.02] or edges
            limits = [
                edge for edge in edges if there == s and any(abs(abs(edge - place) - far) < 48 for far in (2046, MIB))
            ]
            edge = pick.choice(limits or edges)
            back = place - edge + 2 * pick.randrange(-20, 20)
            addend = (
                pick.choice([back, pick.choice(ADDENDS)])
                if kind in CALLS and draw < 0.08 and abs(back) < 1 << 31
                else None
            )
            return named(pick, it, Symbol("", LOCAL, there, edge)), addend
    if draw < 0.55:
        shared = [other for object in objects for other in object.symbols if other.binding != LOCAL]
        names = [other.name for other in shared if other.home not in (UNDEFINED, UNLOADED)] + LINKER * (draw > 0.52)
        if names:
            return named(pick, it, Symbol(pick.choice(names), pick.choice([GLOBAL, GLOBAL, WEAK]), UNDEFINED, 0)), None
    if draw < 0.60:
        return named(pick, it, Symbol(pick.choice(["no1", "no2", "u0", "v0"]), WEAK, UNDEFINED, 0)), None
    if draw < 0.603:
        name, binding = pick.choice([("no1", GLOBAL), ("no3", LOCAL), ("", LOCAL)])
        return named(pick, it, Symbol(name, binding, UNDEFINED, 0)), None
    own = [
        n
        for n, other in enumerate(it.symbols, 1)
        if other.home == ABSOLUTE or isinstance(other.home, int) and it.sections[other.home - 1].flags & ALLOC
    ]
    return pick.choice(own + [0] if own and pick.random() < 0.995 else range(len(it.symbols) + 1)), None


def some_list(pick):
    """A list of objects, and where the text starts."""
    huge = pick.random() < 0.12
    objects = [some_object(pick, number, huge) for number in range(pick.choice([1, 1, 2, 2, 3, 5]))]
    first = objects[0]
    if pick.random() < 0.98 and all(it.name != "_start" for it in first.symbols):
        edge = pick.choice([it for it in first.sections[0].edges if it % 2 == 0 or pick.random() < 0.05] or [0])
        first.symbols.insert(0, Symbol("_start", pick.choice([GLOBAL] * 6 + [WEAK]), 1, edge))
    for it in objects:
        for s, section in enumerate(it.sections, 1):
            settled = []
            for place, kind, symbol, addend in section.relocs:
                if isinstance(symbol, tuple):
                    symbol = named(pick, it, Symbol("", LOCAL, s, symbol[0]))
                elif symbol == WANT:
                    found = target(pick, objects, it, s, place, kind)
                    if not found:
                        continue
                    symbol, addend = found[0], addend if found[1] is None or kind == "ALIGN" else found[1]
                settled.append((place, kind, symbol, addend))
            section.relocs = pick.sample(settled, len(settled)) if pick.random() < 0.1 else settled
            edges = sorted(it for it in section.edges if it <= section.size)
            if section.flags & ALLOC and pick.random() < 0.3 and section.size < 1 << 31:
                spans = zip(edges, edges[1:])
                it.rows += [
                    (pick.randrange(1, 99), 0, s, pick.randrange(9), place, end - place) for place, end in spans
                ]
        ordinals = pick.sample(range(1, 2 + 2 * len(it.rows)), len(it.rows))
        it.rows = [(line, ordinal, *rest) for ordinal, (line, _, *rest) in zip(ordinals, it.rows)]
    if pick.random() < 0.002:
        nop = Section(PROGBITS, ALLOC | EXEC, 2, 2, bytearray(b"\x01\0"))
        objects = [Object(True, [nop], [Symbol("_start", WEAK, 1, 0)], [])] * pick.choice([1024, 1025])
    right, wrong = (ORIGINS, NO_ORIGINS) if BY_ORIGIN else (STARTS, NO_STARTS)
    start = pick.choice(wrong if pick.random() < 0.015 else right)
    if BY_ORIGIN and pick.random() < 0.3:
        start = pick.randrange(WHOLE >> pick.randrange(12, 52)) << 12
    holes = [section for it in objects for section in it.sections if region_of(section) == "bss"]
    if holes and pick.random() < 0.2:
        holes[-1].size = 0
        for it in objects:
            it.rows = [row for row in it.rows if it.sections[row[2] - 1] is not holes[-1]]
        link = Link(objects, start, pick.random() < 0.5)
        link.answer()
        if "bss" in getattr(link, "bounds", {}):
            room = min(link.ceiling - link.bounds["bss"][1], 256 * MIB - link.memory())
            holes[-1].size = max(0, room + pick.choice([-1, 0, 0, 1, 2]))
    return objects, start


# --- the comparison


OPTION = {False: "--text-start", True: "--origin"}


def linked(folder, files, start, options):
    """What the program makes of the files: the executable and the map, or the fault."""
    for name in ("exe", "map"):
        (folder / name).unlink(missing_ok=True)
    words = ["ld", "-o", "exe", "--map", "map", OPTION[BY_ORIGIN], hex(start), *options, *files]
    process = subprocess.run([PROGRAM, *words], cwd=folder, capture_output=True, timeout=600)
    message = process.stderr.decode("utf8", "backslashreplace")
    if process.returncode == 0 and not message:
        return (folder / "exe").read_bytes(), (folder / "map").read_text()
    if process.returncode != 1 or any((folder / name).exists() for name in ("exe", "map")):
        return f"status {process.returncode}: {message}"
    return message.removeprefix("rv: ").removesuffix("\n")


def difference(wanted, got):
    """In which way two answers differ, or nothing."""
    if wanted == got:
        return None
    if isinstance(wanted, str) or isinstance(got, str):
        show = lambda it: it if isinstance(it, str) else "a program"
        return f"{show(wanted)} by the walk, {show(got)} by rv"
    lines = list(itertools.zip_longest(wanted[1].split("\n"), got[1].split("\n")))
    for one, other in lines:
        if one != other:
            return f"the map's line is {one!r} by the walk, {other!r} by rv"
    at = next((n for n, (a, b) in enumerate(zip(wanted[0], got[0])) if a != b), min(len(wanted[0]), len(got[0])))
    return f"byte {at:#x} of the file is {wanted[0][at:at + 8].hex()} by the walk, {got[0][at:at + 8].hex()} by rv"


def compared(number):
    """Links the list of this number in both ways: how they ended, and the finds."""
    pick = random.Random(f"{SEED} {number}")
    objects, start = some_list(pick)
    ends, finds = Counter(), []
    with tempfile.TemporaryDirectory() as folder:
        folder, files = Path(folder), []
        for n, it in enumerate(objects[:6]):
            (folder / f"{n}.o").write_bytes(file_of(it))
        files = ["0.o"] * len(objects) if len(objects) > 6 else [f"{n}.o" for n in range(len(objects))]
        for relax, collects in itertools.product((True, False), (False, True)):
            options = ["--no-relax"] * (not relax) + ["--gc-sections"] * collects
            link = Link(objects, start, relax, collects)
            wanted, got = link.answer(), linked(folder, files, start, options)
            what = difference(wanted, got)
            if what:
                finds.append(f"list {number}, {' '.join(options) or 'relaxed'}, text at {start:#x}: {what}")
            ends[wanted.split()[0] if isinstance(wanted, str) else "linked"] += 1
            ends["sections dropped"] += len(link.drops)
            for size in link.sizes.values() if not isinstance(wanted, str) else ():
                ends[f"calls of {size} bytes"] += 1
            ends["short calls past an end"] += (
                0
                if isinstance(wanted, str)
                else sum(size < 8 and link.leads_past(*call) for call, size in link.sizes.items())
            )
        if finds:
            for file in folder.iterdir():
                (KEPT / f"{number}-{file.name}").write_bytes(file.read_bytes())
    return finds, ends


def main():
    global SEED, KEPT, PROGRAM, BY_ORIGIN
    parser = random_parser(__doc__)
    parser.add_argument("--origin", action="store_true")
    given = parser.parse_args()
    need(given.rv)
    BY_ORIGIN = given.origin
    SEED, PROGRAM, KEPT = given.seed, given.rv.resolve(), Path(tempfile.mkdtemp(prefix="walk-"))
    numbers = numbers_of(given)
    ends, finds, done, start = Counter(), 0, 0, time.monotonic()
    with multiprocessing.get_context("fork").Pool(given.jobs, signal.signal, (signal.SIGINT, signal.SIG_IGN)) as pool:
        for found, ended in pool.imap_unordered(compared, numbers, chunksize=5):
            done, ends, finds = done + 1, ends + ended, finds + len(found)
            for line in found:
                print(line, flush=True)
            if done % 1000 == 0:
                print(f"{done} lists, {done / (time.monotonic() - start):.0f} a second", file=sys.stderr, flush=True)
    print(", ".join(f"{it} {count}" for it, count in sorted(ends.items())))
    print(f"{done} lists of seed {SEED}, from {numbers[0]} on, {finds} finds in {KEPT}")
    if not finds:
        KEPT.rmdir()
    return 1 if finds else 0
