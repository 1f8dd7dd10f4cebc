#!/usr/bin/env python3
"""Runs the builds of tests/ over ./rv once more, with -g, and reads what then stands behind each executable.

usage: debugged.py [NAME ..]     only cases whose path below tests/ begins so

- In front is the executable without -g, but for the four fields of its header that lead to the section headers. The map
  is the same, and what is refused is so for the same fault: for that of bytes where LEB128 numbers are, which -g takes.
  With -g alone a name is refused that nothing defines and to which a section without the flag `a` refers.
- The sections of regions have their addresses, and the symbols are the globals of the map, behind the labels that the
  objects of the sources have for themselves, but for those in .L: at the address of the map's row of the last statement
  there (System V gABI, "Sections", "Symbol Table"). Their types are those of `.type`, and their sizes those of `.size`
  (GNU as): a number, or from the name to the end of the last statement of its section in front of the directive.
- The line tables, run by the state machine of DWARF 5, 6.2, are the map's rows of code of each source that has some,
  with an end behind each stretch. An entry of .debug_info (3.1.1, 7.5) and one of .debug_aranges (6.1.2) lead to each.
- Symbols of objects of `rv as -g` have these types, and as sizes the bytes of the object up to there.
- These objects are linked by `rv ld -g` to the same bytes but for the symbols, and without -g to the executable
  without it. The symbols are those of the objects, also at no statement: with their types, at the addresses of their
  places, and up to the addresses of their ends.

Standard library alone; the last line is 'N passed, M failed'.
"""

import re
import struct
import sys

from run import Failed, same
from twice import both, call, main

OPTION = "-g"
STMT_LIST, LOW_PC, HIGH_PC, NAME, COMP_DIR = 0x10, 0x11, 0x12, 0x03, 0x1B
ADDR, DATA1, DATA2, DATA8, STRING, SEC_OFFSET = 0x01, 0x0B, 0x05, 0x07, 0x08, 0x17
SYMBOLS = (".symtab", ".strtab")
LEB128 = re.compile(rb"\.[us]leb128\b")
UNLOADED = re.compile(r"\.section\s+(?!\.(?:text|s?data|s?bss|s?rodata))[\w.$-]+\s*(?:[;\n]|,\s*\"[^a\"]*\")")
SIZES = {ADDR: 8, DATA1: 1, DATA2: 2, DATA8: 8, SEC_OFFSET: 4}


class Reader:
    """Bytes of a section, read from a place on."""

    def __init__(self, held, at=0):
        self.held, self.at = held, at

    def number(self, size, signed=False):
        self.at += size
        return int.from_bytes(self.held[self.at - size : self.at], "little", signed=signed)

    def leb(self, signed=False):
        value = shift = 0
        while True:
            byte = self.number(1)
            value |= (byte & 127) << shift
            shift += 7
            if byte < 128:
                return value - (signed and byte >= 64 and 1 << shift)

    def string(self):
        end = self.held.index(b"\0", self.at)
        text, self.at = self.held[self.at : end], end + 1
        return text

    def form(self, form):
        return self.string() if form == STRING else self.number(SIZES[form])

    def unit(self):
        """The end of the unit whose length stands here."""
        return self.number(4) + self.at


def sections(held):
    """The header and the contents of each section, by its name."""
    at, size, count, names = struct.unpack_from("<Q", held, 40)[0], *struct.unpack_from("<HHH", held, 58)
    headers = [struct.unpack_from("<IIQQQQIIQQ", held, at + size * index) for index in range(count)]
    body = lambda it: held[it[4] : it[4] + it[5]] if it[1] != 8 else b""
    text = lambda it: Reader(body(headers[names]), it[0]).string().decode()
    return {text(it): (it, body(it)) for it in headers}


def symbols(found):
    """Of each symbol behind the first: whether it is local, its name, its section, its value, its type and its size."""
    (header, table), strings = found[".symtab"], found[".strtab"][1]
    for at in range(24, len(table), 24):
        name, info, _, section, value, size = struct.unpack_from("<IBBHQQ", table, at)
        is_local = at < 24 * header[7]
        same("the binding of a symbol", not is_local, info >> 4 != 0)
        yield is_local, Reader(strings, name).string().decode(), section, value, info & 15, size


def but_symbols(held, size):
    """The first bytes of an executable, but for what leads to section headers, and its sections but for symbols."""
    found = sections(held)
    found = {it: (found[it][0][1:4], *found[it][0][5:], found[it][1]) for it in found if it not in SYMBOLS}
    return held[:40] + held[48:58] + held[64:size], found


def statements(text):
    """The statements of a source, strings and characters aside."""
    text = re.sub(r"/\*.*?\*/|#[^\n]*", " ", re.sub(r'"(?:\\.|[^"\\])*"|\'(?:\\.|[^\\\n])\'?', "0", text), flags=re.S)
    for part in re.split(r"[\n;]", text):
        while label := re.match(r"\s*[\w.$]+\s*:", part):
            yield label[0]
            part = part[label.end() :]
        if part.strip():
            yield part.strip()


def said(text):
    """The types of names by `.type`; by `.size` the ordinals of statements in front of which names end, or sizes."""
    types, sizes = {}, {}
    for ordinal, statement in enumerate(statements(text), 1):
        if it := re.fullmatch(r"\.type\s+([\w.$]+)\s*,\s*[@%]\s*(function|object|notype)", statement):
            types[it[1]] = ("notype", "object", "function").index(it[2])
        elif it := re.fullmatch(r"\.size\s+([\w.$]+)\s*,\s*((?:0x)?[\da-f]+|\.\s*-\s*\1)", statement):
            sizes[it[1]] = (None, int(it[2], 0)) if it[2][0].isdigit() else (ordinal, 0)
    return types, sizes


def known_rows(text):
    """The address and the size of each row of a map's text, by its file and ordinal."""
    rows = [it.split() for it in text.splitlines() if it.startswith("row ")]
    return {(int(it[1]), int(it[3])): (int(it[4], 16), int(it[5])) for it in rows}


def object_rows(found):
    """The rows of an object."""
    return [*struct.iter_unpack("<IIIIQII", found[".rv.rows"][1])] if ".rv.rows" in found else []


def names_of(folder, sources, text):
    """The names of the objects of sources, with the addresses of the statements there by a map's text."""
    known = known_rows(text)
    for file, source in enumerate(sources, 1):
        types, sizes = said((folder / source).read_text("latin-1"))
        found = sections((folder / f"{file - 1}.o").read_bytes())
        rows = object_rows(found)
        places = {(it[2], it[4]): it[1] for it in rows}
        for is_local, name, section, value, *_ in symbols(found):
            address, _ = known.get((file, places.get((section, value))), (None, 0))
            if address is None or not name or is_local and name.startswith(".L"):
                continue
            behind, size = sizes.get(name, (None, 0))
            if behind is not None:
                last = [it[1] for it in rows if it[2] == section and it[1] < behind][-1:]
                size = sum(known.get((file, *last), (address, 0))) - address
            yield is_local, name, address, types.get(name, 0), size


def told_by(source, found):
    """The types and the sizes that symbols of an object are to have, by the directives of its source."""
    types, sizes = said(source)
    rows = object_rows(found)
    for _, name, section, value, *_ in symbols(found):
        behind, size = sizes.get(name, (None, 0))
        if behind is not None:
            ends = [it[4] + it[5] for it in rows if it[2] == section and it[1] < behind]
            size = max(0, ends[-1] - value) if ends else 0
        yield name, types.get(name, 0), size if 0 < section < 0xFF00 else 0


def table_names(folder, sources, text):
    """The names of the objects of sources by their tables, with addresses by a map's text."""
    known = known_rows(text)
    for file, source in enumerate(sources, 1):
        found = sections((folder / f"{file - 1}.o").read_bytes())
        rows = object_rows(found)
        headers = [it for it, _ in found.values()]
        has = [(name, *rest) for _, name, _, _, *rest in symbols(found)]
        same("symbols of an object", [*told_by((folder / source).read_text("latin-1"), found)], has)

        def address(section, value):
            there = [it for it in rows if it[2] == section and it[4] <= value]
            there.sort(key=lambda it: (it[4] + it[5] >= value, it[4] == value, it[4], it[1]))
            if not there or (file, there[-1][1]) not in known:
                return None
            at, size = known[file, there[-1][1]]
            offset, bytes_before = there[-1][4], there[-1][5]
            return at + min(value - offset, size) + max(0, value - offset - bytes_before)

        for is_local, name, section, value, kind, size in symbols(found):
            at = address(section, value) if 0 < section < 0xFF00 else None
            if at is None or not name or is_local and name.startswith(".L"):
                continue
            is_inside = value + size <= headers[section][5]
            yield is_local, name, at, kind, (address(section, value + size) - at if is_inside else 0)


def globals_of(names, known):
    """Globals with their types and sizes, by an object that has the name at the address."""
    last = {(name, at): rest for is_local, name, at, *rest in names if not is_local}
    for name, address in known:
        yield name, address, *last.get((name, address), (0, 0))


def table(held, at):
    """The entries of the line table at a place: rows, and the ends of sequences."""
    it = Reader(held, at)
    end = it.unit()
    same("the head of a line table", (5, 8, 0), (it.number(2), it.number(1), it.number(1)))
    begins = it.number(4) + it.at
    step, operations, _ = (it.number(1) for _ in range(3))
    base, span, first = it.number(1, True), it.number(1), it.number(1)
    same("operations of an instruction", 1, operations)
    lengths = [it.number(1) for _ in range(first - 1)]
    files = []
    for _ in range(2):
        forms = [(it.leb(), it.leb()) for _ in range(it.number(1))]
        files.append([[it.form(form) for _, form in forms] for _ in range(it.leb())])
    same("the place of a line program", begins, it.at)
    state = start = (0, 1, 1)
    while it.at < end:
        (address, file, line), code = state, it.number(1)
        if code >= first:
            ahead, lines = divmod(code - first, span)
            state = (address + step * ahead, file, line + base + lines)
            yield state
        elif code == 0:
            size, kind = it.leb(), it.number(1)
            if kind == 1:
                yield address
                state = start
            elif kind == 2:
                state = (it.number(size - 1), file, line)
        elif code == 1:
            yield state
        elif code == 2:
            state = (address + step * it.leb(), file, line)
        elif code == 3:
            state = (address, file, line + it.leb(True))
        elif code == 4:
            state = (address, it.leb(), line)
        elif code == 8:
            state = (address + step * ((255 - first) // span), file, line)
        elif code == 9:
            state = (address + it.number(2), file, line)
        else:
            raise Failed(f"the opcode {code}, with {lengths[code - 1]} operands, in a line program")


def attributes(held):
    """The attributes of the entries that .debug_abbrev describes, by their codes, with their forms."""
    it, found = Reader(held), {}
    while code := it.leb():
        it.leb(), it.number(1)
        found[code] = []
        while (pair := (it.leb(), it.leb())) != (0, 0):
            found[code].append(pair)
    return found


def entries(found):
    """The places of the units of .debug_info, with the attributes of their one entry."""
    it, known = Reader(found[".debug_info"][1]), attributes(found[".debug_abbrev"][1])
    while it.at < len(it.held):
        place = it.at
        end = it.unit()
        same("the head of a unit", (5, 1, 8, 0), (it.number(2), it.number(1), it.number(1), it.number(4)))
        yield place, {name: it.form(form) for name, form in known[it.leb()]}
        same("the end of a unit", end, it.at)


def ranges(found):
    """The unit, the start and the size of each set of .debug_aranges."""
    it = Reader(found[".debug_aranges"][1])
    while it.at < len(it.held):
        place = it.at
        end = it.unit()
        version, unit, sizes = it.number(2), it.number(4), (it.number(1), it.number(1))
        same("the head of a set of addresses", (2, (8, 0)), (version, sizes))
        it.at += -(it.at - place) % 16
        pair = (it.number(8), it.number(8))
        same("the end of a set of addresses", (0, 0, end), (it.number(8), it.number(8), it.at))
        yield unit, *pair


def code_of(rows, text, number):
    """The rows of code of a source, as entries of a line table."""
    rows = [it for it in rows if it[0] == number and it[5] and text[0] <= it[3] and it[3] + it[4] <= text[1]]
    for row, behind in zip(rows, [*rows[1:], None]):
        yield (row[3], 1, row[1])
        if behind is None or behind[3] != row[3] + row[4]:
            yield row[3] + row[4]


def told(folder, text, names):
    """What is to be found: addresses of regions, globals, and the path, the code and its extent of each source."""
    lines = [it.split() for it in text.splitlines()]
    region = {it[0]: (int(it[1], 16), int(it[2], 16)) for it in lines if it[0] in ("text", "rodata", "data", "bss")}
    rows = [(*map(int, it[1:4]), int(it[4], 16), *map(int, it[5:])) for it in lines if it[0] == "row"]
    codes = [(name, list(code_of(rows, region["text"], number))) for number, name in enumerate(names, 1)]
    units = []
    for name, code in codes:
        if code:
            start = min(it[0] for it in code if isinstance(it, tuple))
            end = max(it for it in code if not isinstance(it, tuple))
            units.append(((name.encode(), str(folder).encode(), start, end - start), code))
    return region, [(it[1], int(it[2], 16)) for it in lines if it[0] == "global"], units


def said_of_bytes(folder, given):
    """What is said without the option of sources that have bytes in the place of LEB128 numbers."""
    for it in given[1:]:
        if (folder / it).is_file():
            (folder / it).write_bytes(LEB128.sub(b".byte", (folder / it).read_bytes()))
    return call(folder, [given[0], "-o", "plain", *given[1:]])


def has_unloaded(folder, given):
    """Whether a source opens a section without the flag `a`, by its flags."""
    texts = [(folder / it).read_text("latin-1") for it in given[1:] if (folder / it).is_file()]
    return any(UNLOADED.search(it) for it in texts)


def compare(folder, words):
    """Compares what one build makes without the option and with it, and reads what is added."""
    given, results = both(folder, words, OPTION, ("plain", "known"))
    if results[0] != results[1] and results[0] and ("E8" in results[0] or "E9" in results[0]):
        results[0] = said_of_bytes(folder, given)
    if results[0] is None and results[1] and results[1].startswith("rv: L5 Undefined ") and has_unloaded(folder, given):
        return
    # (a line of usage repeats the words of the call)
    same("what is refused", *(it and it.replace(f" {OPTION} ", " ") for it in results))
    if results[0]:
        return
    plain, known = ((folder / it).read_bytes() for it in ("plain", "known"))
    text, other = ((folder / f"{it}.map").read_text() for it in ("plain", "known"))
    same("the map", text, other)
    loaded = lambda it: it[:40] + it[48:58] + it[64:]
    same("the executable in front", loaded(plain), loaded(known[: len(plain)]))
    found = sections(known)
    names = [it for it in given[1:] if (folder / it).exists() and not it.startswith("-")]
    region, wanted, units = told(folder, text, names)
    # (objects of many sources are assembled one by one)
    if len(names) < 5 and not {"-l", "--library"} & set(given):
        options = [it for it in given[1:] if it not in names]
        linked, less = link(folder, options, names)
        same("what objects are linked to", plain, less)
        same("beside symbols", but_symbols(known, len(plain)), but_symbols(linked, len(plain)))
        of_objects, others = [*table_names(folder, names, text)], [*symbols(sections(linked))]
        same("labels of objects", [it[1:] for it in of_objects if it[0]], [(it[1], *it[3:]) for it in others if it[0]])
        shared = [(it[1], *it[3:]) for it in others if not it[0]]
        same("globals of objects", list(globals_of(of_objects, [it[:2] for it in shared])), shared)
        same("names of globals", wanted, [it[:2] for it in shared])
        said_of = [*names_of(folder, names, text)]
        same("labels", [it[1:] for it in said_of if it[0]], [(it[1], *it[3:]) for it in symbols(found) if it[0]])
        shared = [(it[1], *it[3:]) for it in symbols(found) if not it[0]]
        same("globals", list(globals_of(said_of, [it[:2] for it in shared])), shared)
    same("regions", region, {it[1:]: (h[3], h[3] + h[5]) for it, (h, _) in found.items() if it[1:] in region})
    for it, (header, body) in found.items():
        at = header[3] - region["text"][0] + 0x1000
        if it in (".text", ".rodata", ".data") and body:
            same(f"the bytes of {it}", plain[at : at + len(body)], body)
    same("symbols", wanted, [(it[1], it[3]) for it in symbols(found) if not it[0]])
    heads, lines = [*entries(found)], found[".debug_line"][1]
    known = [tuple(it[name] for name in (NAME, COMP_DIR, LOW_PC, HIGH_PC)) for _, it in heads]
    same("units", [it for it, _ in units], known)
    same("line tables", [code for _, code in units], [list(table(lines, it[STMT_LIST])) for _, it in heads])
    same("addresses", [(at, it[LOW_PC], it[HIGH_PC]) for at, it in heads], list(ranges(found)))


def link(folder, options, names):
    """Assembles sources and links their objects, with -g, and links them without it: the bytes of both."""
    objects = [f"{number}.o" for number in range(len(names))]
    calls = [["as", OPTION, "-o", made, name] for made, name in zip(objects, names)]
    calls += [["ld", *more, "-o", made, *options, *objects] for made, more in (("linked", [OPTION]), ("less", []))]
    for words in calls:
        same(" ".join(words), None, call(folder, words))
    return [(folder / it).read_bytes() for it in ("linked", "less")]


def is_compared(words):
    """Whether a call builds an executable."""
    return words[:1] == ["build"] and "-o" in words


if __name__ == "__main__":
    sys.exit(main(sys.argv[1:], f"builds with {OPTION} and without", is_compared, compare))
