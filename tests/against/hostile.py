"""Damages sources, objects, archives, executables and maps, and looks at how ./rv takes them.

usage: compare.py hostile COUNT [--seed N] [--from N] [--jobs N] [--only N] [--gnu PREFIX]

The files of tests/ and examples/, the objects, executables and maps that ./rv makes of them, and archives of such
objects are damaged in the ways of `OF_ALL`, `OF_ELF`, `OF_SOURCES`, `OF_MAPS` and `OF_ARCHIVES`, one to four at once.
With `--gnu`, as in `--gnu riscv64-unknown-elf-`, so are the objects and executables that GNU's tools make of them.
File N of a seed is the same in each run with the same ./rv; `--only N` takes it alone, and `--from N` begins with it.
Each file is given to the commands that read its kind, a guest reads it as its input, and an object is linked alone,
twice, or with another, an archive alone, twice or behind an object. A find is

  signal    the program is ended by a signal
  time      it takes more than 2 seconds of a processor, or 60 of the clock
  no name   it says what is no message of docs/manual, or has another status than the message
  file      a refused call leaves a file
  memory    its memory passes 20 times the bytes of its files and 16 MiB, beside what the objects and the program have
            that it makes or loads
  want      it answers that memory ran out, and took no more than that

Each find is one line, and its files are kept in the folder that the last line names, up to 20 for each kind of find and
command; the finds of each kind are counted before it. How far it is, and how many files a second it takes, goes to
standard error every 10,000 files. Exit status 1 if there is a find. A long run: `TMPDIR=/dev/shm nice -n 19`.
"""

import multiprocessing
import os
import random
import re
import shutil
import signal
import struct
import subprocess
import sys
import tempfile
import time
from collections import Counter
from pathlib import Path

from against.common import ROOT, RV, need, numbers_of, random_parser
from archives import archive_of, head, padded
from run import cases

MIB = 1 << 20
SECONDS, CLOCK, STEPS = 2, 60, 50_000
SHOWN, TELLS = 20, 10_000
LARGEST = 1 << 18
# fmt: off
NUMBERS = [
    0, 1, 2, 3, 4, 7, 8, 16, 24, 31, 32, 63, 64, 127, 128, 255, 256, 4095, 4096, 4097, 8192, 0x7FFF, 0x8000, 0xFF00,
    0xFFF1, 0xFFFF, 0x10000, MIB, 16 * MIB, 256 * MIB, 0x3FEFF000, 0x3FF00000, 0x40000000, 1 << 31, 1 << 32, 1 << 62,
    1 << 63, (1 << 64) - 4096, 1 << 64,
]
# fmt: on
# the fields of each record of a file (System V gABI; files.md for rows): offset and bytes
# fmt: off
FIELDS = {
    "header": [
        (4, 1), (5, 1), (6, 1), (16, 2), (18, 2), (20, 4), (24, 8), (32, 8), (40, 8), (48, 4), (52, 2), (54, 2),
        (56, 2), (58, 2), (60, 2), (62, 2),
    ],
    "segment": [(0, 4), (4, 4), (8, 8), (16, 8), (24, 8), (32, 8), (40, 8), (48, 8)],
    "section": [(0, 4), (4, 4), (8, 8), (16, 8), (24, 8), (32, 8), (40, 4), (44, 4), (48, 8), (56, 8)],
    "symbol": [(0, 4), (4, 1), (5, 1), (6, 2), (8, 8), (16, 8)],
    "relocation": [(0, 8), (8, 4), (12, 4), (16, 8)],
    "row": [(0, 4), (4, 4), (8, 4), (12, 4), (16, 8), (24, 4), (28, 4)],
}
# fmt: on
SIZES = {"header": 64, "segment": 56, "section": 64, "symbol": 24, "relocation": 24, "row": 32}
TABLES = {2: "symbol", 4: "relocation"}
TOKEN = re.compile(rb'"[^"\n]*"|[\w.$%@]+|<<|>>|[^\s\w]')
WORDS = b"""( ) - ~ + * / % << >> | & ^ , : ; " ' # /* */ // @ . 1b 1f 2b zero ra sp t0 a0 a1 x8 %lo %hi %pcrel_hi
%pcrel_lo @plt li la call tail j jal beq addi lui auipc ld sd jr jalr lr.w sc.d amoadd.w fence ecall
.text .data .bss .rodata .section .globl .local .weak .set .equ .align .balign .zero .space .byte .half
.word .dword .ascii .asciz .option push pop relax norelax rvc norvc .type .size .cfi_startproc .comm "ax"
"aw" @nobits \\x41 \\0""".split()


def some_number(pick, near=()):
    """A number at an edge: a power of two, a length of the file or a number beside one of these."""
    return pick.choice([*NUMBERS, *near, *near]) + pick.choice([-8, -1, -1, 0, 0, 0, 0, 1, 1, 2])


def many(pick, most):
    """A count up to `most`, mostly a small one."""
    return int(most ** pick.random())


# --- damage to any file


def with_bytes(pick, file, _):
    file = bytearray(file)
    for _ in range(many(pick, 9) if file else 0):
        file[pick.randrange(len(file))] = pick.choice(
            [0, 0xFF, 0x80, 0x7F, 10, 32, pick.randrange(256), pick.randrange(256)]
        )
    return bytes(file)


def with_bit(pick, file, _):
    file = bytearray(file)
    if file:
        file[pick.randrange(len(file))] ^= 1 << pick.randrange(8)
    return bytes(file)


def with_word(pick, file, _):
    size = pick.choice([2, 4, 8])
    at = pick.randrange(max(len(file) - size, 0) + 1) // size * size
    return file[:at] + (some_number(pick, [len(file)]) % (1 << 8 * size)).to_bytes(size, "little") + file[at + size :]


def some_range(pick, file):
    at = pick.randrange(len(file) + 1)
    return at, min(len(file), at + many(pick, len(file) + 2) - 1)


def cut(pick, file, _):
    return file[: pick.randrange(len(file) + 1)]


def without_range(pick, file, _):
    at, end = some_range(pick, file)
    return file[:at] + file[end:]


def with_range_twice(pick, file, _):
    at, end = some_range(pick, file)
    return file[:end] + file[at:]


def with_ranges_swapped(pick, file, _):
    (a, b), (c, d) = sorted([some_range(pick, file), some_range(pick, file)])
    return file[:a] + file[c:d] + file[b:c] + file[a:b] + file[d:] if b <= c else file


def with_part_of_another(pick, file, corpus):
    other = pick.choice(corpus[pick.choice(KINDS)])[0]
    at, end = some_range(pick, other)
    place = pick.randrange(len(file) + 1)
    return file[:place] + other[at : min(end, at + 4096)] + file[place + pick.choice([0, end - at]) :]


OF_ALL = [
    with_bytes,
    with_bit,
    with_word,
    cut,
    without_range,
    with_range_twice,
    with_ranges_swapped,
    with_part_of_another,
]

# --- damage to objects and executables


def get(file, at, size):
    return int.from_bytes(file[at : at + size], "little")


def put(file, at, size, value):
    file[at : at + size] = (value % (1 << 8 * size)).to_bytes(size, "little")


def header_places(file):
    """Where the headers of the sections are."""
    at, count = get(file, 40, 8), get(file, 60, 2)
    return [it for it in range(at, at + 64 * count, 64) if it + 64 <= len(file)]


def tables(file):
    """The records of a file: for each table of it their kind and places, and where the header of its section is."""
    yield "header", [0], None
    at, count = get(file, 32, 8), get(file, 56, 2)
    yield "segment", [it for it in range(at, at + 56 * count, 56) if it + 56 <= len(file)], None
    places = header_places(file)
    yield "section", places, None
    for it in places:
        offset, size, width, flags = (get(file, it + there, 8) for there in (24, 32, 56, 8))
        kind = TABLES.get(
            get(file, it + 4, 4), "row" if get(file, it + 4, 4) == 1 and not flags and size % 32 == 0 else None
        )
        if kind and size and offset + size <= len(file) and (kind == "row" or width == SIZES[kind]):
            yield kind, list(range(offset, offset + size, SIZES[kind])), it


def some_table(pick, file, *kinds):
    found = [it for it in tables(file) if it[1] and (not kinds or it[0] in kinds)]
    return pick.choice(found) if found else None


def with_field(pick, file, _):
    file, table = bytearray(file), some_table(pick, file)
    kind, places, _ = table
    place, (at, size) = pick.choice(places), pick.choice(FIELDS[kind])
    there = get(file, place + at, size)
    other = get(file, pick.choice(places) + at, size)
    put(file, place + at, size, some_number(pick, [len(file), there, other, 2 * there]))
    return bytes(file)


def with_records_swapped(pick, file, _):
    file, table = bytearray(file), some_table(pick, file, "segment", "section", "symbol", "relocation", "row")
    if table:
        kind, places, _ = table
        a, b, size = pick.choice(places), pick.choice(places), SIZES[kind]
        file[a : a + size], file[b : b + size] = (
            file[b : b + size],
            file[a : a + size] if pick.random() < 0.6 else file[b : b + size],
        )
    return bytes(file)


def with_sections_over_each_other(pick, file, _):
    """One section, or all of them, have the bytes of another; or two swap theirs."""
    file, places = bytearray(file), header_places(file)
    if places:
        one, other = pick.choice(places), pick.choice(places)
        theirs, own = file[other + 24 : other + 40], file[one + 24 : one + 40]
        for it in pick.choice([[one], places]):
            file[it + 24 : it + 40] = theirs
        if pick.random() < 0.4:
            file[other + 24 : other + 40] = own
    return bytes(file)


def with_whole_file_as_section(pick, file, _):
    file, places = bytearray(file), header_places(file)
    for it in pick.sample(places, min(len(places), many(pick, 9))):
        put(file, it + 24, 8, 0)
        put(file, it + 32, 8, len(file) // 96 * 96)
    return bytes(file)


def with_longer_table(pick, file, _):
    """A table is moved to the end of the file, with its records many times."""
    file, table = bytearray(file), some_table(pick, file, "segment", "section", "symbol", "relocation", "row")
    if not table:
        return bytes(file)
    kind, places, header = table
    records = [file[it : it + SIZES[kind]] for it in places]
    count = many(pick, LARGEST // SIZES[kind])
    records += [bytearray(pick.choice(records)) for _ in range(count)]
    field, step = pick.choice(FIELDS[kind]), pick.choice([0, 0, 1, 2, 8])
    for number, it in enumerate(records if step else []):
        put(it, *field, get(it, *field) + step * number)
    return with_table(file, kind, header, records)


def with_table(file, kind, header, records):
    file += bytes(-len(file) % 8)
    place, size = len(file), len(records) * SIZES[kind]
    file += b"".join(records)
    if header is None:
        at, count = {"segment": (32, 56), "section": (40, 60)}[kind]
        put(file, at, 8, place)
        put(file, count, 2, len(records))
    else:
        put(file, header + 24, 8, place)
        put(file, header + 32, 8, size)
    return bytes(file)


def with_overlapping_names(pick, file, _):
    """Many symbols, whose names begin at each byte of one long string, or are all of that string."""
    file, table = bytearray(file), some_table(pick, file, "symbol")
    if not table:
        return bytes(file)
    _, places, header = table
    strings = get(file, 40, 8) + 64 * get(file, header + 40, 4)
    if strings + 64 > len(file):
        return bytes(file)
    length = many(pick, 8192)
    names = file[get(file, strings + 24, 8) :][: get(file, strings + 32, 8)]
    put(file, strings + 24, 8, len(file))
    put(file, strings + 32, 8, len(names) + length + 1)
    file += names + pick.choice([b"a", b"ab"]) * (length // 2) + b"a" * (length - length // 2) + b"\0"
    records, bound = [file[it : it + 24] for it in places], pick.choice([0, 16])
    step, where = pick.choice([0, 1, 1, 3]), pick.choice([0, 1, 0xFFF1])
    for number in range(many(pick, LARGEST // 24)):
        records.append(bytearray(struct.pack("<IBBHQQ", len(names) + step * number % length, bound, 0, where, 0, 0)))
    if bound == 0:
        put(file, header + 44, 4, len(records))
    return with_table(file, "symbol", header, records)


OF_ELF = [
    with_field,
    with_field,
    with_field,
    with_records_swapped,
    with_sections_over_each_other,
    with_whole_file_as_section,
]
OF_ELF_AT_SIZE = [with_longer_table, with_overlapping_names]

# --- damage to sources and maps


def with_token(pick, text, corpus):
    found = list(TOKEN.finditer(text))
    if not found:
        return text
    it = pick.choice(found)
    other = pick.choice([pick.choice(WORDS), pick.choice(corpus["tokens"]), pick.choice(found)[0], b""])
    return text[: it.start()] + pick.choice([other, other, it[0] + b" " + other]) + text[it.end() :]


def with_number(pick, text, _):
    found = list(re.finditer(rb"\b(0[xX])?[0-9a-fA-F]*\d[0-9a-fA-F]*\b", text))
    if not found:
        return text
    it, number = pick.choice(found), some_number(pick, [len(text)])
    return text[: it.start()] + pick.choice([b"%d", b"0x%x", b"%x"]) % number + text[it.end() :]


def with_lines_swapped(pick, text, _):
    lines = text.split(b"\n")
    a, b = pick.randrange(len(lines)), pick.randrange(len(lines))
    lines[a], lines[b] = lines[b], pick.choice([lines[a], lines[b], b""])
    return b"\n".join(lines)


def with_other_lines(pick, text, corpus):
    lines, others = text.split(b"\n"), pick.choice(corpus["source"])[0].split(b"\n")
    at, place = pick.randrange(len(others)), pick.randrange(len(lines) + 1)
    return b"\n".join(lines[:place] + others[at : at + many(pick, 20)] + lines[place:])


def with_line_many_times(pick, text, _):
    lines = text.split(b"\n")
    at = pick.randrange(len(lines))
    end = at + many(pick, 9)
    part = b"\n".join(lines[at:end]) + b"\n"
    return b"\n".join(lines[:at]) + b"\n" + part * many(pick, LARGEST // len(part) + 1) + b"\n".join(lines[end:])


def with_made_lines(pick, text, _):
    """Lines that are made to be long, deep or many."""
    count, length = many(pick, 8000), many(pick, 5000)
    every = lambda form: "\n".join(form.replace("#", str(it)) for it in range(count)) + "\n"
    name, deep = "n" * length, many(pick, 70000)
    lines_made = pick.choice(
        [
            lambda: f".set x, {'(' * deep}1{')' * deep}\n",
            lambda: f".set x, {pick.choice('-~+') * deep}1\n",
            lambda: f".dword {'+'.join(['1'] * (deep // 2))}\n",
            lambda: f".dword {'1,' * (deep // 2)}1\n",
            lambda: f".ascii \"{'x' * deep}\"\n",
            lambda: f"{name}: .globl {name}\n",
            lambda: every(f"{name[: LARGEST // count]}#:"),
            lambda: every(f".globl {name[: LARGEST // count]}#"),
            lambda: every(f".set x, {name[: LARGEST // count]}"),
            lambda: every('.section .s#,"aw"\n.byte #') if pick.random() < 0.5 else every('.section .s#,"ax"'),
            lambda: every(".set s#, s# + 1"),
            lambda: ".set s0, 1\n" + every(".set t#, s0 + #"),
            lambda: ".text\n" + every("b#: beq a0, a1, b#+4"),
            lambda: ".text\n" + every("1: beqz a0, 1f; tail 2f; 2: j 1b; 1:"),
            lambda: ".text\n" + every("call f#; .balign 8") + every("f#: nop"),
            lambda: ".text\n" + every("f#: beqz a0, g#; nop") + every("g#: bnez a0, f#"),
            lambda: ".text\n1:\n" + every("j 1b"),
            lambda: ".data\n" + every("d#: .dword d0 - d#, d#, f# - ."),
            lambda: every(".option push") + every(".option pop"),
            lambda: every(".zero #; .balign 4096"),
            lambda: f".data\n.zero {some_number(pick)}\n",
            lambda: f"/*{chr(10) * deep}*/ .frob\n",
            lambda: ";" * deep + "\n",
            lambda: "\n".join(f"{it}: .word {it}b" for it in range(count)) + "\n",
        ]
    )()
    lines = text.split(b"\n")
    at = pick.randrange(len(lines) + 1)
    return b"\n".join(lines[:at]) + b"\n" + lines_made.encode() + b"\n".join(lines[at:])


def with_large_rows(pick, text, _):
    """Many rows of a map, all over one stretch of the text."""
    text_of = re.search(rb"text ([0-9a-f]{1,16}) ([0-9a-f]{1,16})\n", text)
    whole = int(text_of[2], 16) - int(text_of[1], 16) if text_of else 4
    size, step = pick.choice([0, 4, 64, whole, whole, whole // 2, some_number(pick)]), pick.choice([0, 0, 2])
    rows = (
        b"row 1 %d %d %x %d 1\n" % (it, it, 0x10000 + step * it, size % (1 << 64)) for it in range(many(pick, 5000))
    )
    return text + b"".join(rows)


# --- damage to archives


def heads(file):
    """The places of the heads of an archive, up to the first that is none."""
    at = 8
    while at + 60 <= len(file):
        yield at
        size = file[at + 48 : at + 58].strip()
        if not size.isdigit():
            return
        at += 60 + int(size) + int(size) % 2


def with_head(pick, file, _):
    """A field of a head is another: the name, the size or the end."""
    file, places = bytearray(file), list(heads(file))
    if places:
        at, number = pick.choice(places), some_number(pick, [len(file)])
        start, size = pick.choice([(0, 16), (0, 16), (48, 10), (48, 10), (58, 2)])
        names = [b"/", b"//", b"/SYM64/", b"/%d" % number, b"#1/20", b"__.SYMDEF", b"a b/", b"", b"-1", b" 1"]
        file[at + start : at + start + size] = pick.choice([*names, *5 * [b"%d" % number]])[:size].ljust(size)
    return bytes(file)


def with_index_number(pick, file, _):
    """A number of what stands first in an archive, as its index does, is another."""
    file, places = bytearray(file), list(heads(file))
    size = pick.choice([4, 4, 4, 8])
    if len(places) > 1 and places[1] >= 68 + size:
        at = pick.randrange(68, places[1] - size + 1) // 4 * 4
        number = pick.choice([pick.choice(places), some_number(pick, [len(file), *places])])
        file[at : at + size] = (number % (1 << 8 * size)).to_bytes(size, "big")
    return bytes(file)


def with_large_index(pick, file, _):
    """An index of many names, which may be all the same, of a few members."""
    places = list(heads(file))
    if len(places) < 2:
        return file
    count, length = many(pick, LARGEST // 16), many(pick, 9)
    names = [b"%0*d" % (length, pick.choice([0, number])) + b"\0" for number in range(count)]
    size = 4 + 4 * count + sum(map(len, names))
    shift = 8 + 60 + size + size % 2 - places[1]
    put_places = (pick.choice(places[1:]) + shift for _ in range(count))
    index = b"".join(number.to_bytes(4, "big") for number in (count, *put_places)) + b"".join(names)
    return file[:8] + head("/", size) + padded(index) + file[places[1] :]


def with_many_members(pick, file, _):
    """Many members without bytes, whose names may lie over each other in the table of long names."""
    count, long = many(pick, LARGEST // 60), pick.random() < 0.5
    table = b"a" * many(pick, 5000) + b"/\n"
    members = (head(f"/{number % len(table)}" if long else "m/", 0) for number in range(count))
    front = file[:8] + head("//", len(table)) + padded(table) if long else file
    return front + b"".join(members)


OF_ARCHIVES = [with_head, with_head, with_index_number]
OF_ARCHIVES_AT_SIZE = [with_large_index, with_many_members]

OF_SOURCES = [with_token, with_token, with_token, with_number, with_number, with_lines_swapped, with_other_lines]
OF_SOURCES_AT_SIZE = [with_line_many_times, with_made_lines, with_made_lines]
OF_MAPS = [with_number, with_number, with_token, with_lines_swapped]
OF_MAPS_AT_SIZE = [with_line_many_times, with_large_rows]
KINDS = ["source", "object", "exe", "map", "archive"]
DAMAGE = {
    "source": (OF_SOURCES, OF_SOURCES_AT_SIZE),
    "object": (OF_ELF, OF_ELF_AT_SIZE),
    "exe": (OF_ELF, OF_ELF_AT_SIZE),
    "map": (OF_MAPS, OF_MAPS_AT_SIZE),
    "archive": (OF_ARCHIVES, OF_ARCHIVES_AT_SIZE),
}


def damaged(pick, kind, file, corpus):
    """The file with one to four kinds of damage; one in twelve is made large."""
    own, at_size = DAMAGE[kind]
    for _ in range(many(pick, 5)):
        ways = at_size if pick.random() < 0.05 else OF_ALL if pick.random() < 0.35 else own
        if ways is OF_ALL or kind in ("source", "map", "archive") or len(file) >= 64:
            file = pick.choice(ways)(pick, file, corpus)
    return file[: 4 * LARGEST]


# --- the files to begin with


def made_by_gnu(prefix, at):
    """The object and the executable that GNU's tools make of the source, where they do."""
    calls = [["as", "-march=rv64imac", "-o", "gnu.o", "a.s"], ["ld", "-Ttext=0x10000", "-o", "gnu", "gnu.o"]]
    for kind, (tool, *words) in zip(("object", "exe"), calls):
        if subprocess.run([prefix + tool, *words], cwd=at, stderr=subprocess.DEVNULL).returncode:
            return
        yield kind, (at / words[words.index("-o") + 1]).read_bytes()


def archives_of(pick, objects):
    """Archives of some objects, with short names and long ones."""
    for _ in range(60):
        members = [(f"{number}{'m' * many(pick, 30)}.o", it) for number, (it, _) in enumerate(pick.sample(objects, 5))]
        try:
            yield archive_of(members[: pick.randrange(6)], pick.random() < 0.95)
        except (struct.error, ValueError, IndexError):
            pass


def corpus_of(pick, gnu):
    """For each kind its files, each with those that belong to it: of an executable its map, of a map its executable."""
    corpus = {kind: [] for kind in KINDS}
    for _, files, _ in cases([]):
        for it in files.values():
            if len(it) <= LARGEST and (not it.startswith(b"\x7fELF") or pick.random() < 0.1):
                corpus["object" if it.startswith(b"\x7fELF") else "source"].append((it, None))
    for path in ROOT.glob("examples/**/*.s"):
        corpus["source"] += 9 * [(path.read_bytes(), None)]
    with tempfile.TemporaryDirectory() as folder:
        at = Path(folder)
        long = b".globl _start\n_start: nop\n" + b"nop\n" * 10_000
        for text in [it for it, _ in pick.sample(corpus["source"], 200)] + 5 * [long]:
            (at / "a.s").write_bytes(text)
            if subprocess.run([RV, "as", "-o", "obj", "a.s"], cwd=at, stderr=subprocess.DEVNULL).returncode == 0:
                corpus["object"].append(((at / "obj").read_bytes(), None))
            words = ["build", "-o", "exe", "--map", "map", "a.s"]
            if subprocess.run([RV, *words], cwd=at, stderr=subprocess.DEVNULL).returncode == 0:
                exe, map_ = (at / "exe").read_bytes(), (at / "map").read_bytes()
                if len(exe) + len(map_) <= LARGEST or text is long:
                    corpus["exe"].append((exe, map_))
                    corpus["map"].append((map_ if len(map_) <= LARGEST else map_[: map_.index(b"row")], exe))
                    for kind, file in made_by_gnu(gnu, at) if gnu else ():
                        corpus[kind] += [(file, map_ if kind == "exe" else None)] if len(file) <= LARGEST else []
    corpus["archive"] = [(it, None) for it in archives_of(pick, corpus["object"]) if len(it) <= LARGEST]
    corpus["tokens"] = sorted({it for text, _ in corpus["source"] for it in TOKEN.findall(text[:4096])})
    return corpus


# --- the calls


def messages():
    """The names of faults, by their codes, and those of ends, as the manual lists them."""
    manual = ROOT / "docs" / "manual"
    faults = re.findall(r"(?m)^- <a id=\"\w+\"></a>`(\w+) (\w+)`", (manual / "faults.md").read_text())
    ends = re.search(r"(?s)## How a run ends\n(.*?)\n\n[A-Z]", (manual / "platform.md").read_text())[1]
    return dict(faults), set(re.findall(r"`([A-Z]\w+)`", ends))


FAULTS, ENDS = messages()
# what a line says of a file without a fault's number (program.md)
OF_FILES = re.compile(r".+: (not a map( of \S+)?|no symbols|no raw listing)")


def is_named(words, status, message):
    """Whether the manual has this message, with this status."""
    if not message:
        return status == 0 or words[0] == "run"
    line = re.fullmatch(r"rv: ([^\n]+)\n", message)
    if not line or status not in (1, 125):
        return False
    if status == 125:
        end = re.fullmatch(r"(\w+)( [0-9a-f]+)?", line[1])
        return words[0] == "run" and bool(end) and end[1] in ENDS
    fault = re.fullmatch(r"(?:file\(.*\): |\S+: |\S+:\d+: )?([AEFLX]\d+) (\w+)(?: .*)?", line[1])
    if line[1] == "out of memory" or OF_FILES.fullmatch(line[1]):
        return True
    return bool(fault) and FAULTS.get(fault[1]) == fault[2]


def called(words, at, most=None):
    """Runs a call, with that much memory: its status and its message."""
    limits = f"ulimit -S -t {SECONDS}; " + (f"ulimit -v {most // 1024}; " if most else "")
    with open(at / "file" if words[0] == "run" else os.devnull) as given:
        try:
            process = subprocess.run(
                ["sh", "-c", limits + 'exec "$0" "$@"', RV, *words],
                cwd=at,
                stdin=given,
                stdout=subprocess.DEVNULL,
                stderr=subprocess.PIPE,
                timeout=CLOCK,
            )
        except subprocess.TimeoutExpired:
            return -signal.SIGXCPU, "hangs"
    return process.returncode, process.stderr.decode("utf8", "backslashreplace")


PEAK = "import os, sys; it = os.posix_spawn(sys.argv[1], sys.argv[1:], os.environ); print(os.wait4(it, 0)[2].ru_maxrss)"


def peak(words, at):
    """The most memory that a call takes, in bytes, and whether it says that memory ran out."""
    measure = [
        sys.executable,
        "-I",
        "-S",
        "-c",
        PEAK,
        "/bin/sh",
        "-c",
        'ulimit -S -t 10; exec "$0" "$@" > /dev/null',
        RV,
        *words,
    ]
    with open(at / "file") as given:
        process = subprocess.run(measure, cwd=at, stdin=given, capture_output=True, text=True, errors="replace")
    return 1024 * int(process.stdout), "out of memory" in process.stderr


def least():
    """The memory without which the program does not even begin."""
    for most in range(MIB, 64 * MIB, MIB // 2):
        if called(["dump", os.devnull], None, most) == (0, ""):
            return most
    sys.exit("./rv dump /dev/null fails")


def outputs(words):
    """The names of the files that a call writes."""
    marks = {"as": ("-o",), "ld": ("-o", "--map"), "build": ("-o", "--map")}.get(words[0], ())
    return [name for mark, name in zip(words, words[1:]) if mark in marks]


def read_by(words, at):
    """The files that a call reads; `-` is the file itself."""
    names = ["file" if it == "-" else it for it in words[1:]]
    return [at / it for it in names if it not in outputs(words) and (at / it).is_file()]


def own_bytes(words, at):
    """The bytes of the program that a call made or loaded, of its map, and of the objects that a build makes first,
    also where `run` is given a source."""
    size = sum((at / it).stat().st_size for it in outputs(words) if (at / it).exists())
    if words[0] in ("build", "map", "run") and (at / "obj").exists():
        size += words.count("file") * (at / "obj").stat().st_size
    for path in read_by(words, at):
        file = path.read_bytes()[:LARGEST]
        if file.startswith(b"\x7fELF") and len(file) >= 64:
            places = next(it for kind, it, _ in tables(file) if kind == "segment")
            size += sum(min(get(file, it + 40, 8), 256 * MIB) for it in places)
    return size


def find_in(words, at):
    """What is wrong with how a call ends, or nothing; and how it ended."""
    written = outputs(words)
    for name in written:
        (at / name).unlink(missing_ok=True)
    most = 20 * sum(it.stat().st_size for it in read_by(words, at)) + 16 * MIB
    status, message = called(words, at, most + LEAST)
    if status == -signal.SIGXCPU:
        return "time", message
    if status < 0 or status > 128 and words[0] != "run":
        return "signal", f"{status} {message}"
    if not is_named(words, status, message):
        return "no name", f"status {status}: {message[:200]}"
    if status and any((at / name).exists() for name in written):
        return "file", message
    if message == "rv: out of memory\n":
        took, again = peak(words, at)
        if again and took <= most:
            return "want", f"{took // MIB} MiB"
        if took > most + 3 * own_bytes(words, at):
            return "memory", f"{took // MIB} MiB for {(most - 16 * MIB) // 20} bytes"
        return None, "memory of the program's own size"
    fault = re.search(r"([AEFLX]\d+) \w+|not a map", message)
    return None, fault[0] if fault else words[0] + (" ended" if message else "")


def calls(pick, kind, at):
    """The calls for a file of this kind, which is called `file`; `other` belongs to it. What one makes others read."""
    run = ["run", "--limit", str(STEPS)]
    options = pick.choice(
        [[], [], [], ["--no-relax"], ["--gc-sections"], ["--text-start", hex(some_number(pick) % (1 << 64) & ~0xFFF)]]
    )
    twice = ["file"] * pick.choice([1, 1, 1, 1, 2])
    if pick.random() < 0.05:
        yield ["dump", "file"]
    if pick.random() < 0.1:
        yield pick.choice([["size", *twice], ["nm", "file"], ["elf", "file"]])
    if pick.random() < 0.05 and kind in ("source", "exe"):
        yield [*run, "-"]
    if kind == "source":
        yield ["as", "-o", "obj", "file"]
        if pick.random() < 0.05:
            yield ["map", *options, *twice]
        yield ["build", "-o", "exe", "--map", "map", *options, *twice]
        if (at / "obj").exists():
            yield ["ld", "-o", "exe", "--map", "map", *options, "obj"]
    elif kind == "object":
        beside = pick.choice([twice, twice, twice, ["file", "other"], ["other", "file"]])
        yield ["ld", "-o", "exe", "--map", "map", *options, *beside]
    elif kind == "archive":
        given = pick.choice([[], ["other"], ["other", "--library", "file"]])
        yield ["ld", "-o", "exe", "--map", "map", *options, *given, "--library", "file"]
    elif kind == "exe":
        yield [*run, "file"]
        yield ["objdump", "--map", "other", "file"]
        if pick.random() < 0.1:
            yield ["nm", "--map", "other", "file"]
    else:
        yield ["objdump", "--map", "file", "other"]
    if (at / "exe").exists():
        yield [*run, "exe"]
        yield ["objdump", "--map", "map", "exe"]
    elif kind == "source":
        yield [*run, "file"]


def attack(number):
    """Makes the file of this number and looks at each call: the finds, and how the calls ended."""
    pick = random.Random(f"{SEED} {number}")
    kind = pick.choice(["source"] * 4 + ["object"] * 4 + ["exe"] * 2 + ["map"] + ["archive"] * 2)
    file, other = pick.choice(CORPUS[kind])
    other = pick.choice(CORPUS["object"])[0] if kind in ("object", "archive") else other
    finds, ends = [], Counter()
    with tempfile.TemporaryDirectory() as folder:
        at = Path(folder)
        (at / "file").write_bytes(damaged(pick, kind, file, CORPUS))
        if other is not None:
            (at / "other").write_bytes(other)
        for words in calls(pick, kind, at):
            what, end = find_in(words, at)
            ends[what or end] += 1
            if what:
                size = (at / "file").stat().st_size
                line = f"{what}: file {number}, {kind} of {size} bytes: rv {' '.join(words)}: {end.strip()}"
                finds.append((f"{what} at {words[0]}", line))
                keep(at, f"{words[0]}-{what.replace(' ', '-')}", number)
    return finds, ends


def keep(at, what, number):
    """Keeps the files of a find, where there are not many of its kind."""
    if len([*KEPT.glob(f"{what}-*")]) < SHOWN:
        shutil.copytree(at, KEPT / f"{what}-{number}", dirs_exist_ok=True)


def tell(done, start):
    """Says how far the run is."""
    if done % TELLS == 0:
        print(f"{done} files, {done / (time.monotonic() - start):.0f} a second", file=sys.stderr, flush=True)


def main():
    global SEED, CORPUS, KEPT, LEAST, RV
    words = random_parser(__doc__)
    words.add_argument("--gnu")
    given = words.parse_args()
    need(given.rv)
    RV, SEED, KEPT = given.rv.resolve(), given.seed, Path(tempfile.mkdtemp(prefix="hostile-"))
    LEAST, CORPUS = least(), corpus_of(random.Random(SEED), given.gnu)
    numbers = numbers_of(given)
    kinds, done, ends, start = Counter(), 0, Counter(), time.monotonic()
    with multiprocessing.get_context("fork").Pool(given.jobs, signal.signal, (signal.SIGINT, signal.SIG_IGN)) as pool:
        try:
            for found, ended in pool.imap_unordered(attack, numbers, chunksize=20):
                done, ends = done + 1, ends + ended
                for kind, line in found:
                    kinds[kind] += 1
                    print(line, flush=True) if kinds[kind] <= SHOWN else None
                tell(done, start)
        except KeyboardInterrupt:
            print("stopped")
    for counts in filter(None, (ends, kinds)):
        print(", ".join(f"{it} {count}" for it, count in sorted(counts.items())))
    finds = sum(kinds.values())
    print(f"{done} files of seed {SEED}, from {numbers[0]} on, {sum(ends.values())} calls, {finds} finds in {KEPT}")
    if not finds:
        KEPT.rmdir()
    return 1 if finds else 0
