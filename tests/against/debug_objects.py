"""Compares sections without `a` in objects of `rv as -g` with those of GNU as, and what is loaded with `rv as`.

usage: compare.py debug_objects [COUNT]      (200 sources by default)

GCC compiles with `-g` and the words that docs/manual/gcc.md names, for DWARF 5 and 4 in turn, at four levels: the
programs of bench/ and examples/c, and then C that bench/drawn.py draws. Behind each source stand sections of other
names, with values and differences of its names in all widths, and a name that nothing defines. Of each it asks that

  sections     sections without the flag `a` are those of GNU as, with the same bytes, type, flags and alignment
  relocations  theirs have the same offsets, kinds, symbols and addends
  loaded       without these sections and their relocations the object is that of `rv as` of the source
  image        `rv ld` makes of both the same executable, where the source has a start

A line for each that differs; the last line is 'N passed, M failed'. It needs riscv64-unknown-elf-gcc and its binutils.
"""

import re
import struct
import subprocess
import sys
import tempfile
from itertools import count, cycle, islice
from pathlib import Path

from against.common import GNU, ROOT, RV, completed, need

sys.path.insert(0, str(ROOT / "bench"))

import drawn  # noqa: E402  (bench/ has no package)

WORDS = "-march=rv64imac -mabi=lp64 -ffreestanding -w -fno-ipa-icf -fdata-sections -g -gno-as-loc-support".split()
WORDS += ["-fno-dwarf2-cfi-asm", "-S", "-x", "c", "-"]
LEVELS = ("-O0", "-O1", "-O2", "-Os")
VERSIONS = ("-gdwarf-5", "-gdwarf-4")
ALLOC, NOBITS = 2, 8
TYPES = (1, 7, NOBITS)
# What GNU as writes of `.ident`, and sections of this assembler's own.
OF_TOOLS = (".comment", ".rv.rows", ".rv.source")
GLOBAL = re.compile(r"^\s*\.globl\s+([\w.$]+)$", re.M)
# Sections without `a`, where FIRST and LAST are names of the source.
OTHERS = """
    .section .info,"",@progbits
.Linfo:
    .8byte FIRST, LAST + 8
    .4byte FIRST, .Lmore - 4
    .8byte LAST - FIRST
    .4byte LAST - FIRST + 2
    .2byte LAST - FIRST
    .byte LAST - FIRST, 7
    .8byte nothing_defines_this
    .section .more-info
    .4byte .Linfo
    .4byte .
.Lmore:
    .section .some.notes,"",@note
    .8byte LAST
    .section .written,"w"
    .4byte .Lmore, FIRST
    .section .empty,"",@nobits
    .zero 8
    .section .info
    .4byte .Lmore - .Linfo, 5
"""


def text_of_table(table, at):
    """The string at an offset of a table of strings."""
    return table[at : table.index(b"\0", at)].decode()


class Object:
    """What an object's file has: its sections by their names, and the relocations of each."""

    def __init__(self, path):
        self.file = Path(path).read_bytes()
        at, number, names = struct.unpack_from("<Q18xHH", self.file, 40)[0], *struct.unpack_from("<HH", self.file, 60)
        self.headers = [struct.unpack_from("<IIQQQQIIQQ", self.file, at + 64 * index) for index in range(number)]
        table = self.bytes_of(self.headers[names])
        self.names = [text_of_table(table, it[0]) for it in self.headers]

    def bytes_of(self, header):
        return b"" if header[1] == NOBITS else self.file[header[4] : header[4] + header[5]]

    def symbol(self, table, index):
        """A symbol: its name, or that of the section where it stands, and the offset."""
        symbols, strings = self.bytes_of(self.headers[table]), self.bytes_of(self.headers[self.headers[table][6]])
        name, section, value = struct.unpack_from("<I2xHQ", symbols, 24 * index)
        text = text_of_table(strings, name)
        # (GNU as gives the place of `.` a name with a blank)
        return (text, 0) if text and " " not in text else (self.names[section], value)

    def relocations(self, index):
        """The relocations of a section: the offset, the kind, the symbol and what is added."""
        for header in self.headers:
            if header[1] == 4 and header[7] == index:
                for at, info, addend in struct.iter_unpack("<QQq", self.bytes_of(header)):
                    name, value = self.symbol(header[6], info >> 32)
                    yield at, info & 0xFFFFFFFF, name, value + addend

    def unloaded(self):
        """Of each section without `a`, but those of tools: its type and flags, its size and bytes, its relocations."""
        for index, (name, header) in enumerate(zip(self.names, self.headers)):
            if header[1] in TYPES and not header[2] & ALLOC and name not in OF_TOOLS:
                # (M and S are flags that GNU as keeps)
                held = header[1], header[2] & ~0x30, header[5], self.bytes_of(header), max(header[8], 1)
                yield name, held, list(self.relocations(index))

    def loaded(self):
        """Of each section with `a` its header's numbers, its bytes and its relocations."""
        for index, (name, header) in enumerate(zip(self.names, self.headers)):
            if header[1] in TYPES and header[2] & ALLOC:
                yield name, header[1:4], header[5], header[8], self.bytes_of(header), list(self.relocations(index))


def sources(number):
    """So many sources of C, each with a title, a level and a version of DWARF."""
    files = sorted((ROOT / "bench" / "programs").glob("*.c")) + sorted((ROOT / "examples" / "c").glob("*.c"))
    ways = cycle((level, version) for version in VERSIONS for level in LEVELS)
    texts = [(it.name, it.read_text(), it.parent) for it in files]
    kinds = cycle(drawn.OF_KIND)
    more = ((f"drawn {seed}", drawn.Functions(seed, 6, next(kinds)).program(8), ROOT) for seed in count(1))
    whole = ((*it, *next(ways)) for held in (texts, more) for it in held)
    return islice(whole, number)


def differences(folder, text, parent, words):
    """What differs of the objects of a source."""
    made = subprocess.run(
        [f"{GNU}gcc", *WORDS, *words, f"-I{parent}", "-o", "-"], input=text.encode(), stdout=subprocess.PIPE, check=True
    )
    names = GLOBAL.findall(made.stdout.decode())
    others = OTHERS.replace("FIRST", names[0]).replace("LAST", names[-1])
    (folder / "a.s").write_text(made.stdout.decode() + others)
    for tool in (
        (RV, "as", "-g", "-o", "ours.o", "a.s"),
        (RV, "as", "-o", "plain.o", "a.s"),
        (f"{GNU}as", "-march=rv64imac", "-mabi=lp64", "-o", "theirs.o", "a.s"),
    ):
        done = completed(tool, cwd=folder)
        if done is None or done.returncode or done.stderr:
            yield f"{tool[0]}: {done and done.stderr.decode().strip()}"
            return
    ours, theirs, plain = (Object(folder / f"{name}.o") for name in ("ours", "theirs", "plain"))
    had, wanted = ({it[0]: it[1:] for it in of.unloaded()} for of in (ours, theirs))
    for name in sorted(had.keys() | wanted.keys()):
        if name not in had or name not in wanted or had[name][0] != wanted[name][0]:
            yield f"section {name}"
        elif had[name][1] != wanted[name][1]:
            yield f"relocations of {name}"
    if list(ours.loaded()) != list(plain.loaded()):
        yield "loaded"
    if b"_start" in text.encode():
        for name in ("ours", "plain"):
            completed((RV, "ld", "-o", f"{name}.exe", f"{name}.o"), cwd=folder)
        if (folder / "ours.exe").read_bytes() != (folder / "plain.exe").read_bytes():
            yield "image"


def main():
    need(f"{GNU}gcc", f"{GNU}as")
    number = int(sys.argv[1]) if sys.argv[1:] else 200
    failed = 0
    for title, text, parent, *words in sources(number):
        with tempfile.TemporaryDirectory() as folder:
            found = list(differences(Path(folder), text, parent, words))
        if found:
            failed += 1
            print(f"{title} {' '.join(words)}: {', '.join(found)}")
    print(f"{number - failed} passed, {failed} failed")
    return 1 if failed else 0
