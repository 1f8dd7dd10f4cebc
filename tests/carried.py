#!/usr/bin/env python3
"""Links objects of GCC with `rv ld -g`, and compares their debug sections, byte for byte, with those that GNU ld makes.

usage: carried.py

GNU ld puts the sections where rv's map has them, and its objects have lost SHF_MERGE, so that it joins no strings. Each
debug section that it makes is then the one of rv (System V gABI, "Relocation"; RISC-V ELF psABI, "Relocations"), also
where code is left out, so that addresses become 0, or 1 in .debug_ranges. In front of GNU's .debug_abbrev stand those
of rv's own units, which it always has. With relaxation, which GNU does otherwise, readelf reads each function at its
address.

Of the sources that GCC writes, `rv build -g` makes what is loaded without `-g`, and the debug sections that `rv ld -g`
makes of their objects by `rv as -g`; also where one stands in an archive, and --defsym uses names of the program.

Where GCC writes lines as `.loc`, objdump reads in the executable of `rv ld -g` the rows that GNU as and ld make of the
same sources, and `rv build -g` loads what these sources without their lines give without `-g`. There `rv dis --lines`
prints what `objdump -d -l` prints, but for the names of functions and for discriminators, and for the folder where a
line table of DWARF 4 was compiled, which it does not say.

Without GCC for RISC-V nothing is tested. Standard library alone; the last line is 'N passed, M failed'.
"""

import re
import shutil
import struct
import subprocess
import sys
import tempfile
from pathlib import Path

TESTS = Path(__file__).resolve().parent
RV = TESTS.parent / "rv"
GNU = "riscv64-unknown-elf-"
MACHINE = "-march=rv64imac -mabi=lp64 -mcmodel=medany"

START = """
.globl _start
_start: call main
li a7, 93
ecall
"""
OWN = """
.globl _start
_start: ret
"""
FIRST = """
struct point { int x; long y; };
typedef struct point Point;
extern int twice(int n);
int total = 5;
static Point where = {1, 2};
int zeros[20];
const int table[3] = {7, 8, 9};
static int helper(int q) { return q * 7 + total; }
int never_called(int z) { int w = helper(z); return w + table[z & 1]; }
static __attribute__((noinline)) int sum(Point *p, int n)
{
  int s = 0;
  for (int i = 0; i < n; i++)
    s += p->x + twice(i);
  return s + (int)p->y;
}
int main(void)
{
  where.x = total;
  int r = sum(&where, 4);
  return r + table[r & 1] + zeros[3];
}
"""
SECOND = """
static int last;
int twice(int n)
{
  int m = n * 2;
  last = m;
  return m;
}
int never_either(int n) { return last + n; }
"""
WORDS = (
    "-O0 -g",
    "-O1 -g",
    "-O2 -g -ffunction-sections -fdata-sections",
    "-Os -g -gdwarf-4",
    "-O2 -gdwarf-4 -ffunction-sections",
    "-O1 -g -gdwarf-4 -mno-relax",
    "-O3 -gdwarf-3 -ffunction-sections",
)
LOCATED = (
    "-O0 -g -fdata-sections",
    "-O2 -g -ffunction-sections -fdata-sections",
    "-O3 -gdwarf-5 -fdata-sections",
    "-Os -g -gdwarf-4 -ffunction-sections -fdata-sections",
    "-O1 -gdwarf-4 -fdata-sections -mno-relax",
)
AS_DATA = "-gno-as-loc-support -fno-dwarf2-cfi-asm -fdata-sections -fno-ipa-icf"
DEFINED = "--defsym heap=_end+16 --defsym half=main-_start"
SCRIPT = """
ENTRY(_start)
SECTIONS {
  .text 0x%x : { *(.text .text.*) }
  .rodata 0x%x : { *(.rodata .rodata.* .srodata .srodata.*) }
  .data 0x%x : { *(.data .data.* .sdata .sdata.*) }
  .bss 0x%x : { *(.bss .bss.* .sbss .sbss.*) }
  /DISCARD/ : { *(.comment) *(.riscv.attributes) *(.rv.*) }
}
"""


def call(folder, words):
    """Runs a command, which has to succeed."""
    ran = subprocess.run(
        words.split(), cwd=folder, stdout=subprocess.PIPE, stderr=subprocess.PIPE, text=True, timeout=120
    )
    if ran.returncode:
        raise SystemExit(f"{words}: {ran.stderr}")
    return ran.stdout


def sections(held):
    """The contents of each section, by its name."""
    at, size, count, names = struct.unpack_from("<Q", held, 40)[0], *struct.unpack_from("<HHH", held, 58)
    headers = [struct.unpack_from("<IIQQQQIIQQ", held, at + size * index) for index in range(count)]
    body = lambda it: held[it[4] : it[4] + it[5]] if it[1] != 8 else b""
    strings = body(headers[names])
    return {strings[it[0] : strings.index(b"\0", it[0])].decode(): body(it) for it in headers}


def compile_all(folder, words):
    """Makes the objects of a program: for rv, and for GNU without SHF_MERGE."""
    for name, text in (("start.s", START), ("own.s", OWN), ("first.c", FIRST), ("second.c", SECOND)):
        (folder / name).write_text(text)
    call(folder, f"{GNU}as {MACHINE.rsplit(' ', 1)[0]} -o start.o start.s")
    call(folder, f"{RV} as -o own.o own.s")
    call(folder, f"{RV} ld -g -o own own.o")
    own = sections((folder / "own").read_bytes())[".debug_abbrev"]
    (folder / "own").write_bytes(own)
    call(folder, f"{GNU}objcopy --add-section .debug_abbrev=own start.o start-gnu.o")
    for name in ("first", "second"):
        call(folder, f"{GNU}gcc {MACHINE} {words} -c -o {name}.o {name}.c")
        flags = "--set-section-flags .debug_str=readonly,debug --set-section-flags .debug_line_str=readonly,debug"
        call(folder, f"{GNU}objcopy {flags} {name}.o {name}-gnu.o")


def compared(folder, more):
    """The names of the debug sections that differ from GNU's."""
    call(folder, f"{RV} ld -g --no-relax {more} -o prog --map map start.o first.o second.o")
    regions = dict(re.findall(r"(?m)^(text|rodata|data|bss) (\w+) ", (folder / "map").read_text()))
    (folder / "script").write_text(SCRIPT % tuple(int(regions[it], 16) for it in ("text", "rodata", "data", "bss")))
    call(folder, f"{GNU}ld --no-relax {more} -T script -o gnu start-gnu.o first-gnu.o second-gnu.o")
    came, wanted = (sections((folder / it).read_bytes()) for it in ("prog", "gnu"))
    names = [it for it in {*came, *wanted} if it.startswith(".debug_") and (came.get(it) or wanted.get(it))]
    return [it for it in sorted(names) if came.get(it) != wanted.get(it)]


def misplaced(folder):
    """The functions that the debug information of a relaxed program has at other addresses than the symbols of all."""
    call(folder, f"{RV} ld -g -o relaxed --map map start.o first.o second.o")
    said = call(folder, f"{GNU}readelf --debug-dump=info relaxed")
    globals_ = dict(re.findall(r"(?m)^global (\w+) (\w+)$", (folder / "map").read_text()))
    entries = re.findall(r"DW_TAG_subprogram\)\n((?:    <.*\n)*)", said)
    found = {}
    for entry in entries:
        name, place = re.search(r"DW_AT_name .*?(\w+)\n", entry), re.search(r"DW_AT_low_pc +: 0x(\w+)", entry)
        if name and place:
            found[name[1]] = int(place[1], 16)
    wanted = {"main", "twice", "never_called", "never_either"}
    return [it for it in sorted(wanted) if found.get(it) != int(globals_[it], 16)]


def is_loaded_as(plain, file):
    """Whether a file is loaded as another one: that stands in front, but for what leads to the section headers."""
    front = bytearray(file[: len(plain)])
    front[40:48], front[58:64] = plain[40:48], plain[58:64]
    return front == plain


def misbuilt(folder, words):
    """What is wrong in builds of the sources that GCC writes."""
    for name in ("first", "second"):
        call(folder, f"{GNU}gcc {MACHINE} {words} {AS_DATA} -S -o {name}.s {name}.c")
    for name in ("start", "first", "second"):
        call(folder, f"{RV} as -g -o {name}-rv.o {name}.s")
    call(folder, f"{GNU}ar rcs second.a second-rv.o")
    wrong = []
    for sources, objects, behind in (
        ("start.s first.s second.s", "start-rv.o first-rv.o second-rv.o", ""),
        ("start.s first.s", "start-rv.o first-rv.o", "--library second.a"),
        ("start.s first.s second.s", "start-rv.o first-rv.o second-rv.o", "--gc-sections"),
        ("start.s first.s second.s", "start-rv.o first-rv.o second-rv.o", DEFINED),
        ("start.s first.s", "start-rv.o first-rv.o", f"{DEFINED} --library second.a"),
    ):
        call(folder, f"{RV} build -o plain --map plain-map {sources} {behind}")
        call(folder, f"{RV} build -g -o built --map built-map {sources} {behind}")
        call(folder, f"{RV} ld -g -o linked {objects} {behind}")
        plain, built, linked = ((folder / it).read_bytes() for it in ("plain", "built", "linked"))
        came, wanted = sections(built), sections(linked)
        names = [it for it in sorted({*came, *wanted}) if it.startswith(".debug_") and came.get(it) != wanted.get(it)]
        if not is_loaded_as(plain, built):
            names.append("image")
        if (folder / "plain-map").read_bytes() != (folder / "built-map").read_bytes():
            names.append("map")
        wrong += [f"{it} ({behind})" for it in names]
    return wrong


def rows_in(folder, exe):
    """The rows of C in the line table: file, line, address, and whether it is a statement."""
    said = call(folder, f"{GNU}objdump --dwarf=decodedline {exe}")
    rows = re.findall(r"(?m)^((?:first|second)\.c) +(\d+) +(?:0x)?([0-9a-f]+)(?: +\d+)?( +x)? *$", said)
    return sorted((name, int(line), int(place, 16), bool(stmt)) for name, line, place, stmt in rows)


def lines_of_functions(folder, exe):
    """Where functions stand in C, by their names."""
    symbols = re.findall(r"(?m)^(\w+) T (main|twice|never_\w+)$", call(folder, f"{GNU}nm {exe}"))
    return {name: call(folder, f"{GNU}addr2line -e {exe} {place}") for place, name in symbols}


def without_discriminators(listing):
    """What `objdump -d -l` prints, but names of functions and discriminators: each line of source until another one."""
    kept, last = [], None
    for line in re.sub(r"(?m) \(discriminator \d+\)$|^\S+\(\):\n", "", listing).splitlines():
        is_source = re.match(r"[\w./-]+:\d+$", line)
        if not (is_source and line == last):
            kept.append(line)
        last = line if is_source else None if line.endswith(">:") else last
    return kept


def without_lines(text):
    """A source without the directives that say lines."""
    return re.sub(r"(?m)^\t\.(loc |file \d).*$", "", text)


def mislocated(folder, words):
    """What is wrong in programs of sources that say their lines by `.loc`."""
    linked, wrong = "start first second".split(), []
    (folder / "start.s").write_text(START)
    for name, text in (("first", FIRST), ("second", SECOND)):
        (folder / f"{name}.c").write_text(text)
        call(folder, f"{GNU}gcc {MACHINE} {words} -fno-ipa-icf -S -o {name}.s {name}.c")
        # (GNU as finds more instructions of two bytes)
        text = (folder / f"{name}.s").read_text().replace("\t.text\n", "\t.option norvc\n\t.text\n", 1)
        (folder / f"{name}.s").write_text(text)
        (folder / f"{name}-plain.s").write_text(without_lines(text))
    for name in linked:
        call(folder, f"{RV} as -g -o {name}.o {name}.s")
        call(folder, f"{GNU}as {MACHINE.rsplit(' ', 1)[0]} -o {name}-gnu.o {name}.s")
    objects, gnu = " ".join(f"{it}.o" for it in linked), " ".join(f"{it}-gnu.o" for it in linked)
    call(folder, f"{RV} ld -g --no-relax -o prog --map map {objects}")
    regions = dict(re.findall(r"(?m)^(text|rodata|data|bss) (\w+) ", (folder / "map").read_text()))
    (folder / "script").write_text(SCRIPT % tuple(int(regions[it], 16) for it in ("text", "rodata", "data", "bss")))
    call(folder, f"{GNU}ld --no-relax -T script -o gnu {gnu}")
    if not rows_in(folder, "gnu") or rows_in(folder, "prog") != rows_in(folder, "gnu"):
        wrong.append("rows")
    call(folder, f"{RV} build -g -o built start.s first.s second.s")
    call(folder, f"{RV} build -o plain start.s first-plain.s second-plain.s")
    call(folder, f"{GNU}ld -T script -o relaxed {gnu}")
    if not is_loaded_as((folder / "plain").read_bytes(), (folder / "built").read_bytes()):
        wrong.append("image")
    if lines_of_functions(folder, "built") != lines_of_functions(folder, "relaxed"):
        wrong.append("functions")
    own, shown = call(folder, f"{RV} dis --lines built"), call(folder, f"{GNU}objdump -d -l built")
    if "-gdwarf-4" in words:
        own, shown = (text.replace(f"{folder}/", "") for text in (own, shown))
    if "first.c:2" not in own or own.splitlines() != without_discriminators(shown):
        wrong.append("listing")
    return wrong


def main():
    if not shutil.which(f"{GNU}gcc"):
        print(f"no {GNU}gcc: nothing tested")
        print("0 passed, 0 failed")
        return 0
    passed = failed = 0
    for words in WORDS:
        with tempfile.TemporaryDirectory() as name:
            folder = Path(name)
            compile_all(folder, words)
            for what, wrong in (
                ("all", compared(folder, "")),
                ("what is reached", compared(folder, "--gc-sections")),
                ("relaxed", misplaced(folder)),
                ("sources", misbuilt(folder, words)),
            ):
                passed += not wrong
                failed += bool(wrong)
                if wrong:
                    print(f"{words}, {what}: {' '.join(wrong)}")
    for words in LOCATED:
        with tempfile.TemporaryDirectory() as name:
            wrong = mislocated(Path(name), words)
            passed += not wrong
            failed += bool(wrong)
            if wrong:
                print(f"{words}, lines: {' '.join(wrong)}")
    print(f"{passed} passed, {failed} failed")
    return int(failed > 0)


if __name__ == "__main__":
    sys.exit(main())
