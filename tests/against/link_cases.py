"""Writes tests/link/gnu_*.s: programs that GNU's linker makes of objects that GNU's assembler wrote.

usage: compare.py link_cases    (with riscv64-unknown-elf-as and -ld 2.40)

Each program is a list of sources. The case holds the object of each as a file in hexadecimal. GNU's linker then links
the objects with a script that lays the sections out in the order of regions, without relaxation of calls; what the case
wants is what it writes.
"""

import struct
import subprocess
import tempfile
import textwrap
from pathlib import Path

from against.common import GNU, ROOT, need

FOLDER = ROOT / "tests" / "link"
SCRIPT = """
ENTRY(_start)
SECTIONS {
  . = START;
  .text : { *(.text .text.*) }
  . = ALIGN(4096);
  .rodata : { rodata = .; *(.rodata .rodata.*) }
  . = ALIGN(4096);
  .data : { data = .; *(.data .data.*) _edata = .; }
  .bss : { bss = .; *(.bss .bss.*) _end = .; }
  /DISCARD/ : { *(*) }
}
"""

# the case's name, what it shows, the assembler's options, the sources, and where the text begins if the words say so
PROGRAMS = [
    (
        "gnu_calls_and_addresses",
        "A call, branches and jumps, and the halves of addresses, in two files.",
        ["-march=rv64ima", "-mno-relax"],
        [
            """
.globl _start
_start:
 call f
 beq a0, a1, 1f
 j 1f
 bltu a1, a0, _start
1: la a1, word
 lw a0, word+4
 sw a0, word, t0
 lui a2, %hi(word)
 addi a2, a2, %lo(word)
 lw a0, %lo(word+4)(a2)
 sw a0, %lo(word+8)(a2)
 tail f
.section .rodata
 .half 7
 .balign 8
 .dword _start+2
.data
word: .word 1b
 .dword f
 .word 2f - word - 1
2: .word f - .
.bss
 .balign 64
 .zero 5
""",
            """
.globl f
 nop
f: la a0, here
 jal ra, _start
 ret
.data
 .byte 1
 .balign 4
here: .word 5f - 4f, _start
.section .text.b,"ax"
4: nop
5: j f
.bss
 .zero 9
""",
        ],
    ),
    (
        "gnu_paddings",
        "Paddings of 6 bytes that keep 4 and 2.",
        ["-march=rv64imac", "-mrelax"],
        [
            """
.globl _start
_start: c.nop
 c.nop
 .balign 8
a: j a
 c.nop
 c.nop
 .balign 8
b: beq a0, a1, _start
 j a
.data
 .dword a, b
 .word b - a
"""
        ],
    ),
    (
        "gnu_paddings_behind_a_call",
        "Sections of text one behind the other: paddings by where each begins, with what refers to what is behind "
        "them.",
        ["-march=rv64imac", "-mrelax"],
        [
            """
.globl _start
_start: c.nop
 call g
""",
            """
.option norelax
 c.nop
 c.j 1f
1: c.beqz a0, 1b
 .option relax
 .balign 16
.globl g
g: la a0, g
 lw a0, far
 .balign 4
 .balign 32
h: ret
.data
 .word h - g
 .byte 0
far: .half h - g
 .byte h - g
""",
        ],
    ),
    (
        "gnu_gaps",
        "Sections of text with alignments and one of constants: zeros between them.",
        ["-march=rv64ima", "-mno-relax"],
        [
            """
.globl _start
_start: j f
.section .rodata
 .byte 1
""",
            """
 .p2align 6
.globl f
f: ret
 .half 0
.section .rodata
 .balign 32
 .byte 2
.data
 .byte 3
.bss
 .balign 256
 .zero 1
""",
            """
 .word 0x13
.data
 .balign 64
 .dword f
""",
        ],
    ),
    (
        "gnu_names",
        "The linker's names, numbers for all files, and local names of two files.",
        ["-march=rv64ima", "-mno-relax"],
        [
            """
.globl _start, number
number = 0x12345678
_start: lui a0, %hi(number)
 addi a0, a0, %lo(number)
x: la a1, _edata
 la a2, _end
.data
 .dword _edata, x, number+1
.bss
 .zero 3
""",
            """
x: j x
.data
 .word x, number
""",
        ],
    ),
    (
        "gnu_origin_80000000",
        "Text at 80000000h: a call, branches and jumps, addresses by their distance, and in four and eight bytes.",
        ["-march=rv64ima", "-mno-relax"],
        [
            """
.globl _start
_start:
 call f
 beq a0, a1, 1f
 j 1f
 bltu a1, a0, _start
1: la a1, word
 lw a0, word+4
 sw a0, word, t0
 la gp, _end
 tail f
.section .rodata
 .half 7
 .balign 8
 .dword _start+2
.data
word: .word 1b
 .dword f
 .word 2f - word - 1
2: .word f - .
.bss
 .balign 64
 .zero 5
""",
            """
.globl f
 nop
f: la a0, here
 jal ra, _start
 ret
.data
 .byte 1
 .balign 4
here: .word 5f - 4f, _start
.section .text.b,"ax"
4: nop
5: j f
.bss
 .zero 9
""",
        ],
        "0x80000000",
    ),
    (
        "gnu_origin_20000000",
        "Text at 20000000h: addresses by their halves, too, and paddings.",
        ["-march=rv64imac", "-mrelax"],
        [
            """
.globl _start
_start: c.nop
 lui a2, %hi(word)
 addi a2, a2, %lo(word)
 lw a0, %lo(word+4)(a2)
 .balign 8
a: la a1, word
 j a
.data
word: .dword a, _start
 .word a - _start
"""
        ],
        "0x20000000",
    ),
]


class Elf:
    """A file's sections: name, type, flags, address, bytes, size, link, info, alignment."""

    def __init__(self, raw):
        self.entry, _, table = struct.unpack_from("<QQQ", raw, 24)
        size, count, names = struct.unpack_from("<HHH", raw, 58)
        heads = [struct.unpack_from("<IIQQQQIIQQ", raw, table + i * size) for i in range(count)]
        strings = raw[heads[names][4] :][: heads[names][5]]
        self.sections = []
        for name, kind, flags, address, offset, length, link, info, align, _ in heads:
            body = b"" if kind == 8 else raw[offset : offset + length]
            self.sections.append((text(strings, name), kind, flags, address, body, length, link, info, align))

    def symbols(self):
        table = next(s for s in self.sections if s[1] == 2)
        strings = self.sections[table[6]][4]
        for at in range(0, len(table[4]), 24):
            name, info, _, index, value, _ = struct.unpack_from("<IBBHQQ", table[4], at)
            yield text(strings, name), info, index, value

    def named(self, wanted):
        return next(value for name, _, _, value in self.symbols() if name == wanted)

    def region(self, name):
        return next(((s[3], s[4]) for s in self.sections if s[0] == name), (0, b""))


def text(strings, at):
    return strings[at : strings.index(b"\0", at)].decode()


def run(*words):
    subprocess.run([GNU + words[0], *map(str, words[1:])], check=True)


def grouped(data):
    return " ".join(data[at : at + 4].hex() for at in range(0, len(data), 4))


def case(folder, shows, options, sources, origin=None):
    """The lines of a case."""
    objects = []
    for i, source in enumerate(sources):
        (folder / f"{i}.s").write_text(source)
        run("as", *options, "-o", folder / f"{i}.o", folder / f"{i}.s")
        objects.append(folder / f"{i}.o")
    (folder / "script").write_text(SCRIPT.replace("START", origin or "0x10000"))
    run("ld", "--no-relax", "-T", folder / "script", "-o", folder / "program", *objects)
    elf = Elf((folder / "program").read_bytes())
    about = (
        f"{shows} GNU as 2.40, {' '.join(options)}, wrote the objects of the sources below, and GNU ld 2.40 makes of "
        "them what stands here: tests/against/link_cases.py."
    )
    lines = ["# " + line for line in textwrap.wrap(about, 116)]
    lines.append("# options: --no-relax" + (f" --origin {origin}" if origin else ""))
    lines += [f"# {name}: {grouped(elf.region('.' + name)[1])}".rstrip() for name in ("text", "rodata", "data")]
    for name in ("rodata", "data"):
        start = elf.named(name)
        lines.append(f"# map: {name} {start:x} {start + len(elf.region('.' + name)[1]):x}")
    lines += [f"# map: bss {elf.named('bss'):x} {elf.named('_end'):x}", f"# map: entry {elf.entry:x}"]
    for letter, source in zip("abc", sources):
        lines += ["#", f"# {letter}.s", *("#     " + line for line in source.strip("\n").split("\n"))]
    for letter, path in zip("abc", objects):
        raw = path.read_bytes()
        lines += [f"#--- {letter}.o hex", *(raw[at : at + 48].hex() for at in range(0, len(raw), 48))]
    return lines


def main():
    need(*(f"{GNU}{tool}" for tool in ("as", "ld")))
    with tempfile.TemporaryDirectory() as folder:
        for name, *program in PROGRAMS:
            (FOLDER / f"{name}.s").write_text("\n".join(case(Path(folder), *program)) + "\n")
