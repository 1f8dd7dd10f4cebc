"""Writes tests/link/gnu_fields.table: fields as GNU's linker patches them.

usage: compare.py relocation_table    (with riscv64-unknown-elf-as and -ld 2.40)

Each row is a field with one `.reloc`, alone in a section at the address at which text begins, and the value of its
symbol, which the linker is told. The source is linked twice without relaxation, once with all other bits zeros and once
with ones.
"""

import subprocess
import tempfile
from pathlib import Path

from against.common import GNU, ROOT, need
from run import section

TABLE = ROOT / "tests" / "link" / "gnu_fields.table"
START = 0x10000
# The bytes of each section, and where the PCREL_HI20 of a PCREL_LO12 is in them.
SIZE, HIGH = 12, 8
MASK = (1 << 64) - 1

UPPER = [0, 1, -1, 0x7FF, 0x800, -0x800, -0x801, 0x12345678, -0x12345678, 0x7FFFF7FF, -0x80000800]
CALL = [0, 2, -2, 0x7FE, 0x800, -0x800, -0x802, 0x12345678, -0x12345678, 0x7FFFF7FE, -0x80000800]
LOWER = [0, 1, -1, 0x7FF, 0x800, 0x801, -0x800, -0x801, 0x12345ABC, -0x12345ABC]
PAIRED = LOWER + [0x7FFFF7FF, -0x80000800]
DATA = [0, 1, -1, 0x55, -0x7F, 0x1234, -0x1234, 0x12345678, -0x12345678]
WIDE = DATA + [0x123456789ABCDEF0, (1 << 63) - 1, -(1 << 63)]
# the psABI's name, whether the place is taken off, values
KINDS = [
    ("32", False, DATA + [(1 << 32) - 1, (1 << 31) - 1, -(1 << 31)]),
    ("64", False, WIDE),
    ("BRANCH", True, [0, 2, -2, 0x7FE, 0x800, 0x556, -0x556, 4094, -4096]),
    ("JAL", True, [0, 2, -2, 0x7FE, 0x800, 0xAA556, -0xAA556, 1048574, -1048576]),
    ("CALL", True, CALL),
    ("CALL_PLT", True, CALL),
    ("PCREL_HI20", True, UPPER),
    ("PCREL_LO12_I", True, PAIRED),
    ("PCREL_LO12_S", True, PAIRED),
    ("HI20", False, UPPER),
    ("LO12_I", False, LOWER),
    ("LO12_S", False, LOWER),
    ("ADD8", False, WIDE),
    ("ADD16", False, WIDE),
    ("ADD32", False, WIDE),
    ("ADD64", False, WIDE),
    ("SUB8", False, WIDE),
    ("SUB16", False, WIDE),
    ("SUB32", False, WIDE),
    ("SUB64", False, WIDE),
    ("RVC_BRANCH", True, [0, 2, -2, 0xAA, -0xAA, 0x56, 254, -256]),
    ("RVC_JUMP", True, [0, 2, -2, 0x2AA, -0x2AA, 0x556, 2046, -2048]),
    ("SUB6", False, DATA),
    ("SET6", False, DATA),
    ("SET8", False, DATA),
    ("SET16", False, DATA),
    ("SET32", False, DATA),
    ("32_PCREL", True, DATA + [(1 << 31) - 1, -(1 << 31)]),
]
ADDENDS = [0, 4, -12]
HEAD = """\
# Every kind of relocation at the ends of its range, as GNU ld 2.40 patches it in bytes that were zeros, and that were
# ones. Its assembler gives no SUB an addend, which its linker would add where the psABI takes it off. The columns: the
# relocations, the value of their symbol, the bytes. compare.py relocation_table writes this file.
# object: section .text ax 8: {{12 * 00}}; $1; symbol _start global 1 0; symbol hi local 1 8; symbol s local absolute $2
# text: $3
# object: section .text ax 8: {{12 * ff}}; $1; symbol _start global 1 0; symbol hi local 1 8; symbol s local absolute $2
# text: $4
"""


def rows():
    """Each row: kind, addend, and the value of the symbol."""
    number = 0
    for kind, relative, values in KINDS:
        for value in values:
            origin = START + (HIGH if kind.startswith("PCREL_LO12") else 0)
            addend = 0 if kind.startswith("SUB") else ADDENDS[number % len(ADDENDS)]
            yield kind, addend, value - addend + (origin if relative else 0) & MASK
            number += 1


def relocations(kind, addend):
    """The relocations of a row, as a case has them."""
    of_symbol = f"s{addend:+}" if addend else "s"
    if kind.startswith("PCREL_LO12"):
        return f"reloc 0 {kind} hi; reloc {HIGH} PCREL_HI20 {of_symbol}"
    return f"reloc 0 {kind} {of_symbol}"


def source(fill):
    """The source of all rows, in sections of this byte."""
    yield ".option norelax"
    for number, (kind, addend, _) in enumerate(rows()):
        place = f"low{number}"
        yield f'.section .f{number}, "aw", @progbits'
        yield f"{place}: .fill {HIGH}, 1, {fill}"
        yield f"high{number}: .fill {SIZE - HIGH}, 1, {fill}"
        if kind.startswith("PCREL_LO12"):
            yield f".reloc {place}, R_RISCV_{kind}, high{number}"
            kind, place = "PCREL_HI20", f"high{number}"
        yield f".reloc {place}, R_RISCV_{kind}, s{number} + {addend}"


def linked(fill):
    """The bytes of each row, patched by the linker in bytes like this one."""
    words = ["--no-relax", "--no-check-sections", "-e", "0"]
    for number, (_, _, symbol) in enumerate(rows()):
        words += [f"--section-start=.f{number}={START:#x}", "--defsym", f"s{number}={symbol:#x}"]
    with tempfile.TemporaryDirectory() as folder:
        Path(folder, "fields.s").write_text("\n".join(source(fill)) + "\n")
        for tool in (
            ["as", "-march=rv64imac", "-o", "fields.o", "fields.s"],
            ["ld", *words, "-o", "fields", "fields.o"],
        ):
            subprocess.run([GNU + tool[0], *tool[1:]], cwd=folder, check=True)
        made = Path(folder, "fields").read_bytes()
        return [section(made, f".f{number}")[1].hex() for number, _ in enumerate(rows())]


def main():
    need(*(f"{GNU}{tool}" for tool in ("as", "ld")))
    with open(TABLE, "w") as table:
        table.write(HEAD)
        for (kind, addend, symbol), zeros, ones in zip(rows(), linked(0), linked(255)):
            table.write(f"{relocations(kind, addend)} => {symbol:#x} => {zeros} => {ones}\n")
