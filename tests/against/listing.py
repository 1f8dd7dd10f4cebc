"""Compares the listing of rv with GNU objdump's, for every parcel and for words at the edges of their fields.

usage: compare.py listing [--rv RV]

It writes an executable whose text has each of the 49,152 parcels that begin no word, and each word whose opcode has its
low two bits set and is not that of a longer instruction, with every funct3 and funct7 and with registers at the edges
of their fields, which are those of the immediates as well; and a map with a row for each of them. `rv objdump` of both
is laid beside `objdump -M no-aliases`, whose forms are told as the manual of rv says they differ
(docs/manual/differences.md): a parcel as the instruction that it stands for, by the ISA's chapter 16, and what is not
of RV64IMAC as unknown.

The last line is 'differs=0' where nothing differs, and only then the status is 0.
"""

import argparse
import re
import struct
import subprocess
import tempfile
from collections import Counter
from pathlib import Path

from against.common import GNU, RV, need

OBJDUMP = f"{GNU}objdump"
START = 0x10000
SHOWN = 20

# What a parcel stands for: its operands are {0}, {1}, ..
EXPANSIONS = {
    "c.addi4spn": "addi {0},{1},{2}",
    "c.nop": "addi zero,zero,{0}",
    "c.addi": "addi {0},{0},{1}",
    "c.addiw": "addiw {0},{0},{1}",
    "c.li": "addi {0},zero,{1}",
    "c.addi16sp": "addi {0},{0},{1}",
    "c.lui": "lui {0},{1}",
    "c.slli": "slli {0},{0},{1}",
    "c.slli64": "slli {0},{0},0",
    "c.srli": "srli {0},{0},{1}",
    "c.srli64": "srli {0},{0},0",
    "c.srai": "srai {0},{0},{1}",
    "c.srai64": "srai {0},{0},0",
    "c.andi": "andi {0},{0},{1}",
    "c.sub": "sub {0},{0},{1}",
    "c.xor": "xor {0},{0},{1}",
    "c.or": "or {0},{0},{1}",
    "c.and": "and {0},{0},{1}",
    "c.subw": "subw {0},{0},{1}",
    "c.addw": "addw {0},{0},{1}",
    "c.j": "jal zero,{0}",
    "c.beqz": "beq {0},zero,{1}",
    "c.bnez": "bne {0},zero,{1}",
    "c.jr": "jalr zero,0({0})",
    "c.jalr": "jalr ra,0({0})",
    "c.mv": "add {0},zero,{1}",
    "c.add": "add {0},{0},{1}",
    "c.ebreak": "ebreak",
    "c.lw": "lw {0},{1}",
    "c.ld": "ld {0},{1}",
    "c.sw": "sw {0},{1}",
    "c.sd": "sd {0},{1}",
    "c.lwsp": "lw {0},{1}",
    "c.ldsp": "ld {0},{1}",
    "c.swsp": "sw {0},{1}",
    "c.sdsp": "sd {0},{1}",
}
# A parcel that the ISA reserves, in 16.5, and GNU shows.
RESERVED = ("c.addi16sp", ["sp", "0"])
SHIFTS = {"slli", "srli", "srai", "slliw", "srliw", "sraiw"}
JUMPS = {"jal", "beq", "bne", "blt", "bge", "bltu", "bgeu"}
OPERATIONS = set(
    "add sub sll slt sltu xor srl sra or and addw subw sllw srlw sraw mul mulh mulhsu mulhu div divu rem remu mulw "
    "divw divuw remw remuw addi slti sltiu xori ori andi addiw lui auipc lb lh lw ld lbu lhu lwu sb sh sw sd jalr "
    "fence fence.tso ecall ebreak".split()
)
OPERATIONS |= SHIFTS | JUMPS
ATOMIC = re.compile(r"(lr|sc|amo(swap|add|xor|and|or|minu?|maxu?))\.[wd](\.aq|\.rl|\.aqrl)?")


def parcels():
    """All parcels that begin no word."""
    return [it.to_bytes(2, "little") for it in range(1 << 16) if it & 3 != 3]


def words():
    """Words of each opcode at the edges of their fields."""
    return [
        (funct7 << 25 | rs2 << 20 | rs1 << 15 | funct3 << 12 | rd << 7 | opcode << 2 | 3).to_bytes(4, "little")
        for opcode in range(31)
        if opcode % 8 != 7
        for funct3 in range(8)
        for funct7 in range(128)
        for rs2 in (0, 1, 15, 31)
        for rs1 in (0, 2, 31)
        for rd in (0, 1, 31)
    ]


def executable(text):
    """The file of an executable with one segment, the text."""
    ident = b"\x7fELF\x02\x01\x01" + bytes(9)
    header = ident + struct.pack("<HHIQQQIHHHHHH", 2, 243, 1, START, 64, 0, 1, 64, 56, 1, 0, 0, 0)
    segment = struct.pack("<IIQQQQQQ", 1, 5, 0x1000, START, START, len(text), len(text), 0x1000)
    return (header + segment).ljust(0x1000, b"\0") + text


def map_text(codes):
    """The map with a row for each of these, one after another."""
    end = START + sum(map(len, codes))
    lines = ["rvmap 1", f"text {START:x} {end:x}"]
    lines += [f"{region} {end:x} {end:x}" for region in ("rodata", "data", "bss")] + [f"entry {START:x}"]
    address = START
    for ordinal, code in enumerate(codes, 1):
        lines.append(f"row 1 {ordinal} {ordinal} {address:x} {len(code)} 1")
        address += len(code)
    return "\n".join(lines) + "\n"


def of_rv(rv, folder):
    """What the listing shows at the address of each row."""
    listing = subprocess.run(
        [rv, "objdump", "--map", folder / "map", folder / "executable"], capture_output=True, check=True
    )
    shown, starts = {}, False
    for line in listing.stdout.decode().splitlines():
        if not line.startswith("@") and starts:
            address, _, text = line.partition(": ")
            shown[int(address, 16)] = text
        starts = line.startswith("@")
    return shown


def told(mnemonic, operands):
    """An instruction of GNU's as rv shows it."""
    if (mnemonic, operands) == RESERVED:
        return "unknown"
    if mnemonic in EXPANSIONS:
        jumps = mnemonic in ("c.j", "c.beqz", "c.bnez")
        operands = operands if operands or mnemonic != "c.nop" else ["0"]
        operands = [*operands[:-1], "0x" + operands[-1].removeprefix("0x")] if jumps else operands
        text = EXPANSIONS[mnemonic].format(*operands)
        mnemonic, _, rest = text.partition(" ")
        operands = rest.split(",") if rest else []
    elif mnemonic in JUMPS:
        operands = [*operands[:-1], "0x" + operands[-1].removeprefix("0x")]
    elif mnemonic not in OPERATIONS and not ATOMIC.fullmatch(mnemonic):
        return "unknown"
    if mnemonic in SHIFTS:
        operands = [*operands[:-1], str(int(operands[-1], 0))]
    if mnemonic == "fence" and "unknown" in operands:
        return "unknown"
    return f"{mnemonic} {','.join(operands)}".strip()


def of_gnu(folder, text):
    """What GNU objdump shows at each address, as rv shows it."""
    (folder / "text").write_bytes(text)
    words = [
        OBJDUMP,
        "-D",
        "-b",
        "binary",
        "-m",
        "riscv:rv64",
        "-M",
        "no-aliases",
        f"--adjust-vma={START}",
        folder / "text",
    ]
    shown = {}
    with subprocess.Popen(words, stdout=subprocess.PIPE, text=True) as tool:
        for line in tool.stdout:
            found = re.match(r"\s*([0-9a-f]+):\t[0-9a-f ]+\t(\S+)\t?(.*)", line)
            if found:
                operands = re.sub(r"\s*(<.*>|#.*)$", "", found[3]).strip()
                shown[int(found[1], 16)] = told(found[2], operands.split(",") if operands else [])
    return shown


def main():
    options = argparse.ArgumentParser(description=__doc__, formatter_class=argparse.RawDescriptionHelpFormatter)
    options.add_argument("--rv", type=Path, default=RV)
    rv = options.parse_args().rv.resolve()
    need(rv, OBJDUMP)
    codes = [*parcels(), *words()]
    differs, count = 0, Counter()
    with tempfile.TemporaryDirectory() as name:
        folder = Path(name)
        text = b"".join(codes)
        (folder / "executable").write_bytes(executable(text))
        (folder / "map").write_text(map_text(codes))
        ours, theirs = of_rv(rv, folder), of_gnu(folder, text)
    address = START
    for code in codes:
        one, other = ours.get(address), theirs.get(address)
        if one != other:
            differs += 1
            if differs <= SHOWN:
                print(f"{address:x} {code[::-1].hex()}: rv {one}, GNU {other}")
        count["unknown" if one == "unknown" else "the same"] += one == other
        address += len(code)
    print(
        f"{len(codes)} instructions: {count['the same']} the same, {count['unknown']} unknown to both, "
        f"differs={differs}"
    )
    return min(differs, 1)
