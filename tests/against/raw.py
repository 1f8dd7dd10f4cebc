"""Prints executables as raw listings and builds these again: the same text bytes, and the same entry.

usage: compare.py raw [WORDS [SEEDS]]      (20,000 words and 70 seeds by default; 1,000,000 words take some minutes)

Every parcel, and WORDS random words of the profile, in texts of 64 KiB at most. Their lines are compared with those of
GNU's objdump without aliases (Debian's binutils-riscv64-unknown-elf), which decides which parcels there are. Each
parcel that no source says, HINTs among them, is refused alone. Then come the executables of all cases of one source in
tests/, and of C programs that csmith draws, by GCC at four levels, linked by GNU ld and by rv: those without a raw
listing are counted by their reason. The last line is 'N passed, M failed'.
"""

import collections
import functools
import random
import re
import struct
import subprocess
import sys
import tempfile
from concurrent.futures import ThreadPoolExecutor
from pathlib import Path

from against.common import GNU, RV, assemblies, draw, gnu_link, need, processors
from objects import object_of
from run import cases

START = 0x10000
STACK = 0x3FF00000
LEVELS = ["-O0 -fdata-sections", "-O1", "-O2", "-Os"]
# Where GNU ld puts what a program has; without it the file's header would be in the segment of the code.
SCRIPT = f"""PHDRS {{ text PT_LOAD FLAGS(5); rodata PT_LOAD FLAGS(4); data PT_LOAD FLAGS(6); }}
SECTIONS {{ . = {START:#x}; .text : {{ *(.text .text.*) }} :text
.rodata ALIGN(4096) : {{ *(.rodata .rodata.* .srodata .srodata.*) }} :rodata
__global_pointer$ = ALIGN(4096) + 2048;
.data ALIGN(4096) : {{ *(.data .data.* .sdata .sdata.* .bss .bss.* .sbss .sbss.*) }} :data }}
"""
HEAD = [".option norvc", ".option norelax", ".globl _start"]


def run(*words, at):
    return subprocess.run(words, cwd=at, capture_output=True, text=True)


def linked(code, at, entry=0):
    """Links an object whose text has these bytes; the executable's name."""
    Path(at, "a.o").write_bytes(object_of(f"section .text ax 2: {code.hex()}\nsymbol _start global 1 {entry}\nrvc"))
    process = run(RV, "ld", "-o", "a", "a.o", at=at)
    assert process.returncode == 0, process.stderr
    return "a"


def text_of(file):
    """The entry, and the address and the bytes of the executable segments of a file."""
    data = Path(file).read_bytes()
    entry, places = struct.unpack_from("<QQ", data, 24)
    count = struct.unpack_from("<H", data, 56)[0]
    found = []
    for each in range(count):
        kind, flags, offset, address, _, size, memory, _ = struct.unpack_from("<IIQQQQQQ", data, places + 56 * each)
        if kind == 1 and flags & 1:
            found.append((address, data[offset : offset + size] + bytes(memory - size)))
    return entry, found


def again(exe, at):
    """Prints an executable and builds that again; the lines, and what differs, if anything."""
    printed = run(RV, "objdump", "--raw", exe, at=at)
    if printed.returncode:
        assert printed.stderr == f"rv: {exe}: no raw listing\n", printed.stderr
        return None, None
    Path(at, "again.s").write_text(printed.stdout)
    entry, segments = text_of(Path(at, exe))
    for option in ([], ["--no-relax"]):
        built = run(RV, "build", "-o", "again", "--text-start", hex(segments[0][0]), *option, "again.s", at=at)
        if built.returncode:
            return printed.stdout.splitlines(), built.stderr
        if text_of(Path(at, "again")) != (entry, segments):
            return printed.stdout.splitlines(), "other bytes"
    return printed.stdout.splitlines(), None


# ---- what GNU's objdump says


def gnu(code, at):
    """The mnemonic and operands of each instruction, as objdump has them, with their sizes."""
    Path(at, "code").write_bytes(code)
    words = ["-D", "-b", "binary", "-m", "riscv:rv64", "-M", "no-aliases", f"--adjust-vma={START}", "code"]
    found = []
    for line in run(GNU + "objdump", *words, at=at).stdout.splitlines():
        read = re.match(r" *([0-9a-f]+):\t([0-9a-f ]+?) *\t(\S+)(?:\t(.*))?$", line)
        if read:
            name, operands = read[3], (read[4] or "").split(" #")[0].split(" <")[0]
            # (without aliases it shows c.nop so)
            if (name, operands) == ("c.addi", "zero,0"):
                name, operands = "c.nop", ""
            found.append((int(read[1], 16), len(read[2].replace(" ", "")) // 2, name, operands))
    return found


TARGETS = set("jal c.j c.beqz c.bnez beq bne blt bge bltu bgeu".split())


def as_raw(address, name, operands):
    """The same line as a raw listing has it."""
    name = {"c.srli64": "c.srli", "c.srai64": "c.srai", "c.slli64": "c.slli"}.get(name, name)
    parts = operands.split(",") if operands else []
    if name in TARGETS:
        parts[-1] = ".%+d" % ((int(parts[-1], 16) - address + (1 << 63)) % (1 << 64) - (1 << 63))
    elif name == "c.lui" or name in ("lui", "auipc"):
        parts[-1] = hex(int(parts[-1], 16))
    elif name in ("c.addi4spn", "c.addi16sp"):
        parts[-1] = str(int(parts[-1], 0))
    elif parts and name != "fence" and re.fullmatch(r"-?(0x[0-9a-f]+|\d+)", parts[-1]):
        parts[-1] = str(int(parts[-1], 0))
    return " ".join([name, ",".join(parts)]) if parts else name


FLOATS = set("c.fld c.fsd c.fldsp c.fsdsp".split())


def is_hint(name, operands):
    """A parcel that has no effect by its operands (Unprivileged ISA, 16.7), or is reserved though GNU shows it
    (16.8)."""
    parts = operands.split(",")
    if name == "c.addi16sp":
        return parts[-1] == "0"
    if name in ("c.li", "c.lui", "c.mv", "c.add"):
        return parts[0] == "zero"
    if name == "c.addi":
        return int(parts[-1], 0) == 0 or parts[0] == "zero"
    if name == "c.slli" or name.endswith("64"):
        return parts[0] == "zero" or name.endswith("64") or int(parts[-1], 0) == 0
    return name in ("c.srli", "c.srai") and int(parts[-1], 0) == 0


def parcels(at):
    """All parcels, in those that sources say and the others."""
    possible, others = [], []
    for value in range(1 << 16):
        if value % 4 != 3:
            (possible if value else others).append(struct.pack("<H", value))
    good = []
    for (_, size, name, operands), code in zip(gnu(b"".join(possible), at), possible):
        assert size == 2
        if name.startswith("c.") and name not in FLOATS and name != "c.unimp" and not is_hint(name, operands):
            good.append(code)
        else:
            others.append(code)
    return good, others


# ---- words of the profile


def bits(random_of, *fields):
    """A word of fields (value or None, width), from the lowest bit on."""
    word = low = 0
    for value, width in fields:
        word |= (random_of(width) if value is None else value) << low
        low += width
    return word


def shapes():
    """The fields of every instruction, but fences: opcode, then as the formats have them."""
    free = (None, 5)
    for opcode in (0x37, 0x17, 0x6F):
        yield (opcode, 7), free, (None, 20)
    yield (0x67, 7), free, (0, 3), free, (None, 12)
    for opcode, numbers in ((0x63, (0, 1, 4, 5, 6, 7)), (0x03, range(7)), (0x23, range(4))):
        for funct3 in numbers:
            yield (opcode, 7), free, (funct3, 3), free, (None, 12)
    for funct3 in (0, 2, 3, 4, 6, 7):
        yield (0x13, 7), free, (funct3, 3), free, (None, 12)
    yield (0x1B, 7), free, (0, 3), free, (None, 12)
    for funct3, upper in ((1, 0), (5, 0), (5, 0x10)):
        yield (0x13, 7), free, (funct3, 3), free, (None, 6), (upper, 6)
        yield (0x1B, 7), free, (funct3, 3), free, (None, 5), (upper << 1, 7)
    for funct7, opcode, numbers in (
        (0, 0x33, range(8)),
        (0x20, 0x33, (0, 5)),
        (1, 0x33, range(8)),
        (0, 0x3B, (0, 1, 5)),
        (0x20, 0x3B, (0, 5)),
        (1, 0x3B, (0, 4, 5, 6, 7)),
    ):
        for funct3 in numbers:
            yield (opcode, 7), free, (funct3, 3), free, free, (funct7, 7)
    for width in (2, 3):
        yield (0x2F, 7), free, (width, 3), free, (0, 5), (None, 2), (2, 5)
        for funct5 in (0, 1, 3, 4, 8, 12, 16, 20, 24, 28):
            yield (0x2F, 7), free, (width, 3), free, free, (None, 2), (funct5, 5)


def words(count):
    """Random words, the same number of each instruction, and every fence that sources say."""
    every = list(shapes())
    take = random.Random(1).getrandbits
    for each in range(count):
        yield struct.pack("<I", bits(take, *every[each % len(every)]))
    for ordered in range(1, 16):
        for before in range(1, 16):
            yield struct.pack("<I", 0x0F | ordered << 20 | before << 24)
    yield from (struct.pack("<I", it) for it in (0x8330000F, 0x73, 0x100073))


# ---- the parts


def texts(codes):
    """Codes joined to texts of 64 KiB at most."""
    joined = b""
    for code in codes:
        if len(joined) + len(code) > 1 << 16:
            yield joined
            joined = b""
        joined += code
    if joined:
        yield joined


def try_text(code):
    """One text: its lines are GNU's, and it is built again."""
    with tempfile.TemporaryDirectory() as at:
        lines, differs = again(linked(code, at), at)
        wanted = [as_raw(address, name, operands) for address, _, name, operands in gnu(code, at)]
        if lines is None or differs:
            return [f"a text of {len(code)} bytes: {differs or 'no raw listing'}"]
        if lines[:4] != HEAD + ["_start:"]:
            return [f"the head: {lines[:4]}"]
        return [f"{line!r}, and GNU has {other!r}" for line, other in zip(lines[4:], wanted) if line != other] + (
            ["another count of lines"] if len(lines) - 4 != len(wanted) else []
        )


def try_other(code):
    """A parcel that no source says, behind one that any does."""
    with tempfile.TemporaryDirectory() as at:
        lines, _ = again(linked(b"\x01\0" + code + b"\x01\0", at), at)
        return [f"{code.hex()}: {lines}"] if lines is not None else []


def reason(exe):
    """Why an executable has no raw listing, as far as its segments tell."""
    entry, segments = text_of(exe)
    if len(segments) != 1:
        return f"of {len(segments)} executable segments"
    start, code = segments[0]
    if start % 4096 or start >= STACK:
        return "by its address"
    return "by its text" if start <= entry < start + len(code) else "by its entry"


def try_all(make):
    """The executables that `make` leaves in a folder: what is wrong, and how each ends."""
    wrong, ends = [], []
    with tempfile.TemporaryDirectory() as at:
        for name, exe in make(Path(at)):
            lines, differs = again(exe, at)
            wrong += [f"{name}: {differs}"] if differs else []
            ends.append("again" if lines is not None else f"none {reason(Path(at, exe))}")
    return wrong, ends


def of_case(case, at):
    """The executable of a case of one source, if it has any."""
    name, files, _ = case
    for file, source in files.items():
        Path(at, file).write_bytes(source)
        if run(RV, "build", "-o", "exe", file, at=at).returncode == 0:
            yield name, "exe"


def of_programs(seed, at):
    """The executables of a program that csmith draws, by GCC at four levels: GNU ld's, and rv's of the same object."""
    if not draw(at, seed):
        return
    script = at / "script"
    script.write_text(SCRIPT)
    for level in LEVELS:
        sources = assemblies(at, level, False)
        if sources is None or not gnu_link(at, sources, "-T", str(script)):
            continue
        yield f"seed {seed} {level} by GNU ld", "theirs"
        if run(RV, "ld", "-o", "ours", "program.o", at=at).returncode == 0:
            yield f"seed {seed} {level} by rv", "ours"


def main():
    need(RV, "csmith", *(f"{GNU}{tool}" for tool in ("gcc", "as", "ld", "objdump")))
    count, seeds = map(int, [*sys.argv[1:], *["20000", "70"][len(sys.argv) - 1 :]])
    failed, passed = [], 0
    with tempfile.TemporaryDirectory() as at, ThreadPoolExecutor(processors()) as pool:
        good, others = parcels(at)
        for what, each in ((try_text, texts(good)), (try_text, texts(words(count))), (try_other, others)):
            for found in pool.map(what, each):
                failed += found
                passed += not found
        print(
            f"{len(good)} parcels and {count} words printed and built again, {len(others)} parcels refused", flush=True
        )
        of_one = [case for case in cases([]) if [Path(it).suffix for it in case[1]] == [".s"]]
        of_each = {
            "cases": [functools.partial(of_case, case) for case in of_one],
            "C programs": [functools.partial(of_programs, seed) for seed in range(1, seeds + 1)],
        }
        for kind, makes in of_each.items():
            counts = collections.Counter()
            for found, ends in pool.map(try_all, makes):
                failed += found
                passed += len(ends) - len(found)
                counts.update(ends)
            print(f"{kind}: " + ", ".join(f"{number} {end}" for end, number in counts.most_common()), flush=True)
    for each in failed[:40]:
        print(each)
    print(f"{passed} passed, {len(failed)} failed")
    return bool(failed)
