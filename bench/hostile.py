"""Hostile inputs that grow: each is made so that much of it has to be looked at again, or for long.

PANELS has a row for each: what is done with it, what there is much of, how much at first, the function that makes it at
so many times that size and answers the command, and the status with which that ends, if it isn't 0.
"""

import random
import struct
import subprocess

import sources
from measure import RV

PAGE = 4096
TEXT, SEGMENTS = 0x10000, 0x1000000
# The types and flags of ELF (System V gABI) that are used here.
PROGBITS, SYMTAB, STRTAB, ALLOC, EXECUTED = 1, 2, 3, 2, 4
OBJECT, EXECUTABLE, RISCV = 1, 2, 243


def header(kind, entry=0, programs=0, sections=(0, 0)):
    """The header of an ELF file for RISC-V: its program headers are behind it, its section headers where it is said."""
    at, count = sections
    return (
        b"\x7fELF\x02\x01\x01"
        + bytes(9)
        + struct.pack(
            "<HHIQQQIHHHHHH",
            kind,
            RISCV,
            1,
            entry,
            64 if programs else 0,
            at,
            1,
            64,
            56,
            programs,
            64,
            count,
            max(count - 1, 0),
        )
    )


def branches(folder, times):
    """Branches of which each is too far for two bytes once the one behind it is, from the last to the first."""
    source = folder / "branches.s"
    sources.write_growing(source, sources.next_too_far, 50_000 * times)
    yield "rv", [[RV, "build", "-o", folder / "exe", source]]


def fronts(folder, times):
    """Labels that differ behind 1,500 bytes, in an order that has none beside the next."""
    source, front, count = folder / "fronts.s", "n" * 1500, 500 * times
    with source.open("w") as file:
        file.write(".globl _start\n_start:\n")
        file.writelines(f"{front}{at}:\tj {front}{at * 7919 % count}\n" for at in range(count))
    yield "rv", [[RV, "as", "-o", folder / "out.o", source]]


def one_string(folder, times):
    """An object with global names that all end in one string, of 25 bytes for each: each begins elsewhere in it."""
    count, made = 5_000 * times, folder / "names.o"
    text = bytes(random.Random("names").choices(range(97, 123), k=25 * count))
    names, front = b"\0_start\0" + text + b"\0", len(b"\0_start\0")
    symbols = bytes(24) + struct.pack("<IBBHQQ", 1, 0x10, 0, 1, 0, 0)
    symbols += b"".join(struct.pack("<IBBHQQ", front + 25 * at, 0x10, 0, 1, 0, 0) for at in range(count))
    shown = b"\0.text\0.symtab\0.strtab\0"
    parts = [bytes.fromhex("13000000"), symbols, names, shown]
    places, at = [], 64
    for part in parts:
        places.append((at, len(part)))
        at += len(part) + -len(part) % 8
    heads = bytes(64) + struct.pack("<IIQQQQIIQQ", 1, PROGBITS, ALLOC | EXECUTED, 0, *places[0], 0, 0, 4, 0)
    heads += struct.pack("<IIQQQQIIQQ", 7, SYMTAB, 0, 0, *places[1], 3, 1, 8, 24)
    heads += struct.pack("<IIQQQQIIQQ", 15, STRTAB, 0, 0, *places[2], 0, 0, 1, 0)
    heads += struct.pack("<IIQQQQIIQQ", 15, STRTAB, 0, 0, *places[3], 0, 0, 1, 0)
    body = b"".join(part + bytes(-len(part) % 8) for part in parts)
    made.write_bytes(header(OBJECT, sections=(at, 5)) + body + heads)
    yield "rv", [[RV, "ld", "-o", folder / "exe", made]]


def same_names(folder, times):
    """Objects that all define the same forty weak names, and call them."""
    text = "".join(f"\t.weak shared_{it}\nshared_{it}:\tcall shared_{(it + 1) % 40}\n" for it in range(40))
    source, objects = folder / "weak.s", [folder / f"weak_{at}.o" for at in range(100 * times)]
    source.write_text("\t.weak _start\n_start:\n" + text)
    subprocess.run([RV, "as", "-o", objects[0], source], check=True)
    for it in objects[1:]:
        it.symlink_to(objects[0])
    yield "rv", [[RV, "ld", "-o", folder / "exe", *objects]]


def zigzag(folder, times):
    """Calls of which each pass over the text can shorten one or two."""
    source, linked = folder / "zigzag.s", folder / "zigzag.o"
    sources.write_zigzag(folder, source, 5_000 * times)
    subprocess.run([RV, "as", "-o", linked, source], check=True)
    yield "rv", [[RV, "ld", "-o", folder / "exe", linked]]


def chain(folder, times):
    """Sections of which each is reached from the one behind it alone, from the last to the first."""
    source, count = folder / "chain.s", 3_000 * times
    with source.open("w") as file:
        for at in range(count):
            file.write(f'\t.section .text.part_{at},"ax"\npart_{at}:\tcall part_{max(at - 1, 0)}\n')
        file.write(f"\t.text\n\t.globl _start\n_start:\tcall part_{count - 1}\n")
    yield "rv", [[RV, "build", "--gc-sections", "-o", folder / "exe", source]]


def empty_rows(folder, times):
    """A map with very many labels of one place."""
    source, exe, shown = folder / "rows.s", folder / "exe", folder / "map"
    source.write_text(".globl _start\n_start:\n" + "1:\n" * (50_000 * times) + "nop\n")
    subprocess.run([RV, "build", "-o", exe, "--map", shown, source], check=True)
    yield "rv", [[RV, "objdump", "--map", shown, exe]]


def segments(folder, times):
    """A program with very many segments of variables, which it loads from in turns, in as many thousand steps."""
    count, source, made = 256 * times, folder / "loop.s", folder / "exe"
    source.write_text(
        f".globl _start\n_start:\nli t0, {2 * PAGE}\n2: li a0, {SEGMENTS}\nli a1, {count}\n"
        "1: ld a2, 0(a0)\nsd a2, 8(a0)\nadd a0, a0, t0\naddi a1, a1, -1\nbnez a1, 1b\nj 2b\n"
    )
    subprocess.run([RV, "build", "-o", made, source], check=True)
    code, place = made.read_bytes()[PAGE:], (64 + 56 * (count + 1) + PAGE - 1) // PAGE * PAGE
    heads = struct.pack("<IIQQQQQQ", 1, 5, place, TEXT, TEXT, len(code), len(code), PAGE)
    for at in range(count):
        address = SEGMENTS + 2 * PAGE * at
        heads += struct.pack("<IIQQQQQQ", 1, 6, 0, address, address, 0, 16, PAGE)
    start = header(EXECUTABLE, TEXT, count + 1) + heads
    made.write_bytes(start + bytes(place - len(start)) + code)
    yield "rv", [[RV, "run", "--limit", 1_000_000 * times, made]]


def misspelt(folder, times):
    """References to names that nothing defines, of which each is like very many that are defined."""
    source, count = folder / "misspelt.s", 20_000 * times
    with source.open("w") as file:
        file.write(".globl _start\n_start:\n")
        file.writelines(f"label_{at}:\tj lable_{at}\n" for at in range(count))
    yield "rv", [[RV, "check", source]]


def warnings(folder, times):
    """Functions that each lose where to return to."""
    source = folder / "warnings.s"
    with source.open("w") as file:
        file.write(".globl _start\n_start:\n")
        file.writelines(f"function_{at}:\tcall function_{at}\n\tret\n" for at in range(10_000 * times))
    yield "rv", [[RV, "check", source]]


def labels(folder, times):
    """A run through code of which each instruction has a label, and a line of its own."""
    source, exe, shown = folder / "labels.s", folder / "exe", folder / "map"
    with source.open("w") as file:
        file.write(".globl _start\n_start:\n")
        file.writelines(f"label_{at}:\taddi a0, a0, 1\n" for at in range(20_000 * times))
    subprocess.run([RV, "build", "-o", exe, "--map", shown, source], check=True)
    yield "rv", [[RV, "trace", "--limit", 20_000 * times, "-o", "/dev/null", "--map", shown, exe]]


PANELS = (
    ("build", "branches, each on the next", 50_000, branches),
    ("as", "names with a long front", 500, fronts),
    ("ld", "names that end in one string", 5_000, one_string),
    ("ld", "objects with the same weak names", 100, same_names),
    ("relaxation", "calls, one in each pass", 5_000, zigzag),
    ("gc", "sections in a chain", 3_000, chain),
    ("listing", "labels at one place", 50_000, empty_rows),
    ("run", "segments", 256, segments, 125),
    ("check", "names, each like all others", 20_000, misspelt, 1),
    ("check", "functions with a warning", 10_000, warnings),
    ("trace", "labels", 20_000, labels, 125),
)
