"""The sources that are measured, of many kinds; each is the same whenever it is made.

SOURCES has a row for each kind: its name, its family, and what writes it. A writer takes a folder and how many bytes
are wanted, about as many of which it writes, and answers the files. Those of GCC's output need GCC, and one needs
csmith. The other writers are for one benchmark each, and for how times grow (growth.py), also with hostile sources.
"""

import random
import re
import subprocess
from dataclasses import dataclass
from itertools import count
from pathlib import Path
from typing import Callable

from drawn import LEVELS, Functions
from measure import GCC, MIB, ROOT, need

CSMITH = ROOT / "tests" / "against" / "csmith"
FLAGS = "-mabi=lp64 -O2 -ffreestanding -nostdlib -static -Wl,--no-warn-rwx-segments".split()
DRAWN_FLAGS = "-march=rv64imac -mabi=lp64 -O2 -ffreestanding -w -fno-ipa-icf -S".split()
FILES = 1000
# How many bytes each kind has, about.
KIND_BYTES = MIB // 4
# Of how many functions the length is taken, by which their count is chosen.
SAMPLE = 24
# What a source that is drawn ends with: the entry, which calls every fourth function.
ENTRY = "\t.text\n\t.globl _start\n_start:\tnop\n"
# No token: the last line of a source that is read whole and refused.
FAULT = "!\n"


# --- instructions, data and labels


INSTRUCTIONS = (
    "addi a{0}, a{1}, {2}",
    "add a{0}, a{1}, t0",
    "lw a{0}, size + {2}(sp)",
    "sd a{0}, -{2}(s{1})  # keep",
    "lui a{0}, 0x{2:x}",
    "slli t{1}, a{0}, size - {1}",
    "amoadd.d.aq a{0}, a{1}, (t0)",
    "jalr ra, {2}(a{1})",
)
DATA = (
    ".data",
    "value_{0}: .word label_{0}, {0} * 4 | 1, . - value_{0}",
    ".byte 'x', {1}, -1; .half 0x{0:x} & 0xfff",
    '.ascii "the value {0}\\n"',
    ".align 3",
    "1: .dword value_{0} + 8, 1b - value_{0}",
    ".set count, {1} + 5",
    ".zero count",
    ".text",
)


def lines():
    """The lines of a source without an end: instructions of each format, a label before every eighth of them, and
    some data behind every eighth label, each with a label of its own."""
    yield from (".option norvc", ".globl _start", ".set size, 16", "_start:")
    for number in count(1):
        if number % 8 == 0:
            yield f"label_{number}:"
        yield "    " + INSTRUCTIONS[number % 8].format(number % 8, number % 5, number % 2000)
        if number % 64 == 0:
            yield from ("    " + line.format(number, number % 8) for line in DATA)


def write_lines(path, most, front="", given=None):
    """Writes these lines, or others, up to a length; it answers how many there are."""
    written, length = 0, len(front)
    with path.open("w") as file:
        file.write(front)
        for line in given or lines():
            length += len(line) + 1
            if length > most:
                return written
            written += 1
            file.write(line + "\n")


def write_mixed(folder, most):
    path = folder / "mixed.s"
    write_lines(path, most)
    return [path]


# --- what GCC writes


def compile_for(architecture, source, program, *more):
    """Has GCC compile a source without a library."""
    subprocess.run(
        [GCC, f"-march={architecture}", *FLAGS, *more, "-o", program, source], check=True, capture_output=True
    )


def without_attributes(text):
    """(attributes stand before all instructions)"""
    return "".join(it + "\n" for it in text.splitlines() if not it.lstrip().startswith((".attribute", ".file")))


def parts_of(text):
    """A source as its parts: every second one is a name that it defines."""
    names = set(re.findall(r"^(?:\s*\.set\s+)?([\w.$]+)(?=:|,)", text, re.MULTILINE))
    longest = sorted(names, key=len, reverse=True)
    return re.split(r"(?<![\w.$])(" + "|".join(map(re.escape, longest)) + r")(?![\w.$])", text)


def renamed(parts, number):
    """The text of parts, each of its names with a number."""
    return "".join(part + f"_{number}" * (at % 2) for at, part in enumerate(parts))


def compiled(folder):
    """The examples in C as a compiler writes them, each as its parts."""
    out = folder / "compiled.s"
    for source in sorted((ROOT / "examples" / "c").glob("*.c")):
        compile_for("rv64imac", source, out, "-S")
        yield parts_of(without_attributes(out.read_text()))


def write_compiled(folder, path, most):
    """Writes a compiler's output again and again, each time with other names, up to a length; it answers how many lines
    there are."""
    texts = list(compiled(folder))
    front = ".globl _start\n.text\n_start:\n"
    written, length = 3, len(front)
    with path.open("w") as file:
        file.write(front)
        for number in count():
            copy = renamed(texts[number % len(texts)], number)
            length += len(copy)
            if length > most:
                return written
            written += copy.count("\n")
            file.write(copy)


def write_examples(folder, most):
    need(GCC)
    path = folder / "examples.s"
    write_compiled(folder, path, most)
    return [path]


def gcc_text(folder, text, *flags):
    """What GCC makes of a C program."""
    source, out = folder / "drawn.c", folder / "drawn.s"
    source.write_text(text)
    subprocess.run([GCC, *DRAWN_FLAGS, *flags, "-o", out, source], check=True, capture_output=True)
    return without_attributes(out.read_text())


def write_drawn(name, *flags, **drawn):
    """A writer of what GCC makes of functions that are drawn."""

    def write(folder, most):
        need(GCC)
        length = len(gcc_text(folder, Functions(name, **drawn).program(SAMPLE), *flags))
        functions = max(SAMPLE * most // length, 2)
        path = folder / f"{name}.s"
        calls = "".join(f"\tcall f_{it}\n" for it in range(0, functions, 4))
        path.write_text(gcc_text(folder, Functions(name, **drawn).program(functions), *flags) + ENTRY + calls)
        return [path]

    return write


def write_debugged(folder, functions):
    """Writes what GCC makes of so many functions that are drawn, with debug data and lines by `.loc`; the path."""
    need(GCC)
    source, path = folder / "debugged.c", folder / "debugged.s"
    source.write_text(Functions("debugged", 12).program(functions))
    words = [*DRAWN_FLAGS, "-g", "-fno-dwarf2-cfi-asm", "-o", path, source]
    subprocess.run([GCC, *words], check=True, capture_output=True)
    with path.open("a") as file:
        file.write(ENTRY)
    return path


def csmith_parts(folder):
    """What GCC makes of programs that csmith draws, at levels that take turns, without an end: each as its parts."""
    for seed in count(1):
        draw = ["csmith", "--seed", str(seed), "--no-argc", "-o", "program.c"]
        subprocess.run(draw, cwd=folder, check=True, capture_output=True)
        # (-O0 writes zeroed variables with .comm, unless each has a section)
        flags = [f"-{LEVELS[seed % len(LEVELS)]}", "-fdata-sections", f"-I{CSMITH}", "-I/usr/include/csmith"]
        text = gcc_text(folder, (folder / "program.c").read_text(), *flags)
        if ".comm" not in text and not re.search(r"^\s*\.set\s+\S+,\s*[A-Za-z]", text, re.MULTILINE):
            yield parts_of(text)


def write_csmith(folder, most):
    """(the language leaves out .comm, and .set of a name as another's)"""
    need(GCC, "csmith")
    path, length = folder / "csmith.s", 0
    with path.open("w") as file:
        for number, parts in enumerate(csmith_parts(folder)):
            text = renamed(parts, number)
            length += file.write(text)
            if length > most:
                file.write(ENTRY)
                return [path]


# --- by hand


BRANCHES = (
    "beqz a0, {}",
    "bne a1, a2, {}",
    "j {}",
    "bltu a3, a4, {}",
    "bnez s1, {}",
    "bge t0, t1, {}",
    "bgtz a5, {}",
    "ble a6, a7, {}",
)
PSEUDO = (
    "mv a{0}, s{1}",
    "not a{0}, a{1}",
    "neg t{1}, a{0}",
    "sext.w a{0}, a{1}",
    "seqz a{0}, s{1}",
    "snez t{1}, t0",
    "sgtz a{0}, a{1}",
    "zext.b a{0}, a{1}",
    "li a{0}, {2}",
    "li s{1}, -{2}",
    "sgt a{0}, a{1}, t0",
    "sext.h a{0}, a{1}",
    "negw a{0}, t0",
    "nop",
    "ret",
    "jr t{1}",
)
PARCELS = (
    "c.addi a{0}, {1}",
    "c.li s{1}, -{1}",
    "c.mv a{0}, t{1}",
    "c.add a{0}, a{1}",
    "c.lwsp a{0}, {3}(sp)",
    "c.sdsp s{1}, {4}(sp)",
    "c.slli a{0}, {1}",
    "c.ld a0, {4}(s1)",
    "c.sw a1, {3}(a0)",
    "c.and a4, a5",
    "c.nop",
    "c.jr ra",
)
OPERATIONS = (
    "addi a{0}, a{1}, c{2} * 2 - ({0} + 3) & 0x7f",
    "andi a{0}, a{1}, ~(c{2} << 1) & 0x3ff",
    "slli a{0}, a{1}, c{2} % 31 + 1",
    "lw a{0}, (c{2} + 4) * 4(sp)",
    "li a{0}, c{2} * 1000 + {0} << 4",
    "lui a{0}, c{2} / 3 | 5",
)
ADDRESSES = (
    "la a{0}, {1}",
    "lw a{0}, {1}",
    "sd a{0}, {1}, t0",
    "lui a{0}, %hi({1})",
    "addi a{0}, a{0}, %lo({1})",
    "ld a{0}, %lo({1} + 8)(a1)",
    "lla t1, {1} + 16",
)


def near(pick, at):
    """Branches and jumps of mixed forms to labels of the same half kibibyte."""
    for place in range(40):
        target = pick.randrange(max(place - 25, 0), min(place + 25, 40))
        yield f".L{at}_{place}:\tadd a{place % 8}, a0, a1"
        yield "\t" + pick.choice(BRANCHES).format(f".L{at}_{target}")


def far(pick, at):
    """Branches to labels that are 2 to 40 KiB away, of which most need eight bytes."""
    for place in range(400):
        yield f".L{at}_{place}:"
        yield from (f"\taddi t{it}, a{it}, {pick.randrange(100, 2000)}" for it in (0, 1, 2, 3, 4, 5, 6) * 2)
        yield "\t" + pick.choice(BRANCHES).format(f".L{at}_{pick.randrange(400)}")


def labels(pick, at):
    """Three labels for an instruction, of which one is referred to."""
    for place in range(32):
        yield f"label_of_{at}_{place}:"
        yield f"again_{at}_{place}:"
        yield f"1:\tj label_of_{at}_{pick.randrange(32)}"


def numeric(pick, at):
    """Numeric labels with references forwards and backwards."""
    one, two = pick.randrange(1, 5), pick.randrange(5, 90)
    yield f"{one}:\taddi a0, a0, {at % 2000}"
    yield f"\tbeqz a1, {two}f"
    yield f"\tbnez a0, {one}b"
    yield f"\tj {one}b"
    yield f"{two}:\tbltu a2, a3, {two}b"


def sections(pick, at):
    """Sections of code and of data that take turns; each goes on again and again."""
    it = pick.randrange(700)
    yield f'\t.section .text.part_{it},"ax",@progbits'
    yield f"code_{at}:\taddi a0, a0, {at % 2000}"
    yield f"\tcall code_{pick.randrange(at + 1)}"
    yield "\tret"
    yield f'\t.section .rodata.part_{it},"a"'
    yield f"\t.word {at}, code_{at}"
    yield "\t.data"
    yield f"\t.dword code_{pick.randrange(at + 1)}"


def constants(pick, at):
    """Large constants."""
    for place in range(8):
        bits = pick.choice((20, 32, 33, 44, 52, 63, 64))
        yield f"\tli a{place}, {pick.choice(('', '-'))}0x{pick.getrandbits(bits - 1):x}"


def pseudo(pick, at):
    yield f"entry_{at}:"
    for it in PSEUDO:
        yield "\t" + it.format(pick.randrange(8), pick.randrange(6), pick.randrange(1, 60_000))


def parcels(pick, at):
    yield f"entry_{at}:"
    for it in PARCELS:
        yield "\t" + it.format(
            pick.randrange(6), pick.randrange(1, 6), 0, pick.randrange(30) * 4, pick.randrange(30) * 8
        )


def expressions(pick, at):
    """Constants with names, and operands that calculate with them."""
    yield f".set c{at}, {pick.randrange(1, 200)}"
    for it in OPERATIONS:
        yield "\t" + it.format(pick.randrange(8), pick.randrange(6), pick.randrange(max(at - 50, 0), at + 1))


def addresses(pick, at):
    """Addresses of data, in all ways."""
    yield "\t.data"
    yield f"value_{at}:\t.dword {at}, 1, 2, 3"
    yield "\t.text"
    for it in ADDRESSES:
        yield "\t" + it.format(pick.randrange(8), f"value_{pick.randrange(max(at - 90, 0), at + 1)}")


def calls(pick, at):
    """Small functions that call those before them."""
    yield f"\t.globl call_{at}"
    yield f"call_{at}:\taddi sp, sp, -16"
    yield "\tsd ra, 8(sp)"
    yield from (f"\tcall call_{pick.randrange(max(at - 2000, 0), at + 1)}" for _ in range(3))
    yield "\tld ra, 8(sp)"
    yield "\taddi sp, sp, 16"
    yield f"\ttail call_{pick.randrange(max(at - 2000, 0), at + 1)}"


def comments(pick, at):
    """Four lines of comments and blanks for an instruction."""
    yield "# " + "-" * 70
    yield f"# what stands here is number {at}, and the words behind it say nothing of value"
    yield ""
    yield f"/* a comment of {pick.randrange(100)} and more,"
    yield "   which ends on another line */"
    yield f"        addi    a0, a0, {at % 2000}             # and one behind the statement"
    yield "    "


def one_line(pick, at):
    """Eight statements on a line."""
    yield "; ".join(f"addi a{it}, a{it}, {pick.randrange(2000)}" for it in range(8))


# --- data


NAMES = (
    '"the text of number {0}", "another\\n", "tab\\tand \\"quotes\\" and \\\\", "and {1} more words that fill the line"'
)


def symbols(pick, at):
    """Data that is all addresses and differences."""
    other, third = pick.randrange(max(at - 400, 0), at + 1), pick.randrange(max(at - 400, 0), at + 1)
    yield f"item_{at}:\t.dword item_{other}, item_{third} + 8"
    yield f"\t.word item_{other} - item_{third}, item_{at} - item_{other} + 4"
    yield f"\t.dword item_{at} - item_{third}"


def numbers(pick, at):
    """Data without a symbol, in each width."""
    for name, bits in ((".byte", 8), (".half", 16), (".word", 32), (".dword", 64)):
        values = [pick.getrandbits(bits) for _ in range(8)]
        yield f"\t{name} " + ", ".join(f"{it:#x}" if at % 2 else str(it) for it in values)


def texts(pick, at):
    """Strings, also with escapes."""
    yield f'\t.string "{" ".join(pick.choices(COMMON, k=pick.randrange(2, 24)))} {at}"'
    yield "\t.asciz " + NAMES.format(at, pick.randrange(1000))
    yield f'\t.ascii "number {at}\\n"'


COMMON = "words that stand in a string one after the other until it is long enough for what it has to show".split()


def gaps(pick, at):
    """Small data between alignments and zeros."""
    yield f"\t.byte {at % 256}"
    yield f"\t.balign {pick.choice((2, 4, 8, 16))}"
    yield f"\t.zero {pick.randrange(1, 40)}"
    yield "\t.align 3"
    yield f"\t.word {at}"


def tables(pick, at):
    """Tables of distances to labels of code, as by a compiler that makes no absolute ones."""
    yield f"\t.text\nfrom_{at}:"
    yield from (f"case_{at}_{it}:\taddi a0, a0, {it}" for it in range(8))
    yield "\t.section .rodata"
    yield "\t.align 2"
    yield from (f"\t.word case_{at}_{it} - from_{at}" for it in range(8))


def write_blocks(block, front="", end=""):
    """A writer of blocks of lines, each drawn by its number; the last goes past the length that is wanted."""

    def write(folder, most):
        pick, path, length = random.Random(block.__name__), folder / f"{block.__name__}.s", 0
        with path.open("w") as file:
            file.write("\t.globl _start\n_start:\tnop\n" + front)
            for number in count():
                length += file.write("".join(line + "\n" for line in block(pick, number)))
                if length > most:
                    file.write(end)
                    return [path]

    return write


def in_data(block):
    return write_blocks(block, front="\t.data\n")


def write_branches(path, statements=150_000):
    """Branches and jumps of mixed spans, a label before each fourth."""
    last = statements - 4
    with path.open("w") as file:
        file.write(".globl _start\n_start:\n")
        for at in range(statements):
            if at % 4 == 0:
                file.write(f".L{at}:\n")
            close, distant = at - at % 4 + 4 * (at % 29 - 14), at - at % 4 + 4 * (at * 7919 % 801 - 400)
            target = max(0, min(distant if at % 5 == 0 else close, last))
            kind = ("beqz a0, {}", "bne a1, a2, {}", "j {}", "bltu a3, a4, {}", "bnez s1, {}")[at % 5]
            file.write("\t" + kind.format(f".L{target}") + "\n")


def write_data(path, groups=80_000):
    """Words, differences and strings."""
    with path.open("w") as file:
        file.write(".globl _start\n_start: nop\n.data\n")
        for at in range(groups):
            file.write(f"v{at}:\t.word {at}, {at * 7 % 1000}, 0x{at:x}, -{at}\n")
            file.write(f"\t.dword v{max(at - 9, 0)} - v{max(at - 17, 0)}, v{max(at - 3, 0)}\n")
            file.write(f'\t.string "the text of number {at} and what follows it"\n')
            file.write(f"\t.byte {at % 256}, {at % 100}, 'x', 0\n\t.balign 8\n")


def of_old_row(name, write, each):
    """A writer of the same text as a row of the targets, of its own count of statements: so many bytes each."""

    def written(folder, most):
        path = folder / f"{name}.s"
        write(path, most // each // 4 * 4)
        return [path]

    return written


def write_small(folder, most):
    """Writes a thousand small files, each with two functions that call those of others, and some data."""
    paths, pick = [], random.Random("small")
    for number in range(FILES):
        paths.append(folder / f"small_{number}.s")
        text = ".globl _start\n_start:\n" if number == 0 else ""
        text += f"\t.data\n\t.globl shared_{number}\nshared_{number}:\t.dword shared_{max(number - 1, 0)}\n\t.text\n"
        for name in (f"first_{number}", f"second_{number}"):
            text += (
                f"\t.align 1\n\t.globl {name}\n\t.type {name}, @function\n{name}:\taddi sp, sp, -16\n\tsd ra, 8(sp)\n"
            )
            text += f"\tlui a0, %hi(shared_{number})\n\tld a0, %lo(shared_{number})(a0)\n"
            text += f"\tcall first_{pick.randrange(FILES)}\n\tbeqz a0, .Lend_{name}\n"
            while len(text) < most // FILES // 2 * (1 + name.startswith("second")) - 120:
                text += "\t" + INSTRUCTIONS[pick.randrange(2)].format(pick.randrange(8), 1, pick.randrange(2000)) + "\n"
            text += f".Lend_{name}:\tld ra, 8(sp)\n\taddi sp, sp, 16\n\tjr ra\n\t.size {name}, .-{name}\n"
        paths[-1].write_text(text)
    return paths


# --- the list


@dataclass(frozen=True)
class Kind:
    """A kind of source: its name, its family (by which a target is set), and its writer."""

    name: str
    family: str
    write: Callable[[Path, int], list[Path]]


GCC_FAMILY, HAND_FAMILY, DATA_FAMILY = "GCC's output", "code by hand", "data"
SECTIONS_FLAGS = ("-ffunction-sections", "-fdata-sections")
SOURCES = (
    Kind("examples at -O2", GCC_FAMILY, write_examples),
    Kind("short functions, all levels", GCC_FAMILY, write_drawn("short", statements=2, levels=LEVELS)),
    Kind("middling functions at -O0", GCC_FAMILY, write_drawn("middling", statements=12, levels=("O0",))),
    Kind("long functions", GCC_FAMILY, write_drawn("long", statements=120, levels=("O1",))),
    Kind("-ffunction-sections", GCC_FAMILY, write_drawn("apart", *SECTIONS_FLAGS, statements=4)),
    Kind("switch tables", GCC_FAMILY, write_drawn("switches", statements=6, kind="switches")),
    Kind("strings in C", GCC_FAMILY, write_drawn("strings", statements=5, kind="strings")),
    Kind("large constants in C", GCC_FAMILY, write_drawn("constants", statements=8, kind="constants")),
    Kind("csmith's programs, all levels", GCC_FAMILY, write_csmith),
    Kind("a thousand small files", GCC_FAMILY, write_small),
    Kind("instructions of each format", HAND_FAMILY, write_mixed),
    Kind("branches of mixed spans", HAND_FAMILY, of_old_row("mixed_branches", write_branches, 18)),
    Kind("branches near", HAND_FAMILY, write_blocks(near)),
    Kind("branches far", HAND_FAMILY, write_blocks(far)),
    Kind("many labels", HAND_FAMILY, write_blocks(labels)),
    Kind("numeric labels", HAND_FAMILY, write_blocks(numeric)),
    Kind("many sections", HAND_FAMILY, write_blocks(sections)),
    Kind("large constants", HAND_FAMILY, write_blocks(constants)),
    Kind("pseudo-instructions", HAND_FAMILY, write_blocks(pseudo)),
    Kind("16-bit instructions", HAND_FAMILY, write_blocks(parcels)),
    Kind("expressions", HAND_FAMILY, write_blocks(expressions)),
    Kind("addresses", HAND_FAMILY, write_blocks(addresses)),
    Kind("calls", HAND_FAMILY, write_blocks(calls)),
    Kind("comments and blanks", HAND_FAMILY, write_blocks(comments)),
    Kind("many statements a line", HAND_FAMILY, write_blocks(one_line)),
    Kind("words, differences, strings", DATA_FAMILY, of_old_row("mixed_data", write_data, 150)),
    Kind("data with symbols", DATA_FAMILY, in_data(symbols)),
    Kind("data without symbols", DATA_FAMILY, in_data(numbers)),
    Kind("strings", DATA_FAMILY, in_data(texts)),
    Kind("zeros and alignments", DATA_FAMILY, in_data(gaps)),
    Kind("tables of distances", DATA_FAMILY, write_blocks(tables)),
)


# --- many sources of one program


def write_sources(folder, most, sources):
    """Writes as many sources as are linked, of the length that is measured together: each has its own labels, makes one
    global and refers to that of the source before it; the first has `_start`."""
    paths = []
    for number in range(sources):
        paths.append(folder / f"source_{number}.s")
        front = f".globl file_{number}\n.data\nfile_{number}: .dword file_{max(number - 1, 0)}\n.text\n"
        rest = lines() if number == 0 else (it for it in lines() if "_start" not in it)
        write_lines(paths[-1], most // sources, front, rest)
    return paths


def write_parts(folder, objects, each=16 * 2**10):
    """Writes as many sources as are linked as objects, each of so many bytes of text: every eighth line calls a
    function of another."""
    paths = []
    for number in range(objects):
        paths.append(folder / f"part_{number}.s")
        with paths[-1].open("w") as file:
            file.write(".option norvc\n.globl _start\n_start:\n" if number == 0 else ".option norvc\n")
            file.write(f".globl part_{number}\npart_{number}:\n")
            for at in range(each // 4 * 8 // 9):
                called = (number * 7919 + at) % objects
                file.write(f"call part_{called}\n" if at % 8 == 0 else f"addi a{at % 8}, a0, {at % 2000}\n")
    return paths


def write_texts(folder, length, texts):
    """Writes sources that together have so many bytes of text."""
    paths = []
    for number in range(texts):
        paths.append(folder / f"text_{number}.s")
        with paths[-1].open("w") as file:
            file.write(".option norvc\n.set size, 16\n" + ".globl _start\n_start:\n" * (number == 0))
            for at in range(length // texts // 4):
                file.write(INSTRUCTIONS[at % 8].format(at % 8, at % 5, at % 2000) + "\n")
    return paths


def write_callers(folder, files):
    """Writes small sources with sixty calls each and a word of data."""
    paths = []
    for at in range(files):
        paths.append(folder / f"file_{at}.s")
        calling = "".join(f"\tcall f{(at * 7 + k) % files}\n\taddi a0, a0, {k}\n" for k in range(60))
        start = ".globl _start\n_start:\n" if at == 0 else ""
        paths[-1].write_text(f"{start}.globl f{at}\nf{at}:\n{calling}\tret\n.data\nd{at}: .dword f{at}, d{at} + 8\n")
    return paths


# --- sources that grow


# How a source grows, by what it has much of: the lines of the statement of a number among so many, and how many first.
GROWING = {
    "labels": (lambda at, count: f"label_{at}: addi a0, a0, 1", 62_500),
    "calls": (lambda at, count: f"label_{at}: call label_{at * 7919 % count}", 50_000),
    "sections": (lambda at, count: f'.section .text.part_{at}, "ax"\nlabel_{at}: j label_{at * 7919 % count}', 3_750),
    "data": (lambda at, count: ".data\n" * (at == 0) + f"label_{at}: .dword label_{at * 7919 % count}", 50_000),
}


def next_too_far(at, count):
    """A branch that is as far from its label as two bytes reach, and the last further: the next to the last is too
    short once the last has grown, and so on to the first."""
    return f"label_{at}: beqz a0, label_{min(at + 127, count)}"


def write_growing(path, line, count):
    """Writes a source with so many of a kind of statement."""
    with path.open("w") as file:
        file.write(".globl _start\n_start:\n")
        file.writelines(line(at, count) + "\n" for at in range(count))
        file.write(f".text\nnop\nlabel_{count}: nop\n")


def write_graph(folder, path, count):
    """Writes functions that call two others each, anywhere in the text."""
    functions = count // 2
    with path.open("w") as file:
        file.write(".globl _start\n_start:\n")
        for at in range(functions):
            file.write(f"f_{at}: call f_{at * 7919 % functions}\ncall f_{(at * 104729 + 1) % functions}\nret\n")


def write_cascade(folder, path, count):
    """Writes tails, each of which reaches in two bytes once all of the 1021 behind it have two: the last does first."""
    with path.open("w") as file:
        file.write(".globl _start\n_start:\n")
        file.writelines(f"label_{at}: tail label_{min(at + 1022, count)}\n" for at in range(count))
        file.write(f"label_{count}: nop\n")


def write_zigzag(folder, path, count):
    """Writes calls of which each pass over the text, in whatever direction, can shorten one or two.

    Half of them stand before a filling, and call over it: call i of these reaches once call i - 1 of the other half is
    short. The others call back to these: call i reaches once call i of the first half is short. A short call brings
    the next target exactly into reach, 2^20 - 2 bytes forwards and 2^20 back.
    """
    half = count // 2
    filling = MIB + 2 - 8 * half
    with path.open("w") as file:
        file.write(".option norvc\n.globl _start\n_start:\n")
        file.writelines(f"a_{at}: call c_{at}\n" for at in range(half))
        file.write("nop\n" * (filling // 4 - 1) + "c_0: nop\n.option rvc\nc.nop\n.option norvc\n")
        file.writelines(f"call a_{at}\nc_{at + 1}: nop\n" for at in range(half))
