"""The links that are measured, of many kinds; each is of objects that GNU as makes of the same sources each time.

LINKS has a row for each kind: its name, what writes its sources, and the words that all linkers take. Where calls keep
their eight bytes, the objects are made so that no linker may shorten anything.
"""

import random
import subprocess
from dataclasses import dataclass
from functools import partial
from itertools import count
from pathlib import Path
from typing import Callable

import sources
from drawn import LEVELS
from measure import AS, GNU_AS, LD, RV, at_once, need
from sources import KIND_BYTES, SECTIONS_FLAGS, write_drawn

START = "\t.globl _start\n_start:\tnop\n"


def write_each(folder, name, texts):
    """Writes sources, of which the first has the entry."""
    paths = []
    for number, text in enumerate(texts):
        paths.append(folder / f"{name}_{number}.s")
        paths[-1].write_text((START if number == 0 else "") + text)
    return paths


def split(folder, most, block, files=16):
    """Blocks of a kind of source in some files, of a length together, each with names of its own."""
    pick, texts = random.Random(block.__name__), []
    for number in range(files):
        text, drawn = "\t.text\n", count()
        while len(text) < most // files:
            text += "".join(line + "\n" for line in block(pick, next(drawn)))
        texts.append(text.replace("call_", f"call_{number}_"))
    return write_each(folder, block.__name__, texts)


def write_globals(folder, most, front="", each=300):
    """Many global names: functions of a line, each of which calls one of another file and has a word of data."""
    length = 120 + 4 * len(front)
    files = max(most // (each * length), 2)
    pick = random.Random("globals")

    def text(number):
        for at in range(each):
            name, other = f"{front}name_{number}_{at}", f"{front}name_{pick.randrange(files)}_{pick.randrange(each)}"
            yield f"\t.text\n\t.globl {name}\n{name}:\tcall {other}\n\t.data\n\t.globl {name}_data\n"
            yield f"{name}_data:\t.dword {other}\n"

    return write_each(folder, "globals", ("".join(text(number)) for number in range(files)))


# As a compiler of C++ writes them: hundreds of bytes, which differ at the end.
LONG = "_ZN7library9container4treeINS_6string9immutableESt4pairIKNS_5index6handleEmENS_9allocatorEE6insert" * 2


def write_weak(folder, most, names=100):
    """The same weak functions in each file, as templates are, and calls of them."""
    functions = "".join(
        f'\t.section .text.shared_{it},"ax",@progbits\n\t.weak shared_{it}\nshared_{it}:\taddi a0, a0, {it}\n\tret\n'
        for it in range(names)
    )
    calls = "".join(f"\tcall shared_{it}\n" for it in range(names))
    files = max(most // len(functions + calls), 2)
    return write_each(folder, "weak", (f"{functions}\t.text\nfile_{it}:\n{calls}" for it in range(files)))


def write_far(folder, most, files=16):
    """Calls that are too far to become short, over fillings (.rept is for GNU as alone)."""

    def text(number):
        calls = f"\tcall far_{(number + files // 2) % files}\n" * (most // files // 12)
        return f"\t.option norvc\n\t.globl far_{number}\nfar_{number}:\n{calls}\t.rept 35000\n\tnop\n\t.endr\n"

    return write_each(folder, "far", map(text, range(files)))


def write_aligned(folder, most):
    """Small functions, each at a multiple of 16 bytes."""
    function = "\t.align 4\n\t.globl at_{0}_{1}\nat_{0}_{1}:\taddi a0, a0, {1}\n\tcall at_{0}_{2}\n\tret\n"
    files, each = 16, most // 16 // 70
    pick = random.Random("aligned")
    return write_each(
        folder,
        "aligned",
        ("".join(function.format(it, at, pick.randrange(each)) for at in range(each)) for it in range(files)),
    )


def write_bytes(folder, most):
    """Eight times as many bytes of data as of another kind's source, without a relocation."""
    (folder / "bytes").write_bytes(random.Random("bytes").randbytes(most // 2))
    text = f'\t.data\n\t.incbin "{folder / "bytes"}"\n'
    return write_each(folder, "bytes", [text] * 16)


def write_zeros(folder, most):
    """Sections of zeros, and few bytes."""
    text = "".join(f'\t.section .bss.part_{it},"aw",@nobits\nzeros_{it}:\t.zero 500\n' for it in range(200))
    return write_each(folder, "zeros", [text] * max(most // len(text), 2))


def write_unused(folder, most):
    """Functions in sections of their own, of which every second one is never called."""
    function = (
        '\t.section .text.used_{0}_{1},"ax",@progbits\n\t.globl used_{0}_{1}\nused_{0}_{1}:\tcall used_{2}_{3}\n\tret\n'
    )
    files, each = 16, most // 16 // 110
    steps = [(it, at) for it in range(files) for at in range(each)]
    text = {it: f"\tcall used_{it}_0\n" if it == 0 else "" for it in range(files)}
    for place, (it, at) in enumerate(steps):
        text[it] += function.format(it, at, *steps[(place + 2) % len(steps)])
    return write_each(folder, "unused", text.values())


@dataclass(frozen=True)
class Link:
    """A kind of link: its name, the writer of its sources, its words, and how many bytes its sources have."""

    name: str
    write: Callable[[Path, int], list[Path]]
    words: tuple[str, ...] = ()
    most: int = KIND_BYTES

    @property
    def is_relaxed(self):
        return "--no-relax" not in self.words


WHOLE, COLLECTED = ("--no-relax",), ("--gc-sections",)
SHORT = write_drawn("short", statements=2, levels=LEVELS)
APART = write_drawn("apart", *SECTIONS_FLAGS, statements=4)
LINKS = (
    Link("513 objects with calls", lambda folder, _: sources.write_callers(folder, 513)),
    Link("100 objects, 16 KiB of text each", lambda folder, _: sources.write_parts(folder, 100), WHOLE),
    Link("a thousand small objects", sources.write_small),
    Link("GCC's output, whole calls", SHORT, WHOLE),
    Link("GCC's output", SHORT, (), KIND_BYTES // 2),
    Link("-ffunction-sections", APART, (), KIND_BYTES // 2),
    Link("-ffunction-sections, collected", APART, COLLECTED, KIND_BYTES // 2),
    Link("half of it unused, collected", write_unused, WHOLE + COLLECTED),
    Link("short calls", partial(split, block=sources.calls), (), KIND_BYTES // 2),
    Link("far calls", write_far, (), KIND_BYTES // 2),
    Link("aligned functions", write_aligned, (), KIND_BYTES // 2),
    Link("many global names", write_globals, WHOLE),
    Link("long names", partial(write_globals, front=LONG), WHOLE, 4 * KIND_BYTES),
    Link("weak functions in each", write_weak, WHOLE),
    Link("many sections", sources.write_blocks(sources.sections), WHOLE),
    Link("addresses", sources.write_blocks(sources.addresses), WHOLE),
    Link("data with symbols", sources.in_data(sources.symbols), WHOLE),
    Link("tables of distances", sources.write_blocks(sources.tables), WHOLE),
    Link("2 MiB of bytes", write_bytes, WHOLE),
    Link("sections of zeros", write_zeros, WHOLE),
)


def made_of(paths, end, command):
    """The objects that a command makes of sources, each."""
    objects = [path.with_suffix(end) for path in paths]
    at_once(
        lambda it: subprocess.run([*command, "-o", it[1], it[0]], check=True, capture_output=True), zip(paths, objects)
    )
    return objects


def assembled(paths, *words):
    """The objects that GNU as makes of sources."""
    need(AS, LD)
    return made_of(paths, ".o", [*GNU_AS, *words])


def assembled_by_rv(paths):
    """The objects that `rv as` makes of sources."""
    return made_of(paths, ".ours.o", [RV, "as"])


def objects_of(link, folder):
    """The objects of a link."""
    return assembled(link.write(folder, link.most), *(() if link.is_relaxed else ("-mno-relax",)))


# Where the text starts, far enough from zero that GNU ld shortens nothing but calls, and its script, which sets no gp.
CALLED_START = 0x400000
SCRIPT = f"""SECTIONS {{ . = {CALLED_START:#x}; .text : {{ *(.text .text.*) }}
.rodata ALIGN(4096) : {{ *(.rodata .rodata.* .srodata .srodata.*) }}
.data ALIGN(4096) : {{ *(.data .data.* .sdata .sdata.*) *(.bss .bss.* .sbss .sbss.*) }} }}
"""


def shortening(folder, source):
    """The commands that link a source with its calls shortened, each of its assembler's object, by the tools' names."""
    script, made = folder / "script", folder / "made"
    script.write_text(SCRIPT)
    ours, theirs = *assembled_by_rv([source]), *assembled([source])
    quiet = ["--no-warn-rwx-segments", "-e", "_start"]
    return {
        "rv": [RV, "ld", "--text-start", CALLED_START, "-o", made, ours],
        "GNU": [LD, *quiet, "-T", script, "-o", made, theirs],
    }
