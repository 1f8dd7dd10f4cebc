"""Whether some place of a program is slower than its middle: hot code and data at each end of each segment, at the end
of a page and over it, in forms of two and of four bytes; and whether a program is slower above the stack or on a board.

Each program is a loop without an end. Its figure is the host instructions that an instruction of it takes, and the
ratio to the same loop in the middle of a page of the middle of a segment. Code is in a segment of its own, as `rv
build` makes it, and in one that may be written as well, as `ld -N` makes it. Data are constants, variables, zeroed
variables and the stack.
"""

import subprocess
from dataclasses import dataclass

from measure import LD, RV, are_there, at_once, host_instructions

PAGE = 4096
LENGTH = 0x2C00
START = 0x10000
STACK, STACK_BYTES = 0x3FF00000, 0x100000
# From how many steps on, and to how many, host instructions are counted.
FROM, TO = 10_000, 60_000
MIDDLE = "in the middle"


def filled(count):
    """Code without effect of so many bytes."""
    return ".option norvc\n" + "nop\n" * (count // 4) + "c.nop\n" * (count % 4 // 2)


@dataclass(frozen=True)
class Loop:
    """The instructions of a loop, with their bytes; ra has its address, and a5 is 1."""

    name: str
    lines: tuple[str, ...]
    bytes: tuple[int, ...]

    @property
    def length(self):
        return sum(self.bytes)


TWO, FOUR = "c.addi a0, 1", "addi a0, a0, 1"
LOOPS = (
    Loop("2 bytes, jump", (TWO, TWO, TWO, "c.j hot"), (2, 2, 2, 2)),
    Loop("2 bytes, branch", (TWO, TWO, TWO, "c.bnez a5, hot"), (2, 2, 2, 2)),
    Loop("2 bytes, return", (TWO, TWO, TWO, "c.jr ra"), (2, 2, 2, 2)),
    Loop("4 bytes, jump", (FOUR, FOUR, FOUR, "jal zero, hot"), (4, 4, 4, 4)),
    Loop("4 bytes, branch", (FOUR, FOUR, FOUR, "bne a5, zero, hot"), (4, 4, 4, 4)),
    Loop("4 bytes, return", (FOUR, FOUR, FOUR, "jalr zero, 0(ra)"), (4, 4, 4, 4)),
    Loop("both, jump", (FOUR, TWO, FOUR, "c.j hot"), (4, 2, 4, 2)),
)


def places_of_code(loop):
    """Where a loop is, and where the text ends."""
    over, end = 2 * PAGE - loop.bytes[0] - 2, LENGTH - 0x400
    return {
        MIDDLE: (PAGE + PAGE // 2, LENGTH),
        "at the segment's start": (0, LENGTH),
        "at the segment's end": (end, end + loop.length),
        "at a page's start": (2 * PAGE, LENGTH),
        "at a page's end": (2 * PAGE - loop.length, LENGTH),
        "over a page's end": (over, LENGTH),
        "at the segment's end, a page's": (2 * PAGE - loop.length, 2 * PAGE),
        "at the segment's end, over a page's": (over, over + loop.length),
    }


def code_source(loop, place, end):
    """A source with the loop at a place of its text, which ends where it is said."""
    start = "_start:\n.option norvc\nla ra, hot\nli a5, 1\njal zero, hot\n"
    entry = 16
    before, behind = (filled(0), start) if place == 0 else (start, "")
    before += filled(place - entry * (place > 0))
    behind += filled(end - place - loop.length - entry * (place == 0))
    hot = "hot:\n" + "\n".join(loop.lines) + "\n"
    return f".globl _start\n{before}{hot}{behind}"


def built(folder, name, text, *words):
    """The executable of `rv build`: each segment has one right."""
    source, made = folder / f"{name}.s", folder / name
    source.write_text(text)
    subprocess.run([RV, "build", *words, "-o", made, source], check=True)
    return made


def built_as_one(folder, name, text):
    """The executable of `ld -N`: one segment that may be read, written and executed."""
    source, linked, made = folder / f"{name}.s", folder / f"{name}.o", folder / name
    source.write_text(text)
    subprocess.run([RV, "as", "-o", linked, source], check=True)
    words = ["-N", "--no-relax", f"-Ttext={START:#x}", "-e", "_start", "--no-warn-rwx-segments"]
    subprocess.run([LD, *words, "-o", made, linked], check=True)
    return made


def code_programs(folder):
    """The segment, the place and the form of each loop, with its program."""
    makers = {"text": built} | ({"text that can be written": built_as_one} if are_there([LD]) else {})
    for segment, make in makers.items():
        for loop in LOOPS:
            for number, (place, (at, end)) in enumerate(places_of_code(loop).items()):
                name = f"{segment}_{loop.name}_{number}".replace(" ", "_").replace(",", "")
                yield (segment, place, loop.name), make(folder, name, code_source(loop, at, end))


@dataclass(frozen=True)
class Access:
    """An instruction that loads or stores at a0, which sp is too, so many bytes."""

    name: str
    line: str
    width: int
    is_store: bool = False
    is_aligned: bool = False


ACCESSES = (
    Access("4 bytes, lb", "lb a2, 0(a0)", 1),
    Access("4 bytes, lw", "lw a2, 0(a0)", 4),
    Access("4 bytes, ld", "ld a2, 0(a0)", 8),
    Access("2 bytes, c.ld", "c.ld a2, 0(a0)", 8),
    Access("2 bytes, c.ldsp", "c.ldsp a2, 0(sp)", 8),
    Access("4 bytes, sb", "sb a2, 0(a0)", 1, True),
    Access("4 bytes, sw", "sw a2, 0(a0)", 4, True),
    Access("4 bytes, sd", "sd a2, 0(a0)", 8, True),
    Access("2 bytes, c.sd", "c.sd a2, 0(a0)", 8, True),
    Access("2 bytes, c.sdsp", "c.sdsp a2, 0(sp)", 8, True),
    Access("4 bytes, amoadd.d", "amoadd.d a2, a3, (a0)", 8, True, True),
)
SECTIONS = {"constants": ".section .rodata", "variables": ".data", "zeroed variables": ".bss"}


def places_of_data(width):
    """Where an access of some bytes is in a segment, and how long that is."""
    return {
        MIDDLE: (PAGE + PAGE // 2, LENGTH),
        "at the segment's start": (0, LENGTH),
        "at the segment's end": (LENGTH - width, LENGTH),
        "at a page's start": (2 * PAGE, LENGTH),
        "at a page's end": (2 * PAGE - width, LENGTH),
        "over a page's end": (2 * PAGE - width // 2, LENGTH),
        "at the segment's end, a page's": (2 * PAGE - width, 2 * PAGE),
        "at the segment's end, over a page's": (2 * PAGE - width // 2, 2 * PAGE + (width + 1) // 2),
    }


def places_of_stack(width):
    """The same of the stack, which ends with a page. That one is there from the start, what lies below once it has been
    written to."""
    half = STACK_BYTES // 2
    return {
        MIDDLE: (STACK_BYTES - PAGE // 2, STACK_BYTES),
        "at the segment's start": (0, STACK_BYTES),
        "at the segment's end, a page's": (STACK_BYTES - width, STACK_BYTES),
        "at a page's start": (half, STACK_BYTES),
        "at a page's end": (half - width, STACK_BYTES),
        "over a page's end": (half - width // 2, STACK_BYTES),
    }


def data_source(access, segment, offset, length):
    """A source with a loop of accesses in the middle of its text."""
    if segment == "stack":
        base, section = f"li a0, {STACK + offset:#x}\n", ""
    else:
        base = f"la a0, base\nli a1, {offset:#x}\nadd a0, a0, a1\n"
        section = f"{SECTIONS[segment]}\n.balign 4096\nbase: .zero {length}\n"
    hot = "hot:\n" + 4 * f"{access.line}\n" + "jal zero, hot\n"
    return f".globl _start\n{filled(0x400)}_start: {base}mv sp, a0\nli a3, 1\n{hot}{filled(0x400)}{section}"


def data_programs(folder):
    """The same of each access. What moves no half, or has to be aligned, does not lie over an end."""
    for segment in (*SECTIONS, "stack"):
        for access in ACCESSES:
            if access.is_store and segment == "constants":
                continue
            places = (places_of_stack if segment == "stack" else places_of_data)(access.width)
            for number, (place, (offset, length)) in enumerate(places.items()):
                if "over" in place and (access.width == 1 or access.is_aligned):
                    continue
                name = f"{segment}_{access.name}_{number}".replace(" ", "_").replace(",", "")
                text = data_source(access, segment, offset, length)
                yield (segment, place, access.name), built(folder, name, text)


TURNS = {
    # of each: the registers that are the addresses at first, and two or more loads
    "two pages of variables": "la a0, base\nli a1, 0x1000\nadd a1, a0, a1\nmv a2, a0\nmv a3, a1\n",
    "constants and variables": "la a0, base\nla a1, fixed\nmv a2, a0\nmv a3, a1\n",
    "variables and the stack": "la a0, base\naddi a1, sp, -64\nmv a2, a0\nmv a3, a1\n",
    "constants, variables, zeros, the stack": "la a0, base\nla a1, fixed\nla a2, zeros\naddi a3, sp, -64\n",
}
ONE = "la a0, base\nmv a1, a0\nmv a2, a0\nmv a3, a0\n"


def turn_source(start):
    """A source with a loop that loads from four addresses in turns."""
    loads = "".join(f"ld t{it}, 0(a{it})\n" for it in range(4))
    data = ".section .rodata\nfixed: .zero 64\n.data\nbase: .zero 0x2000\n.bss\nzeros: .zero 64\n"
    return f".globl _start\n{filled(0x400)}_start: {start}hot:\n{loads}jal zero, hot\n{filled(0x400)}{data}"


def leaping_source(distance):
    """A source with a loop of two parts, so many bytes from one another."""
    two = f"{FOUR}\n{FOUR}\n{FOUR}\njal zero, "
    return f".globl _start\n_start:\n{filled(0x800)}hot: {two}there\n{filled(distance)}there: {two}hot\n{filled(0x400)}"


def turn_programs(folder):
    """Code and data in turns; each beside the same at one place."""
    yield ("data in turns", MIDDLE, "4 bytes"), built(folder, "turns", turn_source(ONE))
    for number, (name, start) in enumerate(TURNS.items()):
        yield ("data in turns", name, "4 bytes"), built(folder, f"turns_{number}", turn_source(start))
    yield ("code in turns", MIDDLE, "4 bytes"), built(folder, "leaps", leaping_source(16))
    yield ("code in turns", "two pages", "4 bytes"), built(folder, "leaps_far", leaping_source(PAGE))
    yield ("code in turns", "two pages far apart", "4 bytes"), built(folder, "leaps_farther", leaping_source(64 * PAGE))


WHOLE = "whole program"
ABOVE = ("--origin", "0x80000000")
# By the words that build and those that run.
ORIGINS = {MIDDLE: ((), ()), "above the stack": (ABOVE, ()), "on a board": (ABOVE, ("--board", "virt"))}
USES = {
    "4 bytes, code": 4 * f"{FOUR}\n",
    "4 bytes, variables": 4 * "ld a2, 0(a0)\n",
    "4 bytes, stack": 4 * "ld a2, 0(a1)\n",
    "4 bytes, both": "ld a2, 0(a0)\nsd a2, 0(a1)\nld a2, 0(a1)\nsd a2, 0(a0)\n",
}


def origin_source(hot, is_on_board):
    """A source with a loop that uses variables and a stack; a board's begins at the end of RAM."""
    stack = "li sp, 0x88000000\n" if is_on_board else ""
    start = f"{stack}la a0, base\naddi a1, sp, -64\n"
    return f".globl _start\n.option norvc\n_start: {start}hot:\n{hot}jal zero, hot\n.data\nbase: .zero 64\n"


def origin_programs(folder):
    """The same programs below the stack, above it, and on a board, with the words that run them."""
    for number, (place, (words, run)) in enumerate(ORIGINS.items()):
        for form, hot in USES.items():
            name = f"origin_{number}_{form}".replace(" ", "_").replace(",", "")
            yield (WHOLE, place, form), (*run, built(folder, name, origin_source(hot, bool(run)), *words))


def steps(words, limit):
    """The host instructions of so many steps of a program, by the words that run it, with the start."""
    return host_instructions(RV, "run", "--limit", limit, *words, good=125)


# What is not written yet is loaded in another way from the first step on, and code far apart is a long file to read.
ALONE = ("stack", "code in turns")


def beginning(segment, place, form):
    """The programs that begin alike: those of a segment, and the whole programs at a place. Those in ALONE begin each
    by itself."""
    if segment in ALONE:
        return segment, place, form
    return (segment, place) if segment == WHOLE else segment


def measured(folder):
    """Of each segment, place and form the host instructions for one of the loop, and the ratio to the middle. The first
    steps of programs that begin alike are counted once."""
    programs = {key: (it,) for of in (code_programs, data_programs, turn_programs) for key, it in of(folder)}
    programs |= dict(origin_programs(folder))
    is_first = lambda segment, place, _: place == MIDDLE or segment in (WHOLE, *ALONE)
    firsts = {beginning(*key): it for key, it in reversed(programs.items()) if is_first(*key)}
    starts = dict(zip(firsts, at_once(lambda it: steps(it, FROM), firsts.values())))
    counts = dict(zip(programs, at_once(lambda it: steps(it, TO), programs.values())))
    costs = {key: (count - starts[beginning(*key)]) / (TO - FROM) for key, count in counts.items()}
    for (segment, place, form), cost in costs.items():
        if place != MIDDLE:
            yield segment, place, form, cost, cost / costs[segment, MIDDLE, form]
