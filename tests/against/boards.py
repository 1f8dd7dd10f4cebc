"""Runs programs for the board virt on rv and on QEMU's: the same console and the same end.

usage: compare.py boards [COUNT]    (with ./rv and qemu-system-riscv64; 200 random programs, unless COUNT says)

First those of examples/board, then random ones: each stores bytes and wider numbers to the UART, sets and reads its
registers, writes what it read as hexadecimal digits, copies memory, and ends by the test device. They read no input,
and leave out bit 0 of the line status, which says on rv that a read would wait for input. The last line is 'N agree, M
differ'.
"""

import random
import subprocess
import sys
import tempfile
from pathlib import Path

from against.common import ROOT, RV, completed, need, succeeds

QEMU = "qemu-system-riscv64"
MACHINE = "-M virt -bios none -display none -monitor none -serial stdio -kernel".split()
EXAMPLES = ROOT / "examples" / "board"
# The registers of the UART that a program may set and read back, without interrupts and the loop back of the modem
# control, which rv leaves out.
KEPT = {3: 0x7F, 4: 0x0F, 7: 0xFF}
SHOW = """
show:
    andi t1, a0, 0xf0
    srli t1, t1, 4
    li t2, 2
1:  addi t3, t1, '0'
    li t4, 10
    bltu t1, t4, 2f
    addi t3, t1, 'a' - 10
2:  sb t3, 0(s0)
    andi t1, a0, 0xf
    addi t2, t2, -1
    bnez t2, 1b
    ret
"""


def step(draw):
    """Some instructions of a random program, whose UART stands at s0 and test device at s1."""
    kind = draw.randrange(8)
    if kind == 0:
        width = draw.choice(["sb", "sh", "sw"])
        return f"li a0, {draw.randrange(1 << 31) << 8 | draw.randrange(32, 127)}\n{width} a0, 0(s0)"
    if kind == 1:
        register, mask = draw.choice(list(KEPT.items()))
        given = f"li a0, {draw.randrange(256) & mask}\nsb a0, {register}(s0)"
        return f"{given}\nlbu a0, {register}(s0)\ncall show\nsb zero, 3(s0)"
    if kind == 2:
        return "lbu a0, 5(s0)\nandi a0, a0, 0xfe\ncall show"
    if kind == 3:
        return f"{draw.choice(['lb', 'lbu'])} a0, {draw.choice([2, 6])}(s0)\ncall show\nsrai a0, a0, 8\ncall show"
    if kind == 4:
        # what goes to the divisor is not written
        byte = draw.randrange(32, 127)
        return f"li a0, 0x80\nsb a0, 3(s0)\nli a0, {byte}\nsb a0, 0(s0)\nsb zero, 3(s0)\nsb a0, 0(s0)"
    if kind == 5:
        stored = f"li a0, {draw.randrange(1 << 32)}\nsw a0, {8 * draw.randrange(64)}(s2)"
        return f"{stored}\nlw a0, {8 * draw.randrange(64)}(s2)\ncall show"
    if kind == 6:
        # a number that ends nothing
        return f"li a0, {draw.randrange(1 << 16) << 16 | draw.choice([0, 1, 0x3332, 0x5554, 0x6666])}\nsw a0, 0(s1)"
    return f"li a0, {draw.randrange(256)}\nsb a0, 7(s0)\nlb a0, 7(s0)\ncall show\nsrai a0, a0, 8\ncall show"


def program(draw):
    """A random program."""
    steps = "\n".join(step(draw) for _ in range(draw.randrange(1, 30)))
    end = draw.choice(["li a0, 0x5555", f"li a0, {draw.randrange(256) << 16 | 0x3333}", "li a0, 0x3333"])
    width = draw.choice(["sw", "sw", "sh"])
    return f""".globl _start
_start:
    li s0, 0x10000000
    li s1, 0x100000
    li s2, 0x87fff000
{steps}
    {end}
    {width} a0, 0(s1)
1:  j 1b
{SHOW}"""


def outcomes(folder, sources):
    """What the program of sources writes and its status, on rv and on QEMU; none where it is not built or does not
    end."""
    exe = folder / "exe"
    if not succeeds([RV, "build", "--origin", "0x80000000", "-o", exe, *sources]):
        return None
    ours = completed([RV, "run", "--board", "virt", "--limit", "10M", exe], stdin=subprocess.DEVNULL)
    theirs = completed([QEMU, *MACHINE, exe], stdin=subprocess.DEVNULL)
    if ours is None or theirs is None:
        return None
    return [(run.stdout, run.returncode) for run in (ours, theirs)]


def agrees(folder, name, sources):
    """Whether both do the same; says it where they do not."""
    found = outcomes(folder, sources)
    if found is None:
        print(f"{name}: not built, or no end")
        return False
    if found[0] != found[1]:
        print(f"{name}: rv {found[0]}, QEMU {found[1]}")
    return found[0] == found[1]


def main():
    need(RV, QEMU)
    count = int(sys.argv[1]) if len(sys.argv) > 1 else 200
    good, bad = 0, 0
    with tempfile.TemporaryDirectory() as name:
        folder = Path(name)
        for example in ("hello", "states", "copy"):
            same = agrees(folder, example, [EXAMPLES / "board.s", EXAMPLES / f"{example}.s"])
            good, bad = good + same, bad + (not same)
        for seed in range(count):
            source = folder / "program.s"
            source.write_text(program(random.Random(seed)))
            same = agrees(folder, f"program {seed}", [source])
            good, bad = good + same, bad + (not same)
    print(f"{good} agree, {bad} differ")
    return bad != 0
