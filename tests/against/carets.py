"""Makes faulty sources and prints where ./rv and another program see their faults at different columns.

usage: compare.py carets PROGRAM [COUNT] [SEED]

PROGRAM is an rv of another commit. Each of COUNT sources (200 where it is not given) has lines of one to four good
statements, and one statement with a fault of the next code among them. Both programs check it, and the places of all
faults are compared; each that differs is printed with its line, `<` under PROGRAM's column, `>` under that of ./rv. A
source of a seed is the same in each run. The last line is 'N the same, M others'; a person judges the others.
"""

import random
import re
import sys
import tempfile
from pathlib import Path

from against.common import RV, completed

PLACE = re.compile(r"a\.s:(\d+):(\d+): error: (.*) \[(E\d+)\]")
# Statements of the text and of data that have no fault; @ is a number of its own in each.
CODE = ["nop", "li a0, @", "addi a1, a1, -4", "lw a2, 8(sp)", "w@: mv a0, a1", "beqz a0, 1b", "j 1f", "la a3, there"]
CODE += ["w@: ret"]
DATA = [".byte 1, 2", ".word there, 5", "d@: .zero 4", '.ascii "ab;c"', ".balign 4", ".set k@, @ + 1"]
DATA += [".dword there + 8"]
# Faulty statements by their code, of the text and of data.
IN_CODE = {
    1: ["li a0, 5 \x96", "add\x01 a0, a0, a0"],
    2: ["li a0, 08", "li a0, 'ab'", "addi a0, a0, 99999999999999999999", "4x a0"],
    3: ["li a0, " + "-" * 70 + "1", "li a0, " + "(" * 66 + "1" + ")" * 66],
    4: ["li a0, 1 / 0", "addi a0, a0, 7 % (2 - 2)", "li a0, 1 / 1 + 2 / 0", "lw a0, 4 / 0(sp)"],
    5: ["li a0, 1 << 64", "slli a0, a0, 1 >> 70", "li a0, 1 << 2 << 99"],
    6: ["foo a0, 1", "flw fa0, 0(a0)", "v@: frob"],
    7: ["addi a0, a1, a2, a3", "addi 5, a0, 1", "sub a0, a0, 5", "lw a0, 8(5)", "add a0, a1", "c.lw t0, 0(a0)"]
    + ["mv a0 a1", "fence wo, r", "lr.w a0, 5", "jump there", "nop 5", "a0: nop", ".globl 5", "c.lwsp a0, 0(a1)"],
    8: [".frob 5", "v@: .what"],
    9: [".comm x, 4", "lw a0, 8", "sw a1, 8 a0", ".option pic", ".align 2, 0", 'li a0, "x"'],
    10: ["call zero, there", "sd a0, there, a0", "lw zero, there", "jump there, zero", "sw a1, there, x0"],
    11: ["there: nop", "there:", "v@: there: nop", ".set there, 5"],
    12: ["j 77f", "beqz a0, 77b", "addi a0, a0, %pcrel_lo(nowhere)", "la a0, 77f"],
    13: ["addi a0, a0, there", "li a0, there", "slli a0, a0, nosuch", "sd a0, there + 8(a1)", ".set m@, there"],
    14: ["addi a0, zero, 5000", "lw a0, 4096(sp)", "slli a0, a0, 64", "lui a0, 0x100000", "v@: addi a1, a1, 3000"]
    + [".balign 3", "c.addi a0, 0", "sd a0, -(4000)(a1)", "beq a0, a1, 8"],
    15: [".word 1", '.ascii "x;y"', ".set p@, ."],
    16: [".option pop"],
    17: [".align 13", "n" * 4100 + ": nop", ".balign 8192"],
}
IN_DATA = {
    4: [".byte 1, 2 / 0, 3", ".word 1 / (1 - 1), 2"],
    5: [".byte 1 << 64, 1", ".dword 1 >> 65"],
    11: ["there: .byte 1", ".set there, 5"],
    12: [".word 77f", ".word 1, 77b, 2", ".dword 1b, 77f"],
    13: [".byte 1, there, 2", ".half there", ".zero later", ".set m@, later", ".balign there"],
    14: [".zero -1", ".balign 3", ".align -1"],
    15: ["nop", "v@: addi a0, a0, 1"],
    17: [".zero 0x10000001", ".align 13"],
}


def numbered(text, count):
    """A statement with a number of its own."""
    return text.replace("@", str(count))


def source(draw, index):
    """A source with a fault of one code, in the text or in data."""
    code = index % 17 + 1
    is_data = code in IN_DATA and draw.random() < 0.5
    faulty = draw.choice((IN_DATA if is_data else IN_CODE)[code])
    good = DATA if is_data else CODE
    lines = [[draw.choice(good) for _ in range(draw.randint(1, 4))] for _ in range(draw.randint(2, 5))]
    line = draw.choice(lines)
    line.insert(draw.randint(0, len(line)), faulty)
    count, out = 0, []
    for statements in lines:
        named = []
        for statement in statements:
            count += 1
            named.append(numbered(statement, count))
        out.append("; ".join(named))
    head = [".globl _start", ".text", "_start: 1: nop", ".data", "there: .byte 1"]
    tail = [".data", "later: .byte 1", ".text", "1: ret"]
    return "\n".join([*head, ".data" if is_data else ".text", *out, *tail, ""])


def places(program, folder):
    """The faults that a program sees: line, column and code."""
    process = completed([program, "check", "--format=gcc", "a.s"], cwd=folder)
    if process is None:
        return None
    text = (process.stdout + process.stderr).decode("latin-1")
    return [(int(line), int(column), code, words) for line, column, words, code in PLACE.findall(text)]


def show(text, old, new):
    """Prints what differs, each below its line."""
    lines = text.split("\n")
    for fault in sorted({*old, *new}, key=lambda fault: fault[:3]):
        if (fault in old) != (fault in new):
            sign = "<" if fault in old else ">"
            shown = lines[fault[0] - 1]
            start = max(0, fault[1] - 60)
            print(f"{fault[2]} line {fault[0]}, column {fault[1]}\n    {shown[start : start + 100]!a}")
            print("     " + " " * (fault[1] - 1 - start) + f"{sign} {fault[3]}")


def main():
    if len(sys.argv) < 2:
        sys.exit(__doc__)
    count = int(sys.argv[2]) if len(sys.argv) > 2 else 200
    draw = random.Random(sys.argv[3] if len(sys.argv) > 3 else "1")
    same = others = 0
    with tempfile.TemporaryDirectory() as name:
        folder = Path(name)
        for index in range(count):
            text = source(draw, index)
            (folder / "a.s").write_bytes(text.encode("latin-1"))
            old, new = (places(Path(program).resolve(), folder) for program in (sys.argv[1], RV))
            if old == new:
                same += 1
            else:
                others += 1
                print(f"---- source {index}")
                show(text, old or [], new or [])
    print(f"{same} the same, {others} others")
    return 0
