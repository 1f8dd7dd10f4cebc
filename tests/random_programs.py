"""Random programs, each of its own seed, for comparisons: three of five end by an exit, one of five does something
wrong on purpose, in its source or in its run, and one of five is any statements at all.

One that ends has only branches forwards, loops that count, and accesses to its own room; in the end it writes all its
registers and its room to the console, so that a difference anywhere in the run is seen there.
"""

import random
import re

# What holds the room, counts loops, and is free for everything else.
ROOM, OUTER, INNER = "s0", "s1", "s2"
FREE = "a0 a1 a2 a3 a4 a5 t0 t1 t2 t3 t4 t5 t6 s3 s4 s5 s6 s7 s8 s9 s10 s11".split()
# (those that compressed code can name)
NEAR = ["a0", "a1", "a2", "a3", "a4", "a5"]
SIZE = 256
NUMBERS = (0, 1, -1, 2, 7, 255, 2**31 - 1, -(2**31), 2**32, 2**63 - 1, -(2**63), 0x5555555555555555)
SHORT = (0, 1, -1, 4, 8, 16, 31, 2047, -2048)
# What an operand of a form stands for, in the words of the manual.
OPERAND = re.compile(r"[a-z]\w*")
JUMPS = ("jalr", "jr", "c.jr", "c.jalr", "jump")
BRANCHES = "beq bne blt bge bltu bgeu bgt ble bgtu bleu".split()
LOADS = {"lb": 1, "lbu": 1, "lh": 2, "lhu": 2, "lw": 4, "lwu": 4, "ld": 8}
SHIFTS = ("slli", "srli", "srai", "slliw", "srliw", "sraiw")
STORES = {"sb": 1, "sh": 2, "sw": 4, "sd": 8}
# Lines that no program may have, with what is wrong.
FAULTY = (
    "addi a0, a0, 4000",
    "bogus a0, a1",
    "add a0, a1",
    "lw a0, a1, a2",
    "j nowhere",
    "_start: nop",
    "slli a0, a0, 64",
    ".word 1 / 0",
    ".bogus 1",
    'li a0, "a"',
    "addi x32, x0, 1",
    "1: beqz a0, 2f",
    ".option pop",
    "la a0, table + 0x7fffffff0",
    ".globl _start; .set _start, 5",
    ".align 40",
    "c.addi a0, 40",
    "li a0, 0x1ffffffffffffffff",
    "lui a0, %hi(nowhere)",
    ".text; .zero 0x40000000",
)
# Statements that end a run otherwise than by an exit.
CRASHES = (
    "ebreak",
    "c.ebreak",
    "la t0, 90f\njr t0\n90: ebreak",
    "la t0, 90f + 2\njr t0\n90: lui a0, 0",
    "la t0, 90f + 2\njr t0\n90: lui a0, 0x8000",
    "lw a0, (zero)",
    "sd a0, 8(zero)",
    "la t0, _start\nlw a0, (t0)",
    "la t0, _start\nsb a0, (t0)",
    "li t0, 0x123456\njr t0",
    "addi t0, s0, 2\namoadd.w a0, a1, (t0)",
    "addi t0, s0, 4\nlr.d a0, (t0)",
    "mv t0, sp\njr t0",
    "li t0, -4\nld a0, (t0)",
    "li t0, 0x40000000\nsw a0, -2(t0)",
    "la t0, table\nsb a0, (t0)",
    "90: j 90b",
    "90: addi a0, a0, 1\nadd a1, a1, a0\nbnez a0, 90b",
    "ret",
    "li a7, 1000\necall",
)


class Writer:
    """Draws the lines of a program. `words` are those of scripts/language.py."""

    def __init__(self, seed, words):
        self.any, self.forms, self.labels = random.Random(seed), words["mnemonics"], 0
        self.named = {
            form: [name for name, it in self.forms.items() if it == form] for form in set(self.forms.values())
        }
        self.statements = [name for name, form in self.forms.items() if form and name not in JUMPS]
        self.registers = words["registers"]

    def register(self):
        return self.any.choice(NEAR if self.any.random() < 0.5 else FREE)

    def short(self):
        return self.any.choice([*SHORT, self.any.randrange(-40, 40)])

    def label(self):
        self.labels += 1
        return f"l{self.labels}"

    # Statements that end nothing

    def plain(self):
        """A statement that only computes."""
        form = self.any.choice(["rd, rs1, rs2"] * 5 + ["rd, rs1, number"] * 4 + ["rd, rs1"] * 2 + ["rd, rs", "li"])
        name = "li" if form == "li" else self.any.choice(self.named[form])
        registers = [self.register() for _ in range(3)]
        if form == "li":
            return f"li {registers[0]}, {self.any.choice([*NUMBERS, self.any.getrandbits(64) - 2**63])}"
        if form == "rd, rs":
            registers = [self.any.choice(NEAR) for _ in range(3)]
        if form == "rd, rs1, number":
            return f"{name} {registers[0]}, {registers[1]}, {self.operand(name, 'number')}"
        return f"{name} {', '.join(registers[: form.count('r')])}"

    def some(self, most=5):
        return [self.plain() for _ in range(self.any.randrange(1, most + 1))]

    def access(self):
        """A load or a store in the room, at a place known now or only then."""
        name, size = self.any.choice([*LOADS.items(), *STORES.items()])
        if self.any.random() < 0.5:
            return [f"{name} {self.register()}, {self.any.randrange(SIZE - size + 1)}({ROOM})"]
        return [*self.pointer("t0", -8), f"{name} {self.register()}, {self.any.randrange(8)}(t0)"]

    def pointer(self, register, mask=-16):
        """Puts a place of the room, a multiple of 8 or 16, into a register."""
        return [f"andi {register}, {self.register()}, {(SIZE - 16) & mask}", f"add {register}, {register}, {ROOM}"]

    def atomic(self):
        amos = [it for it in self.named["rd, rs2, (rs1)"] if it.startswith("amo")]
        if self.any.random() < 0.7:
            return [*self.pointer("t1"), f"{self.any.choice(amos)} {self.register()}, {self.register()}, (t1)"]
        width, again = self.any.choice("wd"), self.label()
        return [
            *self.pointer("t1"),
            f"{again}: lr.{width} t2, (t1)",
            f"add t2, t2, {self.register()}",
            f"sc.{width} t3, t2, (t1)",
            f"bnez t3, {again}",
        ]

    def branch(self):
        behind = self.label()
        name = f"{self.any.choice(BRANCHES)} {self.register()}, {self.register()}"
        if self.any.random() < 0.3:
            name = f"{self.any.choice(self.named['rs1, label'])} {self.register()}"
        return [f"{name}, {behind}", *self.some(), f"{behind}:"]

    def loop(self):
        again = self.label()
        inside = [line for _ in range(self.any.randrange(1, 4)) for line in self.piece(self.simple)]
        return [
            f"li {OUTER}, {self.any.randrange(1, 30)}",
            f"{again}:",
            *inside,
            *self.inner(),
            f"addi {OUTER}, {OUTER}, -1",
            f"bnez {OUTER}, {again}",
        ]

    def inner(self):
        if self.any.random() < 0.7:
            return []
        again = self.label()
        return [
            f"li {INNER}, {self.any.randrange(1, 12)}",
            f"{again}: addi {INNER}, {INNER}, -1",
            *self.some(3),
            f"bgtz {INNER}, {again}",
        ]

    def call(self):
        return [f"{self.any.choice(['call', 'jal'])} f{self.any.randrange(3)}"]

    def table(self):
        """A jump by a table of addresses."""
        ends = [self.label() for _ in range(4)]
        behind = self.label()
        parts = [line for it in ends for line in (f"{it}:", *self.some(2), f"j {behind}")]
        rows = f".section .rodata\n.balign 8\n{behind}t: .dword {', '.join(ends)}\n.text"
        return [
            f"andi t0, {self.register()}, 3",
            "slli t0, t0, 3",
            f"la t1, {behind}t",
            "add t0, t0, t1",
            "ld t0, (t0)",
            "jr t0",
            *parts,
            f"{behind}:",
            rows,
        ]

    def write(self):
        start = self.any.randrange(SIZE // 2)
        return ["li a7, 64", "li a0, 1", f"addi a1, {ROOM}, {start}", f"li a2, {self.any.randrange(1, 40)}", "ecall"]

    def read(self):
        start = self.any.randrange(SIZE // 2)
        return ["li a7, 63", "li a0, 0", f"addi a1, {ROOM}, {start}", f"li a2, {self.any.randrange(1, 20)}", "ecall"]

    @property
    def simple(self):
        return [self.some, self.some, self.access, self.access, self.atomic, self.branch, self.call]

    def piece(self, kinds):
        return self.any.choice(kinds)()

    def function(self, at):
        """A function that keeps `ra` and some registers on the stack, and may call the one before it."""
        kept = self.any.sample(FREE[12:], 2)
        into = [f"sd {it}, {8 * place}(sp)" for place, it in enumerate(["ra", *kept])]
        inside = [
            *self.some(),
            *(self.access() if self.any.random() < 0.5 else []),
            *([f"call f{at - 1}"] if at else []),
        ]
        return [
            f"f{at}: addi sp, sp, -32",
            *into,
            *inside,
            *(it.replace("s", "l", 1) for it in into),
            "addi sp, sp, 32",
            "ret",
        ]

    def ends(self, crash=()):
        """The lines of a program that ends; what it does wrong, if something, stands anywhere in it."""
        kinds = [*self.simple, self.loop, self.loop, self.loop, self.table, self.write, self.read]
        pieces = [self.piece(kinds) for _ in range(self.any.randrange(4, 14))]
        if crash:
            pieces.insert(self.any.randrange(len(pieces) + 1), [*crash])
        start = [f"la {ROOM}, room", *(f"li {it}, {self.any.choice(NUMBERS)}" for it in self.any.sample(FREE, 10))]
        keep = [f"sd {it}, {8 * at}({ROOM})" for at, it in enumerate(FREE)]
        end = [
            *keep,
            "mv s11, a0",
            "li a7, 64",
            "li a0, 1",
            f"mv a1, {ROOM}",
            f"li a2, {SIZE}",
            "ecall",
            "mv a0, s11",
            "li a7, 93",
            "ecall",
        ]
        functions = [line for at in range(3) for line in self.function(at)]
        data = [".data", ".balign 16", f"room: .zero {SIZE}", ".section .rodata", "table: .dword 1, -2, room, _start"]
        option = [".option norvc"] if self.any.random() < 0.3 else []
        inside = [line for piece in pieces for line in piece]
        return [".globl _start", *option, "_start:", *start, *inside, *end, *functions, *data]

    # Any statements

    def operand(self, name, word):
        if word in ("label", "x"):
            return f"l{self.any.randrange(8)}"
        if word in ("before", "after"):
            return self.any.choice(["r", "w", "rw", "iorw"])
        if word == "n":
            return str(
                self.any.randrange(1, 8)
                * (16 if "16sp" in name or "4spn" in name else 8 if "(" in self.forms[name] else 1)
            )
        if word == "number":
            return str(self.any.randrange(64 if "iw" not in name else 32) if name in SHIFTS else self.short())
        if word == "sp":
            return word
        return self.any.choice(["s0", "s1", *NEAR] if name.startswith("c.") else self.registers[:16])

    def statement(self):
        name = self.any.choice(self.statements)
        operands = OPERAND.sub(lambda it: self.operand(name, it[0]), self.forms[name])
        if re.match(r"(lr|sc|amo\w+)\.|[ls][bhwd]u?$", name):
            operands = re.sub(r"-?\d*\(\w+\)", lambda _: f"({self.any.choice(['s0', 's1'])})", operands)
        return f"{name} {operands}"

    def anything(self):
        """The lines of a program of any statements: most end in some access, or are no program."""
        lines = [".globl _start", "_start: la s0, room", "la s1, room + 64"]
        lines += [f"li {self.any.choice(self.registers[5:])}, {self.any.choice(NUMBERS)}" for _ in range(6)]
        for at in range(8):
            lines += [f"l{at}:", *(self.statement() for _ in range(self.any.randrange(1, 6)))]
        lines += ["li a7, 64", "li a0, 1", "la a1, room", "li a2, 128", "ecall", "li a7, 93", "mv a0, s3", "ecall"]
        return [*lines, ".data", "room: .zero 128"]


def program(seed, words):
    """The text of the program of a seed, and its input."""
    writer = Writer(seed, words)
    kind = writer.any.randrange(10)
    if kind < 6:
        lines = writer.ends()
    elif kind < 7:
        lines = writer.ends()
        lines.insert(writer.any.randrange(2, len(lines)), writer.any.choice(FAULTY))
    elif kind < 8:
        lines = writer.ends(writer.any.choice(CRASHES).split("\n"))
    else:
        lines = writer.anything()
    return "\n".join([*lines, ""]), bytes(writer.any.randrange(32, 127) for _ in range(writer.any.randrange(40)))
