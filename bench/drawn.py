"""C that is drawn: functions that calculate with their arguments, with tables and with each other, from a seed.

They are only compiled, never run, so what they calculate says nothing.
"""

import random

HEAD = """typedef unsigned long u64;
__attribute__((noinline)) u64 say(const char *text, u64 value) { return value + text[value & 3]; }
"""
# A table stands before each so many functions.
TABLE_EVERY = 8
OPERATORS = ("+", "-", "*", "&", "|", "^", "<<", ">>", "/", "%")
WORDS = "the value of a table is not what was written there when it began so nothing more can be said about it".split()
LEVELS = ("O0", "O1", "O2", "Os", "O3")
# What the statements of functions are drawn from, by how much of each.
PLAIN = {"assign": 4, "choose": 3, "loop": 1, "call": 2, "store": 1}
OF_KIND = {
    "plain": PLAIN,
    "switches": {**PLAIN, "switch": 6},
    "strings": {**PLAIN, "string": 8},
    "constants": {**PLAIN, "constant": 12},
}


class Functions:
    """Draws functions, each with so many statements of a kind; `levels` are those of GCC, which take turns."""

    def __init__(self, seed, statements, kind="plain", levels=("O2",)):
        self.pick = random.Random(seed)
        self.statements, self.levels = statements, levels
        self.names, self.weights = zip(*OF_KIND[kind].items())
        self.number = 0

    def variable(self):
        return self.pick.choice("abcd")

    def term(self):
        """A variable, a small number, or an element of a table."""
        table = self.pick.randrange(self.number // TABLE_EVERY + 1)
        small = str(self.pick.randrange(1, 3000))
        return self.pick.choice((self.variable(), self.variable(), small, f"table_{table}[{self.variable()} & 3]"))

    def expression(self):
        operator = self.pick.choice(OPERATORS)
        right = {"<<": "7", ">>": "3", "/": "9", "%": "10"}.get(operator) or self.term()
        return f"{self.term()} {operator} {right}"

    def text(self):
        return " ".join(self.pick.choices(WORDS, k=self.pick.randrange(3, 14)))

    def assign(self):
        return f"{self.variable()} = {self.expression()};"

    def choose(self):
        name = self.variable()
        return f"if ({name} < ({self.expression()})) {name} = {self.expression()}; else {self.assign()}"

    def loop(self):
        name = self.variable()
        return f"for (u64 i = 0; i < ({name} & 15); i++) {name} += ({self.expression()}) ^ i;"

    def call(self):
        other = self.pick.randrange(max(self.number - 200, 0), self.number + 1)
        return f"{self.variable()} += f_{other}({self.variable()}, {self.expression()});"

    def store(self):
        return f"table_{self.pick.randrange(self.number // TABLE_EVERY + 1)}[{self.variable()} & 3] = {self.term()};"

    def string(self):
        return f'{self.variable()} += say("{self.text()} {self.number}", {self.variable()});'

    def constant(self):
        return f"{self.variable()} ^= {self.pick.getrandbits(self.pick.choice((24, 32, 40, 48, 64))):#x}ul;"

    def switch(self):
        cases = range(self.pick.randrange(6, 30))
        lines = "".join(f"\n    case {case}: {self.assign()} break;" for case in cases)
        return f"switch ({self.variable()} & 31) {{{lines}\n    }}"

    def function(self):
        """The next function, and before some of them a table."""
        at, level = self.number, self.levels[self.number % len(self.levels)]
        kinds = self.pick.choices(self.names, self.weights, k=self.statements)
        body = "\n    ".join(getattr(self, kind)() for kind in kinds)
        table = f"u64 table_{at // TABLE_EVERY}[4] = {{1, 2, {at + 3}, 4}};\n" if at % TABLE_EVERY == 0 else ""
        self.number += 1
        return (
            f'{table}__attribute__((noinline, optimize("{level}"))) u64 f_{at}(u64 a, u64 b)\n'
            f"{{\n    u64 c = a + {at}, d = b;\n    {body}\n    return a + b + c + d;\n}}\n"
        )

    def program(self, count):
        """A source with so many functions."""
        return HEAD + "".join(self.function() for _ in range(count))
