"""Draws C programs, and shows the warnings of `rv check` for GCC's assembly of them: none is to be a mistake of GCC.

usage: compare.py warned [COUNT] [--csmith] [--first N] [--jobs N]

It takes 500 programs unless told otherwise: functions with many parameters, with frames of any size and none, that call
one another, themselves, by pointers and at their end, that do not return, with switches, loops, strings, packed fields,
arrays on the stack whose size is not known, and calls of the environment. Program N, from --first on, is the same in
each run, and GCC writes it in one of eight ways in turn. With --csmith the programs are csmith's. Those of examples/c
come first. Warnings of unused labels and of code that nothing leads to are not counted: GCC writes both. The last line
is 'N programs, M warnings'.
"""

import argparse
import json
import random
import tempfile
from concurrent.futures import ThreadPoolExecutor
from pathlib import Path

from against.common import FLAGS, GNU, ROOT, RV, SECONDS, assemblies, completed, draw, need, succeeds

WAYS = [
    "-O0 -fdata-sections",
    "-O1",
    "-O2",
    "-Os",
    "-O3 -funroll-loops",
    "-O2 -fno-omit-frame-pointer",
    "-O2 -fno-shrink-wrap -fno-reorder-blocks",
    "-O2 -mcmodel=medany -fno-inline -falign-functions=16",
]
WRITTEN_BY_GCC = ("nothing in this source refers to", "nothing leads here")
TYPES = ["int", "long", "short", "char", "unsigned", "unsigned long", "unsigned char", "unsigned short"]

START = """
static long call(long number, long a, long b, long c)
{
    register long a7 asm("a7") = number;
    register long a0 asm("a0") = a;
    register long a1 asm("a1") = b;
    register long a2 asm("a2") = c;
    asm volatile("ecall" : "+r"(a0) : "r"(a7), "r"(a1), "r"(a2) : "memory");
    return a0;
}
__attribute__((noreturn)) void leave(long status)
{
    call(93, status, 0, 0);
    for (;;)
        ;
}
void *memcpy(void *to, const void *from, unsigned long n)
{
    volatile char *t = to;
    const char *f = from;
    while (n--)
        *t++ = *f++;
    return to;
}
void *memset(void *to, int c, unsigned long n)
{
    volatile char *t = to;
    while (n--)
        *t++ = c;
    return to;
}
int memcmp(const void *a, const void *b, unsigned long n)
{
    const volatile unsigned char *x = a, *y = b;
    for (; n--; x++, y++)
        if (*x != *y)
            return *x - *y;
    return 0;
}
struct packed { char c; int i; long l; short s; } __attribute__((packed));
struct plain { char c; int i; long l; short s; struct plain *next; };
static struct packed packed_one = {1, 2, 3, 4};
static struct plain plain_one = {5, 6, 7, 8, &plain_one};
static const char *const words[] = {"alpha", "beta", "gamma", "delta"};
static volatile long sink;
"""


def expression(pick, names, depth=0):
    """An expression over these names."""
    if depth > 2 or pick.random() < 0.3:
        return pick.choice([*names, str(pick.randint(-4000, 4000)), str(pick.randint(0, 9)), "sink"])
    a, b = (expression(pick, names, depth + 1) for _ in range(2))
    operator = pick.choice(["+", "-", "*", "&", "|", "^", "<", "==", ">", "/", "%", "<<", ">>"])
    if operator in "/%":
        return f"({a} {operator} ({b} | 1))"
    if operator in ("<<", ">>"):
        return f"((long)({a}) {operator} (({b}) & 31))"
    return f"({a} {operator} {b})"


def statement(pick, names, callees, depth=0):
    """A statement over these names that calls these functions."""
    value = expression(pick, names)
    kind = pick.randint(0, 13)
    if kind <= 2 or depth > 2:
        return f"{pick.choice(names)} = {value};"
    inner = " ".join(statement(pick, names, callees, depth + 1) for _ in range(pick.randint(1, 3)))
    if kind == 3:
        return f"if ({value}) {{ {inner} }}"
    if kind == 4:
        return f"for (int i{depth} = 0; i{depth} < ({value} & 15); i{depth}++) {{ {inner} }}"
    if kind == 5:
        cases = "".join(
            f"case {n}: {statement(pick, names, callees, depth + 1)} break; " for n in range(pick.randint(2, 9))
        )
        return f"switch ({value} & 15) {{ {cases} default: {inner} }}"
    if kind == 6 and callees:
        callee, count = pick.choice(callees)
        given = ", ".join(expression(pick, names) for _ in range(count))
        return f"{pick.choice(names)} += {callee}({given});"
    if kind == 7:
        size = pick.choice([3, 8, 40, 700, 5000])
        return f"{{ volatile char a[{size}]; a[{size} - 1] = {value}; {pick.choice(names)} += a[{size} - 1]; }}"
    if kind == 8:
        return f"{{ volatile char b[({value} & 63) + 1]; b[0] = {value}; sink += b[0]; }}"
    if kind == 9:
        field = pick.choice("cils")
        record = pick.choice(["packed_one", "plain_one"])
        return f"{record}.{field} += {value}; {pick.choice(names)} ^= {record}.{field};"
    if kind == 10:
        return f"for (const char *p = words[{value} & 3]; *p; p++) {pick.choice(names)} += *p;"
    if kind == 11:
        return f"if (({value}) == 987654) leave({pick.choice(names)});"
    if kind == 12:
        return f"do {{ {inner} if (sink & 1) break; }} while (sink++ < 3);"
    return f"sink = {value}; if (sink == 12345) __builtin_trap();"


def function(pick, number, callees):
    """A function, and how many parameters it has."""
    count = pick.choice([0, 1, 1, 2, 2, 3, 5, 9, 11])
    parameters = [f"{pick.choice(TYPES)} p{n}" for n in range(count)]
    names = [*(f"p{n}" for n in range(count)), "v", "w"]
    body = "\n    ".join(statement(pick, names, callees) for _ in range(pick.randint(1, 7)))
    before = pick.choice(["", "", "static ", "static __attribute__((noinline)) ", "__attribute__((noinline)) "])
    result = expression(pick, names)
    if callees and pick.random() < 0.3:
        callee, wanted = pick.choice(callees)
        result = f"{callee}({', '.join(expression(pick, names) for _ in range(wanted))})"
    again = f"if (sink++ < 5) v += f{number}({', '.join(['v'] * count)});" if pick.random() < 0.2 else ""
    text = f"{before}{pick.choice(TYPES)} f{number}({', '.join(parameters) or 'void'})\n{{\n    long v = 1, w = 2;"
    return f"{text}\n    {body}\n    {again}\n    return {result};\n}}\n", count


def program(seed):
    """The C program of a number."""
    pick = random.Random(seed)
    callees, texts = [], [START]
    for number in range(pick.randint(2, 9)):
        text, count = function(pick, number, callees)
        texts.append(text)
        callees.append((f"f{number}", count))
    one = [name for name, count in callees if count == 0]
    if one:
        texts.append(f"long (*volatile pointer)(void) = (long (*)(void)){one[0]};\n")
    calls = "".join(f"    s += {name}({', '.join(str(n) for n in range(count))});\n" for name, count in callees)
    through = "    s += pointer();\n" if one else ""
    text = '    call(64, 1, (long)"done\\n", 5);\n' if pick.random() < 0.5 else ""
    texts.append(f"int main(void)\n{{\n    long s = 0;\n{calls}{through}{text}    return s & 127;\n}}\n")
    texts.append("void _start(void)\n{\n    leave(main());\n}\n")
    return "".join(texts)


def warnings(sources):
    """The warnings for sources, but those of what GCC writes; the first fault where there is one."""
    check = completed([RV, "check", "--format=json", *sources])
    if check is None:
        return ["no answer"]
    found = [json.loads(line) for line in check.stdout.splitlines() if line.startswith(b"{")]
    faults = [one for one in found if one["severity"] == "error"]
    if faults:
        return [f"refused {faults[0]['code']}"]
    told = [one for one in found if not one["message"].startswith(WRITTEN_BY_GCC)]
    return [f"{Path(one['file']).name}:{one['line']}: {one['message']}" for one in told]


def of_drawn(seed, by_csmith):
    """The warnings for the program of a number."""
    way = WAYS[seed % len(WAYS)]
    with tempfile.TemporaryDirectory() as name:
        folder = Path(name)
        if by_csmith:
            sources = assemblies(folder, way, seed % 2 == 1) if draw(folder, seed) else None
        else:
            (folder / "program.c").write_text(program(seed))
            gcc = [f"{GNU}gcc", *FLAGS, *way.split(), "-S", "-o", folder / "program.s", folder / "program.c"]
            sources = [folder / "program.s"] if succeeds(gcc, seconds=10 * SECONDS) else None
        found = warnings(sources) if sources else ["not made by GCC"]
    return [f"{seed} {way}: {line}" for line in found]


def show(lines):
    """Prints these lines at once."""
    for line in lines:
        print(line, flush=True)
    return lines


def of_example(source):
    """The warnings for an example, at each level."""
    lines = []
    for way in WAYS:
        with tempfile.TemporaryDirectory() as name:
            path = Path(name) / "program.s"
            if succeeds([f"{GNU}gcc", *FLAGS, *way.split(), "-S", "-o", path, source]):
                lines += [f"{source.name} {way}: {line}" for line in warnings([path])]
    return lines


def main():
    words = argparse.ArgumentParser(description=__doc__.split("\n")[0])
    words.add_argument("count", type=int, nargs="?", default=500, metavar="COUNT")
    words.add_argument("--csmith", action="store_true")
    words.add_argument("--first", type=int, default=1, metavar="N")
    words.add_argument("--jobs", type=int, default=2, metavar="N")
    options = words.parse_args()
    need(RV, f"{GNU}gcc", *(["csmith"] if options.csmith else []))
    lines = []
    for source in sorted((ROOT / "examples" / "c").glob("*.c")):
        lines += show(of_example(source))
    seeds = range(options.first, options.first + options.count)
    with ThreadPoolExecutor(options.jobs) as lanes:
        for found in lanes.map(lambda seed: of_drawn(seed, options.csmith), seeds):
            lines += show(found)
    refused = sum(": refused " in line or line.endswith("not made by GCC") for line in lines)
    print(f"{options.count} programs, {len(lines) - refused} warnings, {refused} not built")
    return len(lines) > refused
