"""Links C programs for the board virt with picolibc and libgcc, and compares their runs on rv, QEMU and by GNU ld.

usage: compare.py board_programs [COUNT] [--seed N] [--from N] [--only N] [--jobs N] [--keep FOLDER] [--rv RV]

The programs are those of tests/against/picolibc, that of examples/c/library, those of bench/programs, and COUNT drawn
ones (100 unless said; with --from or --only no others). Each of these has some of: printf, sscanf, qsort and sorts of
its own, soft floating point, numbers of 128 bits, setjmp, memmove and its like, strings, tables of functions,
recursion, switches, structures, variable arguments, atomics, variables that point to each other. Each program is
compiled at three levels, with the start and the console of examples/board/picolibc, and linked to 80000000h with libc.a
and libgcc.a in three ways: by `rv ld` of the objects of GNU as, by `rv build` of GCC's assembly, and by GNU ld of the
same objects. What `rv run --board virt` and QEMU make of rv's executables, and QEMU of GNU's, has to be the same
console and the same status.

It needs ./rv, riscv64-unknown-elf-gcc and its binutils, picolibc (Debian: picolibc-riscv64-unknown-elf) and
qemu-system-riscv64. Each difference is a line; the last line is 'N runs agree, M differ'.
"""

import random
import shutil
import tempfile
from concurrent.futures import ThreadPoolExecutor
from pathlib import Path

from against.boards import MACHINE, QEMU
from against.common import GNU, ROOT, completed, need, numbers_of, outcome, random_parser
from against.picolibc import GCC, LIBRARIES, LIBRARY, SOURCES, made

BOARD = ROOT / "examples" / "board" / "picolibc"
BENCH = ROOT / "bench" / "programs"
FLAGS = [*GCC, "-mcmodel=medany", "-fdata-sections", "-fno-ipa-icf"]
LEVELS = ("-O0", "-O2", "-Os")
# The console's end of the input is byte 4.
INPUT = b"first line\nthe second\n\nand some more\nbytes\x04"
# The most that a program executes; most take less than a million.
LIMIT = "400M"
SCRIPT = """SECTIONS { . = 0x80000000; .text : { *start.o(.text) *(.text .text.*) }
.rodata ALIGN(4096) : { *(.rodata .rodata.* .srodata .srodata.*) }
.data ALIGN(4096) : { *(.data .data.*) PROVIDE(__global_pointer$ = . + 0x800); *(.sdata .sdata.*) }
.bss : { *(.sbss .sbss.* .bss .bss.* COMMON) } }
"""
# What bench/programs has of bench.h and examples/c/bare.h, of picolibc.
BENCH_HEAD = """#include <stdio.h>
#include <stdlib.h>
#include <string.h>
typedef unsigned long u64;
typedef long i64;
typedef unsigned u32;
typedef int i32;
typedef unsigned char u8;
static inline u64 get(void *bytes, u64 count) { return fread(bytes, 1, count, stdin); }
static inline u64 put(const void *bytes, u64 count) { return fwrite(bytes, 1, count, stdout); }
__attribute__((unused)) static void text(const char *line) { printf("%s", line); }
__attribute__((unused)) static void number(i64 value) { printf("%ld", value); }
static int round_is_right(void);
int main(void)
{
    int is_right = round_is_right();
    printf("%d\\n", is_right);
    return !is_right;
}
"""
HEAD = """#include <ctype.h>
#include <math.h>
#include <setjmp.h>
#include <stdarg.h>
#include <stdint.h>
#include <stdio.h>
#include <stdlib.h>
#include <string.h>
typedef uint64_t u64;
typedef __int128 i128;
typedef unsigned __int128 u128;
static volatile u64 state = SEED;
static u64 sum = SEED;
/* The next number of a generator. */
static u64 next(void) { return state = state * 6364136223846793005 + 1442695040888963407; }
static void add(u64 value) { sum = (sum ^ value) * 1099511628211; }
static u64 bits(double value) { u64 of; memcpy(&of, &value, 8); return value != value ? 1 : of; }
"""
SINGLES = ("sqrt", "fabs", "floor", "ceil", "trunc", "sin", "cos", "atan")
WORDS = "one two three four five six seven eight nine ten and more of them".split()


class Program:
    """Draws a program of some parts, each a function that prints what it comes to; `@` begins the names of a part."""

    def __init__(self, seed):
        self.pick = random.Random(seed)
        self.seed = seed

    def number(self, width=64):
        return f"{self.pick.getrandbits(self.pick.randrange(1, width + 1)):#x}ull"

    def double(self):
        return repr(self.pick.choice((-1, 1)) * self.pick.random() * 10 ** self.pick.randrange(-30, 30))

    def text(self):
        return " ".join(self.pick.choices(WORDS, k=self.pick.randrange(1, 9)))

    def expression(self, names, operators, term, depth):
        """An expression of these names, operators and constants."""
        if depth == 0:
            return self.pick.choice([*names, term()])
        left, right = (self.expression(names, operators, term, depth - 1) for _ in range(2))
        return self.pick.choice(operators).format(left, right)

    def formats(self):
        """printf of numbers, texts and floating point in drawn formats."""
        lines = []
        for _ in range(self.pick.randrange(3, 12)):
            flags = "".join(sorted(set(self.pick.choices("-0+ #", k=self.pick.randrange(3)))))
            width, exact = self.pick.choice(["", self.pick.randrange(30)]), self.pick.randrange(12)
            kind = self.pick.choice(["lx", "lu", "ld", "d", "x", "o", "hhd", "hu", "c", "s", "f", "e", "g", "a"])
            plain = flags.replace("#", "").replace("0", "") if kind in "cs" else flags
            dotted = "" if kind in "ca" or self.pick.random() < 0.5 else f".{exact}"
            if kind == "s":
                value = f'"{self.text()}"'
            elif kind in "fega":
                value = f"(volatile double){{{self.double()}}}"
            elif kind == "c":
                value = str(self.pick.randrange(33, 127))
            else:
                value = ("(u64)" if kind[0] == "l" else "(int)") + f"(next() >> {self.pick.randrange(63)})"
            lines.append(f'add(printf("%{plain}{width}{dotted}{kind}|\\n", {value}));')
        return "", lines

    def scans(self):
        """sscanf of what was drawn."""
        lines = ["long a = 0; double d = 0; char word[40] = {0}; int n;"]
        for _ in range(self.pick.randrange(2, 6)):
            given = f"{self.double()} {self.pick.randrange(-(1 << 40), 1 << 40)} {self.pick.choice(WORDS)}"
            lines.append(f'n = sscanf("{given}", "%lf %ld %{self.pick.randrange(1, 39)}s", &d, &a, word);')
            lines.append('add(bits(d) + a); printf("%d %ld %s %.9g\\n", n, a, word, d);')
        return "", lines

    def sorts(self):
        """qsort and bsearch of structures by a drawn key."""
        kind = self.pick.choice(["char", "short", "int", "long", "u64", "double", "float"])
        before, after = self.pick.randrange(1, 20), self.pick.randrange(1, 20)
        count = self.pick.randrange(2, 300)
        head = f"""struct @item {{ char before[{before}]; {kind} key; char after[{after}]; }};
static struct @item @items[{count}];
static int @by_key(const void *left, const void *right)
{{
    {kind} a = ((const struct @item *)left)->key, b = ((const struct @item *)right)->key;
    return (a {self.pick.choice("<>")} b) * 2 - (a != b);
}}
"""
        return head, [
            f"for (int i = 0; i < {count}; i++) {{ @items[i].key = next() >> {self.pick.randrange(30, 63)}; }}",
            f"qsort(@items, {count}, sizeof *@items, @by_key);",
            f"for (int i = 0; i < {count}; i++) add((u64)(long)@items[i].key);",
            f"struct @item *found = bsearch(&@items[{count // 2}], @items, {count}, sizeof *@items, @by_key);",
            f'printf("%d\\n", found && found->key == @items[{count // 2}].key);',
        ]

    def own_sort(self):
        """A shell sort, a heap sort or a merge sort of a drawn type."""
        kind = self.pick.choice(["int", "long", "unsigned char", "short", "double"])
        count, gap = self.pick.randrange(10, 200), self.pick.choice([2, 3])
        head = f"static {kind} @items[{count}], @spare[{count}];\n"
        shell = f"""static void @sort(int from, int to)
{{
    for (int gap = (to - from) / {gap} + 1; gap; gap = gap == 1 ? 0 : gap / {gap} + (gap < {gap}))
        for (int i = from + gap; i < to; i++) {{
            {kind} item = @items[i];
            int j = i;
            for (; j >= from + gap && @items[j - gap] > item; j -= gap)
                @items[j] = @items[j - gap];
            @items[j] = item;
        }}
}}
"""
        merge = f"""static void @sort(int from, int to)
{{
    if (to - from < {gap})
        return;
    int half = from + (to - from) / 2, a = from, b = half;
    @sort(from, half);
    @sort(half, to);
    for (int i = from; i < to; i++)
        @spare[i] = a < half && (b == to || @items[a] <= @items[b]) ? @items[a++] : @items[b++];
    memcpy(@items + from, @spare + from, (to - from) * sizeof *@items);
}}
"""
        head += shell if self.pick.random() < 0.5 else merge
        return head, [
            f"for (int i = 0; i < {count}; i++) @items[i] = ({kind})(next() >> 40), @spare[i] = 0;",
            f"@sort(0, {count});",
            f"for (int i = 0; i < {count}; i++) add((u64)(long)@items[i] + i);",
        ]

    def floats(self):
        """Soft floating point of both widths, with the functions of libm that keep nothing for each thread."""
        operators = ["({} + {})", "({} - {})", "({} * {})", "({} / {})", "fmax({}, {})", "({} < {} ? 1.5 : -2.25)"]
        operators += [f"{name}({{}} + 0 * {{}})" for name in self.pick.sample(SINGLES, 3)]
        lines = [f"volatile double x = {self.double()}, y = {self.double()}; volatile float z = {self.double()[:6]};"]
        for _ in range(self.pick.randrange(3, 9)):
            name = self.pick.choice("xyz")
            lines.append(f"{name} = {self.expression('xyz', operators, self.double, 2)};")
            lines.append(f'add(bits({name})); printf("%.17g %d\\n", (double){name}, (int)fmod({name}, 1000));')
        lines.append('printf("%ld %lu %d\\n", (long)(x * 1e-30), (u64)fabs(y * 1e-30), (int)(z * 1e-30f));')
        return "", lines

    def wide(self):
        """Numbers of 128 bits."""
        kind = self.pick.choice(["i128", "u128"])
        operators = ["({} + {})", "({} - {})", "({} * {})", "({} ^ {})", "({} / ({} | 1))", "({} % ({} | 1))"]
        operators += ["({} >> (int)({} & 127))", f"({kind})((u128){{}} << (int)({{}} & 127))", "({} < {})"]
        lines = [f"volatile {kind} a = next(), b = ({kind})next() << {self.pick.randrange(64)};"]
        for _ in range(self.pick.randrange(2, 8)):
            lines.append(f"{self.pick.choice('ab')} = {self.expression('ab', operators, self.number, 2)};")
        lines.append('printf("%lx %lx\\n", (u64)(a >> 64), (u64)a); add((u64)(b >> 64) + (u64)b);')
        lines.append('printf("%.17g %lx\\n", (double)a, (u64)(u128)fabs((double)b / 16));')
        return "", lines

    def jumps(self):
        """longjmp out of a drawn depth."""
        depth, code = self.pick.randrange(1, 40), self.pick.randrange(1, 99)
        head = f"""static jmp_buf @back;
__attribute__((noinline)) static int @deep(int left, double kept)
{{
    if (left == 0)
        longjmp(@back, {code});
    return @deep(left - 1, kept + left) + (int)kept;
}}
"""
        return head, [
            "volatile int times = 0;",
            "int code = setjmp(@back);",
            f"if (times++ < 3) @deep({depth} * times, 0.5);",
            'printf("%d after %d\\n", code, times);',
        ]

    def copies(self):
        """memcpy, memmove, memset, memcmp and memchr at drawn places."""
        lines = ["unsigned char a[300], b[300];", "for (int i = 0; i < 300; i++) a[i] = next() >> 56, b[i] = i;"]
        for _ in range(self.pick.randrange(3, 14)):
            size = self.pick.choice([self.pick.randrange(20), self.pick.randrange(150)])
            one, other = self.pick.randrange(150), self.pick.randrange(150)
            lines.append(
                self.pick.choice(
                    [
                        f"memcpy(a + {one}, b + {other}, {size});",
                        f"memmove(a + {one}, a + {other}, {size});",
                        f"memset(b + {one}, {self.pick.randrange(256)}, {size});",
                        f"add(memcmp(a + {one}, b + {other}, {size}) < 0);",
                        f"add((unsigned char *)memchr(a, a[{one}], 300) - a);",
                        f"volatile int n{len(lines)} = {size}; memmove(b + {one}, b + {other}, n{len(lines)});",
                    ]
                )
            )
        return "", [*lines, "for (int i = 0; i < 300; i++) add(a[i] << 8 | b[i]);"]

    def strings(self):
        """Functions of string.h and ctype.h."""
        one, other, key = self.text(), self.text(), self.pick.choice(WORDS)
        size = self.pick.randrange(1, 40)
        return "", [
            f'char a[200] = "{one}", b[200]; char *rest;',
            f'strcpy(b, "{other}"); strncat(a, b, {size}); puts(a);',
            f'printf("%d %d\\n", strcmp(a, b) < 0, strncmp(a, b, {size}) > 0);',
            f'char *found = strstr(a, "{key}"); printf("%ld\\n", found ? (long)(found - a) : -1);',
            f'printf("%zu %zu %zu\\n", strlen(b), strspn(a, "{self.text()}"), strcspn(b, "{key[0]}"));',
            "for (char *at = a; *at; at++) *at = (at - a) % 3 ? tolower(*at) : toupper(*at);",
            f'for (char *at = strtok_r(b, "{key[-1]} ", &rest); at; at = strtok_r(NULL, " ", &rest)) puts(at);',
            f'snprintf(b, {size}, "%s-%s", a, "{key}"); puts(b);',
        ]

    def tables(self):
        """A table of functions that a table of bytes drives."""
        count = self.pick.randrange(3, 20)
        operators = ["({} + {})", "({} * {})", "({} ^ {})", "({} - {})", "({} / ({} | 1))", "({} >> ({} & 63))"]
        head = "".join(
            f"static u64 @do_{i}(u64 a, u64 b) {{ return {self.expression('ab', operators, self.number, 2)}; }}\n"
            for i in range(count)
        )
        head += f"static u64 (*const @table[])(u64, u64) = {{{', '.join(f'@do_{i}' for i in range(count))}}};\n"
        codes = ", ".join(str(self.pick.randrange(count)) for _ in range(self.pick.randrange(5, 60)))
        head += f"static const unsigned char @codes[] = {{{codes}}};\n"
        loop = "for (unsigned i = 0; i < sizeof @codes; i++) a = @table[@codes[i]](a, i);"
        return head, ["u64 a = next();", loop, "add(a);"]

    def recursion(self):
        """Two functions that call one another."""
        fan, depth, small = self.pick.randrange(1, 4), self.pick.randrange(3, 8), self.number(20)
        head = f"""static u64 @odd(int depth, u64 value);
static u64 @even(int depth, u64 value)
{{
    u64 of = value * {small} + depth;
    for (int i = 0; i < {fan} && depth > 0; i++)
        of += @odd(depth - 1, of ^ i);
    return of;
}}
static u64 @odd(int depth, u64 value)
{{
    return depth > 0 ? @even(depth - 1, value - depth) {self.pick.choice("+-^")}
        @even(depth - {self.pick.randrange(1, 3)}, value) : value;
}}
"""
        return head, [f"add(@even({depth}, next()));"]

    def switches(self):
        """A dense and a sparse switch."""
        numbers = range(self.pick.randrange(4, 30))
        dense = "".join(f" case {i}: a {self.pick.choice('+-^*')}= {self.number(20)}; break;" for i in numbers)
        numbers = set(self.pick.choices(range(1000), k=self.pick.randrange(2, 12)))
        sparse = "".join(f" case {i}: a ^= {self.number(50)}; break;" for i in numbers)
        return "", [
            "u64 a = 1;",
            f"for (int i = 0; i < {self.pick.randrange(10, 200)}; i++) {{ int of = next() >> 59;",
            f"switch (of) {{{dense} default: a++; }}",
            f"switch (of * 31) {{{sparse} default: a += 3; }}",
            "}",
            "add(a);",
        ]

    def structures(self):
        """Structures by value, with bit fields, and a union."""
        widths = [self.pick.randrange(1, 32) for _ in range(self.pick.randrange(2, 7))]
        fields = " ".join(f"{self.pick.choice(['int', 'unsigned'])} f{i} : {width};" for i, width in enumerate(widths))
        size = self.pick.randrange(1, 40)
        head = f"""struct @fields {{ {fields} char more[{size}]; }};
union @both {{ double d; u64 u; unsigned char bytes[8]; }};
__attribute__((noinline)) static struct @fields @changed(struct @fields it, int by)
{{
    {" ".join(f"it.f{i} += by * {self.pick.randrange(1, 99)};" for i in range(len(widths)))}
    it.more[by % {size}] = by;
    return it;
}}
"""
        shown = " + ".join(f"it.f{i}" for i in range(len(widths)))
        return head, [
            "struct @fields it = {0};",
            f"for (int i = 0; i < 50; i++) {{ it = @changed(it, next() >> 40); add({shown}); }}",
            "union @both both; both.u = next() >> 12 | 0x3ff0000000000000;",
            f"for (int i = 0; i < {size}; i++) add(it.more[i]);",
            'printf("%.17g %d\\n", both.d, both.bytes[3]);',
        ]

    def arguments(self):
        """Variable arguments of drawn types."""
        kinds = self.pick.choices(["int", "long", "double", "char *"], k=self.pick.randrange(2, 14))
        given = {"int": "(int)next()", "long": "(long)next()", "double": "1.0 / (next() >> 50 | 1)"}
        given["char *"] = f'"{self.text()}"'
        taken = {"double": "bits(va_arg(list, double))", "char *": "strlen(va_arg(list, char *))"}
        reads = " ".join(f"add({taken.get(kind) or f'va_arg(list, {kind})'});" for kind in kinds)
        head = f"""__attribute__((noinline)) static void @take(int first, ...)
{{
    va_list list;
    va_start(list, first);
    {reads}
    va_end(list);
}}
"""
        # each in a variable, since C does not say in which order arguments are made
        held = [f"{kind} v{i} = {given[kind]};" for i, kind in enumerate(kinds)]
        return head, [*held, f"@take(1, {', '.join(f'v{i}' for i in range(len(kinds)))});"]

    def atomics(self):
        """Atomic operations of both widths."""
        kind = self.pick.choice(["int", "unsigned", "long", "u64"])
        lines = [f"static {kind} of = 5; {kind} was = 5;"]
        for _ in range(self.pick.randrange(3, 10)):
            name = self.pick.choice(["add", "sub", "and", "or", "xor"])
            order = self.pick.choice(["__ATOMIC_RELAXED", "__ATOMIC_SEQ_CST", "__ATOMIC_ACQ_REL"])
            lines.append(f"add(__atomic_fetch_{name}(&of, ({kind})next(), {order}));")
            expected = f"was + {self.pick.randrange(2)}"
            lines.append(f"was = of; add(__sync_bool_compare_and_swap(&of, {expected}, ({kind})next()));")
            lines.append(f"add(__atomic_exchange_n(&of, ({kind})next(), {order}));")
        return "", [*lines, "add(of);"]

    def places(self):
        """Variables of many kinds that point to each other, aligned and weak ones."""
        count = self.pick.randrange(3, 30)
        head = f"struct @node {{ struct @node *next; {self.pick.choice(['char', 'short', 'long'])} value; }};\n"
        aligned = f"__attribute__((aligned({1 << self.pick.randrange(4, 11)})))"
        head += f"static struct @node @nodes[{count}] {aligned} = {{\n"
        for _ in range(count):
            head += f"    {{&@nodes[{self.pick.randrange(count)}], {self.pick.randrange(100)}}},\n"
        head += "};\n"
        head += f'__attribute__((weak)) const char *const @names[] = {{"{self.text()}", "{self.text()}"}};\n'
        head += f"__attribute__((weak, noinline)) int @chosen(void) {{ return {self.pick.randrange(99)}; }}\n"
        head += f"static char @large[{self.pick.randrange(1, 5000)}];\n"
        return head, [
            "struct @node *at = @nodes;",
            f"for (int i = 0; i < {self.pick.randrange(2, 90)}; i++)",
            "    at = at->next, at->value++, add(at - @nodes);",
            "@large[sizeof @large - 1] = at->value; add(@large[sizeof @large / 2]);",
            'printf("%s %d\\n", @names[at->value & 1], @chosen());',
        ]

    def source(self):
        kinds = "formats scans sorts own_sort floats wide jumps copies strings tables recursion switches".split()
        kinds += ["structures", "arguments", "atomics", "places"]
        heads, bodies, calls = [f"#define SEED {self.seed}ull\n", HEAD], [], []
        for kind in self.pick.sample(kinds, self.pick.randrange(1, 6)):
            head, lines = getattr(self, kind)()
            body = "".join(f"    {line}\n" for line in lines)
            part = f"{head}static void @part(void)\n{{\n{body}}}\n"
            bodies.append(part.replace("@", f"{kind}_"))
            calls.append(f'    {kind}_part();\n    printf("{kind} %016lx\\n", sum);\n')
        return "".join([*heads, *bodies, "int main(void)\n{\n", *calls, "    return sum & 255;\n}\n"])


def programs(options):
    """The name of each program and its source."""
    if options.only is None and options.first == 0:
        for path in (LIBRARY / "program.c", *sorted(SOURCES.glob("*.c"))):
            yield path.stem, path.read_text()
        for path in sorted(BENCH.glob("*.c")):
            yield f"bench {path.stem}", path.read_text().replace('#include "bench.h"', BENCH_HEAD)
    for seed in numbers_of(options):
        yield f"drawn {seed}", Program((options.seed << 32) + seed).source()


def sources(folder, text, level):
    """GCC's assembly of a program, behind that of its start and before that of its console."""
    (folder / "program.c").write_text(text)
    yield BOARD / "start.s"
    for source in (folder / "program.c", BOARD / "console.c"):
        to = folder / f"{source.stem}.s"
        made([*FLAGS, "-w", level, "-S", "-o", to, source])
        yield to


def objects(folder, assembly):
    """The objects that GNU as makes of them."""
    for source in assembly:
        to = folder / f"{source.stem}.o"
        made([*FLAGS, "-c", "-o", to, source])
        yield to


def links(rv, folder, assembly, held):
    """What links a program, by the name of what is made: both of rv's, and GNU's."""
    group = ["--start-group", *(word for it in held for word in ("--library", it)), "--end-group"]
    files = [*objects(folder, assembly)]
    gnu = [f"{GNU}ld", "--no-warn-rwx-segments", "-T", folder / "script", *files, "--start-group", *held, "--end-group"]
    yield "rv ld", [rv, "ld", "--origin", "0x80000000", *files, *group]
    yield "rv build", [rv, "build", "--origin", "0x80000000", *assembly, *group]
    yield "GNU ld", gnu


def end(words, exe):
    """The status of a run, and what it wrote."""
    return outcome(completed([*words, exe], input=INPUT))


def compared(rv, folder, text, level, held):
    """What is to be the same of a program at a level: what was run, and its outcome or why it was not linked."""
    (folder / "script").write_text(SCRIPT)
    for name, words in links(rv, folder, [*sources(folder, text, level)], held):
        exe = folder / name.replace(" ", "_")
        link = completed([*words, "-o", exe])
        if link is None or link.returncode:
            yield name, link and link.stderr.decode().strip()
            continue
        yield f"{name}, by QEMU", end([QEMU, *MACHINE], exe)
        if name != "GNU ld":
            yield f"{name}, by rv", end([rv, "run", "--board", "virt", "--limit", LIMIT], exe)


def differences(options, held, name, text):
    """How many runs of a program agree with those by QEMU of what GNU ld linked, and a line for each that does not."""
    agreeing, wrong = 0, []
    for level in LEVELS:
        with tempfile.TemporaryDirectory() as made_in:
            runs = dict(compared(options.rv, Path(made_in), text, level, held))
            wanted = runs.pop("GNU ld, by QEMU", None)
            if not isinstance(wanted, tuple):
                wrong.append(f"{name} {level}: GNU ld and QEMU: {runs.pop('GNU ld', wanted)}")
            bad = [run for run, came in runs.items() if came != wanted or not isinstance(came, tuple)]
            agreeing += len(runs) - len(bad)
            wrong += [f"{name} {level}, {run}: {runs[run]}, wanted {wanted}" for run in bad]
            if bad and options.keep:
                shutil.copytree(made_in, options.keep / f"{name}{level}".replace(" ", "_"))
    return agreeing, wrong


def main():
    words = random_parser(__doc__, 100)
    words.add_argument("--keep", type=Path, metavar="FOLDER")
    options = words.parse_args()
    options.rv = options.rv.resolve()
    need(options.rv, QEMU, *(f"{GNU}{tool}" for tool in ("gcc", "ld")))
    held = [LIBRARIES / "libc.a", Path(made([*GCC, "-print-libgcc-file-name"]))]
    agreeing, differing = 0, 0
    with ThreadPoolExecutor(options.jobs) as pool:
        for agree, wrong in pool.map(lambda it: differences(options, held, *it), programs(options)):
            agreeing, differing = agreeing + agree, differing + len(wrong)
            for line in wrong:
                print(line, flush=True)
    print(f"{agreeing} runs agree, {differing} differ")
    return int(differing > 0)
