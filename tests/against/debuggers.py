"""Compares what GNU's and LLVM's tools read in executables of `rv build -g` with their maps.

usage: compare.py debuggers [SOURCE ..]

Of each source, by default those of examples/ and of the cases of tests/run, of a program of two sources and one
without code; and of a program of C, by GCC at four levels, the types and the sizes alone. And the symbols of objects
that GCC made of two sources of C, with and without relaxation, in sections of their own or not, linked with and
without collection, in both orders and from an archive: names, types, sizes and whether they are local:

  nm         each global has the map's address; the local symbols that are no constants have the names, and those of
             code the source and line, that they have in the executable of GNU as and ld
  readelf    the decoded lines are the map's rows of code, and those of `rv ld -g` of objects of `rv as -g`; symbols
             of both have the types and the sizes that they have in the executable of GNU as and ld
  addr2line  each row of code has its source and line
  dwarfdump  `llvm-dwarfdump --verify` finds nothing wrong
  objdump    -dl shows the lines that it shows of GNU as and ld, in the same order
  objcopy    after `strip -g` and `objcopy` the image is the same, and so is that of `objcopy -O binary`
  gdb        `break FILE:LINE` stands at the address of the line's first row, `info line` says that its code starts
             there, and `list` shows the line

Needs the binutils of riscv64-unknown-elf, llvm-dwarfdump and gdb-multiarch. A line for each that differs; the last line
is 'differs=0' where none does, and only then the status is 0.
"""

import re
import subprocess
import sys
import tempfile
from pathlib import Path

from against.common import GNU, ROOT, RV, need
from run import cases

TOOLS = [f"{GNU}{it}" for it in ("gcc", "nm", "readelf", "addr2line", "objdump", "objcopy", "strip", "as", "ld", "ar")]
# Two sources whose sections of text interleave, and one of data alone.
FIRST = b""".globl _start
_start: li a0, 3
    call square
    call more
    li a7, 93
    ecall
.section .text.b, "ax"
more: addi a0, a0, 1
    ret
"""
SECOND = b""".globl square
square:
    mul a0, a0, a0
    ret
.section .text.b, "ax"
last: nop
.data
word: .word 1
"""
THIRD = b".data\n.globl other\nother: .dword square\n"
# A program with calls, a function that is cut in two, variables and constants.
PROGRAM = b"""extern void stop(int) __attribute__((noreturn, cold));
static const char letters[11] = "0123456789";
unsigned long totals[4];
static unsigned count = 3;
__attribute__((noinline)) static unsigned long mixed(unsigned long n, unsigned long k) {
    if (n > 90) stop(n);
    for (unsigned long i = 0; i < n; i++) k += (k ^ i) + letters[i % 10];
    return k;
}
__attribute__((noinline)) unsigned long twice(unsigned long n) { return mixed(n, count) + mixed(n + 1, 2); }
void stop(int n) { for (;;) totals[0] += n; }
int main(void) {
    for (int k = 0; k < 4; k++) totals[k] = twice(k);
    return totals[3] & 63;
}
"""
START = b""".option norvc
.globl _start
.type _start, @function
_start: call main
    li a7, 93
    ecall
.size _start, . - _start
"""
LEVELS = ("-O0", "-O1", "-O2", "-Os")
# Two sources of C whose objects are linked: static functions and data, weak ones, and some that nothing needs.
OBJECTS = {
    "start": START.replace(b".option norvc\n", b""),
    "first": PROGRAM.replace(b"= twice(k);", b"= twice(hook(k));").replace(
        b"int main",
        b"__attribute__((weak)) int hook(int x) { return x; }\nint unused(int x) { return 2 * x; }\nint main",
    ),
    "second": b"""static int state = 4, never[7];
static int step(int x) { return x * state; }
int (*volatile chosen)(int) = step;
int *spare(void) { return never; }
int hook(int x) { state++; return chosen(x); }
""",
}
# What each linker defines itself.
LINKERS = re.compile(r"_?(etext|edata|end)|__bss_start|__global_pointer\$|__(SDATA|DATA)_BEGIN__|__BSS_END__")


def compiled(level):
    """What GCC makes of the program of C, without compressed code, of which GNU as has more."""
    words = [f"{GNU}gcc", level, "-march=rv64ima", "-mabi=lp64", "-mcmodel=medany", "-S", "-x", "c", "-o", "-", "-"]
    return b".option norvc\n" + subprocess.run(words, input=PROGRAM, stdout=subprocess.PIPE, check=True).stdout


def output(folder, *words):
    """What a tool writes; it has to do its work."""
    done = subprocess.run(list(map(str, words)), cwd=folder, capture_output=True, text=True, check=False)
    if done.returncode:
        raise ValueError(f"{words[0]}: {done.stderr.strip()}")
    return done.stdout + done.stderr


def rows_of(text, names):
    """The address, the source and the line of each row of code, and the globals with their addresses."""
    lines = [it.split() for it in text.splitlines()]
    rows = [(int(it[4], 16), names[int(it[1]) - 1], int(it[2])) for it in lines if it[0] == "row" and it[6] != "0"]
    return rows, {it[1]: int(it[2], 16) for it in lines if it[0] == "global"}


def shown_lines(folder, exe):
    """The source and the line of the instructions that objdump shows, once for those behind one another."""
    at, found = None, []
    for it in output(folder, f"{GNU}objdump", "-dl", exe).splitlines():
        if place := re.fullmatch(r"(?:.*/)?(\S+\.s):(\d+).*", it):
            at = place[1], int(place[2])
        elif re.match(r"\s+[0-9a-f]+:\t", it) and found[-1:] != [at]:
            found.append(at)
    return found


def labels(folder, exe):
    """The local symbols that are no constants, and of those of code the source and line."""
    found = [it.split() for it in output(folder, f"{GNU}nm", exe).splitlines()]
    found = [it for it in found if it[1].islower() and it[1] != "a" and not it[2].startswith("$")]
    code = [it for it in found if it[1] == "t"]
    lines = output(folder, f"{GNU}addr2line", "-s", "-e", exe, *(it[0] for it in code)).splitlines() if code else []
    return sorted(it[2] for it in found), sorted((it[2], line) for it, line in zip(code, lines, strict=True))


def typed(folder, exe):
    """The types and the sizes of symbols, in the order of their names."""
    found = [it.split() for it in output(folder, f"{GNU}readelf", "-sW", exe).splitlines()]
    found = [it for it in found if len(it) == 8 and it[0][:-1].isdigit() and it[3] in ("NOTYPE", "OBJECT", "FUNC")]
    return sorted((it[7], it[3], it[2]) for it in found)


def link_by_gnu(folder, names):
    """Makes the executable of GNU as and ld."""
    for name in names:
        output(folder, f"{GNU}as", "-g", "-march=rv64imac", "-mabi=lp64", "-o", f"{name}.o", name)
    # (no address is near this one, so that ld does not shorten addresses, as rv does not)
    far = "--defsym=__global_pointer$=0x70000000"
    output(folder, f"{GNU}ld", far, "-o", "gnu", *(f"{name}.o" for name in names))


def type_differences(folder):
    """Whether names have other types and sizes than in the executable of GNU as and ld."""
    theirs = typed(folder, "gnu")
    for exe in ("exe", "linked"):
        ours = typed(folder, exe)
        both = {it[0] for it in ours} & {it[0] for it in theirs}
        if [it for it in ours if it[0] in both] != [it for it in theirs if it[0] in both]:
            yield f"readelf: types and sizes of {exe}"


def c_differences(folder, names):
    """The same of a program of C, of whose sections GNU ld has some in another order."""
    output(folder, RV, "build", "-g", "-o", "exe", *names)
    lines_of_objects(folder, names)
    link_by_gnu(folder, names)
    yield from type_differences(folder)


def tabled(folder, exe):
    """Name, type, size and whether it is local of each symbol that no linker defines, in the order of names."""
    found = [it.split() for it in output(folder, f"{GNU}readelf", "-sW", exe).splitlines()]
    found = [it for it in found if len(it) == 8 and it[0][:-1].isdigit() and it[3] in ("NOTYPE", "OBJECT", "FUNC")]
    return sorted((it[7], it[3], it[2], it[4] == "LOCAL") for it in found if not LINKERS.fullmatch(it[7]))


def object_differences(folder, words, is_relaxed):
    """Whether symbols of links of objects by GCC are others than in the executables of GNU ld."""
    option = "-mrelax" if is_relaxed else "-mno-relax"
    for name in OBJECTS:
        words_of = [f"{GNU}gcc", *words, option, "-march=rv64imac", "-mabi=lp64", "-mcmodel=medany", "-c", "-x"]
        words_of += ["assembler" if name == "start" else "c", name]
        output(folder, *words_of)
    (folder / "lib.a").unlink(missing_ok=True)
    output(folder, f"{GNU}ar", "rcs", "lib.a", "second.o")
    far = ["--defsym=__global_pointer$=0x70000000", *([] if is_relaxed else ["--no-relax"])]
    for inputs in (["first.o", "second.o"], ["second.o", "first.o"], ["first.o", "lib.a"]):
        for collects in ([], ["--gc-sections"]):
            output(folder, f"{GNU}ld", *far, *collects, "-o", "gnu", "start.o", *inputs)
            ours = [part for it in inputs for part in (["--library", it] if it == "lib.a" else [it])]
            output(folder, RV, "ld", "-g", *collects, "-o", "exe", "start.o", *ours)
            if tabled(folder, "exe") != tabled(folder, "gnu"):
                yield f"symbols: {' '.join([*inputs, *collects])}"


def lines_of_objects(folder, names):
    """The lines that readelf decodes of what `rv ld -g` links of objects of `rv as -g`."""
    for name in names:
        output(folder, RV, "as", "-g", "-o", f"{name}.o", name)
    output(folder, RV, "ld", "-g", "-o", "linked", *(f"{name}.o" for name in names))
    return output(folder, f"{GNU}readelf", "--debug-dump=decodedline", "linked")


def said_by_gdb(folder, firsts):
    """What gdb says otherwise of the first address of each line with code."""
    words = ["-ex", "set pagination off"]
    for name, line in firsts:
        at = f"{name}:{line}"
        words += [it for ask in (f"break {at}", f"info line {at}", f"list {at},{at}") for it in ("-ex", ask)]
    shown = output(folder, "gdb-multiarch", "-nx", "-batch", *words, "exe")
    stops = re.findall(r"^Breakpoint \d+ at (0x[0-9a-f]+): file (\S+), line (\d+)", shown, re.M)
    if [(name, int(line), int(at, 0)) for at, name, line in stops] != [(*it, at) for it, at in firsts.items()]:
        yield "gdb: break"
    told = re.findall(r'^Line (\d+) of "(\S+)" starts at address (0x[0-9a-f]+)', shown, re.M)
    if [(name, int(line), int(at, 0)) for line, name, at in told] != [(*it, at) for it, at in firsts.items()]:
        yield "gdb: info line"
    texts = {name: (folder / name).read_text("latin-1").split("\n") for name, _ in firsts}
    listed = re.findall(r"^(\d+)\t(.*)$", shown, re.M)
    if listed != [(str(line), texts[name][line - 1]) for name, line in firsts]:
        yield "gdb: list"


def differences(folder, names):
    """What the tools say otherwise of the program of some sources."""
    output(folder, RV, "build", "-g", "-o", "exe", "--map", "map", *names)
    rows, known = rows_of((folder / "map").read_text(), names)
    listed = [it.split() for it in output(folder, f"{GNU}nm", "exe").splitlines()]
    if {it[2]: int(it[0], 16) for it in listed if it[1].isupper()} != known:
        yield "nm"
    decoded = output(folder, f"{GNU}readelf", "--debug-dump=decodedline", "exe")
    lines = re.findall(r"^(\S+)\s+(\d+)\s+(0x[0-9a-f]+)\s+x$", decoded, re.M)
    if sorted((int(at, 0), name, int(line)) for name, line, at in lines) != sorted(rows):
        yield "readelf"
    asked = output(folder, f"{GNU}addr2line", "-e", "exe", *(hex(at) for at, _, _ in rows)).splitlines()
    if asked != [f"{folder / name}:{line}" for _, name, line in rows]:
        yield "addr2line"
    if "No errors" not in output(folder, "llvm-dwarfdump", "--verify", "exe"):
        yield "dwarfdump"
    output(folder, RV, "build", "-o", "plain", *names)
    for words in (("strip", "-g", "-o", "less", "exe"), ("objcopy", "exe", "less")):
        output(folder, f"{GNU}{words[0]}", *words[1:])
        output(folder, RV, "image", "--bin", "-o", "a.bin", "less")
        output(folder, RV, "image", "--bin", "-o", "b.bin", "plain")
        if (folder / "a.bin").read_bytes() != (folder / "b.bin").read_bytes():
            yield words[0]
    if lines_of_objects(folder, names) != decoded:
        yield "readelf of objects"
    link_by_gnu(folder, names)
    if shown_lines(folder, "exe") != shown_lines(folder, "gnu"):
        yield "objdump"
    if labels(folder, "exe") != labels(folder, "gnu"):
        yield "nm: labels"
    yield from type_differences(folder)
    firsts = {}
    for at, name, line in rows:
        firsts.setdefault((name, line), at)
    yield from said_by_gdb(folder, firsts)


def programs(given):
    """The sources of each program, with its title."""
    for it in given or sorted((ROOT / "examples").glob("*.s")):
        yield it.name, {it.name: it.read_bytes()}
    for name, files, _ in [] if given else cases(["run/"]):
        is_small = all(it.endswith(".s") and len(held) < 10_000 for it, held in files.items())
        if is_small and any(b"_start" in held for held in files.values()):
            yield name, files
    yield "three sources", {"first.s": FIRST, "second.s": SECOND, "third.s": THIRD}
    for level in LEVELS:
        yield f"C {level}", {"start.s": START, "program.s": compiled(level)}
    for level in LEVELS:
        for option in ((), ("-ffunction-sections", "-fdata-sections")):
            for is_relaxed in (True, False):
                yield (" ".join((level, *option)), is_relaxed), OBJECTS


def found_in(folder, title, names):
    """What the tools say otherwise of a program."""
    if isinstance(title, tuple):
        return object_differences(folder, title[0].split(), title[1])
    return (c_differences if title.startswith("C ") else differences)(folder, names)


def main():
    need(*TOOLS, "llvm-dwarfdump", "gdb-multiarch")
    differs = 0
    for title, files in programs([Path(it) for it in sys.argv[1:]]):
        with tempfile.TemporaryDirectory() as folder:
            folder = Path(folder).resolve()
            for name, held in files.items():
                (folder / name).write_bytes(held)
            try:
                found = list(found_in(folder, title, list(files)))
            except ValueError as why:
                found = [str(why)]
        if found:
            print(f"{title}: {', '.join(found)}")
            differs += 1
    print(f"{differs=}")
    return 1 if differs else 0
