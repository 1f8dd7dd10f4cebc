"""Compares the names and lines that `rv trace` and `rv stats` find in executables with what GNU's tools find.

usage: compare.py own_names [SOURCE ..]     (sources of C; by default bench/programs/*.c and one of two files)

Of each program, by GCC at four levels and GNU ld, and of its assembly by `rv build -g` and by GNU as and ld:

  nm       each instruction that is executed is shown by the nearest name below it in its section
  readelf  each that begins a line of the decoded rows is shown with its source and line, and no other; --lines has
           these lines, each executed as often as that row of it which was most

(addr2line 2.40 takes file 1 of a table for its file 0, where these differ.) A line for each that differs; the last line
is 'differs=0' where none does, and only then the status is 0.
"""

import re
import sys
import tempfile
from bisect import bisect_right
from collections import Counter
from pathlib import Path

from against.common import GNU, ROOT, RV, completed, need

FLAGS = f"-g -march=rv64imac -mabi=lp64 -mcmodel=medany -ffreestanding -w -I{ROOT}/bench/programs".split()
LEVELS = ("-O0", "-O1", "-O2", "-Os")
START = b""".globl _start
_start:
.option push
.option norelax
    la gp, __global_pointer$
.option pop
    call main
    li a7, 93
    ecall
"""
HEADER = b"static inline int twice(int x) {\n    return x + x;\n}\n"
FIRST = b"""#include "part.h"
int table[8] = {1, 2, 3, 4, 5, 6, 7, 8};
int half(int x);
__attribute__((noinline)) static int never(int x) {
    return x * 3;
}
int main(void) {
    int s = 0;
    for (int i = 0; i < 8; i++)
        s += twice(table[i]);
    return s == 0 ? never(s) : half(s);
}
"""
SECOND = b"""#include "part.h"
__attribute__((noinline)) int half(int x) {
    if (x > 1000)
        return twice(x);
    return x / 2;
}
"""
LIMIT = "20000"


def output(folder, *words):
    """What a tool writes to standard output and to standard error; a guest may end in any way."""
    done = completed(words, cwd=folder, input=b"1\n")
    if done is None or done.returncode and words[0] != RV:
        raise ValueError(f"{words[0]}: {done and done.stderr.decode()}")
    return done.stdout.decode("latin-1"), done.stderr.decode("latin-1")


def nearest(names, sections, at):
    """The names of the last address with one, at or below an address in its section."""
    start = max((it for it, end in sections if it <= at < end), default=None)
    index = bisect_right(sorted(names), at) - 1
    place = sorted(names)[index] if index >= 0 else None
    return names[place] if start is not None and place is not None and place >= start else {""}


def names_of(folder):
    """The names of the program by their addresses, and where its sections begin and end."""
    names = {}
    for it in output(folder, f"{GNU}nm", "exe")[0].splitlines():
        at, letter, name = it.split()
        if letter not in "aAUw" and not name.startswith((".L", "$")):
            names.setdefault(int(at, 16), set()).add(name)
    sections = output(folder, f"{GNU}readelf", "-SW", "exe")[0]
    found = re.findall(r"^ *\[ *\d+\] \S+ +\w+ +([0-9a-f]{16}) \S+ ([0-9a-f]+) \S+ +\w*A", sections, re.M)
    return names, [(int(at, 16), int(at, 16) + int(size, 16)) for at, size in found]


def rows_of(folder):
    """The source and line of the decoded rows, by address; none behind a sequence."""
    text = output(folder, f"{GNU}readelf", "--debug-dump=decodedline", "exe")[0]
    found = re.findall(r"^(\S+) +(\d+|-) +(0x[0-9a-f]+|0)\b", text, re.M)
    rows, sequence = {}, {}
    for name, line, at in found:
        # the last row of an address has its bytes, and where a sequence ends none has
        sequence[int(at, 16)] = None if line in ("-", "0") else f"{name}:{line}"
        if line == "-":
            # where one ends another may have begun
            rows.update({it: of for it, of in sequence.items() if of or it not in rows})
            sequence = {}
    return rows


def line_at(rows, starts, at):
    """The source and line of an address."""
    index = bisect_right(starts, at) - 1
    return rows[starts[index]] if index >= 0 else None


def covered(rows, counts):
    """How often each line was executed."""
    lines = {}
    for at, line in rows.items():
        if line:
            lines[line] = max(lines.get(line, 0), counts[at])
    return lines


def differences(folder):
    """What differs of the program folder/exe."""
    traced = output(folder, RV, "trace", "--limit", LIMIT, "exe")[1]
    steps = re.findall(r"^ *\d+ ([0-9a-f]{16}) (\S*) .*?(?:# (.*))?$", traced, re.M)
    counts = Counter(int(at, 16) for at, _, _ in steps)
    shown = {int(at, 16): (name, line or None) for at, name, line in steps}
    names, sections = names_of(folder)
    for at, (name, _) in shown.items():
        if ".." not in name and name.split("+0x")[0] not in nearest(names, sections, at):
            yield f"nm: {at:x} {name}"
    rows = rows_of(folder)
    starts = sorted(rows)
    for at, (_, line) in shown.items():
        wanted = line_at(rows, starts, at)
        if (line and Path(line).name) != (wanted if wanted != line_at(rows, starts, at - 1) else None):
            yield f"readelf: {at:x} {line} {wanted}"
    told = output(folder, RV, "stats", "--limit", LIMIT, "--lines", "exe")[1]
    told = re.findall(r"^(\S+):(\d+) (\d+)$", told, re.M)
    told = {f"{Path(name).name}:{line}": int(count) for name, line, count in told}
    if told != covered(rows, counts):
        yield f"readelf: {sorted(told.items() ^ covered(rows, counts).items())[:4]}"


def link(folder, names):
    """Links objects by GNU ld."""
    output(folder, f"{GNU}ld", "--no-warn-rwx-segments", "-o", "exe", *names)


def programs(folder, sources):
    """Makes folder/exe of sources of C in each way, and gives the name of each."""
    (folder / "start.s").write_bytes(START)
    # those of bench/ begin by themselves
    start = ["start.s"] if any(b"int main(" in (folder / it).read_bytes() for it in sources) else []
    for level in LEVELS:
        for way in ("-c", "-S"):
            output(folder, f"{GNU}gcc", level, *(FLAGS if way == "-c" else FLAGS[1:]), way, *sources)
        made = [it.replace(".c", ".s") for it in sources]
        for it in start + made:
            output(folder, f"{GNU}as", "-g", "-march=rv64imac", "-mabi=lp64", "-o", f"{it}.o", it)
        link(folder, [f"{it}.o" for it in start] + [it.replace(".c", ".o") for it in sources])
        yield f"C {level}"
        link(folder, [f"{it}.o" for it in start + made])
        yield f"as {level}"
        output(folder, RV, "build", "-g", "-o", "exe", *start, *made)
        yield f"rv {level}"


def main():
    need(RV, f"{GNU}gcc", f"{GNU}as", f"{GNU}ld", f"{GNU}nm", f"{GNU}readelf")
    given = [Path(it) for it in sys.argv[1:]] or sorted(ROOT.glob("bench/programs/*.c"))
    texts = [{it.name: it.read_bytes()} for it in given]
    texts += [] if sys.argv[1:] else [{"first.c": FIRST, "second.c": SECOND, "part.h": HEADER}]
    differs = 0
    for files in texts:
        with tempfile.TemporaryDirectory() as name:
            folder = Path(name).resolve()
            for it, text in files.items():
                (folder / it).write_bytes(text)
            sources = [it for it in files if it.endswith(".c")]
            for way in programs(folder, sources):
                if found := list(differences(folder)):
                    print(f"{sources[0]}, {way}: {'; '.join(found[:3])}")
                    differs += 1
    print(f"{differs=}")
    return 1 if differs else 0
