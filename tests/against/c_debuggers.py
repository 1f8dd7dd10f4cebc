"""Compares what gdb says of C programs by `rv build -g` and `rv ld -g` with what it says of those by GNU as and ld.

usage: compare.py c_debuggers [--only TEXT] [--count N] [--jobs N] [--keep FOLDER] [--rv RV]

There are 50 programs unless told otherwise: those of tests/against/c_debuggers, and then short ones that csmith draws.
GCC compiles each with -g at five levels, and the executables are made in three ways:

  build    of GCC's assembly, without compressed code, of which GNU as has more: `rv build -g`
  objects  of the same by `rv as -g` and `rv ld -g`
  linked   of GNU as' objects with compressed code, by `rv ld -g`

GNU as and ld make those beside, with sections where rv has them, and a gp that no address is near, so that GNU ld does
not shorten addresses either. So both have the same image, and gdb has to say the same of both, word for word. It is
asked, with `rv gdb` for both, as tests/against/c_debuggers/session.py says: types, addresses and scopes of functions
and variables, `info line` of each line and `break` at some; then `backtrace`, `info locals` and `finish` in each
function, and steps by lines, on and back.

Needs ./rv, riscv64-unknown-elf-gcc, its binutils, gdb-multiarch and csmith. A line for each way of a program whose
image or answers differ, with the first question, or that a tool does not make; --keep keeps its files and its answers.
The last line is 'differs=0' where there is none, and only then the status is 0.
"""

import argparse
import os
import re
import shutil
import tempfile
from collections import Counter
from concurrent.futures import ThreadPoolExecutor
from pathlib import Path

from against.common import CSMITH, GNU, RV, completed, need, processors, succeeds
from carried import SCRIPT, sections

SOURCES = Path(__file__).resolve().parent / "c_debuggers"
SESSION = SOURCES / "session.py"
LEVELS = ("-O0", "-Og", "-O1", "-O2", "-Os")
# Frames as data, as docs/manual/gcc.md says.
DEBUG = "-g -fno-dwarf2-cfi-asm"
# (.comm and .set of labels are left out of the language, and GNU ld joins constants)
CODE = "-mabi=lp64 -mcmodel=medany -ffreestanding -w -fdata-sections -fno-ipa-icf -fno-merge-constants"
GCC = [f"{GNU}gcc", *DEBUG.split(), *CODE.split(), f"-I{CSMITH}", "-I/usr/include/csmith", "-S"]
# Short programs: in a long one gdb may need half a minute for the places of one line, in GNU's executable too.
DRAWN = "--no-argc --max-funcs 6 --max-block-depth 3 --max-block-size 3 --max-expr-complexity 6 -o program.c".split()
# Those of these seeds end within 100,000 instructions, also at -O0.
SEEDS = [
    *range(1, 8),
    9,
    *range(12, 16),
    17,
    18,
    *range(20, 26),
    27,
    28,
    29,
    31,
    32,
    33,
    34,
    37,
    41,
    42,
    *range(44, 59),
]
FAR = "--defsym=__global_pointer$=0x70000000"
REGIONS = ("text", "rodata", "data", "bss")
# (the answers of a session take the longest)
SECONDS = 120
START = """.globl _start
.type _start, @function
_start: call main
    li a7, 93
    ecall
.size _start, .-_start

# (GCC calls it where it copies structures)
.globl memcpy
.type memcpy, @function
memcpy: mv t0, a0
1:  beqz a2, 2f
    lb t1, (a1)
    sb t1, (t0)
    addi a1, a1, 1
    addi t0, t0, 1
    addi a2, a2, -1
    j 1b
2:  ret
.size memcpy, .-memcpy
"""
# Before each question, and the last one, as the session has them.
MARK, END = "<<< ", "the end"


class Unmade(Exception):
    """A program that a tool does not make."""


def made(folder, *words):
    """Runs a tool, which has to do its work."""
    done = completed(words, cwd=folder)
    if done is None or done.returncode:
        raise Unmade(f"{Path(words[0]).name} {words[1]}: {done and done.stderr.decode('latin-1').strip()}")


def compiled(folder, names, level, machine, head):
    """GCC's assembly of the sources, each behind a line."""
    found = []
    for name in names:
        source = f"{Path(name).stem}.s"
        if name.endswith(".c"):
            made(folder, *GCC, level, f"-march={machine}", "-o", source, name)
        text = (folder / source).read_text() if name.endswith(".c") else START
        (folder / source).write_text(f"{head}{text}")
        found.append(source)
    return found


def assembled(folder, sources, machine):
    """Objects of sources by GNU as, which makes a line table for what has none."""
    for source in sources:
        more = ["-g"] if source == "start.s" else []
        made(folder, f"{GNU}as", *more, f"-march={machine}", "-mabi=lp64", "-o", f"{source}.o", source)
    return [f"{source}.o" for source in sources]


def link_by_gnu(folder, objects):
    """Links objects by GNU ld, with each region where the map has it."""
    found = dict(re.findall(r"(?m)^(text|rodata|data|bss) (\w+) ", (folder / "map").read_text()))
    (folder / "script").write_text(SCRIPT % tuple(int(found[it], 16) for it in REGIONS))
    made(folder, f"{GNU}ld", "--no-warn-rwx-segments", FAR, "-T", "script", "-o", "theirs", *objects)


def ways(folder, names, level, rv):
    """Makes folder/theirs, and beside it an executable by each way, of the same name; the names of these ways."""
    sources = compiled(folder, names, level, "rv64ima", ".option norvc\n")
    made(folder, rv, "build", "-g", FAR, "-o", "build", "--map", "map", *sources)
    link_by_gnu(folder, assembled(folder, sources, "rv64ima"))
    objects = [f"{source}.rv.o" for source in sources]
    for source, assembly in zip(objects, sources):
        made(folder, rv, "as", "-g", "-o", source, assembly)
    made(folder, rv, "ld", "-g", FAR, "-o", "objects", *objects)
    yield "build", "objects"
    objects = assembled(folder, compiled(folder, names, level, "rv64imac", ""), "rv64imac")
    made(folder, rv, "ld", "-g", FAR, "-o", "linked", "--map", "map", *objects)
    link_by_gnu(folder, objects)
    yield ("linked",)


def image(exe):
    """What is loaded, by the names of sections."""
    held = sections(exe.read_bytes())
    return {it: held[it] for it in (f".{region}" for region in REGIONS) if held.get(it)}


def said(folder, exe, names, rv):
    """What gdb says of an executable: the questions, each with its answer."""
    words = {"WORDS": f"{rv} gdb --output /dev/null {exe}", "SOURCES": " ".join(names)}
    call = ["gdb-multiarch", "-nx", "-q", "-batch", "-x", SESSION, exe]
    done = completed(call, SECONDS, cwd=folder, env={**os.environ, **words})
    if done is None or not done.stdout.endswith(f"{MARK}{END}\n".encode()):
        raise Unmade(f"gdb of {exe}: {done and done.stderr.decode('latin-1')}")
    text = done.stdout.decode("latin-1").replace(f"/dev/null {exe}", "/dev/null")
    return [tuple(it.split("\n", 1)) for it in text.split(MARK)[1:]]


def differences(folder, way, names, theirs, rv):
    """The questions to which gdb says something else of the executable of a way than of GNU's."""
    if image(folder / way) != image(folder / "theirs"):
        return [("image", "", "")]
    ours = said(folder, way, names, rv)
    pairs = zip(ours, theirs)
    found = [(one[0], one[1], other[1]) for one, other in pairs if one[1] != other[1]]
    if [it[0] for it in ours] != [it[0] for it in theirs]:
        found.append(("questions", f"{len(ours)}\n", f"{len(theirs)}\n"))
    return found


def keep(folder, title, found, where):
    """Keeps the files of a program, and the answers that differ."""
    to = Path(where) / title.replace(" ", "_")
    shutil.copytree(folder, to, dirs_exist_ok=True)
    text = "".join(f"{MARK}{question}\n--- rv\n{ours}--- GNU\n{theirs}" for question, ours, theirs in found)
    (to / "answers").write_text(text)


def results(folder, title, names, options):
    """How the executable of each way ends, and how many questions were put."""
    level = title.split()[-1]
    sources = [it for it in names if it.endswith(".c")]
    # (csmith's programs have a start of their own)
    assembly = [] if "program.c" in names else ["start.s"]
    for made_ways in ways(folder, [*assembly, *sources], level, options.rv):
        theirs = said(folder, "theirs", names, options.rv)
        for way in made_ways:
            found = differences(folder, way, names, theirs, options.rv)
            if found:
                print(f"{title} {way}: {len(found)} of {len(theirs)}, first {found[0][0]}", flush=True)
            if found and options.keep:
                keep(folder, f"{title} {way}", found, options.keep)
            yield way, "differs" if found else "same", len(theirs)


def compare(program, level, options):
    """How each way of a program at a level ends, and how many questions were put."""
    title, files = f"{program[0]} {level}", program[1]
    with tempfile.TemporaryDirectory() as name:
        folder = Path(name).resolve()
        for it, text in files.items():
            (folder / it).write_text(text)
        try:
            return list(results(folder, title, list(files), options))
        except Unmade as why:
            print(f"{title}: {why}", flush=True)
            return [("none", "none", 0)]


def programs(count):
    """The sources of each program, with its title."""
    groups = {}
    for path in sorted(SOURCES.glob("*.[ch]")):
        groups.setdefault(path.stem.split("-")[0], {})[path.name] = path.read_text()
    yield from list(groups.items())[:count]
    for seed in SEEDS[: max(0, count - len(groups))]:
        with tempfile.TemporaryDirectory() as name:
            if succeeds(["csmith", "--seed", seed, *DRAWN], cwd=name):
                yield f"csmith {seed}", {"program.c": (Path(name) / "program.c").read_text()}


def main():
    words = argparse.ArgumentParser(description=__doc__.split("\n")[0])
    words.add_argument("--only", default="", metavar="TEXT")
    words.add_argument("--count", type=int, default=50, metavar="N")
    words.add_argument("--jobs", type=int, default=processors(), metavar="N")
    words.add_argument("--keep", metavar="FOLDER")
    words.add_argument("--rv", default=str(RV), metavar="RV")
    options = words.parse_args()
    need(options.rv, f"{GNU}gcc", f"{GNU}as", f"{GNU}ld", "gdb-multiarch", "csmith")
    tasks = [(it, level) for it in programs(options.count) for level in LEVELS]
    tasks = [it for it in tasks if options.only in f"{it[0][0]} {it[1]}"]
    with ThreadPoolExecutor(options.jobs) as pool:
        ends = [end for found in pool.map(lambda it: compare(*it, options), tasks) for end in found]
    for (way, end), count in sorted(Counter(it[:2] for it in ends).items()):
        print(f"{way}: {end} {count}")
    differs = sum(end != "same" for _, end, _ in ends)
    print(f"questions={sum(it[2] for it in ends)}")
    print(f"{differs=}")
    return int(differs > 0)
