"""Compares `rv dis` with GNU objdump, line by line, over objects and executables of csmith's programs.

usage: compare.py disassembly [PROGRAMS]      (20 by default)

It needs ./rv, riscv64-unknown-elf-gcc, its binutils and csmith.

Each program is drawn from a seed, from 1 on, and compiled at four levels; its object, its executable by GNU ld and the
object that `rv as` makes of its assembly are shown, by aliases and by base instructions. Where a relocation is against
a symbol without a name, GNU shows its section alone. The last line is 'N passed, M failed'. Standard library alone.
"""

import re
import sys
import tempfile
from difflib import unified_diff
from itertools import count, islice
from pathlib import Path

from against.common import FLAGS, GNU, RV, completed, draw, need, succeeds

LEVELS = ["-O0 -fdata-sections", "-O1", "-O2", "-Os"]
# What a relocation is against, behind the symbol's section.
PLACE = re.compile(r"(?m)(\t\.[\w.]+)\+0x[0-9a-f]+$")


def shown(words):
    process = completed(words)
    return None if process is None or process.returncode else PLACE.sub(r"\1", process.stdout.decode())


def files_of(folder, level):
    """The files of a program, as far as they can be made."""
    source, assembly = folder / "program.c", folder / "program.s"
    if not succeeds([f"{GNU}gcc", *FLAGS, *level.split(), "-S", "-o", assembly, source]):
        return []
    theirs, exe, ours = folder / "theirs.o", folder / "exe", folder / "ours.o"
    found = [theirs] if succeeds([f"{GNU}as", "-march=rv64imac", "-o", theirs, assembly]) else []
    found += [exe] if found and succeeds([f"{GNU}ld", "--no-warn-rwx-segments", "-o", exe, theirs]) else []
    return [*found, ours] if succeeds([RV, "as", "-o", ours, assembly]) else found


def faults(folder, level):
    """The lines that differ of each file of a program, in both styles."""
    for file in files_of(folder, level):
        for style, more in (([], []), (["--base"], ["-M", "no-aliases"])):
            wanted = shown([f"{GNU}objdump", "-d", "-r", *more, file])
            came = shown([RV, "dis", *style, file])
            lines = (
                []
                if came == wanted
                else list(islice(unified_diff((wanted or "").split("\n"), (came or "").split("\n"), n=0), 12))
            )
            yield f"{file.name} {level} {' '.join(style)}", lines, (wanted or "").count("\n")


def main():
    need(RV, "csmith", *(f"{GNU}{tool}" for tool in ("gcc", "as", "ld", "objdump")))
    wanted, passed, failed, lines, drawn = int(sys.argv[1]) if len(sys.argv) > 1 else 20, 0, 0, 0, 0
    for seed in count(1):
        if drawn == wanted:
            break
        with tempfile.TemporaryDirectory() as name:
            if not draw(Path(name), seed):
                continue
            drawn += 1
            for found, differ, many in faults(Path(name), LEVELS[seed % len(LEVELS)]):
                passed, failed, lines = passed + (not differ), failed + bool(differ), lines + many
                if differ:
                    print(f"seed {seed}: {found}", *differ, sep="\n  ")
    print(f"{lines} lines\n{passed} passed, {failed} failed")
    return int(failed > 0)
