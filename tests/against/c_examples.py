"""Builds the C programs of examples/c with GCC at four levels, and compares what rv and qemu-riscv64 make of them.

usage: compare.py c_examples

Compared are the runs of the executable that GNU ld links, and those of GCC's assembly, as rv builds it and as GNU as
and ld do. Each reads README.md. What the language leaves out, as .comm, is shown with its fault (E7, E9) and counts as
no difference. It needs ./rv, riscv64-unknown-elf-gcc, its binutils and qemu-riscv64; the last line is 'N passed, M
failed'.
"""

import re
import tempfile
from pathlib import Path

from against.common import GNU, QEMU, ROOT, RV, completed, gnu_link, need, outcome

LEVELS = ["-O0", "-O1", "-O2", "-Os"]
GCC = f"{GNU}gcc -march=rv64imac -mabi=lp64 -ffreestanding -Wall".split()
INPUT = (ROOT / "README.md").read_bytes()


def compared(name, ours, theirs):
    """Runs an executable by rv and another by qemu; whether they do the same."""
    by_rv, by_qemu = completed([RV, "run", ours], input=INPUT), completed([QEMU, theirs], input=INPUT)
    if by_rv is not None and outcome(by_rv) == outcome(by_qemu):
        print(f"{name}: the same {len(by_rv.stdout)} bytes, status {by_rv.returncode}")
        return True
    print(f"{name}: DIFFERS, status {by_rv and by_rv.returncode} and {by_qemu and by_qemu.returncode}")
    return False


def is_left_out(name, build):
    """Whether a build is refused for what the language leaves out; shows its line."""
    message = build.stderr.decode(errors="replace").strip()
    fault = re.search(r":(\d+): (E[79] .*)", message)
    print(f"{name}: refused, line {fault[1]}: {fault[2]}" if fault else message)
    return fault is not None


def results(folder, source, level):
    """Whether each comparison of a program at a level passes."""
    name, assembly = f"{source.name} {level}", folder / "program.s"
    compiled = completed([*GCC, level, "-S", "-o", assembly, source])
    if compiled.returncode or not gnu_link(folder, [assembly]):
        print(f"{name}: NOT MADE BY GNU'S TOOLS {compiled.stderr.decode(errors='replace').strip()}")
        yield False
        return
    yield compared(f"{name}, linked by GNU ld", folder / "theirs", folder / "theirs")
    build = completed([RV, "build", "-o", folder / "ours", assembly])
    if build.returncode:
        yield is_left_out(f"{name}, built by rv", build)
    else:
        yield compared(f"{name}, built by rv", folder / "ours", folder / "theirs")


def main():
    need(RV, QEMU, *(f"{GNU}{tool}" for tool in ("gcc", "as", "ld")))
    found = []
    with tempfile.TemporaryDirectory() as folder:
        for source in sorted((ROOT / "examples" / "c").glob("*.c")):
            for level in LEVELS:
                found += results(Path(folder), source, level)
    print(f"{found.count(True)} passed, {found.count(False)} failed")
    return int(False in found)
