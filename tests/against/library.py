"""Links the objects of Debian's picolibc and libgcc for rv64imac by rv ld, and counts what it takes.

usage: compare.py library [--rv RV]

It asks two things:

  1. Of each member of the archives libc.a, libm.a and libgcc.a: does rv ld link it with an object of rv as that starts,
     exits, and defines each name that the member leaves open, and does rv run that to its exit?
  2. A program in C that calls many of their functions, linked with the members that GNU ld takes for it: does it end
     as GNU's executable does in qemu-riscv64?

It counts the members of each archive by their faults. Its status is 0 where no member is refused but for what this
project's profile of objects leaves out, and the program ends the same.
"""

import argparse
import re
import subprocess
import sys
import tempfile
from collections import Counter
from pathlib import Path

from against.common import GNU, QEMU, ROOT, RV, completed, need, outcome, run_by_qemu

PROGRAM = ROOT / "examples" / "c" / "library" / "program.c"
# Debian keeps picolibc here.
PICOLIBC = Path("/usr/lib/picolibc/riscv64-unknown-elf")
MACHINE = ["-march=rv64imac", "-mabi=lp64"]
# A float ABI; common symbols; thread-local and position-independent code; constructors and groups.
LEFT_OUT = re.compile(r"F(4|7|9|10) ")
START = ".globl _start\n_start: li a7, 93\necall\n"


def archives():
    """The archives of these libraries for the machine."""
    gcc = [f"{GNU}gcc", *MACHINE]
    folder = PICOLIBC / "lib" / completed([*gcc, "-print-multi-directory"]).stdout.decode().strip()
    libgcc = completed([*gcc, "-print-libgcc-file-name"]).stdout.decode().strip()
    return [folder / "libc.a", folder / "libm.a", Path(libgcc)]


def members(archive, folder):
    """The members of an archive as files, each in a folder of its own, for names may come twice."""
    names = completed([f"{GNU}ar", "t", archive]).stdout.decode().split()
    seen = Counter()
    for name in names:
        seen[name] += 1
        at = folder / archive.stem / str(seen[name])
        at.mkdir(parents=True, exist_ok=True)
        completed([f"{GNU}ar", "xN", seen[name], archive, name], cwd=at)
        yield at / name


def surroundings(rv, member, folder):
    """The object of a start, and of a label for each name that a member leaves open."""
    source, written = folder / "start.s", folder / "start.o"
    names = completed([f"{GNU}nm", "-u", "-j", member]).stdout.decode().split()
    source.write_text(START + "".join(f".globl {name}\n{name}:\n" for name in names))
    assembled = completed([rv, "as", "-o", written, source])
    if assembled.returncode != 0:
        sys.exit(f"{member.name}: {assembled.stderr.decode()}")
    return written


def fault(rv, member, folder):
    """Why rv ld does not link a member, or how the run of it ends that does not exit with 0; none where all is well."""
    linked = folder / "linked"
    process = completed([rv, "ld", "-o", linked, surroundings(rv, member, folder), member])
    if process.returncode == 0:
        process = completed([rv, "run", linked], stdin=subprocess.DEVNULL)
    message = process.stderr.decode(errors="replace").strip()
    code = re.search(r": ([A-Z]\d+ .*)$", message)
    return None if process.returncode == 0 else code.group(1) if code else message or f"status {process.returncode}"


def counted(rv, archive, folder):
    """The members of an archive by their faults; those whose fault the profile does not leave out have a line."""
    faults = Counter()
    for member in members(archive, folder):
        found = fault(rv, member, folder)
        faults[found] += 1
        if found is not None and not LEFT_OUT.match(found):
            print(f"{archive.name}({member.name}): {found}")
    return faults


def taken(listed, folder):
    """The objects of archives that GNU ld lists as read."""
    for archive, name in re.findall(r"^\(?(\S+\.a)\)?\(?(\S+?\.o)\)?$", listed, re.M):
        at = folder / "taken" / Path(archive).stem
        at.mkdir(parents=True, exist_ok=True)
        completed([f"{GNU}ar", "x", Path(archive).resolve(), name], cwd=at)
        yield at / name


def ends_the_same(rv, folder):
    """Whether the program with library functions ends as GNU's does."""
    program, gnu = folder / "program.o", folder / "gnu"
    gcc = [f"{GNU}gcc", *MACHINE, "--specs=picolibc.specs", "-O2", "-fno-builtin", "-Wall"]
    compiled = completed([*gcc, "-c", "-o", program, PROGRAM])
    ld = [f"{GNU}ld", "-t", "-t", "--no-warn-rwx-segments", "-o", gnu, program]
    traced = completed([*ld, "--start-group", *archives(), "--end-group"])
    if compiled.returncode != 0 or traced.returncode != 0:
        print((compiled.stderr or traced.stderr).decode())
        return False
    objects = [program, *taken(traced.stdout.decode(), folder)]
    linked = completed([rv, "ld", "-o", folder / "ours", *objects])
    print(f"program.c with {len(objects) - 1} members: {linked.stderr.decode().strip() or 'linked'}")
    if linked.returncode != 0:
        return False
    ours = completed([rv, "run", folder / "ours"], stdin=subprocess.DEVNULL)
    theirs = run_by_qemu(gnu)
    for name, run in (("rv", ours), (QEMU, theirs)):
        print(f"in {name}: {len(run.stdout)} bytes printed, status {run.returncode} {run.stderr.decode().strip()}")
    return outcome(ours) == outcome(theirs)


def main():
    words = argparse.ArgumentParser(description=__doc__.split("\n")[0])
    words.add_argument("--rv", default=str(RV), metavar="RV")
    rv = words.parse_args().rv
    need(rv, QEMU, *(f"{GNU}{tool}" for tool in ("gcc", "ld", "ar", "nm")))
    strange = 0
    with tempfile.TemporaryDirectory() as name:
        folder = Path(name)
        for archive in archives():
            faults = counted(rv, archive, folder)
            whole, good = faults.total(), faults.pop(None, 0)
            strange += sum(count for found, count in faults.items() if not LEFT_OUT.match(found))
            refused = ", ".join(f"{found} {count}" for found, count in faults.most_common()) or "none"
            print(f"{archive.name}: {whole} members, {good} linked and run; refused: {refused}", flush=True)
        same = ends_the_same(rv, folder)
    return 0 if same and not strange else 1
