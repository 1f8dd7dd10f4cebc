"""Links C programs with picolibc and libgcc by rv and by GNU ld, and compares what they print and how they end.

usage: compare.py picolibc [NAME ..] [--libraries FOLDER] [--keep FOLDER] [--rv RV]

Each program of tests/against/picolibc, and that of examples/c/library, whose start and console they share, is compiled
at three levels by GCC with GNU as, and at one level with rv as. rv links the objects with libc.a and libgcc.a as one
group, with --gc-sections and without, and GNU ld links them as well. Asked is that rv and qemu-riscv64 come to the same
of what rv linked as qemu-riscv64 of what GNU ld linked; and that rv refuses calls of what picolibc keeps for each
thread, such as malloc and whatever writes errno, by F9 29 and the member's name.

It needs ./rv, riscv64-unknown-elf-gcc, its binutils, picolibc (Debian: picolibc-riscv64-unknown-elf), whose libc.a for
rv64imac and lp64 is in FOLDER, and qemu-riscv64.
Each difference is a line; the last one counts the runs. Exit status 1 if there is a difference.
"""

import argparse
import shutil
import sys
import tempfile
from pathlib import Path

from against.common import GNU, QEMU, ROOT, RV, completed, need, outcome

LIBRARY = ROOT / "examples" / "c" / "library"
SOURCES = Path(__file__).resolve().parent / "picolibc"
GCC = f"{GNU}gcc -march=rv64imac -mabi=lp64 --specs=picolibc.specs -Wall".split()
LIBRARIES = Path("/usr/lib/picolibc/riscv64-unknown-elf/lib/rv64imac/lp64")
INPUT = b"first line\nthe second\n\nand some more\nbytes"
# Programs of what is kept for each thread, and the member that rv names.
REFUSED = {
    "#include <stdlib.h>\nint main(int n, char **words) { return malloc(n) != words; }": "nano-malloc-malloc.c.o",
    "#include <stdlib.h>\nint main(int n, char **words) { return strtol(*words, 0, n); }": "libc_tinystdio_strtol.c.o",
    "#include <stdlib.h>\nint main(int n, char **words) { return strtod(*words, 0) > n; }": "libc_tinystdio_strtod.c.o",
    "#include <errno.h>\nint main(void) { return errno; }": None,
}


def made(words):
    """Runs a tool, which has to do its work."""
    process = completed(words)
    if process is None or process.returncode:
        sys.exit(f"{' '.join(map(str, words))}: {process and process.stderr.decode()}")
    return process.stdout.decode().strip()


def objects(folder, program, level, rv=None):
    """Compiles a program with its start and its console; the objects. rv, if given, assembles it."""
    found = []
    for source in (LIBRARY / "start.s", program, LIBRARY / "console.c"):
        to = folder / f"{source.stem}.o"
        if rv is None or source.suffix == ".s":
            made([*GCC, level, "-c", "-o", to, source])
        else:
            made([*GCC, level, "-fdata-sections", "-S", "-o", to.with_suffix(".s"), source])
            made([rv, "as", "-o", to, to.with_suffix(".s")])
        found.append(to)
    return found


def linked_by_rv(rv, folder, files, held, *more):
    """What rv answers to a link of objects with archives."""
    words = [word for archive in held for word in ("--library", archive)]
    return completed([rv, "ld", "-o", folder / "ours", *more, *files, "--start-group", *words, "--end-group"])


def differences(rv, folder, program, held):
    """The number of runs, and what differs in those of a program."""
    count, wrong = 0, []
    for level, assembler in (("-O0", None), ("-O2", None), ("-Os", None), ("-Os", rv)):
        files = objects(folder, program, level, assembler)
        gnu = [f"{GNU}ld", "--no-warn-rwx-segments", "-o", folder / "theirs", *files]
        made([*gnu, "--start-group", *held, "--end-group"])
        wanted = completed([QEMU, folder / "theirs"], input=INPUT)
        for more in ([], ["--gc-sections"]):
            name = f"{program.stem} {level} by {'rv' if assembler else 'GNU'} as {' '.join(more)}".strip()
            link = linked_by_rv(rv, folder, files, held, *more)
            if link is None or link.returncode:
                wrong.append(f"{name}: {link and link.stderr.decode().strip()}")
                continue
            for runner in ([rv, "run"], [QEMU]):
                came = completed([*runner, folder / "ours"], input=INPUT)
                count += 1
                if outcome(came) != outcome(wanted):
                    wrong.append(f"{name}, run by {Path(runner[0]).name}: {outcome(came)}, GNU's {outcome(wanted)}")
    return count, wrong


def refusals(rv, folder, held):
    """What is wrong with the answers to programs of what is kept for each thread."""
    for text, member in REFUSED.items():
        source = folder / "refused.c"
        source.write_text(text)
        link = linked_by_rv(rv, folder, objects(folder, source, "-O2"), held)
        named = folder / "refused.o" if member is None else f"{held[0]}({member})"
        wanted = f"rv: {named}: F9 UnsupportedRelocation 29"
        if link is None or (link.returncode, link.stderr.decode().strip()) != (1, wanted):
            yield f"wanted {wanted}; {link and link.stderr.decode().strip()}"


def main():
    words = argparse.ArgumentParser(description=__doc__.split("\n")[0])
    words.add_argument("names", nargs="*", metavar="NAME")
    words.add_argument("--libraries", type=Path, default=LIBRARIES, metavar="FOLDER")
    words.add_argument("--keep", type=Path, metavar="FOLDER")
    words.add_argument("--rv", type=Path, default=RV)
    options = words.parse_args()
    rv = options.rv.resolve()
    need(rv, QEMU, *(f"{GNU}{tool}" for tool in ("gcc", "ld")))
    programs = [LIBRARY / "program.c", *sorted(SOURCES.glob("*.c"))]
    held = [options.libraries / "libc.a", Path(made([*GCC, "-print-libgcc-file-name"]))]
    count, different = 0, 0
    for program in programs:
        if options.names and program.stem not in options.names:
            continue
        with tempfile.TemporaryDirectory() as folder:
            runs, wrong = differences(rv, Path(folder), program, held)
            count += runs
            different += len(wrong)
            for line in wrong:
                print(line, flush=True)
            if wrong and options.keep:
                shutil.copytree(folder, options.keep / program.stem)
    if not options.names:
        with tempfile.TemporaryDirectory() as folder:
            for line in refusals(rv, Path(folder), held):
                different += 1
                print(line)
    print(f"{count} runs, {different} differ")
    return int(different > 0)
