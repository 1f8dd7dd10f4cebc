"""The guests: programs of bench/programs, how many rounds each does, and what runs them.

A program reads how many rounds it is to do, checks each by itself, and ends with 0 where all are right. The first eight
are those of the older rows of the table of targets.
"""

import subprocess

from measure import CC, GCC, HERE, RV, best_of_each, mean, missing, need
from sources import compile_for

# How many rounds each does: 50 to 200 million instructions.
PROGRAMS = {
    "crc32": 100,
    "sieve": 60,
    "sort": 120,
    "matrix": 50,
    "sha256": 54,
    "lists": 48,
    "bytecode": 21,
    "dhrystone": 590,
}
# About 40 million instructions.
MORE = {
    "fibonacci": 190,
    "queens": 470,
    "life": 6,
    "strings": 560,
    "hashes": 210,
    "distance": 176,
    "factorial": 2570,
    "primes": 140,
    "atomics": 1900,
    "unaligned": 7400,
    "dispatch": 960,
    "tokens": 2400,
    "packing": 78,
    "hanoi": 670,
    "mandelbrot": 333,
    "console": 3180,
}
GUESTS = {**PROGRAMS, **MORE}
ARCHITECTURES = ("rv64ima", "rv64imac")


def compiled(folder, name, architecture):
    """The executable of a guest, and its input."""
    need(GCC)
    program = folder / f"{name}.{architecture}"
    if not program.exists():
        compile_for(architecture, HERE / "programs" / f"{name}.c", program)
    return program, b"%d" % GUESTS[name]


def interpreter(folder):
    """The plain interpreter in C."""
    need(CC)
    made = folder / "interpreter"
    if not made.exists():
        subprocess.run([CC, "-O2", "-o", made, HERE / "interpreter.c"], check=True, capture_output=True)
    return made


def simulators(folder):
    """The commands that run a program, by their names: rv, the plain interpreter, and what else is there."""
    commands = {"rv run": [RV, "run"], "interpreter": [interpreter(folder)]}
    for name in ("qemu-riscv64", "riscv64-unknown-elf-run"):
        if not missing(name):
            commands[name] = [name]
    return commands


def ends(program, given, limit):
    """Whether a run of at most so many instructions comes to its exit."""
    command = [RV, "run", "--limit", str(limit), program]
    return subprocess.run(command, input=given, capture_output=True).returncode == 0


def rates(commands, program, given, times=3):
    """The millions of instructions a second of each simulator; what is wrong is said. The interpreter counts them."""
    words = {name: [*command, program] for name, command in commands.items()}
    least, runs = best_of_each(words, given, times)
    count = int(runs["interpreter"].stderr)
    for name, run in runs.items():
        if run.returncode != 0:
            print(f"{name}: {program.name} ENDS WITH {run.returncode}")
    if ends(program, given, count - 1) or not ends(program, given, count):
        print(f"rv run: {program.name} DOES NOT EXECUTE {count} INSTRUCTIONS")
    return {name: count / seconds / 1e6 for name, seconds in least.items()}


def of_all(rows):
    """The geometric means of rows of rates."""
    rows = list(rows)
    return {kind: mean(row[kind] for row in rows) for kind in rows[0]}
