"""How commands are measured: host instructions, processor time, memory.

Host instructions are counted by callgrind, so other work on the machine changes nothing, and commands that are counted
run side by side. Times are of one command after another.
"""

import math
import os
import re
import resource
import shlex
import shutil
import statistics
import subprocess
import tempfile
from concurrent.futures import ThreadPoolExecutor
from pathlib import Path

HERE = Path(__file__).resolve().parent
ROOT = HERE.parent
RV = Path(os.environ.get("RV", ROOT / "rv"))
HELLO = ROOT / "examples" / "hello.s"
GCC = "riscv64-unknown-elf-gcc"
CC = "gcc"
AS = "riscv64-unknown-elf-as"
LD = "riscv64-unknown-elf-ld"
OBJDUMP = "riscv64-unknown-elf-objdump"
GNU_AS = [AS, "-march=rv64imac", "-mabi=lp64"]
MC = ["llvm-mc", "-triple=riscv64", "-mattr=+m,+a,+c,+relax", "-filetype=obj"]
# One thread, as the others have.
LLD = ["ld.lld", "--threads=1"]
MIB = 2**20
PROCESSORS = len(os.sched_getaffinity(0))
MANY_RUNS = 41


class Missing(Exception):
    """A tool that is needed and isn't installed."""


class Refused(Exception):
    """A command that ends badly, and why."""


def missing(tool):
    """Whether a tool is not installed; says so."""
    if shutil.which(tool):
        return False
    print(f"{tool}: not installed")
    return True


def need(*tools):
    for tool in tools:
        if missing(tool):
            raise Missing(tool)


def are_there(*commands):
    """Whether the tools of some commands are installed."""
    return all(shutil.which(command[0]) for command in commands)


def spent():
    """The processor time of the programs that have ended."""
    used = resource.getrusage(resource.RUSAGE_CHILDREN)
    return used.ru_utime + used.ru_stime


def best(command, given, times=3):
    """The least time of some runs, and what they wrote."""
    least = float("inf")
    for _ in range(times):
        start = spent()
        wrote = subprocess.run(command, input=given, capture_output=True).stdout
        least = min(least, spent() - start)
    return least, wrote


def best_of_each(commands, given, times=3):
    """The least time of some runs of each command, which take turns, and its last run."""
    least, runs = dict.fromkeys(commands, float("inf")), {}
    for _ in range(times):
        for name, command in commands.items():
            start = spent()
            runs[name] = subprocess.run(command, input=given, capture_output=True)
            least[name] = min(least[name], spent() - start)
    return least, runs


def repeated(command, times, given=b""):
    """The processor time of so many runs of a command, which a shell starts: a start from Python takes longer."""
    with tempfile.NamedTemporaryFile() as file:
        file.write(given)
        file.flush()
        each = f"{shlex.join(map(str, command))} < {file.name}"
        loop = f"i=0; while [ $i -lt {times} ]; do {each}; i=$((i + 1)); done"
        start = spent()
        subprocess.run(["sh", "-c", loop], stdout=subprocess.DEVNULL, stderr=subprocess.DEVNULL)
        return spent() - start


def turns(ways, times=3):
    """The least time of each way to do a thing, where a way is several commands; the ways take turns. A way of which a
    command ends badly has none."""
    least = dict.fromkeys(ways, float("inf"))
    for _ in range(times):
        for name, commands in ways.items():
            start = spent()
            done = all(subprocess.run([*map(str, it)], capture_output=True).returncode == 0 for it in commands)
            least[name] = min(least[name], spent() - start) if done else float("nan")
    return {name: seconds for name, seconds in least.items() if not math.isnan(seconds)}


def host_instructions(*command, given=b"", good=None):
    """The host instructions of a command, by callgrind; raises where it doesn't end with this status, if one is
    given."""
    need("valgrind")
    words = ["valgrind", "--tool=callgrind", "--callgrind-out-file=/dev/null", *map(str, command)]
    process = subprocess.run(words, input=given, stdout=subprocess.DEVNULL, stderr=subprocess.PIPE)
    if good is not None and process.returncode != good:
        raise Refused(f"{command[0]} {command[1]} ends with {process.returncode}")
    return int(re.search(rb"Collected : (\d+)", process.stderr)[1])


def at_once(function, items):
    """What a function answers for each item, as many at once as there are processors. It is for counts alone."""
    with ThreadPoolExecutor(PROCESSORS) as pool:
        return list(pool.map(function, items))


def counted(commands, given=b""):
    """The host instructions of each of some commands, counted at once; each has to do its work."""
    return at_once(lambda command: host_instructions(*command, given=given, good=0), commands)


def timed(letters, command, given=b""):
    """What GNU time tells of a command, by the letters of its format, and the command's status. (What is started from
    Python seems as large as Python is, because it has Python's memory until it begins.)"""
    need("time")
    with tempfile.NamedTemporaryFile() as told:
        words = ["time", "-o", told.name, "-f", letters, *map(str, command)]
        process = subprocess.run(words, input=given, stdout=subprocess.DEVNULL, stderr=subprocess.DEVNULL)
        return int(told.read().split()[-1]), process.returncode


def peak(command, status=0, given=b""):
    """The most memory that a command has, in bytes, and whether it ends with this status."""
    most, ended = timed("%M", command, given)
    return most * 1024, ended == status


def told_of(letters, command):
    """What GNU time tells of a command that has to do its work."""
    told, status = timed(letters, command)
    if status != 0:
        raise Refused(f"{command[0]} {command[1]} ends badly")
    return told


def peak_of(*command):
    """The most memory that a command has, in bytes."""
    return told_of("%M", command) * 1024


def usual_peak(*command):
    """The median of many runs, because where the loader puts a small program and its library changes it by a tenth."""
    return statistics.median(peak_of(*command) for _ in range(MANY_RUNS))


def page_faults(*command):
    """The median of many runs."""
    return statistics.median(told_of("%R", command) for _ in range(MANY_RUNS))


def mean(numbers):
    """Their geometric mean."""
    numbers = list(numbers)
    return math.exp(sum(map(math.log, numbers)) / len(numbers))


def exponent(figures, times):
    """The exponent by which figures grow from the first to the last, at so many times the size."""
    return math.log(figures[-1] / figures[0], times)
