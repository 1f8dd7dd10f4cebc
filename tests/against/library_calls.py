"""Calls librv with random arguments under valgrind, and from programs with ASan and with UBSan.

usage: compare.py library_calls [SEEDS [FOLDER]]    (100 seeds; FOLDER of librv, out/library or out/quick-library)

Each seed makes 200 calls of tests/library/random.c, 20 under valgrind, which is slow. Their arguments are sources,
objects and executables of this repository, cut and changed, in blocks of exactly the lengths that the calls are told.
valgrind sees each access of the library outside of them, and what it leaves allocated; the sanitizers see those of
malloc's and memcpy's kind, and what the header lets the caller do wrong. A line for each seed with a find, and one for
each function with the statuses that it gave; the last line is 'N passed, M failed'. What is not installed is passed
over, with a line.
"""

import os
import shutil
import subprocess
import sys
import tempfile
from collections import Counter
from concurrent.futures import ThreadPoolExecutor
from pathlib import Path

from against.common import ROOT, completed, succeeds

FOLDERS = ("out/library", "out/quick-library")
VALGRIND = "valgrind --quiet --error-exitcode=9 --leak-check=full --errors-for-leak-kinds=all".split()
# For each tool: the words that run a program, those that compile it, and how many calls a seed makes.
TOOLS = {
    "valgrind": (VALGRIND, ["-g"], 20),
    "ASan": ([], ["-g", "-fsanitize=address"], 200),
    "UBSan": ([], ["-g", "-fsanitize=undefined", "-fno-sanitize-recover=all"], 200),
}
SECONDS = 600
# Sources that go with others.
OTHERS = [f".globl f{at}\nf{at}: addi a0, a0, {at}\nret\n.data\nv{at}: .word f{at} - f{at}, {at}\n" for at in range(4)]


def library(words):
    """The folder of librv."""
    for it in words or FOLDERS:
        if (ROOT / it / "librv.a").exists():
            return ROOT / it
    return sys.exit("no librv: run make library first")


def programs(librv, folder):
    """The command of each tool that is installed, by its name, with the program of random calls."""
    for name, (words, flags, _) in TOOLS.items():
        empty = ["cc", *flags, "-x", "c", "-", "-o", folder / "empty"]
        if words and not shutil.which(words[0]) or not succeeds(empty, input=b"int main(void) { return 0; }"):
            print(f"{name} is not there")
            continue
        parts = [ROOT / "tests/library/random.c", librv / "librv.a"]
        words_of_cc = ["cc", "-std=c11", *flags, f"-I{ROOT}/include", "-o", folder / name, *parts]
        subprocess.run([str(it) for it in words_of_cc], check=True)
        yield name, [*words, folder / name]


def files(rv, folder):
    """Sources, and the objects and executables that the package `rv` makes of them."""
    sources = sorted(ROOT.glob("examples/*.s")) + sorted(ROOT.glob("tests/forms/*.s"))[:8]
    for at, text in enumerate(OTHERS):
        sources.append(folder / f"other{at}.s")
        sources[-1].write_text(text)
    for at, source in enumerate(sources):
        yield source
        for kind, make in (("o", rv.assemble), ("exe", lambda text: rv.build(text).executable)):
            try:
                made = make(source.read_bytes())
            except rv.Fault:
                continue
            path = folder / f"{at}.{kind}"
            path.write_bytes(made)
            yield path


def called(tool, command, seed, made):
    """What the calls of a seed have found, if something, and the statuses that they gave."""
    process = completed([*command, seed, TOOLS[tool][2], *made], SECONDS)
    if process is None:
        return "it does not end", []
    lines = process.stdout.decode().splitlines()
    if process.returncode:
        return f"{process.stdout + process.stderr}"[-600:], []
    return "", [it.split(" ", 2) for it in lines]


def compared(rv, librv, folder, seeds):
    """For each tool that is installed: its name, what its seeds have found, and how many calls gave which status."""
    made = [*files(rv, folder)]
    with ThreadPoolExecutor(len(os.sched_getaffinity(0))) as pool:
        for name, command in programs(librv, folder):
            ran = pool.map(lambda seed: (seed, *called(name, command, seed, made)), range(1, seeds + 1))
            found, counts = [], Counter()
            for seed, message, rows in ran:
                found += [f"{name}, seed {seed}: {message}"] if message else []
                for function, count, status in rows:
                    counts[function, status] += int(count)
            yield name, found, counts


def told(name, counts):
    """How many calls gave which status, in lines."""
    yield f"{name}: {counts.total()} calls"
    for function in sorted({it for it, _ in counts}):
        each = [(status, count) for (it, status), count in counts.items() if it == function]
        yield f"  {function}: " + ", ".join(f"{status} {count}" for status, count in sorted(each))


def main():
    seeds = int(sys.argv[1]) if sys.argv[1:] else 100
    librv = library(sys.argv[2:])
    os.environ.setdefault("RV_LIBRARY", str(librv / "librv.so"))
    sys.path.insert(0, str(ROOT / "python"))
    import rv

    passed = failed = 0
    with tempfile.TemporaryDirectory() as folder:
        for name, found, counts in compared(rv, librv, Path(folder), seeds):
            print("\n".join([*found, *told(name, counts)]), flush=True)
            passed, failed = passed + seeds - len(found), failed + len(found)
    print(f"{passed} passed, {failed} failed")
    return int(failed > 0)
