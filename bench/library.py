#!/usr/bin/env python3
"""Measures many small builds and runs: calls of librv in one process, and calls of the program ./rv, a process each.

usage: library.py [TIMES [FOLDER]]    (100000; the folder of librv, out/library or out/quick-library)

Prints how many builds with a run there are in a second of a processor, by both: of the program a hundredth of the times
is measured. What is printed goes to bench/out/library.json as well. It needs cc and ./rv.
"""

import resource
import subprocess
import sys
import tempfile
from pathlib import Path

from results import Results

TOP = Path(__file__).resolve().parent.parent
FOLDERS = ("out/library", "out/quick-library")
SOURCE = TOP / "examples/sum.s"


def by_library(librv, times):
    """How many in a second, in one process."""
    with tempfile.TemporaryDirectory() as folder:
        words = ["cc", "-O2", f"-I{TOP}/include", "-o", f"{folder}/program", TOP / "bench/library.c", librv / "librv.a"]
        subprocess.run([str(it) for it in words], check=True)
        words = [f"{folder}/program", str(SOURCE), str(times)]
        return float(subprocess.run(words, check=True, capture_output=True, text=True).stdout)


def by_program(times):
    """How many in a second, by a process each."""
    before = resource.getrusage(resource.RUSAGE_CHILDREN)
    for _ in range(times):
        subprocess.run([TOP / "rv", "run", SOURCE], stdin=subprocess.DEVNULL, capture_output=True)
    after = resource.getrusage(resource.RUSAGE_CHILDREN)
    return times / (after.ru_utime + after.ru_stime - before.ru_utime - before.ru_stime)


def main():
    times = int(sys.argv[1]) if sys.argv[1:] else 100000
    librv = next((TOP / it for it in sys.argv[2:] or FOLDERS if (TOP / it / "librv.a").exists()), None)
    if librv is None or not (TOP / "rv").exists():
        sys.exit("no librv, or no ./rv: run make and make library first")
    results = Results("library")
    results.begin(TOP / "rv")
    print("Builds with a run in a second of a processor")
    few = max(times // 100, 1)
    for tool, count, rate in (
        ("librv, one process", times, by_library(librv, times)),
        ("rv run, a process each", few, by_program(few)),
    ):
        print(f"{tool:26}{count:8} times{rate:10.0f}")
        results.add("library", SOURCE.name, tool, times=count, programs=rate)


if __name__ == "__main__":
    main()
