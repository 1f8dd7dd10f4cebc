"""Calls of the cases of tests/ that are made once more with an option: what collected.py and debugged.py share."""

import os
import struct
import subprocess
import sys
import tempfile
from concurrent.futures import ThreadPoolExecutor
from pathlib import Path

from run import RV, SECONDS, Failed, calls, cases

OUTPUTS = ("-o", "--map")


def call(folder, words):
    """What a call of rv says where it is refused."""
    process = subprocess.run([RV, *words], cwd=folder, capture_output=True, timeout=SECONDS)
    return process.stderr.decode("utf8", "replace") if process.returncode else None


def both(folder, words, option, files):
    """Makes the first of two files by a call without the option, and the second with it, each with NAME.map: the words
    of both, and what each says where it is refused."""
    given = [it for at, it in enumerate(words) if it not in (*OUTPUTS, option) and words[at - 1] not in OUTPUTS]
    results = [
        call(folder, [given[0], "-o", it, "--map", f"{it}.map", *more, *given[1:]])
        for it, more in zip(files, ([], [option]))
    ]
    return given, results


def run(case, is_compared, compare):
    """How many calls of a case were compared, and what is wrong."""
    name, files, head = case
    count = 0
    with tempfile.TemporaryDirectory() as folder:
        folder = Path(folder).resolve()
        for file, held in files.items():
            (folder / file).write_bytes(held)
        try:
            for words, _ in calls(files, head):
                if is_compared(words):
                    compare(folder, words)
                    count += 1
                call(folder, words)
        except (Failed, OSError, ValueError, KeyError, struct.error, subprocess.TimeoutExpired) as why:
            return count, f"{name}: {why}"
    return count, None


def main(names, what, is_compared, compare):
    """Compares such calls of all cases, or of those whose path below tests/ begins so; the status."""
    if not RV.exists():
        sys.exit("no ./rv: run make first")
    with ThreadPoolExecutor(len(os.sched_getaffinity(0))) as pool:
        results = list(pool.map(lambda case: run(case, is_compared, compare), cases(names)))
    for _, wrong in results:
        if wrong:
            print(wrong)
    failed = sum(wrong is not None for _, wrong in results)
    print(f"{sum(count for count, _ in results)} {what}")
    print(f"{len(results) - failed} passed, {failed} failed")
    return 1 if failed or not results else 0
