"""Draws what `rv stats --lcov` writes with genhtml of lcov, which must have nothing to say against it.

usage: compare.py genhtml [SOURCE ..]    (with ./rv and Debian's lcov; examples/*.s and bench/programs/*.c by default)

A C program is compiled by GCC first, and reads the number 1. Of each program genhtml must end with status 0, without a
warning or an error, and name as many lines, and as many of them executed, as the tracefile has; and the page of the
source must show each count at its line. The last line is 'N passed, M failed'.
"""

import re
import subprocess
import sys
import tempfile
from pathlib import Path

from against.common import GNU, ROOT, RV, need

GCC = f"{GNU}gcc -march=rv64imac -mabi=lp64 -O2 -ffreestanding -fdata-sections -w -S".split()
# A line of a page: its number, how often it was executed, and its text.
SHOWN = re.compile(r'<span class="lineNum"> *(\d+) </span><span class="line(?:No)?Cov"> *(\d+) :')


def run(*words, at, **more):
    return subprocess.run([*map(str, words)], cwd=at, capture_output=True, text=True, **more)


def source_of(program, folder):
    """The assembly of a program."""
    source = folder / f"{program.stem}.s"
    if program.suffix == ".c":
        run(*GCC, "-o", source, program, at=ROOT).check_returncode()
    else:
        source.write_bytes(program.read_bytes())
    return source


def counts_of(tracefile):
    """How often each line was executed, as the tracefile says."""
    return {int(line): int(count) for line, count in re.findall(r"^DA:(\d+),(\d+)$", tracefile, re.M)}


def fault(program, folder):
    """What is wrong with the picture of a program, if anything."""
    source, info = source_of(program, folder), folder / "info"
    run(RV, "stats", "--lcov", info, source.name, at=folder, input="1\n")
    if not info.exists():
        return "no tracefile"
    drawn = run("genhtml", "-o", "html", "info", at=folder)
    if drawn.returncode or drawn.stderr or re.search("warn|error", drawn.stdout, re.I):
        return f"genhtml: {drawn.stdout}{drawn.stderr}"
    counts = counts_of(info.read_text())
    executed = sum(count > 0 for count in counts.values())
    if f"({executed} of {len(counts)} lines)" not in drawn.stdout:
        return f"{executed} of {len(counts)} lines were executed: {drawn.stdout}"
    pages = list((folder / "html").rglob(f"{source.name}.gcov.html"))
    if len(pages) != 1:
        return f"{len(pages)} pages"
    shown = {int(line): int(count) for line, count in SHOWN.findall(pages[0].read_text())}
    return None if shown == counts else f"the page has other counts at {sorted(shown.items() ^ counts.items())[:4]}"


def main():
    need(RV, "genhtml")
    named = [Path(name) for name in sys.argv[1:]]
    programs = named or sorted([*ROOT.glob("examples/*.s"), *ROOT.glob("bench/programs/*.c")])
    failed = 0
    for program in programs:
        with tempfile.TemporaryDirectory() as name:
            wrong = fault(program, Path(name))
        if wrong:
            failed += 1
            print(f"{program}: {wrong}")
    print(f"{len(programs) - failed} passed, {failed} failed")
    return failed != 0
