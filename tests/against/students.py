"""Shows what rv says of 60 wrong programs of beginners, for somebody to rate.

usage: compare.py students [NUMBER ..]

The programs are in students.txt, each with the ratings of `check`, `run`, `run --report` and `trace` by readers of the
output alone, of version 0.1.0 and of today:

  0  silent, or not true
  1  true, but no help, or in another place
  2  true, and in its place
  3  with the cure
  -  nothing to say before it runs

Each runs at most a million instructions, with what a terminal shows. Of a trace the last two lines are shown. Last
comes how many programs have each rating.
"""

import re
import subprocess
import sys
import tempfile
from collections import Counter
from pathlib import Path

from against.common import RV

PROGRAMS = Path(__file__).with_name("students.txt")
PROGRAM = re.compile(r"(?ms)^#--- (\d+) ([^\n]*)\n# (.*?) => (.*?)\n(.*?)(?=^#--- |\Z)")
CALLS = {
    "check": ["check"],
    "run": ["run", "--explain", "--limit", "1M"],
    "report": ["run", "--explain", "--report", "--limit", "1M"],
    "trace": ["trace", "--limit", "1M"],
}


def shown(call, name, folder):
    """What a call says of a program, without the registers and what comes behind them."""
    words = [RV, *CALLS[call], name]
    done = subprocess.run(words, cwd=folder, stdin=subprocess.DEVNULL, stdout=subprocess.PIPE, stderr=subprocess.STDOUT)
    lines = re.split(r"(?m)^registers$", done.stdout.decode("latin-1"))[0].splitlines()
    return [f"status {done.returncode}", *(lines[-3:] if call == "trace" else lines)]


def main():
    ratings = {call: (Counter(), Counter()) for call in CALLS}
    with tempfile.TemporaryDirectory() as folder:
        for number, title, *rated, source in PROGRAM.findall(PROGRAMS.read_text(encoding="utf-8")):
            for counts, marks in zip(zip(*ratings.values()), rated):
                for count, mark in zip(counts, marks.split()):
                    count[mark] += 1
            if sys.argv[1:] and number not in sys.argv[1:]:
                continue
            Path(folder, f"{number}.s").write_text(source, encoding="utf-8")
            print(f"\n== {number} {title}\n\n{source}")
            for call in CALLS:
                print("\n".join([f"-- {call}", *shown(call, f"{number}.s", folder)]))
    print("\nprograms with each rating, before and after")
    for call, counts in ratings.items():
        print(f"{call:8}" + "".join(f"{mark:>5}: {counts[0][mark]} to {counts[1][mark]}" for mark in "0123-"))
    return 0
