"""What a run of the benchmarks measured, as JSON in bench/out: tables.py makes the tables of RESULTS.md of it.

A file has the day, the commit of the program, the processors of the machine with its load before, and rows. A row names
its benchmark, what was measured, the tool, and figures by their names: seconds, bytes (of the source, the text or
files), packed (bytes), memory (bytes), rate (millions of instructions a second), programs (a second), times, exponent,
ratio. A script that measures some benchmarks alone keeps the rows of the others if they are of the same program.
"""

import datetime
import json
import os
import re
import subprocess
from pathlib import Path

HERE = Path(__file__).resolve().parent
OUT = HERE / "out"


def commit(rv):
    """The commit of a program, and whether it is proved, as it says itself."""
    process = subprocess.run([rv, "--version"], capture_output=True, text=True)
    mark = re.search(r"\((.*), commit (.*)\)", process.stdout)
    return {"commit": mark[2], "is_proved": mark[1] == "all proved"} if mark else {}


class Results:
    """The rows of a script; each is written as soon as it is measured, so that a run that is stopped leaves them."""

    def __init__(self, name):
        self.path, self.head, self.rows = OUT / f"{name}.json", {}, []

    def begin(self, rv, is_measured=lambda row: True):
        """Notes the day, the program and the machine; what is not measured now stays, if it is of the same program."""
        self.head = {"date": datetime.date.today().isoformat(), **commit(rv), "processors": os.cpu_count()}
        self.head["load"] = os.getloadavg()[0]
        self.rows = [row for row in of_program(self.path.stem, rv) if not is_measured(row)]

    def add(self, benchmark, what, tool, **figures):
        """Adds a row."""
        self.rows.append({"benchmark": benchmark, "what": what, "tool": tool, **figures})
        self.path.parent.mkdir(exist_ok=True)
        self.path.write_text(json.dumps({**self.head, "rows": self.rows}, indent=1) + "\n")


def read(name):
    """What a script measured last; nothing where it has not run."""
    path = OUT / f"{name}.json"
    return json.loads(path.read_text()) if path.exists() else {"rows": []}


def of_program(name, rv):
    """The rows that a script measured last, if they are of this program."""
    found, its = read(name), commit(rv)
    return found["rows"] if all(found.get(key) == value for key, value in its.items()) else []
