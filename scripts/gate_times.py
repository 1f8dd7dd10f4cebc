#!/usr/bin/env python3
"""Runs the gate, and writes what each crate cost.

usage: gate_times.py [COMMAND ..]

The command is `rt ci` unless words are given. It runs as it is: this script hands its output on and looks, beside
it, at the processes that it starts, four times a second. A process belongs to the crate that its words name
(`--crate-name`), or to its parent's; below a folder rt-edit-* it tries an edit. The table goes to standard output,
below what the command writes, and to out/gate_times.md. What ended between two looks, and rt itself, is in the last
row.
"""

import os
import re
import resource
import subprocess
import sys
import threading
import time
from pathlib import Path

HERE = Path(__file__).resolve().parent.parent
REPORT = HERE / "out" / "gate_times.md"
TICKS = os.sysconf("SC_CLK_TCK")
PAUSE = 0.25
PROOF, EDITS = "proof", "edits"


class Process:
    """A process that the command started: what it works on, its processor seconds and its memory in MB."""

    def __init__(self, parent):
        self.crate, self.kind = parent.crate if parent else None, parent.kind if parent else PROOF
        self.seconds, self.memory = 0.0, 0.0

    def look(self, pid):
        """Reads what the process has used by now."""
        fields = Path(f"/proc/{pid}/stat").read_text().rpartition(")")[2].split()
        self.seconds = (int(fields[11]) + int(fields[12])) / TICKS
        words = Path(f"/proc/{pid}/cmdline").read_bytes().split(b"\0")
        if b"--crate-name" in words[:-1]:
            self.crate = words[words.index(b"--crate-name") + 1].decode()
            self.kind = EDITS if "/rt-edit-" in os.readlink(f"/proc/{pid}/cwd") else PROOF
        peak = re.search(r"VmHWM:\s+(\d+)", Path(f"/proc/{pid}/status").read_text())
        self.memory = max(self.memory, int(peak[1]) / 1024 if peak else 0)


def parents():
    """The parent and the start of each process of the system."""
    found = {}
    for pid in filter(str.isdigit, os.listdir("/proc")):
        try:
            fields = Path(f"/proc/{pid}/stat").read_text().rpartition(")")[2].split()
            found[int(pid)] = int(fields[1]), fields[19]
        except (OSError, IndexError):
            continue
    return found


def look_at_all(top, seen):
    """Looks at the descendants of a process; `seen` keeps each by its number and its start."""
    found = parents()
    for pid in found:
        chain = [pid]
        while chain[-1] in found and chain[-1] != top:
            chain.append(found[chain[-1]][0])
        if chain[-1] != top:
            continue
        for one, parent in [*zip(chain, chain[1:])][::-1]:
            key = one, found[one][1]
            if key not in seen:
                above = seen.get((parent, found[parent][1]))
                seen[key] = Process(above)
            try:
                seen[key].look(one)
            except (OSError, IndexError):
                # (it has ended meanwhile)
                pass


def run(command):
    """Runs the command; its status, its output, the processes that it started, and its processor and clock seconds."""
    seen, lines, start = {}, [], time.monotonic()
    process = subprocess.Popen(command, cwd=HERE, stdout=subprocess.PIPE, text=True, errors="replace")

    def hand_on():
        for line in process.stdout:
            lines.append(line)
            print(line, end="", flush=True)

    reader = threading.Thread(target=hand_on)
    reader.start()
    while process.poll() is None:
        look_at_all(process.pid, seen)
        time.sleep(PAUSE)
    reader.join()
    used = resource.getrusage(resource.RUSAGE_CHILDREN)
    return process.returncode, lines, seen, used.ru_utime + used.ru_stime, time.monotonic() - start


def functions(lines):
    """How many functions each crate has, by the last line of its check."""
    found, crate = {}, None
    for line in lines:
        head = re.match(r"== (\w+)(: its tests)?$", line)
        if head:
            crate = None if head[2] else head[1]
        count = re.match(r"logic=proved.* functions=(\d+)", line)
        if crate and count:
            found[crate] = int(count[1])
    return found


def table(lines, seen, spent, clock):
    """The table, in the order of crates.txt, as the lines of a Markdown text."""
    counted = functions(lines)
    text = (HERE / "crates.txt").read_text()
    names = re.findall(r"(?m)^(\w+)[^#\n]*:", text)
    of = lambda crate, kind: [it for it in seen.values() if it.crate == crate and it.kind == kind]
    whole = lambda some: round(sum(it.seconds for it in some))
    shown = lambda number: f"{number:,}" if number else ""
    yield (
        "| Crate | Functions | Proof, with its tests: processor seconds | Must-fail edits: processor seconds "
        "| Largest process, MB |"
    )
    yield "| --- | --- | --- | --- | --- |"
    for name in names:
        proof, edits = of(name, PROOF), of(name, EDITS)
        largest = round(max((it.memory for it in [*proof, *edits]), default=0))
        cells = f"`{name}`", counted.get(name, 0), shown(whole(proof)), shown(whole(edits)), shown(largest)
        yield f"| {' | '.join(map(str, cells))} |"
    named = [it for it in seen.values() if it.crate]
    proof, edits = (whole(it for it in named if it.kind == kind) for kind in (PROOF, EDITS))
    largest = round(max((it.memory for it in named), default=0))
    yield f"| all | {sum(counted.values())} | {proof:,} | {edits:,} | {largest:,} |"
    yield f"| the rest | | {round(spent) - proof - edits:,} | | |"
    yield ""
    cores = len(os.sched_getaffinity(0))
    yield f"{clock / 60:.0f} minutes on {cores} cores, {spent / 60:.0f} processor minutes ({round(spent):,} seconds)"


def spent():
    """What the last run took, the last line of its table."""
    return REPORT.read_text().splitlines()[-1]


def measured(words):
    """Runs the command and writes the table; the command's status and its output."""
    status, lines, seen, spent, clock = run(words)
    text = "\n".join(table(lines, seen, spent, clock))
    REPORT.parent.mkdir(exist_ok=True)
    REPORT.write_text(text + "\n")
    print(f"\n{text}", flush=True)
    return status, lines


if __name__ == "__main__":
    sys.exit(measured(sys.argv[1:] or ["rt", "ci"])[0])
