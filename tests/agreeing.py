#!/usr/bin/env python3
"""Tests that `rv test` and tests/run.py say the same of each case of tests/ that is one source with one run.

Each such case, also of a row of a table, becomes a source with its head. `rv test` has to pass it where run.py does;
and where another status, end, console or fault is wanted, fail it. Standard library alone; the last line is 'N passed,
M failed'.
"""

import json
import os
import re
import subprocess
import sys
import tempfile
from concurrent.futures import ThreadPoolExecutor
from pathlib import Path

import run

# The keys of a head that `rv test` takes, each with a value that no case has, but for one of the statuses.
KEYS = {"exit": "255", "end": "Limit 1", "console": "no such text", "fault": "no such line"}
OTHERS = {"input", "limit", "instructions"}
# The bytes of a source that has room for a head: one may have 16 MiB.
MOST = (1 << 24) - 1000


def shifted(value, name, lines):
    """A fault of a source that so many lines stand before."""
    return re.sub(rf"^{re.escape(name)}:(\d+)", lambda it: f"{name}:{int(it[1]) + lines}", value)


def source_of(case):
    """The name, the source and the head of a case, if it is one source with one run."""
    _, files, head = case
    keys = [key for key, _ in head]
    if len(files) != 1 or not set(keys) & set(KEYS) or set(keys) - set(KEYS) - OTHERS or len({*keys}) != len(keys):
        return None
    [(name, text)] = files.items()
    if not name.endswith(".s") or len(text) > MOST or any(key == "input" and "{{" in value for key, value in head):
        return None
    return name, text, head


def written(folder, name, text, head):
    """Writes a source with a head, where its own has become words."""
    lines = len(head) + 1
    said = [f"# {key}: {shifted(value, name, lines)}" for key, value in head]
    own = re.sub(rb"(?m)^# ([a-z]+):", rb"# (\1)", text)
    path = Path(folder, name)
    path.parent.mkdir()
    path.write_bytes("\n".join([*said, "", ""]).encode("latin-1") + own)
    return path


def another(key, value):
    """A value of a key that is not this one."""
    return KEYS[key] if value != KEYS[key] else "254"


def verdicts(paths):
    """What `rv test` says of each of these files, in the time that one call of `rv` may take for each hundred."""
    words = [run.RV, "test", "--json", *map(str, paths)]
    limit = run.SECONDS * (1 + len(paths) // 100)
    try:
        lines = subprocess.run(words, capture_output=True, text=True, timeout=limit).stdout.splitlines()
    except subprocess.TimeoutExpired:
        sys.exit(f"rv test over {len(paths)} files had not ended after {limit} seconds")
    return [json.loads(it) for it in lines[:-1]]


def main():
    taken = [(case, it) for case in run.cases([]) if (it := source_of(case))]
    wanted, paths = [], []
    with tempfile.TemporaryDirectory() as room:
        with ThreadPoolExecutor(len(os.sched_getaffinity(0))) as pool:
            faults = [*pool.map(run.run, (case for case, _ in taken))]
        for at, ((case, (name, text, head)), fault) in enumerate(zip(taken, faults)):
            paths.append(written(f"{room}/{at}", name, text, head))
            wanted.append((case[0], fault is None))
            key = next(key for key, _ in head if key in KEYS)
            other = [(it, another(it, value) if it == key else value) for it, value in head]
            paths.append(written(f"{room}/{at}-other", name, text, other))
            wanted.append((f"{case[0]}, another {key}", False))
        came = verdicts(paths)
    wrong = [(name, it) for (name, passes), it in zip(wanted, came) if passes != it["passed"]]
    for name, it in wrong:
        print(f"{name}: rv test says {it}")
    failed = len(wrong) + len(wanted) - len(came) + int(not taken)
    print(f"{len(wanted) - failed} passed, {failed} failed")
    return int(failed > 0)


if __name__ == "__main__":
    sys.exit(main())
