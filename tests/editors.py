#!/usr/bin/env python3
"""Looks at what editors make of the lines of `rv check --format=gcc`: Vim's quickfix list, where Vim is there, and the
pattern of VS Code's problem matcher `$gcc`. And each line of `--format=json` is an object that Python reads.

Standard library alone; the last line is 'N passed, M failed'.
"""

import json
import re
import shutil
import subprocess
import sys
import tempfile
from pathlib import Path

ROOT = Path(__file__).resolve().parent.parent
RV = str(ROOT / "rv")
FAULTY = ".globl _start\n_start: addi a0, zero, 5000\n\tfoo\n"
DOUBTFUL = ".globl _start\n_start: ret\nlost: ret\n"
# What is found: file, line, column, and the first letter of how grave it is.
FOUND = [("faulty.s", 3, 2, "e"), ("faulty.s", 2, 24, "e"), ("doubtful.s", 3, 1, "w")]
# The pattern of `$gcc` in Visual Studio Code's extension for C and C++.
PROBLEM = re.compile(r"^(.*?):(\d+):(\d*):?\s+(?:fatal\s+)?(warning|error):\s+(.*)$")
VIM = """compiler gcc
cgetfile found
call writefile(map(getqflist(), {_, it -> join([bufname(it.bufnr), it.lnum, it.col, it.type], '|')}), 'list')
qall!
"""


def check(folder, form):
    """The lines of what is wrong with both sources."""
    lines = []
    for name in ["faulty.s", "doubtful.s"]:
        ran = subprocess.run(
            [RV, "check", f"--format={form}", name], cwd=folder, capture_output=True, text=True, timeout=60
        )
        lines += ran.stdout.splitlines()
    return lines


def in_vim(folder, lines):
    """The quickfix list of Vim."""
    (folder / "found").write_text("\n".join(lines) + "\n")
    (folder / "list.vim").write_text(VIM)
    subprocess.run(["vim", "-u", "NONE", "-i", "NONE", "-n", "-es", "-S", "list.vim"], cwd=folder, timeout=60)
    rows = [row.split("|") for row in (folder / "list").read_text().splitlines()]
    return [(name, int(line), int(column), grave) for name, line, column, grave in rows]


def in_code(lines):
    """What VS Code's matcher takes."""
    matches = [PROBLEM.match(line) for line in lines]
    return [(m[1], int(m[2]), int(m[3]), m[4][0]) for m in matches if m]


def in_json(lines):
    """What objects say."""
    objects = [json.loads(line) for line in lines]
    return [(it["file"], it["line"], it["column"], it["severity"][0]) for it in objects]


def main():
    with tempfile.TemporaryDirectory() as name:
        folder = Path(name)
        (folder / "faulty.s").write_text(FAULTY)
        (folder / "doubtful.s").write_text(DOUBTFUL)
        lines = check(folder, "gcc")
        found = {"VS Code": in_code(lines), "JSON": in_json(check(folder, "json"))}
        if shutil.which("vim"):
            found["Vim"] = in_vim(folder, lines)
    failed = 0
    for reader, taken in found.items():
        if taken != FOUND:
            failed += 1
            print(f"{reader} takes {taken}")
    print(f"{len(found) - failed} passed, {failed} failed")
    return int(failed > 0)


sys.exit(main())
