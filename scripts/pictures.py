#!/usr/bin/env python3
"""Draws what ./rv shows on a terminal, for README.md: docs/pictures/NAME.svg.

usage: pictures.py [--check]     with --check nothing is written: each picture has to be what would be drawn

The text and the colours are what the program writes to a terminal of this script. Standard library alone; the last line
is 'N passed, M failed'.
"""

import os
import pty
import re
import subprocess
import sys
import tempfile
from html import escape
from pathlib import Path

ROOT = Path(__file__).resolve().parent.parent
PICTURES = ROOT / "docs/pictures"
FAULTY = """.globl _start
_start: la   s0, table
        addi s1, zero, 4000
        .word 7
next:   lw   t0, (s0)
        bnez t0, nxt
"""
SOUND = """.globl _start
_start: la   s0, table
        li   s1, 3
        li   a0, 0
next:   lw   t0, (s0)
        add  a0, a0, t0
        addi s0, s0, 4
        addi s1, s1, -1
        bnez s1, next
        li   a7, 93
        ecall
.section .rodata
table:  .word 1, 2, 3
"""
# Of each picture: what the source sum.s says, and the commands that are shown.
SHOWN = {
    "check": (FAULTY, ["rv check sum.s"]),
    "listing": (SOUND, ["rv build -o sum --map sum.map sum.s", "rv dis --map sum.map sum", "rv run sum; echo $?"]),
}
# A colour for each number of ECMA-48's "select graphic rendition" that rv writes.
COLOURS = {"31": "#ff7b72", "32": "#7ee787", "33": "#e3b341", "34": "#79c0ff", "35": "#d2a8ff", "36": "#56d4dd"}
PLAIN, BEHIND, PROMPT = "#e6edf3", "#0d1117", "#8b949e"
SIZE, ADVANCE, LINE, MARGIN = 14, 8.4, 19, 14
ESCAPE = re.compile(r"\x1b\[([\d;]*)m")


def on_terminal(command, folder):
    """What a command writes to a terminal."""
    ours, theirs = pty.openpty()
    words = {key: value for key, value in os.environ.items() if key != "NO_COLOR"}
    words["PATH"] = f"{ROOT}:{words['PATH']}"
    with subprocess.Popen(
        ["sh", "-c", command], cwd=folder, env=words, stdout=theirs, stderr=theirs, stdin=theirs
    ) as run:
        os.close(theirs)
        came = b""
        try:
            while piece := os.read(ours, 4096):
                came += piece
        except OSError:
            pass
        run.wait(60)
    os.close(ours)
    return came.replace(b"\r\n", b"\n").decode()


def spans(line):
    """The parts of a line in one colour each: the column where the part begins, its text and its colour."""
    column, colour = 0, PLAIN
    for at, part in enumerate(ESCAPE.split(line)):
        if at % 2:
            colour = COLOURS.get(part.split(";")[-1], PLAIN)
            continue
        for word in re.split(r"(\t|  +)", part):
            if word == "\t":
                column += 8 - column % 8
            elif word.strip():
                yield column, word, colour
                column += len(word)
            else:
                column += len(word)


def drawn(lines):
    """The picture of some lines, each a list of parts."""
    width = MARGIN * 2 + ADVANCE * max(column + len(text) for line in lines for column, text, _ in line)
    height = MARGIN * 2 + LINE * len(lines)
    yield f'<svg xmlns="http://www.w3.org/2000/svg" width="{width:.0f}" height="{height}" xml:space="preserve">'
    yield f'<rect width="100%" height="100%" rx="6" fill="{BEHIND}"/>'
    yield f'<g font-family="ui-monospace, Menlo, Consolas, monospace" font-size="{SIZE}">'
    for at, line in enumerate(lines):
        for column, text, colour in line:
            place = f'x="{MARGIN + ADVANCE * column:.1f}" y="{MARGIN + LINE * at + SIZE}"'
            yield f'<text {place} textLength="{ADVANCE * len(text):.1f}" fill="{colour}">{escape(text)}</text>'
    yield "</g>\n</svg>\n"


def picture(source, commands):
    """The picture of commands over a source, with what they write."""
    lines = []
    with tempfile.TemporaryDirectory() as folder:
        Path(folder, "sum.s").write_text(source)
        for command in commands:
            lines.append([(0, "$", PROMPT), (2, command, PLAIN)])
            lines += [[*spans(line)] for line in on_terminal(command, folder).splitlines()]
    return "\n".join(drawn(lines))


def main():
    failed = 0
    for name, shown in SHOWN.items():
        file, text = PICTURES / f"{name}.svg", picture(*shown)
        if sys.argv[1:] != ["--check"]:
            file.write_text(text)
        elif not file.exists() or file.read_text() != text:
            failed += 1
            print(f"{file.relative_to(ROOT)} is not what ./rv shows: run scripts/pictures.py")
    print(f"{len(SHOWN) - failed} passed, {failed} failed")
    return int(failed > 0)


if __name__ == "__main__":
    sys.exit(main())
