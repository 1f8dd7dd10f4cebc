#!/usr/bin/env python3
"""Looks at when rv shows colours: on a terminal, and neither in a pipe nor a file, nor where NO_COLOR is set; at which
words have which; and at when it explains a fault: on a terminal, or where --explain asks for it.

Without its colours what a terminal shows is what a pipe has. Standard library alone; the last line is 'N passed, M
failed'.
"""

import os
import pty
import re
import subprocess
import sys
import tempfile
from pathlib import Path

ROOT = Path(__file__).resolve().parent.parent
RV = str(ROOT / "rv")
SOURCE = ROOT / "examples" / "exit7.s"
COLOUR = re.compile(rb"\x1b\[[\d;]*m")
# A source with texts, in which quotes and comments are no others.
TEXTS = """.globl _start
_start: nop
.data
.ascii "a \\"b\\" # c", "\\\\" # d
.asciz ""
"""
# Words that print listings, and those that trace to standard error.
TRACES = [["trace", str(SOURCE)], ["run", "--report", "--limit", "1", str(SOURCE)]]
# Words that are refused, with the place of `--explain` before the file.
REFUSED = [
    ["build", "-o", "out", "faulty.s"],
    ["as", "-o", "out", "faulty.s"],
    ["map", "faulty.s"],
    ["run", "faulty.s"],
]
FAULTY = ".globl _start\n_start: addi a0, zero, 5000\n"
LISTINGS = [
    ["objdump", "--map", "exit7.map", "exit7"],
    ["objdump", "--raw", "exit7"],
    ["dis", "exit7"],
    ["dis", "--base", "--map", "exit7.map", "exit7"],
    ["list", str(SOURCE)],
    ["list", "text.s"],
]


# Sources, calls that show them, and lines of these: mnemonics are Y{yellow}, registers B{blue}, numbers M{magenta} and
# symbols G{green} (ECMA-48, 8.3.117), and nothing in a comment or a text is.
COLOURS = {"G": 32, "Y": 33, "B": 34, "M": 35}
PAINTED_SOURCES = {
    "words.s": """.globl _start
.option norvc
_start: sd ra, 8(sp) # keeps x1
.option rvc
c.beqz a0,.+4; li t6, 'a'
sd x31, x32, t0
g:	ret
.data
x32: .ascii "x1 \\" a0"; .word 5
""",
    "jump.s": ".option norvc; .globl _start; _start: addi a0,zero,-7; jal x31, f; nop; f: lw a5,-20(s0)\n",
    "escape.s": ".globl _start\n_start: li a0, 1 # \x1b[1m\n",
}
PAINTED = [
    (
        ["list", "words.s"],
        [
            "   M{2}                \tY{.option} norvc",
            "   M{3} M{10000} M{23341100} \tG{_start}: Y{sd} B{ra}, M{8}(B{sp}) # keeps x1",
            "   M{5} M{10004} M{11C1930F} \tY{c.beqz} B{a0},.+M{4}; Y{li} B{t6}, 'a'",
            "   M{6} M{1000a} M{97120000} \tY{sd} B{x31}, x32, B{t0}",
            "   M{7} M{10012} M{8280}     \tG{g}:\tY{ret}",
            '   M{9} M{11000} M{78312022} \tG{x32}: Y{.ascii} "x1 \\" a0"; Y{.word} M{5}',
        ],
    ),
    (
        ["objdump", "--map", "map", "zeros"],
        ["@ M{1} M{1} M{4}", "M{10000}: Y{addi} B{a0},B{zero},M{-7}", "M{10008}: unknown"],
    ),
    (
        ["dis", "--map", "map", "exe"],
        [
            "M{0000000000010000} G{<_start>}:",
            "   M{10004}:\tM{00800fef}          \tY{jal}\tB{t6},M{1000c} G{<_start+0xc>}",
            "   M{1000c}:\tM{fec42783}          \tY{lw}\tB{a5},M{-20}(B{s0})",
        ],
    ),
    (
        ["trace", "jump.s"],
        [
            "           M{2} M{0000000000010004} G{_start}+M{0x4}           M{ef0f8000} Y{jal} B{t6},M{0x1000c}"
            "                    B{t6} <- M{0000000000010008}"
        ],
    ),
]


def writes_errors(words):
    """Whether what is looked at is on standard error."""
    return words in TRACES or words in REFUSED or words[0] == "trace"


def in_pipe(words, folder, *more):
    process = subprocess.run([RV, *words, *more], cwd=folder, capture_output=True, timeout=60)
    return process.stderr if writes_errors(words) else process.stdout


def on_terminal(words, folder, **more):
    """What a program writes to a terminal, with the line ends that it wrote."""
    stream = "stderr" if writes_errors(words) else "stdout"
    ours, theirs = pty.openpty()
    environment = {key: value for key, value in os.environ.items() if key != "NO_COLOR"} | more
    with subprocess.Popen([RV, *words], cwd=folder, env=environment, **{stream: theirs}) as started:
        os.close(theirs)
        came = b""
        try:
            while piece := os.read(ours, 4096):
                came += piece
        except OSError:
            pass
        started.wait(60)
    os.close(ours)
    return came.replace(b"\r\n", b"\n")


def faults(words, folder):
    """What is wrong with a listing."""
    plain, shown = in_pipe(words, folder), on_terminal(words, folder)
    if COLOUR.search(plain) or not plain:
        yield "a pipe has colours, or nothing"
    if not COLOUR.search(shown):
        yield "a terminal has no colours"
    if COLOUR.sub(b"", shown) != plain:
        yield f"a terminal shows {shown!r}, and a pipe {plain!r}"
    if on_terminal(words, folder, NO_COLOR="1") != plain:
        yield "NO_COLOR has no effect"
    if not COLOUR.search(on_terminal(words, folder, NO_COLOR="")):
        yield "NO_COLOR has an effect where it is empty"


def unexplained(words, folder):
    """What is wrong with how a fault is explained."""
    plain, asked = in_pipe(words, folder), in_pipe(words, folder, "--explain")
    if plain.count(b"\n") != 1 or not asked.startswith(plain) or asked == plain:
        yield f"a pipe has {plain!r}, with --explain {asked!r}"
    if (shown := on_terminal(words, folder)) != asked:
        yield f"a terminal shows {shown!r}, and --explain {asked!r}"


def coloured(line, shows=True):
    """A line whose words have marks, as a terminal shows it, or as a pipe has it."""
    form = (lambda it: f"\x1b[{COLOURS[it[1]]}m{it[2]}\x1b[0m") if shows else (lambda it: it[2])
    return re.sub(r"([GYBM])\{(.*?)\}", form, line).encode()


def wrongly_painted(words, lines, folder):
    """The lines that a pipe has not, or that a terminal shows in other colours."""
    plain, shown = in_pipe(words, folder).split(b"\n"), on_terminal(words, folder).split(b"\n")
    for line in lines:
        wanted = coloured(line)
        if coloured(line, False) not in plain or wanted not in shown:
            yield f"no line {wanted!r} in {shown!r}"


def colours_of_escapes(folder):
    """A text with an escape of its own is left as it is."""
    if on_terminal(["list", "escape.s"], folder) != in_pipe(["list", "escape.s"], folder):
        yield "a text with an escape has colours"


def main():
    failed = 0
    with tempfile.TemporaryDirectory() as folder:
        subprocess.run([RV, "build", "-o", "exit7", "--map", "exit7.map", str(SOURCE)], cwd=folder, check=True)
        Path(folder, "text.s").write_text(TEXTS)
        Path(folder, "faulty.s").write_text(FAULTY)
        for name, text in PAINTED_SOURCES.items():
            Path(folder, name).write_text(text)
        subprocess.run([RV, "build", "-o", "exe", "--map", "map", "jump.s"], cwd=folder, check=True)
        code = Path(folder, "exe").read_bytes()
        Path(folder, "zeros").write_bytes(code[:0x1008] + bytes(4) + code[0x100C:])
        checks = [(words, faults(words, folder)) for words in LISTINGS + TRACES]
        checks += [(words, unexplained(words, folder)) for words in REFUSED]
        checks += [(words, wrongly_painted(words, lines, folder)) for words, lines in PAINTED]
        checks += [(["list", "escape.s"], colours_of_escapes(folder))]
        for words, found in checks:
            found = list(found)
            failed += bool(found)
            for fault in found:
                print(f"rv {' '.join(words)}: {fault}")
    print(f"{len(checks) - failed} passed, {failed} failed")
    return int(failed > 0)


if __name__ == "__main__":
    sys.exit(main())
