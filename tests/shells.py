#!/usr/bin/env python3
"""Completes words of rv in bash by what `rv completions bash` writes, and assembles as GCC would.

zsh and fish read their scripts, where they are installed. GCC's assembler, a script of the shell, reads a file, or
standard input where none is named.

Standard library alone; the last line is 'N passed, M failed'.
"""

import re
import shutil
import subprocess
import sys
import tempfile
from pathlib import Path

TOP = Path(__file__).resolve().parent.parent
RV = TOP / "rv"
# What is typed, and what the last word is completed to.
ROWS = [
    ("rv b", "batch build"),
    ("rv ma", "map"),
    ("rv --v", "--version"),
    ("rv e", "elf explain"),
    ("rv stats --l", "--lines --lcov --limit"),
    ("rv image --", "--bin --ihex --srec --vhex --fill --help"),
    (
        "rv build -",
        "-o --map -g --text-start --origin --no-relax --gc-sections --pad-ends --explain "
        "--defsym --library -l -L --start-group --end-group --help",
    ),
    ("rv dump -", "--help"),
    ("rv run pro", "program.s"),
]
COMPLETES = """. ./rv.bash
COMP_WORDS=({}) COMP_CWORD=$((${{#COMP_WORDS[@]}} - 1))
_rv
echo "${{COMPREPLY[@]}}"
"""


SOURCE = "f: addi a0, a0, 1\n ret\n"
# The words of `gcc -c` and of `gcc -pipe -I include -c`.
ASSEMBLES = [
    "--traditional-format -march=rv64imac -mabi=lp64 -o file.o program.s",
    "-I include --traditional-format -march=rv64imac -mabi=lp64 -o pipe.o",
]


def output(words, folder, given=""):
    return subprocess.run(words, cwd=folder, capture_output=True, text=True, timeout=60, input=given)


def completed(folder):
    """For each row, whether bash completes it so."""
    for typed, wanted in ROWS:
        came = output(["bash", "-c", COMPLETES.format(typed)], folder)
        yield typed, wanted, came.stdout.strip() + came.stderr
    words = output([RV, "--help"], folder).stdout.split("Commands:\n")[1].split("\n\n")[0]
    names = re.findall(r"(?m)^  (\w+)", words)
    came = output(["bash", "-c", COMPLETES.format("rv ''")], folder)
    yield "rv", " ".join([*names, "--help", "--version"]), came.stdout.strip()


def read(folder):
    """For each other shell that is installed, what it says of its script."""
    for shell in ("zsh", "fish"):
        if shutil.which(shell):
            came = output([shell, "-n", f"rv.{shell}"], folder)
            yield shell, "", came.stdout + came.stderr


def assembled(folder):
    """Whether the installed assembler makes the object of `rv as`, of a file and of standard input."""
    for part in ("bin", "libexec/rv"):
        Path(folder, part).mkdir(parents=True)
    Path(folder, "bin/rv").symlink_to(RV)
    shutil.copy(TOP / "scripts/as.sh", Path(folder, "libexec/rv/as"))
    message = output([RV, "as", "-o", "wanted.o", "program.s"], folder).stderr
    for words in ASSEMBLES:
        came = output(["libexec/rv/as", *words.split()], folder, SOURCE).stderr
        made = Path(folder, words.split()[words.split().index("-o") + 1])
        same = made.exists() and made.read_bytes() == Path(folder, "wanted.o").read_bytes()
        yield f"as {words}", "the same object", message + came + ("the same object" if same else "another object")


def main():
    passed = failed = 0
    with tempfile.TemporaryDirectory() as folder:
        Path(folder, "program.s").write_text(SOURCE)
        for shell in ("bash", "zsh", "fish"):
            Path(folder, f"rv.{shell}").write_text(output([RV, "completions", shell], folder).stdout)
        for name, wanted, came in [*completed(folder), *read(folder), *assembled(folder)]:
            if came == wanted:
                passed += 1
                continue
            failed += 1
            print(f"{name}\n  wanted {wanted!r}\n  came   {came!r}")
    print(f"{passed} passed, {failed} failed")
    return int(failed > 0)


if __name__ == "__main__":
    sys.exit(main())
