#!/usr/bin/env python3
"""Runs the C programs that csmith draws of seeds by `rv batch`, in one process, and compares them with qemu-riscv64.

usage: batch.py FIRST LAST

Prints a line for each that differs, and last how many were the same; one that takes qemu too long is neither. It
needs what one.sh needs.
"""

import json
import subprocess
import sys
import tempfile
from pathlib import Path

HEADERS = Path(__file__).resolve().parents[2] / "tests/against/csmith"
# GCC loads the last bytes of an object with those behind it: what `rv build --pad-ends` links there.
ENDS = ".section .rodata; .space 8; .data; .space 8; .bss; .space 8"
TOO_LONG = "an end within 10 seconds"
GCC = f"riscv64-unknown-elf-gcc -march=rv64imac -mabi=lp64 -ffreestanding -w -O1 -S -I{HEADERS} -I/usr/include/csmith"


def source(seed, folder):
    """The assembly of a seed's program."""
    program = folder / "program.c"
    subprocess.run(["csmith", "--seed", str(seed), "--no-argc", "-o", program], check=True)
    subprocess.run([*GCC.split(), "-o", folder / "program.s", program], check=True)
    return (folder / "program.s").read_text()


def by_qemu(text, folder):
    """The status and the console of a program by qemu, or why there are none."""
    program = folder / "program"
    (folder / "program.s").write_text(text)
    if subprocess.run(["rv", "build", "--pad-ends", "-o", program, folder / "program.s"], check=False).returncode:
        return "a build"
    try:
        words = ["qemu-riscv64", program]
        ran = subprocess.run(words, stdin=subprocess.DEVNULL, capture_output=True, timeout=10, check=False)
    except subprocess.TimeoutExpired:
        return TOO_LONG
    return ran.returncode, ran.stdout.decode()


def main(first, last):
    same = 0
    with tempfile.TemporaryDirectory() as room, subprocess.Popen(
        ["rv", "batch", "--limit", "4G"], stdin=subprocess.PIPE, stdout=subprocess.PIPE, text=True
    ) as batch:
        for seed in range(int(first), int(last) + 1):
            text = source(seed, Path(room))
            print(json.dumps({"id": seed, "sources": [text, ENDS], "want": ["console"]}), file=batch.stdin, flush=True)
            wanted, answer = by_qemu(text, Path(room)), json.loads(batch.stdout.readline())
            came = answer["status"], answer.get("console")
            same += wanted == came
            if wanted not in (TOO_LONG, came):
                print(f"{seed}: wanted {wanted}, came {answer}")
        batch.stdin.close()
    print(f"{same} same")


if __name__ == "__main__":
    main(*sys.argv[1:])
