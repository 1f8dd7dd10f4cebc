"""Links random objects and archives by rv and by GNU ld, and compares which objects are taken, and in which order.

usage: compare.py archives [COUNT] [--seed N] [--from N] [--only N] [--rv RV]

It needs riscv64-unknown-elf-as, -ar and -ld, and takes 100 links unless told otherwise. An object defines some of a few
names, strongly or weakly, and refers to some, strongly or weakly; it also has a label of its own, so that the addresses
of these labels tell the order of what was taken. Objects and archives stand in any order, some of them in groups.

Asked is that both take the same objects in the same order, or that both refuse the link.

Each difference is a line; the last one counts the links. Exit status 1 if there is a difference.
"""

import random
import re
import subprocess
import sys
import tempfile
from pathlib import Path

from against.common import GNU, SECONDS, need, numbers_of, random_parser

NAMES = [f"n{number}" for number in range(9)]


def done(words, folder):
    """The status of a call, and what it writes to standard error."""
    process = subprocess.run(
        [str(word) for word in words], cwd=folder, stdout=subprocess.DEVNULL, stderr=subprocess.PIPE, timeout=SECONDS
    )
    return process.returncode, process.stderr.decode("utf8", "replace").strip()


def source(draw, number, is_entry):
    """The source of an object."""
    lines = [f".globl mark_{number}", f"mark_{number}: nop"]
    if is_entry:
        lines += [".globl _start", "_start: nop"]
    told = draw.sample(NAMES, draw.choice([0, 1, 1, 2, 3]))
    for name in told:
        lines += [f".{draw.choice(['globl', 'globl', 'globl', 'weak'])} {name}", f"{name}: nop"]
    lines.append(".data")
    for name in draw.sample(NAMES, draw.choice([0, 1, 2, 2, 3])):
        if name not in told and draw.random() < 0.2:
            lines.append(f".weak {name}")
        lines.append(f".dword {name}")
    return "\n".join([*lines, ""])


def drawn(draw, folder):
    """Makes the files of a link; the words for GNU ld and for rv."""
    count = draw.randint(3, 14)
    for number in range(count):
        (folder / f"o{number}.s").write_text(source(draw, number, number == 0))
        status, said = done([f"{GNU}as", "-march=rv64imac", "-o", f"o{number}.o", f"o{number}.s"], folder)
        if status:
            sys.exit(said)
    numbers = list(range(count))
    draw.shuffle(numbers)
    gnu, rv, group = [], [], 0
    while numbers:
        if not group and draw.random() < 0.25:
            group = draw.randint(1, 3)
            gnu.append("--start-group")
            rv.append("--start-group")
        if draw.random() < 0.2:
            file = f"o{numbers.pop()}.o"
            gnu.append(file)
            rv.append(file)
        else:
            held = [f"o{numbers.pop()}.o" for _ in range(min(len(numbers), draw.randint(1, 5)))]
            file = f"lib{len(gnu)}.a"
            status, said = done([f"{GNU}ar", "rcsD", file, *held], folder)
            if status:
                sys.exit(said)
            gnu.append(file)
            rv += ["--library", file]
        if group:
            group -= 1
            if not group or not numbers:
                group = 0
                gnu.append("--end-group")
                rv.append("--end-group")
    return gnu, rv


def by_address(found):
    """The labels of objects by their addresses."""
    return [name for _, name in sorted((int(address, 16), name) for address, name in found)]


def compared(draw, folder, program):
    """What differs in a link, or nothing."""
    gnu, rv = drawn(draw, folder)
    one, said = done([f"{GNU}ld", "-m", "elf64lriscv", "-o", "gnu", *gnu], folder)
    two, told = done([program, "ld", "-o", "rv", "--map", "map", *rv], folder)
    if two not in (0, 1):
        return f"rv ends with {two}: {told}"
    if bool(one) != bool(two):
        return f"GNU ld: {said or 'links'}; rv: {told or 'links'}; {' '.join(rv)}"
    if one:
        return None
    symbols = subprocess.run([f"{GNU}nm", "gnu"], cwd=folder, stdout=subprocess.PIPE, check=True).stdout.decode()
    wanted = by_address(re.findall(r"^([0-9a-f]+) T (mark_\d+)$", symbols, re.M))
    held = re.findall(r"^global (mark_\d+) ([0-9a-f]+)$", (folder / "map").read_text(), re.M)
    came = by_address((address, name) for name, address in held)
    return None if wanted == came else f"GNU ld takes {wanted}, rv {came}; {' '.join(rv)}"


def main():
    options = random_parser(__doc__, 100).parse_args()
    need(f"{GNU}as", f"{GNU}ar", f"{GNU}ld", f"{GNU}nm")
    numbers, different = numbers_of(options), 0
    for number in numbers:
        with tempfile.TemporaryDirectory() as folder:
            why = compared(random.Random(f"{options.seed} {number}"), Path(folder), options.rv.resolve())
        if why:
            different += 1
            print(f"{number}: {why}")
    print(f"{len(numbers)} links, {different} differ")
    return int(different > 0)
