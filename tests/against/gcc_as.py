"""Lets GCC take rv for its assembler, and compares what both linkers make of its objects.

usage: compare.py gcc_as PREFIX [PROGRAMS]      (200 programs by default)

PREFIX is what 'make install PREFIX=..' was given.

GCC compiles with `-B PREFIX/libexec/rv/ -march=rv64imac -mabi=lp64 -c`: the programs of bench/, each at four levels,
and programs that csmith draws from seed 1 on, at one level each, every second one in two files. Their objects must be
rv's. `rv ld` and GNU ld link them, and GNU ld what GNU as makes of the same programs. All three executables run by `rv
run`, and by qemu-riscv64 where it is installed, and must end alike: the same status and the same console.

A program takes no part, and is counted by its reason, where csmith draws none or GCC compiles none, where its source
has what the language leaves out (`.comm`, and `.set` of a name as another's), where it is longer than 20 million
instructions, and where it loads bytes past the end of a region, as GCC does behind the last object. The last line is 'N
passed, M failed'. Standard library alone; it needs riscv64-unknown-elf-gcc, its binutils and csmith.
"""

import re
import shutil
import struct
import sys
import tempfile
from collections import Counter
from concurrent.futures import ThreadPoolExecutor
from itertools import count, islice
from pathlib import Path

from against.common import (
    CSMITH,
    FLAGS,
    GNU,
    LEFT_OUT,
    QEMU,
    ROOT,
    completed,
    draw,
    is_limit,
    need,
    outcome,
    processors,
    refusal,
    succeeds,
)

BENCH = sorted((ROOT / "bench" / "programs").glob("*.c"))
LEVELS = ["-O0 -fdata-sections", "-O1 -pipe", "-O2", "-Os"]
LIMIT = "20000000"
# How many rounds a program of bench/ does; the others do not read.
INPUT = b"1\n"


class TakesNoPart(Exception):
    """Why a program is not compared."""


class Tools:
    """What is installed under a prefix, beside GNU's tools."""

    def __init__(self, prefix):
        self.rv = str(prefix / "bin" / "rv")
        self.folder = prefix / "libexec" / "rv"
        self.has_qemu = shutil.which(QEMU) is not None

    def compiled(self, folder, sources, flags, kind):
        """The objects of sources, by rv where `kind` is ours."""
        ours = ["-B", f"{self.folder}/"] if kind == "ours" else []
        objects = [folder / f"{source.stem}.{kind}.o" for source in sources]
        for source, wanted in zip(sources, objects):
            gcc = completed([f"{GNU}gcc", *ours, *FLAGS, *flags, "-c", "-o", wanted, source])
            if gcc is None or gcc.returncode:
                return None if gcc is None else gcc.stderr.decode(errors="replace")
        return objects

    def why_left_out(self, folder, sources, flags):
        """The reason for which a source is refused, if the language leaves out what it has."""
        for source in sources:
            text = folder / f"{source.stem}.s"
            succeeds([f"{GNU}gcc", *FLAGS, *flags, "-S", "-o", text, source])
            process = completed([self.rv, "as", "-o", folder / "none.o", text])
            if process and process.returncode and refusal(process) in LEFT_OUT:
                return refusal(process)
        return None

    def gnu_link(self, exe, objects):
        """Whether GNU ld links objects; its own shortening of addresses fails at times."""
        ld = [f"{GNU}ld", "--no-warn-rwx-segments", "-o", exe]
        return succeeds([*ld, *objects]) or succeeds([*ld, "--no-relax", *objects])

    def run(self, exe):
        """The end of a run by rv."""
        return completed([self.rv, "run", "--limit", LIMIT, exe], input=INPUT)

    def ends(self, exe):
        """How an executable ends, by each machine."""
        runs = [self.run(exe)]
        if self.has_qemu:
            runs.append(completed([QEMU, exe], input=INPUT))
        return runs


def is_past_end(exe, process):
    """Whether a run of rv ended at a load that begins in a segment and goes on past its end."""
    load = re.match(rb"rv: Load(?:Outside|Text) ([0-9a-f]+)", process.stderr)
    if process.returncode != 125 or load is None:
        return False
    data, start = exe.read_bytes(), int(load.group(1), 16)
    headers = [struct.unpack_from("<16xQ16xQ", data, 64 + 56 * at) for at in range(data[56])]
    return any(start < address + size < start + 8 for address, size in headers)


def fault(tools, folder, sources, flags):
    """What differs of a program, if anything; raises where it takes no part."""
    wanted = tools.compiled(folder, sources, flags, "wanted")
    if not isinstance(wanted, list) or not tools.gnu_link(folder / "wanted", wanted):
        raise TakesNoPart("not made by GNU's tools")
    by_gnu = tools.ends(folder / "wanted")
    if None in by_gnu or is_limit(by_gnu[0]):
        raise TakesNoPart("too long")
    ours = tools.compiled(folder, sources, flags, "ours")
    if not isinstance(ours, list):
        reason = tools.why_left_out(folder, sources, flags)
        if reason is None:
            return f"not assembled: {ours}"
        raise TakesNoPart(reason)
    if any(b".rv.rows" not in object_file.read_bytes() for object_file in ours):
        return "GCC did not take rv"
    if not succeeds([tools.rv, "ld", "-o", folder / "a", *ours]):
        return "not linked by rv ld"
    if not tools.gnu_link(folder / "b", ours):
        return "not linked by GNU ld"
    runs = {"wanted": by_gnu, "a": tools.ends(folder / "a"), "b": tools.ends(folder / "b")}
    if any(ends[0] is not None and is_past_end(folder / exe, ends[0]) for exe, ends in runs.items()):
        raise TakesNoPart("a load past an end")
    ends = {outcome(end) for each in runs.values() for end in each}
    return None if len(ends) == 1 else f"{len(ends)} ends"


def fault_of_bench(tools, source, level):
    """The same of a program of bench/."""
    with tempfile.TemporaryDirectory() as name:
        return fault(tools, Path(name), [source], level.split())


def fault_of_seed(tools, seed):
    """The same of the program of a seed of csmith."""
    level = LEVELS[seed // 2 % len(LEVELS)]
    with tempfile.TemporaryDirectory() as name:
        folder = Path(name)
        if not draw(folder, seed):
            raise TakesNoPart("not drawn")
        apart = seed % 2 == 1
        sources = [folder / "program.c", *([CSMITH / "runtime.c"] if apart else [])]
        return fault(tools, folder, sources, [*level.split(), *(["-DAPART"] if apart else [])])


def programs(tools):
    """Each program's name and its comparison, without an end."""
    for source in BENCH:
        for level in LEVELS:
            yield f"{source.name} {level}", lambda source=source, level=level: fault_of_bench(tools, source, level)
    for seed in count(1):
        yield f"seed {seed}", lambda seed=seed: fault_of_seed(tools, seed)


def result(program):
    """The name of a program, and whether it passed; otherwise why not."""
    name, compare = program
    try:
        return name, compare(), None
    except TakesNoPart as reason:
        return name, None, str(reason)


def main():
    if not 2 <= len(sys.argv) <= 3:
        sys.exit(__doc__)
    tools = Tools(Path(sys.argv[1]).resolve())
    need(tools.rv, str(tools.folder / "as"), "csmith", *(f"{GNU}{tool}" for tool in ("gcc", "as", "ld")))
    wanted = int(sys.argv[2]) if len(sys.argv) > 2 else 200
    passed, failed, left_out, line = 0, 0, Counter(), programs(tools)
    lanes = processors()
    with ThreadPoolExecutor(lanes) as pool:
        while passed + failed < wanted:
            some = list(islice(line, min(4 * lanes, wanted - passed - failed)))
            for name, differs, reason in pool.map(result, some):
                left_out[reason] += reason is not None
                failed += differs is not None
                passed += differs is None and reason is None
                if differs is not None:
                    print(f"{name}: {differs}", flush=True)
    print("took no part: " + (", ".join(f"{reason} {many}" for reason, many in sorted((+left_out).items())) or "none"))
    print(f"{passed} passed, {failed} failed")
    return failed != 0
