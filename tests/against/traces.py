"""Draws random C programs, and compares the trace of each by rv with the registers that qemu-riscv64 shows.

usage: compare.py traces [--first SEED] [--count N] [--jobs N] [--limit N] [--keep FOLDER] [--rv RV]

It takes 40 programs from seed 1 on by default, each as GCC compiles it in five ways, with a stack of its own, since
qemu puts sp elsewhere. GNU's tools link them. Up to --limit instructions, by default 50,000:

  registers  pc and all registers before each instruction are those that qemu shows (-singlestep -d cpu,nochain), where
             the model's are changed by `rv trace` alone
  memory     the loads of the trace show what its stores and the executable left, and the digest of the memory that they
             leave is that of `rv run --state`, as are the registers, pc and the number of instructions

Each program ends as `same`, as `differs`, with a line that says where, as `past end`, where rv stops at a load that
goes on behind a segment, or as `none` where no tool makes it. The last line is 'differs=0' where no program differs,
and only then the status is 0.
"""

import hashlib
import json
import os
import re
import struct
import subprocess
import tempfile
from collections import Counter
from concurrent.futures import ThreadPoolExecutor
from functools import lru_cache
from pathlib import Path

from against.common import GNU, QEMU, assemblies, completed, csmith_options, draw, gnu_link, need, summary

WAYS = ["-O0", "-O0 -fdata-sections", "-O1", "-O2", "-Os"]
START, STACK = ".option pop\n", "own_stack_end"
NAMES = "zero ra sp gp tp t0 t1 t2 s0 s1 a0 a1 a2 a3 a4 a5 a6 a7 s2 s3 s4 s5 s6 s7 s8 s9 s10 s11 t3 t4 t5 t6".split()
# What qemu shows before an instruction: a line with pc and eight lines of four registers, always of this size.
PC_SHOWN, ROW = slice(10, 26), 105
SHOWN = PC_SHOWN.stop + 1 + 8 * ROW
PLACES = {name.encode(): PC_SHOWN.stop + 11 + n // 4 * ROW + n % 4 * 26 for n, name in enumerate(NAMES)}
# The columns of a trace that come before the effects of an instruction.
PC, BYTES, EFFECTS = slice(13, 29), slice(51, 59), 94
ACCESS = re.compile(rb"\[([0-9a-f]{16})\](?: <- ([0-9a-f]{2}(?: [0-9a-f]{2})*|[0-9a-f]+))?$")
PAGE = 4096
DEPTH = 64 * 1024


class Differs(Exception):
    """Where a trace differs, and from what."""


class PastEnd(Exception):
    """A run that rv ends at a load of bytes outside of all segments."""


class Memory:
    """Memory as an executable begins."""

    def __init__(self, exe):
        self.pages = {}
        for address, held in segments(exe.read_bytes()):
            self.store(address, held)

    def store(self, address, held):
        while held:
            start = address % PAGE
            piece = held[: PAGE - start]
            page = self.pages.setdefault(address // PAGE, bytearray(PAGE))
            page[start : start + len(piece)] = piece
            address, held = address + len(piece), held[len(piece) :]

    def load(self, address, count):
        start, empty = address % PAGE, bytes(PAGE)
        held = self.pages.get(address // PAGE, empty)[start : start + count]
        if len(held) < count:
            held = held + self.pages.get(address // PAGE + 1, empty)[: count - len(held)]
        return held

    def digest(self):
        hashed = hashlib.sha256()
        for number, page in sorted(self.pages.items()):
            if any(page):
                hashed.update(struct.pack("<Q", number * PAGE) + page)
        return hashed.hexdigest()


class Guest(Memory):
    """Registers, as qemu shows them, and memory, as the lines of a trace change them."""

    def __init__(self, exe):
        super().__init__(exe)
        shown = [f"x{number}/{name}".ljust(8) + f" {0:016x}" for number, name in enumerate(NAMES)]
        rows = ["".join(f" {one}" for one in shown[at : at + 4]) + "\n" for at in range(0, 32, 4)]
        self.shown = bytearray((f" pc       {0:016x}\n" + "".join(rows)).encode())

    def registers(self):
        return {name.decode(): int(self.shown[at : at + 16], 16) for name, at in PLACES.items()}

    def apply(self, line):
        """Does what a line of a trace says; the value of a load has to be what memory holds."""
        effects = line[EFFECTS:-1]
        name, arrow, value = effects.partition(b" <- ")
        written = value[:16] if arrow and name in PLACES else None
        if b"[" in effects:
            self.access(ACCESS.search(effects), written, line[BYTES])
        if written is not None:
            self.shown[PLACES[name] : PLACES[name] + 16] = written

    def access(self, access, written, code):
        address, stored = int(access[1], 16), access[2]
        count, signed, is_call = accessed(code)
        if written is not None and count and (stored is None or code[0:1] in b"2a"):
            held = self.load(address, count)
            if int.from_bytes(held, "little", signed=signed) % 2**64 != int(written, 16):
                raise Differs(f"memory at {address:x} holds {held[::-1].hex()}")
        if stored is not None:
            held = bytes.fromhex(stored.decode())
            self.store(address, held if is_call else held[::-1])


@lru_cache(maxsize=None)
def accessed(code):
    """How many bytes an instruction loads into a register, if so, whether with their sign, and whether it is a call."""
    word = int.from_bytes(bytes.fromhex(code.decode()), "little")
    size = word >> 12 & 7
    if word == 0x73 or word & 0x7F == 0x2F and word >> 27 == 3:
        return 0, False, word == 0x73
    if word & 3 == 3:
        return 1 << size % 4, size < 4, False
    return (8 if word >> 13 & 1 else 4), True, False


def segments(file):
    """The address and the bytes of each segment that an ELF file loads."""
    start, size, count = struct.unpack_from("<Q", file, 32)[0], *struct.unpack_from("<HH", file, 54)
    for at in range(start, start + size * count, size):
        kind, _, offset, address, _, held, _, _ = struct.unpack_from("<IIQQQQQQ", file, at)
        if kind == 1:
            yield address, file[offset : offset + held]


def shown_by_qemu(exe, folder):
    """What qemu shows before each instruction, until nobody wants more."""
    fifo = folder / "qemu.log"
    fifo.unlink(missing_ok=True)
    os.mkfifo(fifo)
    words = [QEMU, "-singlestep", "-d", "cpu,nochain", "-D", fifo, exe]
    process = subprocess.Popen(words, stdin=subprocess.DEVNULL, stdout=subprocess.DEVNULL, stderr=subprocess.DEVNULL)
    try:
        with open(fifo, "rb", buffering=1 << 20) as log:
            while many := log.read(64 * SHOWN):
                for at in range(0, len(many), SHOWN):
                    yield many[at : at + SHOWN]
    finally:
        process.kill()
        process.wait()


def traced(rv, exe, limit):
    """The lines of rv's trace, up to one that says how the run ended."""
    words = [rv, "trace", "--limit", str(limit), exe]
    process = subprocess.Popen(words, stdin=subprocess.DEVNULL, stdout=subprocess.DEVNULL, stderr=subprocess.PIPE)
    try:
        for line in process.stderr:
            if line.startswith(b"rv: "):
                return
            yield line
    finally:
        process.kill()
        process.wait()


def followed(guest, shown, trace):
    """How many lines of a trace agree with qemu, up to its end, and whether qemu goes on there."""
    count = 0
    for before in shown:
        line = next(trace, None)
        if line is None:
            return count, True
        if count == 0:
            at = PLACES[b"sp"]
            guest.shown[at : at + 16] = before[at : at + 16]
        guest.shown[PC_SHOWN] = line[PC]
        if guest.shown != before:
            raise Differs(f"instruction {count + 1} at {before[PC_SHOWN].decode()}: {line.decode().strip()}")
        guest.apply(line)
        count += 1
    if next(trace, None) is not None:
        raise Differs(f"rv goes on after {count} instructions")
    return count, False


def compared(rv, exe, folder, limit):
    """How many instructions a program has at most up to a limit, all of which are the same; else raises where not."""
    guest, shown, trace = Guest(exe), shown_by_qemu(exe, folder), traced(rv, exe, limit)
    try:
        count, goes_on = followed(guest, shown, trace)
    finally:
        shown.close()
        trace.close()
    state(rv, exe, folder, limit, guest, count, "Limit" if goes_on else "Exited")
    return count


def state(rv, exe, folder, limit, guest, count, end):
    """Compares what the lines of a trace left with the last state of a run."""
    words = [rv, "run", "--limit", limit, "--state", folder / "state", exe]
    if completed(words, 600, stdin=subprocess.DEVNULL) is None:
        raise Differs("the run does not end")
    last = json.loads((folder / "state").read_text())
    # (a segment of GNU ld has constants behind the text)
    if last["end"] in ("LoadOutside", "LoadText"):
        raise PastEnd(count)
    wanted = {"end": end, "instructions": count, "memory": guest.digest(), "registers": guest.registers()}
    found = {key: last[key] for key in wanted}
    found["registers"] = {name: int(value) for name, value in last["registers"].items()}
    for key in wanted:
        if found[key] != wanted[key]:
            raise Differs(f"the last state's {key}: {found[key]} and not {wanted[key]}")


def with_own_stack(source):
    """Has a program begin with a stack among its own variables."""
    text = source.read_text()
    if START not in text:
        return False
    text = text.replace(START, f"la sp, {STACK}\n{START}", 1)
    source.write_text(f"{text}\n.bss\n.balign 16\n.space {DEPTH}\n.globl {STACK}\n{STACK}: .space 16\n")
    return True


def program(seed, options):
    """How the program of a seed ends, for each way, and how many instructions were compared."""
    ends = []
    with tempfile.TemporaryDirectory() as name:
        folder = Path(name)
        drawn = draw(folder, seed)
        for way in WAYS:
            sources = assemblies(folder, way, False) if drawn else None
            if sources is None or not with_own_stack(sources[0]) or not gnu_link(folder, sources):
                ends.append((way, "none", 0))
                continue
            try:
                ends.append((way, "same", compared(options.rv, folder / "theirs", folder, options.limit)))
            except PastEnd as run:
                ends.append((way, "past end", run.args[0]))
            except Differs as where:
                print(f"{seed} {way}: {where}", flush=True)
                ends.append((way, "differs", 0))
    return ends


def main():
    options = csmith_options(__doc__, 40, 50_000)
    need(options.rv, "csmith", QEMU, *(f"{GNU}{tool}" for tool in ("gcc", "as", "ld")))
    counts, instructions = Counter(), 0
    seeds = range(options.first, options.first + options.count)
    with ThreadPoolExecutor(options.jobs) as lanes:
        for seed, ends in zip(seeds, lanes.map(lambda seed: program(seed, options), seeds)):
            counts.update((way, end) for way, end, _ in ends)
            instructions += sum(count for _, _, count in ends)
            print(f"{seed}: {instructions} instructions up to here", flush=True)
    return summary(counts, WAYS)
