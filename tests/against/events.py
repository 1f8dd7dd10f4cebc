"""Does what the lines of `rv trace --events` say, and compares what that leaves with the last state of the run.

usage: compare.py events

It takes the programs of examples/, those of C as GCC compiles them at four levels and as rv and GNU ld link them. Each
reads README.md. From the segments of an executable, and the registers and the stack of the platform, each line does
what it says and nothing else, and is compared with what memory holds before it:

  word     that of each instruction of four bytes
  read     the number at its address
  put      the bytes at a1, which are those of the console, one line after the other
  taken    the next bytes of the input; they go to a1

Then registers, pc, digest of memory, number of instructions, end and console are those of `rv run --state`. A program
that rv does not build for what the language leaves out counts as no difference. The last line is 'N passed, M failed'.
"""

import json
import re
import tempfile
from pathlib import Path

from against.c_examples import GCC, INPUT, LEVELS, is_left_out
from against.common import GNU, ROOT, RV, completed, gnu_link, need
from against.traces import NAMES, Differs, Memory

ACCESS = r"\[([0-9a-f]{16})\] %s ((?:[0-9a-f]{2})+)"
LINE = re.compile(
    r"(?P<pc>[0-9a-f]{16}) (?:(?P<bytes>[24]) (?P<word>[0-9a-f]{8})|no right|no instruction)"
    rf"(?: {ACCESS % '->'})?(?: x(?P<register>\d+) <- (?P<value>[0-9a-f]{{16}}))?(?: {ACCESS % '<-'})?"
    r"(?: input (?P<taken>[0-9a-f]+))?(?: output (?P<put>[0-9a-f]+))?(?: end (?P<end>\w+)(?: (?P<at>[0-9a-f]+))?)?\n"
)
READ, STORED = (4, 5), (8, 9)
SP, A1, STACK_END = 2, 11, 0x4000_0000


class Machine(Memory):
    """A machine that knows no instruction: the lines of its events change it."""

    def __init__(self, exe):
        super().__init__(exe)
        self.registers = [0] * 32
        self.registers[SP] = STACK_END
        self.input, self.console = INPUT, b""
        self.count, self.pc, self.end = 0, None, None

    def apply(self, text):
        line = LINE.fullmatch(text)
        if line is None or self.end is not None:
            raise Differs(f"no line of an event, or one after the end: {text.strip()}")
        if line["bytes"] == "4":
            self.holds(int(line["pc"], 16), bytes.fromhex(line["word"])[::-1], text)
        if line[READ[0]]:
            self.holds(int(line[READ[0]], 16), bytes.fromhex(line[READ[1]])[::-1], text)
        if line["put"]:
            self.put(bytes.fromhex(line["put"]), text)
        if line["taken"]:
            self.take(bytes.fromhex(line["taken"]), text)
        if line[STORED[0]]:
            self.store(int(line[STORED[0]], 16), bytes.fromhex(line[STORED[1]])[::-1])
        if line["register"]:
            self.registers[int(line["register"])] = int(line["value"], 16)
        self.pc, self.end = int(line["pc"], 16), line["end"] and (line["end"], line["at"])
        self.count += line["bytes"] is not None and line["end"] in (None, "Exited", "Breakpoint")

    def holds(self, address, held, text):
        if self.load(address, len(held)) != held:
            raise Differs(f"memory at {address:x} holds {self.load(address, len(held)).hex()}: {text.strip()}")

    def put(self, held, text):
        self.holds(self.registers[A1], held, text)
        self.console += held

    def take(self, held, text):
        if not self.input.startswith(held):
            raise Differs(f"the input goes on with other bytes: {text.strip()}")
        self.input = self.input[len(held) :]
        self.store(self.registers[A1], held)

    def state(self):
        """What `rv run --state` says of it, where its run came to an end."""
        name, at = self.end or (None, None)
        status = int(at, 16) if name == "Exited" else None
        return {
            "end": name,
            "status": status,
            "address": None if at is None or name == "Exited" else int(at, 16),
            "pc": self.pc,
            "registers": dict(zip(NAMES, self.registers)),
            "instructions": self.count,
            "memory": self.digest(),
        }


def replayed(exe, folder):
    """How many events the run of an executable has, all of which agree; else raises where one does not."""
    machine, events, state = Machine(exe), folder / "events", folder / "state"
    traced = completed([RV, "trace", "--events", "-o", events, exe], 600, input=INPUT)
    run = completed([RV, "run", "--state", state, exe], 600, input=INPUT)
    count = 0
    with events.open() as lines:
        for count, line in enumerate(lines, 1):
            machine.apply(line)
    wanted, found = json.loads(state.read_text()), machine.state()
    for key, value in found.items():
        if numbers(wanted[key]) != value:
            raise Differs(f"the last state's {key}: {wanted[key]} and not {value}")
    if not traced.stdout == run.stdout == machine.console or traced.returncode != run.returncode:
        raise Differs("the console or the status")
    return count


def numbers(held):
    """A value of JSON with the numbers above 2^53, which stand there as texts."""
    if isinstance(held, dict):
        return {name: int(value) for name, value in held.items()}
    return int(held) if isinstance(held, str) and held.isdecimal() else held


def is_same(name, exe, folder):
    """Whether an executable's events say what its run does; shows that."""
    try:
        print(f"{name}: {replayed(exe, folder)} events", flush=True)
        return True
    except Differs as where:
        print(f"{name}: DIFFERS, {where}", flush=True)
        return False


def built(name, sources, folder):
    """Whether the events agree of what rv builds of sources."""
    build = completed([RV, "build", "-o", folder / "ours", *sources])
    return is_left_out(name, build) if build.returncode else is_same(name, folder / "ours", folder)


def compiled(source, folder):
    """Whether the events agree of a program of C, for each level and each linker."""
    for level in LEVELS:
        name, assembly = f"{source.name} {level}", folder / "program.s"
        if completed([*GCC, level, "-S", "-o", assembly, source]).returncode or not gnu_link(folder, [assembly]):
            print(f"{name}: NOT MADE BY GNU'S TOOLS")
            yield False
            continue
        yield is_same(f"{name}, linked by GNU ld", folder / "theirs", folder)
        yield built(f"{name}, built by rv", [assembly], folder)


def main():
    need(RV, *(f"{GNU}{tool}" for tool in ("gcc", "as", "ld")))
    found = []
    with tempfile.TemporaryDirectory() as name:
        folder = Path(name)
        for source in sorted((ROOT / "examples").glob("*.s")):
            found.append(built(source.name, [source], folder))
        for source in sorted((ROOT / "examples" / "c").glob("*.c")):
            found += compiled(source, folder)
    print(f"{found.count(True)} passed, {found.count(False)} failed")
    return int(False in found)
