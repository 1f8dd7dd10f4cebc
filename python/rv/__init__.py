"""rv: an assembler, a linker and a simulator for RV64IMAC, as functions over bytes.

    >>> import rv
    >>> built = rv.build(b".globl _start\\n_start: li a0, 7; li a7, 93; ecall\\n")
    >>> rv.run(built.executable).end
    End(kind=<EndKind.EXITED: 0>, code=7, address=0)
    >>> rv.state(built.executable, steps=1).registers[10]
    7

Sources, objects and inputs are `bytes`, or `str` that becomes UTF-8. What is refused raises `Fault`, which has the code
of the fault with its place; no memory raises `MemoryError`, and arguments that do not belong together `ValueError`.

The functions are those of `rv.h`, which says more of each. They keep nothing and let other threads run meanwhile. The
shared library is the file that RV_LIBRARY names, else `librv.so.0` beside this package, else the installed one.
"""

from __future__ import annotations

import json
from collections.abc import Iterable, Sequence
from dataclasses import dataclass
from enum import IntFlag
from typing import Union

from rv import _calls
from rv._calls import TEXT_START, EndKind, Fault, RvError, TooLong

__all__ = [
    "Built",
    "End",
    "EndKind",
    "Fault",
    "Finding",
    "Instruction",
    "REGISTERS",
    "Rights",
    "Run",
    "RvError",
    "State",
    "TEXT_START",
    "TooLong",
    "assemble",
    "build",
    "check",
    "disassemble",
    "disassembly",
    "link",
    "listing",
    "resume",
    "run",
    "state",
]

Text = Union[bytes, bytearray, memoryview, str]

LIMIT = 1_000_000_000_000
"""The most instructions of a run, unless the caller says another number; it is that of `rv run`."""

REGISTERS = (
    "zero ra sp gp tp t0 t1 t2 s0 s1 a0 a1 a2 a3 a4 a5 a6 a7 s2 s3 s4 s5 s6 s7 s8 s9 s10 s11 t3 t4 t5 t6".split()
)
"""The names of x0 to x31."""


class Rights(IntFlag):
    """What a program may do with a byte of memory."""

    EXECUTE = 1
    WRITE = 2
    READ = 4


@dataclass(frozen=True)
class Built:
    """What `build` and `link` make."""

    executable: bytes
    """An ELF file."""
    map: str | None
    """The text of its map, where one was asked for."""


@dataclass(frozen=True)
class End:
    """How a run ended."""

    kind: EndKind
    code: int
    """The code of an exit, 0 to 255; else 0."""
    address: int
    """The address of the instruction or of the access that ended it; 0 where the end has none."""


@dataclass(frozen=True)
class Run:
    """What a run has come to."""

    console: bytes
    """All that the program wrote."""
    end: End
    count: int
    """How many instructions there were, with the one that ended the run."""


@dataclass(frozen=True)
class State:
    """A machine after some instructions."""

    registers: tuple[int, ...]
    """x0 to x31, as numbers from 0 to 2**64 - 1."""
    pc: int
    """The address of the next instruction; of the one that ended the run, where it has ended."""
    count: int
    """How many instructions there were, with the one that ended the run."""
    memory: bytes
    """The bytes of the window; 0 where one can be neither read nor executed."""
    rights: tuple[Rights, ...]
    """The rights of each of them."""
    console: bytes
    """What was written so far."""
    end: End
    """`EndKind.LIMIT` where the run goes on."""
    kept: bytes = b""
    """Of `resume`: this state, for another call of it."""

    def register(self, name: str) -> int:
        """The value of a register by its name, as `a0` or `x10`."""
        return self.registers[REGISTERS.index(name) if name in REGISTERS else int(name.removeprefix("x"))]


@dataclass(frozen=True)
class Finding:
    """A fault or a warning of sources; what is not known of it is None."""

    file: str | None
    line: int | None
    column: int | None
    severity: str
    """`error` or `warning`."""
    code: str | None
    """As `E7`."""
    message: str


@dataclass(frozen=True)
class Instruction:
    """The text of an instruction, and how many bytes it has, 2 or 4."""

    text: str
    size: int


def build(
    *sources: Text,
    text_start: int = TEXT_START,
    relax: bool = True,
    gc_sections: bool = False,
    map: bool = False,
) -> Built:
    """Assembles and links sources into an executable, whose text begins at `text_start`.

    Raises `Fault` for the first fault, numbered by the order of the sources.
    """
    flags = _calls.flags(relax, gc_sections, map)
    return _built(*_calls.build([_bytes(it) for it in sources], text_start, flags), map)


def assemble(source: Text) -> bytes:
    """Assembles a source into the ELF file of its object."""
    return _calls.assemble(_bytes(source))


def link(
    *objects: bytes,
    text_start: int = TEXT_START,
    relax: bool = True,
    gc_sections: bool = False,
    map: bool = False,
) -> Built:
    """Links the files of objects, those of `assemble` and those of GNU's tools."""
    flags = _calls.flags(relax, gc_sections, map)
    return _built(*_calls.link([_bytes(it) for it in objects], text_start, flags), map)


def run(executable: bytes, input: Text = b"", limit: int = LIMIT) -> Run:
    """Runs an executable for at most `limit` instructions.

    Raises `TooLong` for a program that writes more than 64 MiB.
    """
    console, end, count = _calls.run(_bytes(executable), _bytes(input), limit)
    return Run(console, _end(end), count)


def state(executable: bytes, steps: int, input: Text = b"", address: int = 0, size: int = 0) -> State:
    """The machine after so many instructions of `run`, with a window of `size` bytes of memory from `address` on.

    To step forwards ask for one more, and to step backwards for one less.
    """
    return _state(_calls.state(_bytes(executable), _bytes(input), steps, address, size))


def resume(
    executable: bytes, kept: bytes, steps: int = 1, input: Text = b"", address: int = 0, size: int = 0
) -> State:
    """The machine so many instructions after a state that was kept, of the same executable and input; after the start
    where `kept` is empty. Its `count` and `console` are those of these instructions alone.

    Raises `ValueError` for bytes that are no state of such a run.
    """
    return _state(_calls.resume(_bytes(executable), _bytes(input), kept, steps, address, size))


def listing(*sources: Text, names: Sequence[str] = (), rows: int = 5, text_start: int = TEXT_START) -> str:
    """Builds sources, and lists each line with its address and the bytes that it became, on `rows` rows at most."""
    texts = [_bytes(it) for it in sources]
    return _text(_calls.listing(texts, [_bytes(it) for it in names], text_start, 0, rows))


def check(*sources: Text, names: Sequence[str] = (), text_start: int = TEXT_START) -> list[Finding]:
    """All faults of sources, up to 20, the first of which `build` raises; or their warnings."""
    texts = [_bytes(it) for it in sources]
    found = _text(_calls.check(texts, [_bytes(it) for it in names], text_start, 0))
    return [Finding(**json.loads(it)) for it in found.splitlines()]


def disassemble(code: bytes, address: int = 0) -> Instruction | None:
    """The instruction at the front of bytes that stand at an address; None where there is none."""
    found = _calls.disassemble(_bytes(code), address)
    return found and Instruction(_text(found[0]), found[1])


def disassembly(code: bytes, address: int = 0) -> Iterable[tuple[int, Instruction | None]]:
    """Each instruction of bytes with its address. Two bytes that begin none are passed over, with None."""
    code, at = _bytes(code), 0
    while at < len(code):
        found = disassemble(code[at : at + 4], address + at)
        yield address + at, found
        at += found.size if found else 2


def _bytes(text: Text) -> bytes:
    return text.encode() if isinstance(text, str) else bytes(text)


def _text(found: bytes) -> str:
    return found.decode(errors="surrogateescape")


def _built(executable: bytes, map_text: bytes, has_map: bool) -> Built:
    return Built(executable, _text(map_text) if has_map else None)


def _state(made: _calls.Reached) -> State:
    return State(
        registers=tuple(made.state.registers),
        pc=made.state.pc,
        count=made.state.count,
        memory=made.memory,
        rights=tuple(Rights(it) for it in made.rights),
        console=made.console,
        end=_end(made.end),
        kept=made.kept,
    )


def _end(end: _calls.End) -> End:
    return End(EndKind(end.kind), end.code, end.address)
