"""The calls of rv.h by ctypes: buffers that grow where they are too small, and exceptions for statuses."""

from __future__ import annotations

import ctypes
import os
from collections.abc import Callable, Sequence
from ctypes import POINTER, c_char_p, c_size_t, c_uint32, c_uint64
from dataclasses import dataclass
from enum import IntEnum
from pathlib import Path

NAME = "librv.so.0"
TEXT_START = 0x10000
"""Where the text of a program begins unless the caller says another place."""

OK, SMALL, REFUSED, MEMORY, UNFIT, TOO_LONG, UNKNOWN = range(7)
NO_RELAX, GC_SECTIONS, MAP = 1, 2, 4
# The room of the first call; most of what is made fits.
ROOM = 1 << 16
MOST = 2**64 - 1


class RvError(Exception):
    """What this package raises of its own."""


class Fault(RvError):
    """A source, an object, an executable or a program is refused.

    `code` is as `E7`, `file` the number of the source or file, from 1, and `line` its line; both are None where there
    is none. docs/manual/faults.md explains each code.
    """

    def __init__(self, line: str, answer: Answer) -> None:
        self.code = f"{chr(answer.kind)}{answer.number}"
        self.file = answer.file or None
        self.line = answer.line if self.code[0] == "E" else None
        name = {"E": f"source {self.file}", "F": f"file {self.file}"}.get(self.code[0], "")
        super().__init__(name + line)


class TooLong(RvError):
    """A program has written more than is kept: 64 MiB."""


class EndKind(IntEnum):
    """The ways in which a run ends."""

    EXITED = 0
    LIMIT = 1
    BREAKPOINT = 2
    ILLEGAL = 3
    FETCH_OUTSIDE = 4
    LOAD_TEXT = 5
    LOAD_OUTSIDE = 6
    STORE_TEXT = 7
    STORE_OUTSIDE = 8
    MISALIGNED_ATOMIC = 9


class Answer(ctypes.Structure):
    """struct rv_answer"""

    _fields_ = [
        ("length", c_uint64),
        ("second_length", c_uint64),
        ("kind", c_uint32),
        ("number", c_uint32),
        ("file", c_uint32),
        ("line", c_uint32),
    ]


class End(ctypes.Structure):
    """struct rv_end"""

    _fields_ = [("address", c_uint64), ("kind", c_uint32), ("code", c_uint32)]


class HartState(ctypes.Structure):
    """struct rv_state"""

    _fields_ = [("registers", c_uint64 * 32), ("pc", c_uint64), ("count", c_uint64)]


INPUT = (c_char_p, c_size_t)
LENGTHS = (POINTER(c_uint64), c_size_t)
OUTPUT = (c_char_p, c_size_t)
TEXTS = (*INPUT, *LENGTHS)
OPTIONS = (c_uint64, c_uint32)
ANSWER = (POINTER(Answer),)
FUNCTIONS = {
    "rv_build": (*TEXTS, *OPTIONS, *OUTPUT, *OUTPUT, *ANSWER),
    "rv_as": (*INPUT, *OUTPUT, *ANSWER),
    "rv_ld": (*TEXTS, *OPTIONS, *OUTPUT, *OUTPUT, *ANSWER),
    "rv_run": (*INPUT, *INPUT, c_uint64, *OUTPUT, POINTER(End), POINTER(c_uint64), *ANSWER),
    "rv_state": (
        *INPUT,
        *INPUT,
        c_uint64,
        c_uint64,
        *OUTPUT,
        *OUTPUT,
        *OUTPUT,
        POINTER(HartState),
        POINTER(End),
        *ANSWER,
    ),
    "rv_resume": (
        *INPUT,
        *INPUT,
        *INPUT,
        c_uint64,
        c_uint64,
        *OUTPUT,
        *OUTPUT,
        *OUTPUT,
        *OUTPUT,
        POINTER(HartState),
        POINTER(End),
        *ANSWER,
    ),
    "rv_list": (*TEXTS, *TEXTS, *OPTIONS, c_uint64, *OUTPUT, *ANSWER),
    "rv_check": (*TEXTS, *TEXTS, *OPTIONS, *OUTPUT, *ANSWER),
    "rv_disassemble": (*INPUT, c_uint64, *OUTPUT, POINTER(c_uint64), *ANSWER),
}


def library() -> ctypes.CDLL:
    """The shared library, with the types of its functions."""
    beside = Path(__file__).parent / NAME
    loaded = ctypes.CDLL(os.environ.get("RV_LIBRARY") or (str(beside) if beside.exists() else NAME))
    for name, words in FUNCTIONS.items():
        function = getattr(loaded, name)
        function.argtypes, function.restype = words, c_uint32
    return loaded


_LIBRARY = library()


class Buffer:
    """A buffer for output. It has a byte more than its room, since its pointer must not be null."""

    def __init__(self, room: int) -> None:
        self.room = room
        self.bytes = ctypes.create_string_buffer(room + 1)

    @property
    def words(self) -> tuple[ctypes.Array[ctypes.c_char], int]:
        return self.bytes, self.room

    def front(self, length: int) -> bytes:
        """The first bytes, as far as there was room."""
        return ctypes.string_at(self.bytes, min(length, self.room))


def number(value: int) -> int:
    """A number of 64 bits."""
    if not 0 <= value <= MOST:
        raise ValueError(f"{value} is not from 0 to 2**64 - 1")
    return value


def given(text: bytes) -> tuple[bytes, int]:
    return text, len(text)


def joined(texts: Sequence[bytes]) -> tuple[object, ...]:
    """Texts one after the other, with their lengths."""
    lengths = (c_uint64 * max(len(texts), 1))(*map(len, texts))
    return (*given(b"".join(texts)), lengths, len(texts))


def flags(relax: bool, gc_sections: bool, has_map: bool) -> int:
    return NO_RELAX * (not relax) + GC_SECTIONS * bool(gc_sections) + MAP * bool(has_map)


def demand(status: int, answer: Answer, first: Buffer) -> None:
    """Raises what a status says that is neither OK nor SMALL."""
    if status == REFUSED:
        raise Fault(first.front(answer.length).decode(errors="replace"), answer)
    if status == MEMORY:
        raise MemoryError("rv has no memory")
    if status == UNFIT:
        raise ValueError("these arguments do not belong together")
    if status == TOO_LONG:
        raise TooLong("the console has more than 64 MiB")
    if status not in (OK, SMALL):
        raise RvError(f"status {status}")


def call(
    name: str, before: Sequence[object], rooms: Sequence[int], after: Callable[[], Sequence[object]] = tuple
) -> list[bytes]:
    """Calls a function whose buffers for output stand between other arguments; once more where they were too small. The
    buffers' bytes."""
    answer = Answer()
    for _ in range(2):
        buffers = [Buffer(it) for it in rooms]
        words = [word for it in buffers for word in it.words]
        status = getattr(_LIBRARY, name)(*before, *words, *after(), answer)
        demand(status, answer, buffers[0])
        lengths = (answer.length, answer.second_length)
        if status == OK:
            break
        rooms = [max(it) for it in zip(rooms, lengths)]
    return [it.front(length) for it, length in zip(buffers, lengths)]


def build(sources: Sequence[bytes], text_start: int, bits: int) -> list[bytes]:
    return call("rv_build", (*joined(sources), number(text_start), bits), (ROOM, ROOM if bits & MAP else 0))


def link(objects: Sequence[bytes], text_start: int, bits: int) -> list[bytes]:
    return call("rv_ld", (*joined(objects), number(text_start), bits), (ROOM, ROOM if bits & MAP else 0))


def assemble(source: bytes) -> bytes:
    return call("rv_as", given(source), (ROOM,))[0]


def run(executable: bytes, given_input: bytes, limit: int) -> tuple[bytes, End, int]:
    end, count = End(), c_uint64()
    before = (*given(executable), *given(given_input), number(limit))
    return call("rv_run", before, (ROOM,), lambda: (end, count))[0], end, count.value


@dataclass
class Reached:
    """What rv_state and rv_resume give; the latter alone what is kept."""

    state: HartState
    end: End
    memory: bytes
    rights: bytes
    console: bytes
    kept: bytes = b""


def state(executable: bytes, given_input: bytes, steps: int, address: int, size: int) -> Reached:
    return reached("rv_state", (*given(executable), *given(given_input), number(steps), number(address)), size, (ROOM,))


def resume(executable: bytes, given_input: bytes, kept: bytes, steps: int, address: int, size: int) -> Reached:
    before = (*given(executable), *given(given_input), *given(kept), number(steps), number(address))
    return reached("rv_resume", before, size, (ROOM, ROOM))


def reached(name: str, before: tuple[object, ...], size: int, rooms: Sequence[int]) -> Reached:
    """Calls what shows a state, with a window of memory."""
    hart, end = HartState(), End()
    memory, rights = Buffer(size), Buffer(size)
    made = call(name, (*before, *memory.words, *rights.words), rooms, lambda: (hart, end))
    return Reached(hart, end, memory.front(size), rights.front(size), *made)


def listing(sources: Sequence[bytes], names: Sequence[bytes], text_start: int, bits: int, rows: int) -> bytes:
    return call("rv_list", (*joined(sources), *joined(names), number(text_start), bits, number(rows)), (ROOM,))[0]


def check(sources: Sequence[bytes], names: Sequence[bytes], text_start: int, bits: int) -> bytes:
    return call("rv_check", (*joined(sources), *joined(names), number(text_start), bits), (ROOM,))[0]


def disassemble(code: bytes, address: int) -> tuple[bytes, int] | None:
    taken = c_uint64()
    try:
        text = call("rv_disassemble", (*given(code), number(address)), (64,), lambda: (taken,))[0]
    except ValueError:
        return None
    return text, taken.value
