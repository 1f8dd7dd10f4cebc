#!/usr/bin/env python3
"""Files of which bytes are changed, or cut off: rv refuses each by a fault's name, or takes it as what it now is.

usage: damaged.py [--all]

Makes objects, executables and an archive with ./rv. Each front part of a file is refused as truncated, and with any
one of its bytes set to 0, or to FFh, it is answered: no signal ends rv, and what it says is a fault or an end. So is
an archive cut off or changed anywhere but in the objects that are its members. Of the zeros up to an executable's
first page one in 64 is changed, and the file cut there; all of them with --all. Of an executable's tables of names and
lines any byte is changed, and `rv trace` shows the same instructions. An object of 114 KB, whose 2,001
global names are ends of one string and have 65 MB written out, is linked within 64 MB. Its names are shown, and the
96 MB that 500 rows of a map over the same 8,000 instructions list, in no more memory than 20 times the files and 16
MiB: each text is made here once more, and both are counted and hashed as they come. Standard library alone; the last
line is 'N passed, M failed', where a file counts once for each of the three, and those tables, that link and each of
these texts once.
"""

import hashlib
import multiprocessing
import os
import re
import resource
import struct
import subprocess
import sys
import tempfile
from pathlib import Path

from archives import archive_of

RV = Path(__file__).resolve().parent.parent / "rv"
PAGE = 4096
MIB = 1 << 20
SECONDS = 60
EXIT7 = """.option norvc
.globl _start
_start: li a0, 7
li a7, 93
ecall
"""
HELLO = """.globl _start
_start: li a0, 1
la a1, msg
li a2, 5
li a7, 64
ecall
li a0, 0
li a7, 93
ecall
.section .rodata
msg: .ascii "hello"
"""
# Sections of every kind, names of every kind, a padding in code, constants and differences.
KINDS = """.globl _start, size, place, open
.weak there, absent
.set size, 0x123456789
_start: li a7, 93
.balign 8
here: ecall
call open
.data
place: .dword here, size, there - place, open + 4, absent
.balign 16
there: .byte 1
.bss
.zero 5
.section .note.x, "a", @note
.word 1
.section notes
inside: .word 2
"""
# Two sources, whose objects are in an archive.
CALLS = """.globl _start
_start: call f
li a7, 93
ecall
#
.globl f
f: li a0, 7
ret
"""
# What rv may say of a file: its fault, the link's or, where it is no longer an executable, that of a source; or the
# end of a run.
SAID = re.compile(r"rv: ((\S+: [AF]\d+|L\d+|\S+:\d+: E\d+) \w+( \S*)?|[A-Z][A-Za-z]+( [0-9a-f]+)?)")
# How each file is used, and which statuses rv may give: a link does or does not; a guest's status is any.
USES = {
    "object": ["ld", "-o", "out"],
    "executable": ["run", "--limit", "1000"],
    "archive": ["ld", "-o", "out", "--library"],
    "tables": ["trace"],
}
# The last source names what no file defines.
FILES = [
    (EXIT7, "object"),
    (EXIT7, "executable"),
    (HELLO, "object"),
    (HELLO, "executable"),
    (KINDS, "object"),
    (CALLS, "archive"),
]


def answer(use, held, folder):
    """The status of rv for a file with these bytes, and the last line of its standard error."""
    path = Path(folder, str(os.getpid()))
    path.mkdir(exist_ok=True)
    (path / "file").write_bytes(held)
    words = [RV, *USES[use], "file"]
    process = subprocess.run(
        words, cwd=path, stdin=subprocess.DEVNULL, capture_output=True, timeout=SECONDS, close_fds=False
    )
    lines = process.stderr.decode("utf8", "replace").splitlines()
    return process.returncode, lines[-1] if lines else ""


def wrong_cut(job):
    """What is wrong with the answer to the front of a file, or nothing."""
    folder, use, held, size = job
    status, message = answer(use, held[:size], folder)
    if use == "archive":
        is_answered = SAID.fullmatch(message) if status == 1 else status == 0
        return None if is_answered else f"archive cut off after {size} bytes: status {status}, {message!r}"
    # without its first four bytes it is no executable, and rv takes it for a source
    is_source = use == "executable" and size < 4
    if status == 1 and (SAID.fullmatch(message) if is_source else message == "rv: file: F1 Truncated"):
        return None
    return f"{use} cut off after {size} bytes: status {status}, {message!r}"


def wrong_byte(job):
    """What is wrong with the answer to a file with another byte at one place, or nothing."""
    folder, use, held, at, byte = job
    status, message = answer(use, held[:at] + bytes([byte]) + held[at + 1 :], folder)
    statuses = range(256) if use == "executable" else (0, 1)
    if status in statuses and (SAID.fullmatch(message) if message else status == 0 or use == "executable"):
        return None
    return f"{use} with {byte:02x} at {at:x}: status {status}, {message!r}"


def wrong_table(job):
    """What is wrong with a trace of an executable with another byte at one place of its tables, or nothing."""
    held, at, byte, folder = job
    status, message = answer("tables", held[:at] + bytes([byte]) + held[at + 1 :], folder)
    if status == 7 and "ecall" in message:
        return None
    return f"tables with {byte:02x} at {at:x}: status {status}, {message!r}"


def file_of(source, use):
    """The object or the executable of a source, also with tables, or the archive of two."""
    if use == "archive":
        first, second = (file_of(it, "object") for it in source.split("#\n"))
        return archive_of([("first.o", first), ("second_with_a_long_name.o", second)])
    with tempfile.TemporaryDirectory() as folder:
        Path(folder, "a.s").write_text(source)
        word = "as" if use == "object" else "build"
        tables = ["-g"] if use == "tables" else []
        subprocess.run([RV, word, *tables, "-o", "made", "a.s"], cwd=folder, check=True, timeout=SECONDS)
        return Path(folder, "made").read_bytes()


LONG = b"n" * 65530 + b"_start\0"
STARTS = [65530 * place // 2000 for place in range(2001)]


def long_names():
    """An object that exits with 7, of 2,001 global names that are ends of one string of 64 KB: each means its first
    byte."""
    text, string, tables = bytes.fromhex("130570009308d00573000000"), LONG, b"\0.text\0.symtab\0.strtab\0"
    symbols = bytes(24) + b"".join(struct.pack("<IBBHQQ", 1 + start, 16, 0, 1, 0, 0) for start in STARTS)
    held, headers = bytearray(64), [bytes(64)]
    for name, kind, flags, body, align, link, info, each in (
        (b".text", 1, 6, text, 4, 0, 0, 0),
        (b".symtab", 2, 0, symbols, 8, 3, 1, 24),
        (b".strtab", 3, 0, b"\0" + string, 1, 0, 0, 0),
        (b".strtab", 3, 0, tables, 1, 0, 0, 0),
    ):
        place = len(held)
        held.extend(body + bytes(-len(body) % 8))
        at = tables.index(name)
        headers.append(struct.pack("<IIQQQQIIQQ", at, kind, flags, 0, place, len(body), link, info, align, each))
    held[:64] = (
        b"\x7fELF\2\1\1" + bytes(9) + struct.pack("<HHIQQQIHHHHHH", 1, 243, 1, 0, 0, len(held), 0, 64, 0, 0, 64, 5, 4)
    )
    return bytes(held) + b"".join(headers)


def wrong_names(folder):
    """What is wrong with a link without a map of the object of long names, or nothing."""
    Path(folder, "names").write_bytes(long_names())
    least = lambda: resource.setrlimit(resource.RLIMIT_AS, (1 << 26, 1 << 26))
    process = subprocess.run(
        [RV, "ld", "-o", "made", "names"], cwd=folder, capture_output=True, timeout=SECONDS, preexec_fn=least
    )
    if process.returncode:
        return f"object of long names: status {process.returncode}, {process.stderr!r}"
    ended = subprocess.run([RV, "run", "made"], cwd=folder, capture_output=True, timeout=SECONDS).returncode
    return None if ended == 7 else f"program of long names: status {ended}"


def shown_names(folder):
    """Writes the object of long names; the words that show its names, and the lines of these: `_` is before `n`."""
    Path(folder, "names").write_bytes(long_names())
    return ["nm", "names"], (b"0000000000000000 T " + LONG[start:-1] + b"\n" for start in reversed(STARTS))


def listed_rows(folder):
    """Writes 8,000 instructions and a map of 500 rows that each have all of them; the words that list these, and the
    rows."""
    source = ".option norvc\n.globl _start\n_start:\n" + 8000 * "nop\n"
    Path(folder, "exe").write_bytes(file_of(source, "executable"))
    regions = "".join(f"{name} 0 0\n" for name in ("text", "rodata", "data", "bss"))
    rows = "".join(f"row 1 {row} {row} 10000 32000 8000\n" for row in range(1, 501))
    Path(folder, "map").write_text(f"rvmap 1\n{regions}entry 0\n{rows}")
    lines = b"".join(b"%x: addi zero,zero,0\n" % (0x10000 + 4 * place) for place in range(8000))
    return ["objdump", "--map", "map", "exe"], (b"@ 1 %d %d\n" % (row, row) + lines for row in range(1, 501))


def counted(parts):
    """How many lines and bytes the parts of a text have, and their hash."""
    lines, size, digest = 0, 0, hashlib.sha256()
    for part in parts:
        lines, size = lines + part.count(b"\n"), size + len(part)
        digest.update(part)
    return lines, size, digest.hexdigest()


def wrong_text(folder, words, parts):
    """What is wrong with a text that is much longer than its files and is written in little memory, or nothing."""
    most = 20 * sum(it.stat().st_size for it in Path(folder).iterdir() if it.name in words) + 16 * MIB
    limits = {resource.RLIMIT_AS: most, resource.RLIMIT_CPU: SECONDS}
    limit = lambda: [resource.setrlimit(it, (least, least)) for it, least in limits.items()]
    process = subprocess.Popen(
        [RV, *words], cwd=folder, stdout=subprocess.PIPE, stderr=subprocess.PIPE, preexec_fn=limit
    )
    came, wanted = counted(iter(lambda: process.stdout.read(MIB), b"")), counted(parts)
    message = process.communicate()[1]
    if process.returncode or message or came != wanted:
        return (
            f"{' '.join(words)}: status {process.returncode}, {message!r}, {came} and not {wanted} within {most} bytes"
        )
    return None


def outside_members(held):
    """The offsets of an archive that do not lie in the contents of members."""
    found, at = list(range(8)), 8
    while at < len(held):
        size = int(held[at + 48 : at + 58])
        is_member = held[at : at + 2].strip(b"/ ") or held[at + 1 : at + 2].isdigit()
        found.extend(range(at, at + 60 + (0 if is_member else size)))
        at += 60 + size + size % 2
    return found


def places(held, use, every):
    """The offsets that are tried: all, but of the zeros up to an executable's first page one in so many."""
    if use == "archive":
        return outside_members(held)
    front = len(held[:PAGE].rstrip(b"\0")) if use == "executable" else len(held)
    return [at for at in range(len(held)) if not front <= at < PAGE or at % every == 0]


def main(words):
    if not RV.exists():
        sys.exit("no ./rv: run make first")
    answers = 0
    with tempfile.TemporaryDirectory() as folder, multiprocessing.Pool(len(os.sched_getaffinity(0))) as pool:
        large = [wrong_names(folder), *[wrong_text(folder, *it(folder)) for it in (shown_names, listed_rows)]]
        print("".join(f"{it}\n" for it in large if it), end="")
        passed, failed = large.count(None), len(large) - large.count(None)
        for source, use in FILES:
            held = file_of(source, use)
            tried = places(held, use, 1 if words == ["--all"] else 64)
            tests = [(wrong_cut, [(folder, use, held, at) for at in tried])]
            for byte in (0, 0xFF):
                changed = [(folder, use, held, at, byte) for at in tried if held[at] != byte]
                tests.append((wrong_byte, changed))
            for test, jobs in tests:
                wrong = [it for it in pool.map(test, jobs, chunksize=16) if it]
                print("\n".join(wrong[:5]), end="\n" if wrong else "")
                passed, failed, answers = passed + (not wrong), failed + bool(wrong), answers + len(jobs)
        held, front = file_of(EXIT7, "tables"), len(file_of(EXIT7, "executable"))
        jobs = [(held, at, byte, folder) for at in range(front, len(held)) for byte in (0, 0x7F, 0xFF)]
        wrong = [it for it in pool.map(wrong_table, jobs, chunksize=16) if it]
        print("\n".join(wrong[:5]), end="\n" if wrong else "")
        passed, failed, answers = passed + (not wrong), failed + bool(wrong), answers + len(jobs)
    print(f"damaged files: {answers} answers")
    print(f"{passed} passed, {failed} failed")
    return 1 if failed else 0


if __name__ == "__main__":
    sys.exit(main(sys.argv[1:]))
