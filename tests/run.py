#!/usr/bin/env python3
"""Runs the cases of tests/ over ./rv, side by side, and shows the difference where one fails.

usage: run.py [NAME ..]     only cases whose path below tests/ begins so, as `faults` or `run/exit7`

README.md in this folder says how a case is written. Standard library alone; the last line is 'N passed, M failed'.
"""

import os
import re
import shlex
import struct
import subprocess
import sys
import tempfile
from concurrent.futures import ThreadPoolExecutor
from pathlib import Path

from archives import archive_of
from objects import object_of

TESTS = Path(__file__).resolve().parent
RV = TESTS.parent / "rv"
SECONDS = 60
LINE = re.compile(r"# (?P<key>[a-z]+(?: has| at [0-9a-f]+| [.\w$-]+(?: \w+)?)?|no map): ?(?P<value>.*)")
KEYS = (
    "rv options input environment limit instructions exit end console fault status error errors out text rodata data "
    "map listing section alignment size same patch cut archive wide unindexed"
).split()
WORD = re.compile(r"# ([a-z]+):.*")
SEGMENTS = {"text": 1, "rodata": 4, "data": 6}
BEGIN_RUN = {"exit", "end", "console"}


class Failed(Exception):
    """A case that fails: what was wanted and what came."""


def unescaped(text):
    """The bytes of a text with the escapes of C."""
    named = {"n": "\n", "t": "\t", "r": "\r", "0": "\0", "\\": "\\"}
    one = lambda it: chr(int(it[1], 16)) if it[1] else named.get(it[2], it[0])
    return re.sub(r"\\(?:x([0-9a-fA-F]{2})|(.))", one, text, flags=re.S).encode("latin-1")


def repeated(text):
    """The bytes of a source, in which {{N * TEXT}} stands for TEXT, N times, and \\# in TEXT for which time it is."""

    def times(found):
        count, held = int(found[1]), found[2].decode("latin-1")
        if r"\#" not in held:
            return count * unescaped(held)
        return b"".join(unescaped(held.replace(r"\#", str(at))) for at in range(1, count + 1))

    return re.sub(rb"\{\{(\d+) \* (.*?)\}\}", times, text, flags=re.S)


def expectations(lines):
    """The keys and values among the comment lines of a head, in order; a line that begins as a key does is one."""
    for it in lines:
        if (word := WORD.fullmatch(it)) and word[1] not in KEYS:
            sys.exit(f"{it}: {word[1]} is no key of a case")
    found = (LINE.fullmatch(it) for it in lines)
    return [(it["key"], it["value"]) for it in found if it and (it["key"].split()[0] in KEYS or it["key"] == "no map")]


def with_pieces(text, folder):
    """The bytes of a case, in which a line {{NAME}} stands for the file NAME beside it."""
    return re.sub(
        rb"(?m)^\{\{([\w.]+)\}\}\n", lambda it: with_pieces((folder / it[1].decode()).read_bytes(), folder), text
    )


def side(text, at):
    """A text of several files as the one of this number has it: {{A => B}} stands for A in the first, for B in the
    next."""
    return re.sub(rb"\{\{([^{}]* => [^{}]*)\}\}", lambda it: it[1].split(b" => ")[at], text)


def read_source(path):
    """The one case of a file NAME.s: its name, its files and what is expected."""
    text = with_pieces(path.read_bytes(), path.parent)
    lines = text.decode("latin-1").split("\n")
    length = next((at for at, it in enumerate(lines) if not it.startswith("#") or it.startswith("#---")), len(lines))
    head = expectations(lines[:length])
    parts = re.split(rb"(?m)^#--- (.*)\n", text)
    if len(parts) == 1:
        return [(path.name, {path.name: repeated(text)}, head)]
    files = {}
    for name, part in zip(parts[1::2], parts[2::2]):
        if len(names := name.decode().strip().split(" => ")) > 1:
            files.update({it: side(part, at) for at, it in enumerate(names)})
            continue
        name, _, how = name.decode().strip().partition(" ")
        how, _, times = how.partition("* ")
        held = bytes.fromhex(part.decode()) if how == "hex" else repeated(part)
        held = object_of(held.decode()) if how.strip() == "object" else held
        files.update({f"{at}-{name}": held for at in range(1, int(times) + 1)} if times else {name: held})
    return [(path.name, files, head)]


def filled(text, cells):
    """A text of a table's head with the columns of a row in place of $1, $2 .."""
    return re.sub(r"\$(\d)", lambda it: cells[int(it[1]) - 1] if int(it[1]) <= len(cells) else it[0], text)


def read_table(path):
    """The cases of a file NAME.table: one for each row and each `source` of its head."""
    lines = path.read_text("latin-1").split("\n")
    length = next(at for at, it in enumerate(lines) if not it.startswith("#"))
    shapes = []
    for line in lines[:length]:
        source = re.fullmatch(r"# (source|object)(?: ([\w.]+))?: ?(.*)", line)
        if source and not source[2]:
            shapes.append(({}, []))
        if source:
            shapes[-1][0][source[2] or {"source": "a.s", "object": "a.o"}[source[1]]] = source[3]
        elif shapes:
            shapes[-1][1].extend(expectations([line]))
    for at, line in enumerate(lines[length:], length + 1):
        if not line or line.startswith("#"):
            continue
        cells = line.split(" => ")
        for number, (files, head) in enumerate(shapes, 1):
            made = {name: repeated_text(filled(text, cells)) for name, text in files.items()}
            made = {name: object_of(it.decode()) if name.endswith(".o") else it for name, it in made.items()}
            yield f"{path.name}:{at}, source {number}", made, [(key, filled(value, cells)) for key, value in head]


def repeated_text(text):
    """The bytes of a source of a table: escapes outside of {{N * TEXT}}, which has its own."""
    pieces = re.split(r"(\{\{\d+ \* .*?\}\})", text)
    return b"".join(repeated(it.encode("latin-1")) if it.startswith("{{") else unescaped(it) for it in pieces)


def calls(files, head):
    """The calls of a case, each with what is expected of it."""
    if any(key == "rv" for key, _ in head):
        found = []
        for key, value in head:
            if key == "rv":
                found.append((shlex.split(repeated(value.encode()).decode()), []))
            else:
                found[-1][1].append((key, value))
        return found
    keys = {key.split()[0] for key, _ in head}
    options = [word for key, value in head if key == "options" for word in shlex.split(value)]
    if keys & {"section", "alignment"} or "size" in keys and "obj" in keys:
        return [(["as", "-o", "obj", *files], head)]
    word = "ld" if all(name.endswith(".o") for name in files) else "build"
    build = [word, "-o", "exe", "--map", "map", *options, *files]
    if not keys & BEGIN_RUN:
        return [(build, head)]
    limit = [word for key, value in head if key in ("limit", "instructions") for word in ("--limit", value)]
    of_run = [it for it in head if it[0] in {*BEGIN_RUN, "input"}]
    return [(build, [it for it in head if it not in of_run]), (["run", *limit, "exe"], of_run)]


def same(what, wanted, came):
    if wanted != came:
        raise Failed(f"{what}\n  wanted {wanted!r}\n  came   {came!r}")


def segments(exe):
    """The flags, the address and the bytes of each segment of an executable (gABI, "Program Header")."""
    (at,), (count,) = struct.unpack_from("<Q", exe, 32), struct.unpack_from("<H", exe, 56)
    for index in range(count):
        _, flags, offset, address, _, size = struct.unpack_from("<IIQQQQ", exe, at + 56 * index)
        yield flags, address, exe[offset : offset + size]


def section(obj, name):
    """The alignment and the bytes of the section of this name of an object (gABI, "Sections")."""
    at, count, strings = struct.unpack_from("<Q", obj, 40)[0], *struct.unpack_from("<HH", obj, 60)
    headers = [struct.unpack_from("<IIQQQQIIQQ", obj, at + 64 * index) for index in range(count)]
    names = headers[strings][4]
    for it in headers:
        end = obj.index(b"\0", names + it[0])
        if obj[names + it[0] : end].decode() == name:
            return it[8], b"" if it[1] == 8 else obj[it[4] : it[4] + it[5]]
    raise Failed(f"no section {name}")


def look_at_files(folder, words, key, value):
    """Compares one expectation of a file that the call wrote."""
    first, _, rest = key.partition(" ")
    written = lambda flag: folder / words[words.index(flag) + 1]
    if first in SEGMENTS:
        held = [
            (address, it) for flags, address, it in segments(written("-o").read_bytes()) if flags == SEGMENTS[first]
        ]
        address, held = held[0] if held else (0, b"")
        wanted = bytes.fromhex(repeated(value.encode()).decode())
        if rest.startswith("at "):
            from_there = int(rest[3:], 16) - address
            held = held[from_there : from_there + len(wanted)]
        same(key, wanted.hex(), held.hex())
    elif key in ("map", "no map"):
        lines = written("--map").read_text().splitlines()
        if key == "map" and value not in lines or key == "no map" and any(it.startswith(value) for it in lines):
            raise Failed(f"{key}: {value}\n  came   {lines}")
    elif first == "section":
        same(key, bytes.fromhex(value).hex(), section(written("-o").read_bytes(), rest)[1].hex())
    elif first == "alignment":
        same(key, int(value), section(written("-o").read_bytes(), rest)[0])
    elif key == "size":
        same(key, int(value), written("-o").stat().st_size)
    elif key == "same":
        same(f"{key}: {value}", *((folder / it).read_bytes() for it in value.split()))
    elif key == "cut":
        os.truncate(folder / value.split()[0], int(value.split()[1]))
    elif key in ("archive", "wide", "unindexed"):
        name, *members = value.split()
        members = [(it, (folder / it).read_bytes()) for it in members]
        (folder / name).write_bytes(archive_of(members, key != "unindexed", 8 if key == "wide" else 4))
    elif key == "patch":
        name, at, put = value.split()
        with open(folder / name, "r+b") as file:
            file.seek(int(at, 16))
            file.write(bytes.fromhex(put))


def look_at(folder, words, head):
    """Makes one call, and compares each expectation with what came."""
    given = b"".join(repeated_text(value) for key, value in head if key == "input")
    before = sorted(folder.iterdir())
    variables = {name: value for name, value in os.environ.items() if name != "RV_LIMIT"}
    variables.update(value.split("=", 1) for key, value in head if key == "environment")
    process = subprocess.run([RV, *words], cwd=folder, input=given, capture_output=True, timeout=SECONDS, env=variables)
    error_lines = process.stderr.decode("utf8", "replace").splitlines()
    last, one = error_lines[-1] if error_lines else "", dict(head)
    status = (
        int(one["status"])
        if "status" in one
        else 1
        if "fault" in one
        else 125
        if "end" in one
        else int(one.get("exit", 0))
    )
    same(f"rv {' '.join(words)}: its status, with {last!r}", status, process.returncode)
    wanted = one.get("error") or (
        "rv: " + one["fault"] if "fault" in one else "rv: " + one["end"] if "end" in one else None
    )
    if wanted is not None:
        same("standard error", wanted, last)
    for key, came in (("console", process.stdout), ("out", process.stdout), ("errors", process.stderr)):
        if key in one:
            same(key, unescaped(one[key]), came)
    # (cases that fail are no refusal, and `rv test` says nothing of them on standard error)
    is_refused = process.returncode and (process.stderr or words[:1] != ["test"])
    if is_refused and not last.endswith(": cannot write"):
        same("files of a call that is refused", before, sorted(folder.iterdir()))
    if not process.returncode and words and words[0] in ("build", "ld"):
        look_at_modes(folder, words)
    for key, value in head:
        if key == "out has" and value not in process.stdout.decode("utf8", "replace").splitlines():
            raise Failed(f"out has: {value}\n  came   {process.stdout!r}")
        if key == "errors has" and value not in error_lines:
            raise Failed(f"errors has: {value}\n  came   {process.stderr!r}")
        if key in ("out is", "errors is"):
            same(key, (folder / value).read_bytes(), process.stdout if key == "out is" else process.stderr)
        look_at_files(folder, words, key, value)
    mapped, listing = ([value for key, value in head if key == it] for it in ("map", "listing"))
    if "rvmap 1" in mapped:
        same("the map", mapped, (folder / words[words.index("--map") + 1]).read_text().splitlines())
    if listing:
        look_at_listing(folder, words, listing)


def look_at_modes(folder, words):
    """Who may read what was linked may run it, and nobody runs the map (docs/manual/files.md)."""
    for flag, runs in (("-o", 0o444), ("--map", 0)):
        if flag in words:
            mode = (folder / words[words.index(flag) + 1]).stat().st_mode
            same(f"who may run {words[words.index(flag) + 1]}", (mode & runs) >> 2, mode & 0o111)


def look_at_listing(folder, words, wanted):
    """Looks for lines that follow each other in the listing of what the call built."""
    exe, text = words[words.index("-o") + 1], words[words.index("--map") + 1]
    process = subprocess.run([RV, "objdump", "--map", text, exe], cwd=folder, capture_output=True, timeout=SECONDS)
    lines = process.stdout.decode().splitlines()
    if not any(lines[at : at + len(wanted)] == wanted for at in range(len(lines))):
        raise Failed(f"the listing\n  wanted {wanted}\n  came   {lines[:40]}")


def run(case):
    """What is wrong with a case, or nothing."""
    name, files, head = case
    if not head:
        return f"{name}: expects nothing"
    with tempfile.TemporaryDirectory() as folder:
        for file, held in files.items():
            Path(folder, file).write_bytes(held)
        try:
            for words, wanted in calls(files, head):
                look_at(Path(folder), words, wanted)
        except (Failed, OSError, ValueError, struct.error, subprocess.TimeoutExpired) as why:
            return f"{name}: {why}"
    return None


def cases(names):
    """All cases, with their path below tests/, or those whose path begins with one of the names."""
    for path in sorted(TESTS.glob("*/*")):
        below = str(path.relative_to(TESTS))
        if names and not any(below.startswith(it) for it in names):
            continue
        reader = {".s": read_source, ".table": read_table}.get(path.suffix)
        try:
            for name, files, head in reader(path) if reader else []:
                yield f"{path.parent.name}/{name}", files, head
        except (SystemExit, ValueError) as why:
            sys.exit(f"{below}: {why}")


def main(names):
    if not RV.exists():
        sys.exit("no ./rv: run make first")
    with ThreadPoolExecutor(len(os.sched_getaffinity(0))) as pool:
        wrong = list(pool.map(run, cases(names)))
    for it in filter(None, wrong):
        print(it)
    failed = sum(it is not None for it in wrong)
    print(f"{len(wrong) - failed} passed, {failed} failed")
    return 1 if failed or not wrong else 0


if __name__ == "__main__":
    sys.exit(main(sys.argv[1:]))
