"""Compares which calls rv and GNU ld shorten in random C programs.

usage: compare.py relaxation [--first SEED] [--count N] [--jobs N] [--rv RV]

It takes 100 programs that csmith draws from seed 1 on, each as GCC writes it in six ways, in two of them with pages of
padding between its functions, so that calls are far. Both lay the text out alike: from one address, section by
section in the order of the source; and no address in it is near enough to zero or to a global pointer for GNU ld to
shorten anything but calls.

Each call is one of:
  same      it has as many bytes in both, and so many
  shorter   it has fewer in rv
  paddings  it has more in rv, which judges by alignments in full: GNU ld counts some of them as they stand
  no label  it has more in rv, since it leads to no label of the text
  longer    it has more in rv, for no reason known here: its line is shown
A program is none where csmith, GCC or GNU's tools make nothing of it, or rv refuses it.

The last line is 'longer=0' where no call is longer so, and only then the status is 0.
"""

import re
import struct
import tempfile
from collections import Counter
from concurrent.futures import ThreadPoolExecutor
from pathlib import Path

from against.common import GNU, assemblies, completed, csmith_options, draw, need, succeeds

# How GCC writes a program, and how many pages are put between two of its functions.
WAYS = [
    ("-O0 -fdata-sections", 0),
    ("-O1 -ffunction-sections", 0),
    ("-O2 -fno-ipa-icf", 0),
    ("-Os -fno-ipa-icf -mcmodel=medany", 0),
    ("-O0 -fdata-sections", 4),
    ("-O2 -fno-ipa-icf -fno-inline", 6),
]
PAGE = "nop\n.align 12\n"
# Far enough from zero that no `lui` becomes `c.lui`.
START = 0x400000
SCRIPT = f"""SECTIONS {{ . = {START:#x}; .text : {{ *(.text .text.*) }}
.rodata ALIGN(4096) : {{ *(.rodata .rodata.* .srodata .srodata.*) }}
.data ALIGN(4096) : {{ *(.data .data.* .sdata .sdata.*) *(.bss .bss.* .sbss .sbss.*) }} }}
"""
CALL, CALL_PLT, JAL, RVC_JUMP = 18, 19, 17, 45
BYTES = {CALL: 8, CALL_PLT: 8, JAL: 4, RVC_JUMP: 2}
# How far each form reaches, and its bytes.
REACH = {2: 1 << 11, 4: 1 << 20}


def sections(file):
    """The section headers of an ELF file, each with its type, flags, offset, size and the section that it is for."""
    start, (count,) = struct.unpack_from("<Q", file, 40)[0], struct.unpack_from("<H", file, 60)
    headers = [struct.unpack_from("<IIQQQQIIQQ", file, start + 64 * at) for at in range(count)]
    return [(kind, flags, offset, size, info) for _, kind, flags, _, offset, size, _, info, _, _ in headers]


def relocations(file):
    """The kinds of the relocations of each section of code, by place where the file is an object's, else as they
    stand."""
    headers = sections(file)
    for kind, _, offset, size, info in headers:
        if kind == 4 and headers[info][1] & 4:
            yield info, [struct.unpack_from("<QII", file, at)[:2] for at in range(offset, offset + size, 24)]


def kinds_of_calls(folder, source):
    """The bytes that GNU ld leaves of each call of a source, in the order of their addresses; none where it fails."""
    before, after, script = folder / "before.o", folder / "after", folder / "script"
    script.write_text(SCRIPT)
    if not succeeds([f"{GNU}as", "-march=rv64imac", "-mabi=lp64", "-o", before, source]):
        return None
    ld = [f"{GNU}ld", "--no-warn-rwx-segments", "-q", "-T", script, "-e", str(START)]
    if not succeeds([*ld, "--unresolved-symbols=ignore-all", "-o", after, before]):
        return None
    old = [kind for _, of_section in sorted(relocations(before.read_bytes())) for _, kind in of_section]
    new = [kind for _, of_section in relocations(after.read_bytes()) for _, kind in of_section]
    if len(old) != len(new):
        return None
    return [BYTES[now] for was, now in zip(old, new) if was in (CALL, CALL_PLT)]


def map_rows(folder, options, source):
    """The address and the bytes of each statement in rv's map, by its line and in the order of the source; none where
    rv refuses it."""
    words = ["build", "--text-start", START, "-o", folder / "ours", "--map", folder / "map", source]
    build = completed([options.rv, *words])
    if build is None or build.returncode != 0:
        return None
    rows = re.findall(r"^row \d+ (\d+) \d+ ([0-9a-f]+) (\d+) \d+$", (folder / "map").read_text(), re.M)
    return [(int(line), int(address, 16), int(size)) for line, address, size in rows]


def section_of_lines(lines):
    """The section of code of each line, none where it is another, and the sections in their order."""
    section, found, names = ".text", [], [".text"]
    for line in lines:
        opening = re.match(r"\s*(?:\.section\s+([^\s,]+)|(\.text|\.data|\.bss)\b)", line)
        if opening:
            section = opening.group(1) or opening.group(2)
        is_code = section.startswith(".text")
        if is_code and section not in names:
            names.append(section)
        found.append(section if is_code else None)
    return found, names


def full_padding(line):
    """The bytes of padding that an alignment may need; none for another statement."""
    alignment = re.match(r"\s*\.(?:p2)?align\s+(\d+)", line)
    return max((1 << int(alignment.group(1))) - 2, 0) if alignment else None


def full_offsets(lines, rows):
    """The offset of each statement of the text where each alignment, and the start of each section, has all the padding
    that it may need, by its line."""
    sections, names = section_of_lines(lines)
    offset, found = 0, {}
    for name in names:
        own = [(line, size) for line, _, size in rows if sections[line - 1] == name]
        offset += max([full_padding(lines[line - 1]) or 0 for line, _ in own], default=0)
        for line, size in own:
            found[line] = offset
            full = full_padding(lines[line - 1])
            offset += size if full is None else full
    return found


def target(line):
    """The name to which a call leads; of two operands it is the second, and of a jump's the first."""
    word, operands = line.split("@")[0].split(None, 1)
    names = [operand.strip() for operand in operands.split(",")]
    return names[0] if word == "jump" else names[-1]


def reason(lines, offsets, line, size):
    """Why a call has more than so many bytes in rv."""
    start = target(lines[line - 1]) + ":"
    found = next(
        (offsets[at + 1] for at, text in enumerate(lines) if at + 1 in offsets and text.startswith(start)), None
    )
    if found is None:
        return "no label"
    return "longer" if -REACH[size] <= found - offsets[line] < REACH[size] else "paddings"


def spread(source, pages):
    """Puts pages between the functions of a source."""
    before = re.compile(r"^(?=\s*\.type\s+[^\s,]+,\s*@function)", re.M)
    source.write_text(before.sub(PAGE * pages, source.read_text()))


def compare(folder, source, options):
    """How the calls of a source end; none where a tool makes nothing of it."""
    theirs, rows = kinds_of_calls(folder, source), map_rows(folder, options, source)
    if theirs is None or rows is None:
        return None
    lines = source.read_text().split("\n")
    offsets = full_offsets(lines, rows)
    calls = [row for row in rows if re.match(r"\s*(call|tail|jump)\s", lines[row[0] - 1])]
    calls.sort(key=lambda row: row[1])
    if len(theirs) != len(calls):
        return None
    ends = Counter()
    for (line, _, size), wanted in zip(calls, theirs):
        if size <= wanted:
            end = f"same at {size}" if size == wanted else "shorter"
        else:
            end = reason(lines, offsets, line, wanted)
        ends[end] += 1
        if end == "longer":
            print(f"line {line}: {size} bytes, {wanted} in GNU ld", flush=True)
    return ends


def program(seed, options):
    """How the calls of the program of a seed end, for each way."""
    ends = []
    with tempfile.TemporaryDirectory() as name:
        folder = Path(name)
        if not draw(folder, seed):
            return ends
        for way in WAYS:
            flags, pages = way
            sources = assemblies(folder, flags, False)
            found = None
            if sources:
                spread(sources[0], pages)
                found = compare(folder, sources[0], options)
            ends.append((way, found or Counter(none=1)))
    return ends


def main():
    options = csmith_options(__doc__, 100)
    need(options.rv, "csmith", *(f"{GNU}{tool}" for tool in ("gcc", "as", "ld")))
    counts = {way: Counter() for way in WAYS}
    with ThreadPoolExecutor(options.jobs) as lanes:
        for ends in lanes.map(lambda seed: program(seed, options), range(options.first, options.first + options.count)):
            for way, found in ends:
                counts[way].update(found)
    for (flags, pages), found in counts.items():
        ends = ", ".join(f"{end} {count}" for end, count in sorted(found.items()))
        print(f"{flags}, {pages} pages between functions: {ends}")
    longer = sum(found["longer"] for found in counts.values())
    print(f"longer={longer}")
    return 0 if longer == 0 else 1
