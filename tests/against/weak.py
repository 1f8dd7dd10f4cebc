"""Links random lists of sources with weak, global and local names by rv and by GNU ld, and compares what names mean.

usage: compare.py weak [COUNT] [--seed N] [--from N] [--only N] [--jobs N] [--rv RV]

It needs riscv64-unknown-elf-as and -ld 2.40, and takes 300 lists unless told otherwise. List N of a seed is the same in
each run; `--only N` takes it alone and shows it. Its sources define some of a few names as labels of text, of data or
of a section without `a`, or as numbers, make them local, global or weak, and refer to them from data and from code. The
objects of rv as, and those of GNU as, are linked by rv ld and by GNU ld, with a script that lays sections out as rv
does. Asked is that

  refusals  rv refuses a list for a name of which the manual says so, and GNU ld for that name too
  values    without short calls all bytes of the program, its entry and the address of each name are the same
  short     with short calls the address of each name is the same, in objects of rv as
  build     rv build makes of the sources what rv ld makes of their objects

Where the manual names a difference from GNU's tools, what it says is asked of rv, and no more:

  own number  a source does not refer to a number that it makes weak: GNU ld takes another file's
  last        `.weak` comes after `.globl` alone: a name that is weak once stays so in GNU as
  left open   a name that a source neither defines nor refers to stands in no `.globl`: GNU ld refuses weak ones for it
  unloaded    a name that means a place in a section without `a`: rv says L5
  entry       a `_start` that means no label of text: rv says L7
  0           what a pair of instructions comes to that refers to 0 is compared, and not its bytes
  calls       where a call leads to no label of text, short calls are not compared, nor in objects of GNU as, in which
              GNU ld shortens more than calls

Each difference is a line; the last one counts the lists. Exit status 1 if there is a difference.
"""

import random
import re
import struct
import subprocess
import tempfile
from collections import Counter
from concurrent.futures import ThreadPoolExecutor
from pathlib import Path

from against.common import GNU, SECONDS, need, numbers_of, random_parser

SCRIPT = """ENTRY(_start)
SECTIONS {
  . = 0x10000;
  .text : { *(.text) }
  PROVIDE(_etext = .);
  . = ALIGN(4096);
  .rodata : { *(.rodata) }
  . = ALIGN(4096);
  .data : { PROVIDE(__global_pointer$ = . + 0x800); *(.data) }
  PROVIDE(_edata = .);
  .bss : { PROVIDE(__bss_start = .); *(.bss) }
  PROVIDE(_end = .);
  .note.x 0 : { *(.note.x) }
}
"""
LINKERS = ["_etext", "__bss_start", "_edata", "_end", "__global_pointer$"]
NAMES = ["f", "g", "h", "v", "w"]
OPENINGS = {
    "text": ".text",
    "data": ".data",
    "rodata": ".section .rodata",
    "bss": ".bss",
    "unloaded": '.section .note.x,""',
}
KINDS = ["text"] * 9 + ["data"] * 6 + ["rodata", "bss", "number"] * 3 + ["unloaded"]
CONTENTS = {
    "text": "li t3, 1\nret",
    "data": ".word 1, 2",
    "rodata": ".half 3",
    "bss": ".zero 24",
    "unloaded": ".word 1",
}
# What refers to a name X from data and from code; L is the label of the reference itself.
IN_DATA = [".dword X", ".dword X + 6", ".word X", ".dword X - L", ".dword L - X", ".dword X - X + 1"]
IN_CODE = [
    "la t0, X",
    "la t0, X + 4",
    "ld t0, X",
    "sd t0, X, t1",
    "lui t0, %hi(X)\naddi t0, t0, %lo(X)",
    "lui t0, %hi(X + 4)\nlw t0, %lo(X + 4)(t0)",
]
CALLS = ["call X", "tail X", "jump X, t0"]
JUMPS = ["j X", "jal X", "beqz t1, X", "bltu t1, t2, X"]


class Differs(Exception):
    """What a list shows, and should not."""


class Source:
    """One source: which names it binds and defines how, and to which it refers."""

    def __init__(self, pick, file, numbers):
        self.file, self.bindings, self.definitions, self.references = file, {}, {}, []
        for name in pick.sample(NAMES, pick.randrange(1, len(NAMES) + 1)):
            self.bindings[name] = pick.choice(["weak"] * 5 + ["global", "local"])
            if pick.random() < 0.55:
                self.definitions[name] = pick.choice(KINDS)
        if pick.random() < 0.2:
            name = pick.choice(LINKERS)
            self.bindings[name] = pick.choice(["weak", "weak", "global"])
            if pick.random() < 0.4:
                self.definitions[name] = pick.choice(["data", "text", "number"])
        self.numbers = {name: next(numbers) for name, how in self.definitions.items() if how == "number"}
        if file == 1 or pick.random() < 0.3:
            self.bindings["_start"] = "global" if pick.random() < (0.8 if file == 1 else 0.1) else "weak"
            self.definitions["_start"] = "data" if pick.random() < 0.03 else "text"
        strange = [name for name in NAMES if name not in self.bindings]
        known = [name for name in self.bindings if not (self.is_number(name) and self.bindings[name] == "weak")]
        for _ in range(pick.randrange(1, 9)):
            name = pick.choice(strange) if strange and pick.random() < 0.02 else pick.choice(known or LINKERS)
            own = self.is_number(name)
            ways = IN_DATA[:3] if own else IN_DATA if pick.random() < 0.4 else IN_CODE + CALLS + JUMPS
            way = pick.choice(ways)
            if not (own and "lui" in way or "X - X" in way and self.is_kept_out(name)):
                self.references.append((name, way))

    def is_number(self, name):
        return self.definitions.get(name) == "number"

    def is_kept_out(self, name):
        """Whether a name is the source's own place in a section that isn't loaded: its distance from itself is a
        number."""
        return self.is_sure(name) and self.definitions[name] == "unloaded"

    def is_sure(self, name):
        """Whether the source's own definition is meant, whatever others say."""
        return name in self.definitions and (self.is_number(name) or self.bindings.get(name, "local") != "weak")

    def text(self, pick):
        """The source as it is written; each reference has a label before it."""
        named = {*self.definitions, *(name for name, _ in self.references)}
        bound = [(how, name) for name, how in self.bindings.items() if name in named]
        bound = [(how, name) for how, name in bound if how != "local" or pick.random() < 0.3]
        words = {"global": ".globl", "weak": ".weak", "local": ".local"}
        lines = [f"{words[how]} {name}" for how, name in bound]
        before = [f".globl {name}" for how, name in bound if how == "weak" and pick.random() < 0.1]
        body = []
        for name, how in self.definitions.items():
            if how == "number":
                before.append(f".set {name}, {self.numbers[name]:#x}")
            else:
                body.append([OPENINGS[how], f"{name}: {CONTENTS[how]}"])
        for at, (name, way) in enumerate(self.references):
            label = f"r{self.file}_{at}"
            section = OPENINGS[pick.choice(["data", "data", "rodata"]) if way in IN_DATA else "text"]
            body.append([section, f"{label}: {way.replace('X', name).replace('L', label)}"])
        pick.shuffle(body)
        choice = [".option norvc"] if pick.random() < 0.5 else []
        parts = [*body, lines] if pick.random() < 0.5 else [lines, *body]
        return "\n".join(line for part in [choice, before, *parts] for line in part) + "\n"


# --- what the manual says that names mean


def definitions(sources, binding):
    """Those of a binding, by file: a file has one of a name."""
    return [(it, name) for it in sources for name in it.definitions if it.bindings.get(name, "local") == binding]


def chosen(sources, name):
    """The source whose definition of a name all files mean."""
    found = [it for binding in ("global", "weak") for it, of in definitions(sources, binding) if of == name]
    return found[0] if found else None


def meaning(sources, source, name):
    """What a name means in a source: a kind of place, a number, the linker's, 0, or nothing."""
    defined = source if source.is_sure(name) else chosen(sources, name)
    if defined:
        return defined.definitions[name]
    return "linker" if name in LINKERS else "zero" if source.bindings.get(name) == "weak" else None


def refusal(sources):
    """The code for which rv refuses a list, and the names of which it says one; none where it links."""
    counts = Counter(name for _, name in definitions(sources, "global"))
    twice = {name for name, count in counts.items() if count > 1}
    if twice:
        return "L6", twice
    bad = {name for it in sources for name, _ in it.references if meaning(sources, it, name) in (None, "unloaded")}
    if bad:
        return "L5", bad
    start = chosen(sources, "_start")
    return None if start and start.definitions["_start"] == "text" else ("L7", None)


# --- what the tools do


def finished(*words):
    return subprocess.run(list(map(str, words)), capture_output=True, text=True, timeout=SECONDS)


def succeeded(*words):
    """Runs a tool that has to do its work."""
    process = finished(*words)
    if process.returncode:
        raise Differs(f"{' '.join(map(str, words))}: {process.stderr.strip()}")
    return process


class Program:
    """An executable: its entry, the bytes of its segments by address, and where its symbols stand."""

    def __init__(self, path):
        raw = path.read_bytes()
        self.entry, heads, table = struct.unpack_from("<QQQ", raw, 24)
        count, _, sections, _ = struct.unpack_from("<HHHH", raw, 56)
        self.bytes = {}
        for at in range(count):
            kind, _, offset, address, _, size = struct.unpack_from("<IIQQQQ", raw, heads + 56 * at)
            if kind == 1:
                self.bytes.update(zip(range(address, address + size), raw[offset : offset + size]))
        self.symbols = {}
        headers = [struct.unpack_from("<IIQQQQIIQQ", raw, table + 64 * at) for at in range(sections)]
        for _, kind, _, _, offset, size, link, *_ in headers:
            for at in range(offset, offset + size, 24) if kind == 2 else ():
                name, info, _, index, value, _ = struct.unpack_from("<IBBHQQ", raw, at)
                start = headers[link][4] + name
                name = raw[start : raw.index(b"\0", start)].decode()
                # (in a section of its own address: not one without `a`, where places have none)
                placed = index == 0xFFF1 or 0 < index < sections and headers[index][2] & 2
                self.symbols[name] = info >> 4, value if placed else None

    def number(self, at, size):
        return int.from_bytes(bytes(self.bytes.get(at + it, 0) for it in range(size)), "little")


def signed(number, bits):
    return number - (1 << bits) if number >> (bits - 1) & 1 else number


def far_end(program, at):
    """What a pair of instructions, or the first `lui` of one, comes to: the address in its register or of its jump."""
    first, second = program.number(at, 4), program.number(at + 4, 4)
    low = signed(second >> 25 << 5 | second >> 7 & 31 if second & 0x7F == 0x23 else second >> 20, 12)
    if first & 3 != 3 or first & 0x7F not in (0x17, 0x37):
        return None
    high = signed(first & 0xFFFFF000, 32) + (at if first & 0x7F == 0x17 else 0)
    return (low if second >> 15 & 31 == 0 else high + low) % (1 << 64)


def without_ways_to_0(sources, program, symbols):
    """The bytes of a program but those of pairs of instructions that refer to 0, and what these come to."""
    held, ways = dict(program.bytes), []
    for it in sources:
        for at, (name, way) in enumerate(it.references):
            if meaning(sources, it, name) == "zero" and way in IN_CODE + CALLS:
                place = symbols[f"r{it.file}_{at}"][1]
                ways.append((place, far_end(program, place)))
                for byte in range(8):
                    held.pop(place + byte)
    # (one segment of GNU ld's may reach over several of rv's)
    return {hex(at): it for at, it in held.items() if it}, ways


class Linked:
    """What rv makes of files with some options: an executable and a map, or a fault with its code and name."""

    def __init__(self, rv, folder, command, options, files):
        paths = [folder / "made.exe", folder / "made.map"]
        process = finished(rv, command, *options, "-o", paths[0], "--map", paths[1], *files)
        self.files = [path.read_bytes() for path in paths if path.exists()]
        self.fault, self.program, self.globals = None, None, {}
        if process.returncode:
            found = re.search(r"rv: (?:(L\d+) \w+ ?(\S*)|.*)$", process.stderr.strip())
            self.fault = (found[1] or found[0], found[2])
        else:
            self.program = Program(paths[0])
            lines = re.findall(r"^global (\S+) (\S+)$", paths[1].read_text(), re.M)
            self.globals = {name: int(address, 16) for name, address in lines}
        for path in paths:
            path.unlink(missing_ok=True)


def same(what, wanted, came):
    if wanted == came:
        return
    if isinstance(wanted, dict):
        keys = sorted(key for key in {*wanted, *came} if wanted.get(key) != came.get(key))
        wanted, came = ({key: it.get(key) for key in keys} for it in (wanted, came))
    raise Differs(f"{what}: wanted {str(wanted)[:600]}, rv {str(came)[:600]}")


def compare_names(what, theirs, ours):
    """Compares the addresses of the names that all files can mean. GNU ld gives the linker's where one is referred
    to."""
    wanted = {name: value for name, (binding, value) in theirs.symbols.items() if binding and value is not None}
    same(what, wanted, {name: at for name, at in ours.globals.items() if name in wanted or name not in LINKERS})


def compare_refusals(sources, wanted, ours, theirs):
    """Compares why rv and GNU ld refuse a list; how it ends."""
    code, names = wanted
    same("code", code, ours.fault and ours.fault[0])
    if code == "L7":
        return "entry"
    same(f"one of {names}", True, ours.fault[1] in names)
    if code == "L5" and any(meaning(sources, it, name) == "unloaded" for it in sources for name, _ in it.references):
        return "unloaded"
    about = {"L6": "multiple definition of", "L5": "undefined reference to"}[code]
    found = re.findall(rf"{about} `(\S+)'", theirs.stderr)
    same("GNU ld's refusal", True, ours.fault[1] in found[: 1 if code == "L6" else None])
    return code


def compare_values(sources, ours, theirs):
    """Compares the programs of rv and of GNU ld; how they end."""
    held, ways = without_ways_to_0(sources, theirs, theirs.symbols)
    held_here, ways_here = without_ways_to_0(sources, ours.program, theirs.symbols)
    same("ways to 0", ways, ways_here)
    same("bytes", held, held_here)
    same("entry", theirs.entry, ours.program.entry)
    compare_names("names", theirs, ours)
    return "linked, with a way to 0" if ways else "linked"


def compare(rv, folder, sources, objects, maker):
    """Compares the links of the objects of a list; how they end."""
    wanted, ours = refusal(sources), Linked(rv, folder, "ld", ["--no-relax"], objects)
    gnu = [f"{GNU}ld", "-T", folder / "script", "-o", folder / "gnu", *objects]
    theirs = finished(*gnu, "--no-relax")
    if wanted:
        return compare_refusals(sources, wanted, ours, theirs)
    same("fault", None, ours.fault)
    if theirs.returncode:
        raise Differs(f"GNU ld: {theirs.stderr.strip()[-300:]}")
    end = compare_values(sources, ours, Program(folder / "gnu"))
    called = [meaning(sources, it, name) for it in sources for name, way in it.references if way in CALLS]
    if maker == "rv" and all(it == "text" for it in called):
        succeeded(*gnu)
        compare_names("names with short calls", Program(folder / "gnu"), Linked(rv, folder, "ld", [], objects))
    return end


def compare_builds(rv, folder, files, objects):
    """Asks that rv build does what rv ld does."""
    for options in ([], ["--no-relax"]):
        built, linked = (Linked(rv, folder, *it) for it in (("build", options, files), ("ld", options, objects)))
        same(f"rv build, and rv ld {options}", (built.fault, built.files), (linked.fault, linked.files))


def objects_of(words, files):
    """The objects that an assembler makes of sources."""
    objects = [path.with_suffix(".o") for path in files]
    for path, written in zip(files, objects):
        succeeded(*words, "-o", written, path)
    return objects


def taken(options, number):
    """How list `number` ends, for each maker of its objects."""
    pick = random.Random(f"{options.seed} {number}")
    numbers = iter(pick.sample(range(0x8000, 0x1F000, 16), 40))
    sources = [Source(pick, file, numbers) for file in range(1, pick.choice([1, 2, 2, 3, 3, 4]) + 1)]
    for it in sources:
        lacks = {name for name, _ in it.references if meaning(sources, it, name) in (None, "unloaded")}
        it.references = [(name, way) for name, way in it.references if name not in lacks or pick.random() < 0.1]
    ends = []
    with tempfile.TemporaryDirectory() as name:
        folder = Path(name)
        (folder / "script").write_text(SCRIPT)
        files = [folder / f"{it.file}.s" for it in sources]
        for path, it in zip(files, sources):
            path.write_text(it.text(pick))
        makers = {"rv": [options.rv, "as"], "GNU as": [f"{GNU}as", "-march=rv64imac", "-mno-arch-attr"]}
        for maker, words in makers.items():
            try:
                objects = objects_of(words, files)
                if maker == "rv":
                    compare_builds(options.rv, folder, files, objects)
                ends.append((maker, compare(options.rv, folder, sources, objects, maker), None))
            except (Differs, KeyError, OSError, struct.error, subprocess.TimeoutExpired) as shown:
                ends.append((maker, "differs", f"list {number}, objects of {maker}: {shown}"))
        if options.only is not None:
            for path in files:
                print(f"--- {path.name}\n{path.read_text()}", flush=True)
    return ends


def main():
    options = random_parser(__doc__, count=300, first=1).parse_args()
    need(options.rv, *(f"{GNU}{tool}" for tool in ("as", "ld")))
    lists = numbers_of(options)
    counts = Counter()
    with ThreadPoolExecutor(options.jobs) as lanes:
        for ends in lanes.map(lambda number: taken(options, number), lists):
            for maker, end, shown in ends:
                counts[maker, end] += 1
                if shown:
                    print(shown, flush=True)
    for maker in ("rv", "GNU as"):
        of_it = ", ".join(f"{end} {count}" for (of, end), count in sorted(counts.items()) if of == maker)
        print(f"objects of {maker}: {of_it}")
    differs = sum(count for (_, end), count in counts.items() if end == "differs")
    print(f"{len(lists)} lists, differs={differs}")
    return 1 if differs else 0
