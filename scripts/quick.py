#!/usr/bin/env python3
"""Builds a program in minutes, with no proof, to try it: nothing says that it is safe or does what its contracts say.

usage: quick.py PROGRAM FILE

`rt try` makes a module of LLVM of the program and all libraries below it. Here it loses what was added for trying, and
what nothing but that reads, and is compiled and linked as `rt run` does it with what is proved. So the code is that of
the proved program, but for a test of the processor at the start. `rv --version` says that nothing is proved; other
programs, those of tests, say nothing of it.
"""

import os
import re
import resource
import shutil
import sys
import tempfile
import threading
import time
from contextlib import contextmanager
from itertools import takewhile

import kit
import marks

# The program whose `--version` says whether it is proved.
MARKED = "rv_cli"
REGISTER = re.compile(r"%[\w.$-]+")
# A line that only makes a value, and one that only writes, into a local if nothing reads it.
VALUE = re.compile(
    r"  (%[\w.$-]+) = (?:zext|sext|trunc|icmp|and|or|xor|add|sub|mul|shl|lshr|ashr|udiv|urem|ptrtoaddr|ptrtoint"
    r"|inttoptr|getelementptr|alloca|select|extractvalue|load(?! volatile| atomic)) "
)
WRITE = re.compile(
    r"  store .*, ptr (%[\w.$-]+), align \d+$"
    r"|  call void @llvm\.memset\.p0\.i64\(ptr (%[\w.$-]+), i8 \d+, i64 \d+, i1 false\)$"
)
BRANCH = re.compile(r"  br i1 %[\w.]+, label %([\w.]+), label %([\w.]+)$")


def label_of(line):
    """The label that a line is, or nothing."""
    return None if line.startswith(" ") or not line else line.split(":")[0].strip('"')


def without_choices(lines):
    """A function's lines without the choices between two blocks that only go on to the same one."""
    blocks, name = {}, None
    for line in lines:
        name = label_of(line) or name
        if name and line.startswith(" "):
            blocks.setdefault(name, []).append(line)
    goes = {it: of[0] for it, of in blocks.items() if len(of) == 1 and of[0].startswith("  br label ")}
    gone, kept = set(), []
    for line in lines:
        found = BRANCH.match(line)
        if found and found[1] in goes and goes[found[1]] == goes.get(found[2]):
            gone |= {found[1], found[2]}
            line = goes[found[1]]
        kept.append(line)
    return without_blocks(kept, gone) if gone else kept


def without_blocks(lines, gone):
    """A function's lines without the blocks of these labels."""
    name = None
    for line in lines:
        name = label_of(line) or name
        if name not in gone:
            yield line


def without_unread(lines):
    """A function's lines without the values that nothing reads, and the locals that are only written."""
    lines, made, written, users = [*lines], {}, {}, {}
    for at, line in enumerate(lines):
        value, write = VALUE.match(line), WRITE.match(line)
        if value:
            made[value[1]] = at
        if write:
            written[at] = write[1] or write[2]
        for it in REGISTER.findall(line):
            if not value or it != value[1]:
                users.setdefault(it, []).append(at)
    gone, work = set(), [*made]
    while work:
        it = work.pop()
        left = [user for user in users.get(it, ()) if user not in gone]
        is_only_written = " = alloca " in lines[made[it]] and all(written.get(user) == it for user in left)
        if made[it] not in gone and (is_only_written or not left):
            gone |= {made[it], *left}
            work += [of for at in (made[it], *left) for of in REGISTER.findall(lines[at]) if of in made and of != it]
    return [line for at, line in enumerate(lines) if at not in gone]


def function(head, lines, change):
    """A function of the module as a proved build has it, with its lines changed."""
    # (at a label a comment lists the blocks before it)
    lines = [it if it.startswith("  ") else it.split(";")[0].rstrip() for it in lines]
    lines = change(head, [*without_unread(without_choices([*kit.without_checks(lines)]))])
    return "\n".join([kit.with_hint(head), *lines, "}\n"])


def unchanged(_, lines):
    """A function's lines as they are."""
    return lines


def turned(source, target, change=unchanged):
    """Copies the module of `rt try` as the one that a proved build would compile, with a change of each function's
    lines."""
    text = {"encoding": "latin-1"}
    with open(source, **text) as lines, open(target, "w", **text) as out:
        lines = (it.rstrip("\n") for it in lines)
        for line in lines:
            if not line.startswith("define "):
                out.write(f"{line}\n")
                continue
            inside = [*takewhile("}".__ne__, lines)]
            out.write("" if kit.is_check(line) else function(line, inside, change))
        out.write(kit.attributes())


@contextmanager
def step(what, expected):
    """A line that tells the seconds of a step; on a terminal they go on until it has ended."""
    start, ended = time.monotonic(), threading.Event()
    begin = f"\r{what:50}" if sys.stdout.isatty() else ""
    print(begin or f"{what:50}", end="", flush=True)

    def go_on():
        while begin and not ended.wait(1):
            print(f"{begin}{time.monotonic() - start:4.0f} s of about {expected}", end="", flush=True)

    clock = threading.Thread(target=go_on, daemon=True)
    clock.start()
    try:
        yield
    finally:
        ended.set()
        clock.join()
        print(f"{begin}{time.monotonic() - start:4.0f} s{' ' * 13 if begin else ''}", flush=True)


def processor_seconds():
    used = [resource.getrusage(it) for it in (resource.RUSAGE_SELF, resource.RUSAGE_CHILDREN)]
    return sum(it.ru_utime + it.ru_stime for it in used)


# What a library's exports are called by, so that all of them are in the module of a program.
CALLER = """
/// Calls each export once.
fn main(rt: HostRuntime) {
    let alloc = rt.alloc();
CALLS}
"""


def as_program(crate, room):
    """Copies the repository such that a static library is a program, which calls each of its exports; the top of the
    copy."""
    top, own = f"{room}/top", f"{room}/top/crates/{crate}"
    shutil.copytree(f"{kit.ROOT}/crates", f"{top}/crates", ignore=shutil.ignore_patterns("out", "proofs", "must-fail"))
    with open(f"{kit.ROOT}/crates.txt") as it, open(f"{top}/crates.txt", "w") as out:
        out.write(it.read().replace(f"\n{crate} staticlib:", f"\n{crate}:"))
    with open(f"{own}/src/lib.rt") as it, open(f"{own}/src/main.rt", "w") as out:
        out.write(it.read() + CALLER.replace("CALLS", calls(f"{own}/src")))
    os.remove(f"{own}/src/lib.rt")
    return top


def calls(sources):
    """A call of each function that the files of a folder export, with nothing in its slices."""
    found = ""
    for name in sorted(os.listdir(sources)):
        with open(f"{sources}/{name}") as it:
            exports = re.findall(r'pub extern "C" fn (\w+)\(([^)]*)\)', it.read())
        for function, parameters in exports:
            types = [it.split(":")[1].strip() for it in parameters.split(",") if it.strip()]
            made = "".join(f"    let mut x{at} = {VALUES[it][0]};\n" for at, it in enumerate(types) if VALUES[it][0])
            words = ", ".join(VALUES[it][1].replace("X", f"x{at}") for at, it in enumerate(types))
            found += f"{made}    let _ = {function}({words});\n"
    return found


# For the types of the exports' parameters: a variable that holds a value, and what is passed.
VALUES = {
    "Global": ("", "alloc"),
    "u32": ("", "0"),
    "u64": ("", "0"),
    "&[u8]": ("", 'b""'),
    "&[u64]": ("", "&[]"),
    "&mut [u8]": ("[0u8; 1]", "&mut X"),
    "&mut u64": ("0u64", "&mut X"),
    "&mut Answer": ("Answer { length: 0, second_length: 0, kind: 0, number: 0, file: 0, line: 0 }", "&mut X"),
    "&mut Ended": ("Ended { address: 0, kind: 0, code: 0 }", "&mut X"),
    "&mut State": ("State { registers: [0; 32], pc: 0, count: 0 }", "&mut X"),
}


def exported(crate, source, target):
    """Copies a module such that the functions that a crate exports have the names by which C calls them, which `rt try`
    does not give them."""
    found = re.compile(rf'^define internal (?=[^@\n]*@"{crate}::\w+::(rv_\w+)"\()', re.M)
    with open(source, encoding="latin-1") as it:
        text = it.read()
    names = "|".join(found.findall(text))
    with open(target, "w", encoding="latin-1") as out:
        out.write(re.sub(rf'@"{crate}::\w+::({names})"', r"@\1", found.sub("define ", text)))


def library_module(crate, room):
    """The module of a static library, which has a program's `main` too."""
    kit.folder()
    top = as_program(crate, room)
    with step("1 of 3  reads all sources and lowers them", 70):
        module = kit.lowered(crate, room, top)
    with step("2 of 3  takes out what serves trying alone", 25):
        turned(module, f"{room}/turned.ll")
        exported(crate, f"{room}/turned.ll", f"{room}/exported.ll")
    return f"{room}/exported.ll"


def library(crate, room):
    """The object of a static library, for shared libraries too; it has a program's `main` and what that needs."""
    library_module(crate, room)
    with step("3 of 3  optimizes the whole and compiles it", 105):
        return kit.compiled("exported.ll", room, "-fPIC")


def main(program, file):
    kit.folder()
    with tempfile.TemporaryDirectory(prefix="quick-") as room:
        with step("1 of 3  reads all sources and lowers them", 70):
            module = kit.lowered(program, room)
        with step("2 of 3  takes out what serves trying alone", 25):
            turned(module, f"{room}/turned.ll")
        with step("3 of 3  optimizes the whole, compiles and links", 105):
            built = kit.linked("turned.ll", room)
        if program == MARKED:
            marks.mark(built, file, marks.UNPROVED)
        else:
            shutil.copy(built, file)
    print(f"{file}: NOT PROVED, made in {processor_seconds():.0f} processor seconds", flush=True)


if __name__ == "__main__":
    main(*sys.argv[1:])
