#!/usr/bin/env python3
"""Debugs programs with gdb over `rv gdb`, and compares what gdb says: tests/gdb/NAME.gdb.

The head of a session has `# KEY: VALUE`: `rv`, the words of `rv gdb` (prog.s, or prog where it is made); `build`, the
sources of which `rv build -g` makes it; `link`, those of which `rv as -g` and `rv ld -g` make it; `gcc`, more words for
GCC, which then links start.s and prog.c; `objects`, more words for GCC, which then makes an object of prog.c, that
`rv ld -g` links behind that of start.s; `compiled`, more words for GCC, which first makes prog.s of prog.c, with debug
information as data; `located`, the same, with lines as `.loc`; `archived`, more words for GCC, which first makes the
archive prog.a of library.c; `file NAME`, all of a file when the session is over, with the escapes of C. A line
`#--- NAME` begins a file. Behind `#--- session` a command stands as `(gdb) COMMAND`, and below it what gdb says, blank
lines at its ends aside; a line `...` is any lines.
Expected values come from the source of the program, and the words around them from gdb.

Without gdb-multiarch nothing is tested. `tests/gdb.py NAME ..` runs the sessions whose names begin so. Standard library
alone; the last line is 'N passed, M failed'.
"""

import re
import shutil
import subprocess
import sys
import tempfile
from pathlib import Path

TESTS = Path(__file__).resolve().parent
RV = TESTS.parent / "rv"
GDB = "gdb-multiarch"
GCC = "riscv64-unknown-elf-gcc"
LINKED = "-g -mabi=lp64 -nostdlib -nostartfiles -Wl,-Ttext=0x10000,--no-warn-rwx-segments"
AS_DATA = "-g -mabi=lp64 -gno-as-loc-support -fno-dwarf2-cfi-asm"
MARK = "<<<next>>>"


def parts_of(text):
    """The head, the files by their names, and the session as pairs of a command and lines."""
    head, *files = re.split(r"(?m)^#--- (.+)\n", text)
    keys = re.findall(r"(?m)^# ([a-z ./]+): (.*)$", head)
    texts = dict(zip(files[::2], files[1::2], strict=True))
    rows = re.split(r"(?m)^\(gdb\) (.*)\n", texts.pop("session"))[1:]
    return keys, texts, list(zip(rows[::2], rows[1::2], strict=True))


def lines_of(text):
    """The lines without the blank ones at the ends."""
    return [line.rstrip() for line in text.strip("\n").split("\n")]


def is_said(came, wanted):
    """Whether the lines are these, of which `...` are any."""
    pattern = "".join(r"(?:.*\n)*" if line == "..." else re.escape(line) + r"\n" for line in wanted)
    return re.fullmatch(pattern, "".join(line + "\n" for line in came)) is not None


def debug(folder, words, commands):
    """What gdb says to each command."""
    # (on a machine that does other work as well, two seconds for an answer are not enough)
    first = ["set pagination off", "set confirm off", "set remotetimeout 60", f"target remote | {RV} gdb {words}"]
    if (folder / "prog").exists():
        first.insert(0, "file prog")
    given = [*first, *(word for command in commands for word in (f"echo \\n{MARK}\\n", command))]
    ran = subprocess.run(
        [GDB, "-nx", "-q", "-batch", *(word for command in given for word in ("-ex", command))],
        cwd=folder,
        stdin=subprocess.DEVNULL,
        stdout=subprocess.PIPE,
        stderr=subprocess.STDOUT,
        text=True,
        timeout=120,
    )
    return ran.stdout.split(f"\n{MARK}\n")[1:]


def link(folder, sources):
    """Assembles sources and links their objects."""
    objects = [it.replace(".s", ".o") for it in sources]
    for made, source in zip(objects, sources):
        subprocess.run([RV, "as", "-g", "-o", made, source], cwd=folder, check=True, timeout=60)
    subprocess.run([RV, "ld", "-g", "-o", "prog", *objects], cwd=folder, check=True, timeout=60)


def link_object(folder, words):
    """Links an object of rv and one of GCC."""
    subprocess.run([RV, "as", "-g", "-o", "start.o", "start.s"], cwd=folder, check=True, timeout=60)
    subprocess.run(f"{GCC} -g -mabi=lp64 {words} -c -o prog.o prog.c".split(), cwd=folder, check=True, timeout=60)
    subprocess.run([RV, "ld", "-g", "-o", "prog", "start.o", "prog.o"], cwd=folder, check=True, timeout=60)


def archive(folder, words):
    """Makes an archive of an object of GCC."""
    subprocess.run(f"{GCC} -g -mabi=lp64 {words} -c -o library.o library.c".split(), cwd=folder, check=True, timeout=60)
    subprocess.run([GCC.replace("gcc", "ar"), "rcs", "prog.a", "library.o"], cwd=folder, check=True, timeout=60)


def faults(path):
    """What is wrong in a session; None where a tool is missing."""
    keys, files, session = parts_of(path.read_text())
    values = dict(keys)
    with tempfile.TemporaryDirectory() as name:
        folder = Path(name)
        for file, text in files.items():
            (folder / file).write_text(text)
        if {"gcc", "objects", "compiled", "located", "archived"} & {*values} and not shutil.which(GCC):
            return None
        if "compiled" in values:
            words = f"{GCC} {AS_DATA} {values['compiled']} -S -o prog.s prog.c"
            subprocess.run(words.split(), cwd=folder, check=True, timeout=60)
        if "located" in values:
            words = f"{GCC} -g -mabi=lp64 {values['located']} -S -o prog.s prog.c"
            subprocess.run(words.split(), cwd=folder, check=True, timeout=60)
        if "archived" in values:
            archive(folder, values["archived"])
        if "objects" in values:
            link_object(folder, values["objects"])
        if "gcc" in values:
            words = f"{GCC} {LINKED} {values['gcc']} -o prog start.s prog.c"
            subprocess.run(words.split(), cwd=folder, check=True, timeout=60)
        if "build" in values:
            subprocess.run([RV, *f"build -g -o prog {values['build']}".split()], cwd=folder, check=True, timeout=60)
        if "link" in values:
            link(folder, values["link"].split())
        words = values.get("rv", "prog" if (folder / "prog").exists() else "prog.s")
        said = debug(folder, words, [command for command, _ in session])
        said += [""] * (len(session) - len(said))
        wrong = [
            f"(gdb) {command}\n{came.strip()}"
            for (command, wanted), came in zip(session, said, strict=True)
            if not is_said(lines_of(came), lines_of(wanted))
        ]
        for key, wanted in keys:
            if key.startswith("file "):
                came = (folder / key[5:]).read_bytes()
                if came != wanted.encode().decode("unicode_escape").encode("latin1"):
                    wrong.append(f"{key}: {came}")
        return wrong


def main():
    if not shutil.which(GDB):
        print(f"no {GDB}: nothing tested")
        print("0 passed, 0 failed")
        return 0
    begins = tuple(sys.argv[1:]) or ("",)
    passed = failed = 0
    for path in sorted((TESTS / "gdb").glob("*.gdb")):
        if not path.name.startswith(begins):
            continue
        wrong = faults(path)
        if wrong is None:
            print(f"{path.name}: no {GCC}")
            continue
        passed += not wrong
        failed += bool(wrong)
        for row in wrong:
            print(f"{path.name}: {row}")
    print(f"{passed} passed, {failed} failed")
    return int(failed > 0)


sys.exit(main())
