#!/usr/bin/env python3
"""Lists the functions of rv that no case of tests/ reaches: make reached.

usage: reached.py PROGRAM      (one that scripts/counted.py made)

The scripts of `make check` and `make refused` run over the program, in a copy of the folders that they read. Two lists
come out: functions that are part of the program and were never entered, and functions of the sources, below the
program, that no part of the program calls. A function counts as entered if it was with any types. The last line is
'N passed, M failed', where a function fails that was never entered.
"""

import os
import re
import shutil
import subprocess
import sys
import tempfile
from pathlib import Path

ROOT = Path(__file__).resolve().parent.parent
FOLDERS = ("tests", "docs", "examples", "scripts", "bench")
FILES = ("README.md", "CONTRIBUTING.md", "crates.txt", "HANDLES", "Makefile")
SCRIPTS = "run agreeing collected debugged damaged explained documents shells terminal streams editors".split()
SCRIPTS += "gdb making refused".split()
PAGE = 4096
# What only `expansion` of the library calls, of which crates/rv_library_tests has the cases.
OF_LIBRARY = {
    "rv_pseudo::fault::takes_number_beside",
    "rv_pseudo::parcel::with_number",
    "rv_pseudo::parcel::without_number",
}
# A function of a source that is code, and not part of a contract.
FUNCTION = re.compile(r'(?m)^ *(?:pub(?:\([^)]*\))? |unsafe |default |const |extern "C" |safe )*fn (\w+)')


def copy_of_folders(program, at):
    """Copies what the scripts read, with the program as ./rv; no call of the library is counted, so it is empty."""
    for name in FOLDERS:
        shutil.copytree(ROOT / name, at / name, ignore=shutil.ignore_patterns("out", "__pycache__"))
    for name in FILES:
        shutil.copy(ROOT / name, at / name)
    (at / "crates").symlink_to(ROOT / "crates")
    shutil.copy(program, at / "rv")
    (at / "rv_refusal_tests").write_text("#!/bin/sh\n")
    (at / "rv_refusal_tests").chmod(0o755)


def entered(program, names):
    """The names of the functions that are entered while the scripts run; what fails there is shown alone."""
    with tempfile.TemporaryDirectory() as name:
        at = Path(name)
        copy_of_folders(program, at)
        shared = at / "entered"
        shared.write_bytes(bytes(-(-len(names) // PAGE) * PAGE))
        for script in SCRIPTS:
            words = [sys.executable, f"tests/{script}.py"]
            process = subprocess.run(
                words, cwd=at, env={**os.environ, "RV_ENTERED": str(shared)}, stdout=subprocess.PIPE
            )
            lines = process.stdout.decode(errors="replace").splitlines()
            print(f"{script}: {lines[-1] if lines else process.returncode}", flush=True)
        return {function for function, byte in zip(names, shared.read_bytes()) if byte}


def written(names):
    """The functions that stand in sources of code, without the types that they are for.

    The compiler makes others, which give memory back, and those of a crate of laws do nothing.
    """
    found = {name.split("::<")[0] for name in names}
    return {name for name in found if "++" not in name and not name.split("::")[0].endswith("_laws")}


def place(name):
    """The source file of a function, and its name there."""
    crate, *parts = name.split("::")
    source = ROOT / "crates" / crate / "src"
    for count in range(len(parts) - 1, 0, -1):
        file = source.joinpath(*parts[:count]).with_suffix(".rt")
        if file.exists():
            return str(file.relative_to(ROOT)), "::".join(parts[count:])
    return str(source.relative_to(ROOT)), "::".join(parts)


def crates_below(program):
    """The crates of code that a program is made of, by crates.txt."""
    lines = (line.partition(":") for line in (ROOT / "crates.txt").read_text().splitlines() if not line.startswith("#"))
    uses = {crate: names.split() for crate, _, names in lines}
    found, left = set(), [program]
    while left:
        crate = left.pop()
        if crate in uses and crate not in found:
            found.add(crate)
            left += uses[crate]
    return sorted(crate for crate in found if not crate.endswith("_laws"))


def functions(text):
    """The names of the functions of a source, but for those that a trait asks for."""
    for part in re.split(r"(?m)^(?=\S)", text):
        if not re.match(r"(?:pub )?(?:unsafe )?trait ", part):
            yield from FUNCTION.findall(part)


def outside(program, names):
    """The functions of sources of which the program has none of that name; laws are there to be proved alone."""
    inside = {(name.split("::")[0], name.split("::")[-1]) for name in names}
    for crate in crates_below(program):
        for path in sorted((ROOT / "crates" / crate / "src").rglob("*.rt")):
            for function in functions(path.read_text(encoding="utf-8")) if path.stem not in ("law", "laws") else ():
                if (crate, function) not in inside:
                    yield str(path.relative_to(ROOT)), function


def show(title, places):
    """Prints functions below a title, by their files."""
    print(f"{title}: {len(places)}")
    for file, function in sorted(set(places)):
        print(f"  {file}: {function}")


def main():
    if len(sys.argv) != 2:
        sys.exit(__doc__)
    program = Path(sys.argv[1]).resolve()
    names = Path(f"{program}.functions").read_text(encoding="latin-1").splitlines()
    reached, every = written(entered(program, names)), written(names) - OF_LIBRARY
    show("functions of sources that the program has not", [*outside("rv_cli", every)])
    show("functions of the program that no case reaches", [place(name) for name in every - reached])
    print(f"{len(reached)} passed, {len(every - reached)} failed")
    return int(reached != every)


if __name__ == "__main__":
    sys.exit(main())
