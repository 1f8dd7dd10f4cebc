#!/usr/bin/env python3
"""./rv says what it is, and what makes it stops with a plain word on a toolchain that it does not know.

Nothing is built. Standard library alone; the last line is 'N passed, M failed'.
"""

import os
import re
import subprocess
import sys
import tempfile
from pathlib import Path

TOP = Path(__file__).resolve().parent.parent
SAYS = re.compile(r"rv \d+\.\d+\.\d+ \((all|not) proved, commit ([0-9a-f]{11}[0-9a-f+]|not recorded)\)\n")
PLACE = b"(not marked, commit not recorded)"
MAKERS = (
    ["scripts/build.py", "rv_cli"],
    ["scripts/quick.py", "rv_cli", "made"],
    ["scripts/library.py", "made"],
    ["scripts/library.py", "--quick", "made"],
)


def output(words, folder, path=os.environ["PATH"]):
    """The status of a command in a folder, and all that it writes."""
    how = {"stdout": subprocess.PIPE, "stderr": subprocess.STDOUT, "text": True, "timeout": 60}
    process = subprocess.run(words, cwd=folder, env={**os.environ, "PATH": path}, **how)
    return process.returncode, process.stdout


def version(folder):
    """Whether ./rv says whether it is proved, and its commit."""
    status, message = output([TOP / "rv", "--version"], folder)
    yield "rv --version", status == 0 and SAYS.fullmatch(message), message


def makers(folder):
    """What makes a program, with another toolchain on the PATH and with none."""
    rt = folder / "rt"
    rt.write_text("#!/bin/sh\necho another-kit\n")
    rt.chmod(0o755)
    for script, *words in MAKERS:
        name, words = " ".join([script, *words]), [sys.executable, TOP / script, *words]
        status, message = output(words, folder, f"{folder}:{os.environ['PATH']}")
        yield f"{name}, another toolchain", status == 1 and message.startswith(
            "the toolchain here is another-kit, "
        ), message
        status, message = output(words, folder, "")
        yield f"{name}, no toolchain", status == 1 and message.startswith("rt is not on the PATH: "), message
        yield f"{name} makes nothing then", not (folder / "made").exists(), ""


def marks(folder):
    """A program without one place for its mark, or that does not say the mark, is not handed on."""
    mark = [sys.executable, TOP / "scripts/marks.py", "built", "program"]
    for name, text in (
        ("no place", b""),
        ("two places", PLACE + PLACE),
        ("a place that is not said", b"exit # " + PLACE),
    ):
        (folder / "built").write_bytes(b"#!/bin/sh\n" + text + b"\n")
        status, message = output(mark, folder)
        yield f"a mark with {name}", status == 1 and not (folder / "program").exists(), message
    (folder / "built").write_bytes(b"#!/bin/sh\necho 'rv 0.0.0 " + PLACE + b"'\n")
    status, message = output(mark, folder)
    status, message = (status, message) if status else output(["./program"], folder)
    yield "a mark", status == 0 and SAYS.fullmatch(message), message


def main():
    if not (TOP / "rv").exists():
        sys.exit("no ./rv: run make first")
    passed = failed = 0
    with tempfile.TemporaryDirectory() as folder:
        for name, holds, message in (it for part in (version, makers, marks) for it in part(Path(folder))):
            passed += bool(holds)
            failed += not holds
            if not holds:
                print(f"{name}: {message.strip()}")
    print(f"{passed} passed, {failed} failed")
    return int(failed > 0)


if __name__ == "__main__":
    sys.exit(main())
