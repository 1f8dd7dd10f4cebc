#!/usr/bin/env python3
"""Builds a program, with no proof, that notes which of its functions are entered.

usage: counted.py PROGRAM FILE

The program is that of quick.py, but each function of the repository's crates sets a byte of its own when it is entered.
Where the environment names a file by RV_ENTERED, these bytes are that file's: all runs of the program share them,
however they end. FILE.functions has a line for each byte, the function's name; the file has to have as many bytes as
there are lines, up to the next multiple of 4096.
"""

import re
import subprocess
import sys
import tempfile
from pathlib import Path

import kit
import marks
import quick

PAGE = 4096
DEFINED = re.compile(r'@("[^"]*"|[\w.$]+)\(')
# The bytes, over which a file is laid before the program begins.
BYTES = """
#include <fcntl.h>
#include <stdlib.h>
#include <sys/mman.h>
#include <unistd.h>

char rv_entered[%d] __attribute__((aligned(4096)));

__attribute__((constructor)) static void lay_file_over_bytes(void)
{
    const char *path = getenv("RV_ENTERED");
    int file = path ? open(path, O_RDWR) : -1;
    if (file < 0)
        return;
    if (mmap(rv_entered, sizeof rv_entered, PROT_READ | PROT_WRITE, MAP_SHARED | MAP_FIXED, file, 0) == MAP_FAILED)
        abort();
    close(file);
}
"""


class Counter:
    """Gives each function of the repository a byte, and has the function set it first."""

    def __init__(self):
        self.names, self.crates = [], {path.name for path in Path(kit.ROOT, "crates").iterdir()}

    def with_mark(self, head, lines):
        """A function's lines with the one that sets its byte, where the function is one of the repository's."""
        name = DEFINED.search(head)[1].strip('"')
        if name.split("::")[0] not in self.crates:
            return lines
        mark = f"  store i8 1, ptr getelementptr inbounds (i8, ptr @rv_entered, i64 {len(self.names)}), align 1"
        self.names.append(name)
        has_label = bool(lines) and quick.label_of(lines[0]) is not None
        return [*lines[:has_label], mark, *lines[has_label:]]


def bytes_object(room, count):
    """The object of so many bytes, up to the next multiple of a page."""
    source = Path(room, "entered.c")
    source.write_text(BYTES % (-(-count // PAGE) * PAGE))
    subprocess.run(["cc", "-O1", "-c", "-o", "entered.o", source], cwd=room, check=True)
    return "entered.o"


def main(program, file):
    counter = Counter()
    with tempfile.TemporaryDirectory(prefix="counted-") as room:
        with quick.step("1 of 3  reads all sources and lowers them", 140):
            module = kit.lowered(program, room)
        with quick.step("2 of 3  takes out what serves trying alone", 25):
            quick.turned(module, f"{room}/turned.ll", counter.with_mark)
            with open(f"{room}/turned.ll", "a", encoding="latin-1") as out:
                out.write("@rv_entered = external global i8\n")
        with quick.step("3 of 3  optimizes the whole, compiles and links", 170):
            built = kit.linked("turned.ll", room, [bytes_object(room, len(counter.names))])
        marks.mark(built, file, marks.UNPROVED)
    Path(f"{file}.functions").write_text("\n".join(counter.names) + "\n", encoding="latin-1")
    print(f"{file}: NOT PROVED, {len(counter.names)} functions", flush=True)


if __name__ == "__main__":
    main(*sys.argv[1:])
