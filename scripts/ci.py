#!/usr/bin/env python3
"""The kit's own `rt ci`, at its full strength, where a repository has many crates.

usage: ci.py
       ci.py must-fail [CRATE ..]    (the edits alone, as `rt must-fail`)

`rt ci` asks before and after each crate for its stamp, a sum of its files and of the stamps below it, and makes it
anew for each way that leads down to a crate: of these there are 800,000 below the program, which takes an hour of one
processor. Here each stamp is made once (kit.py). It also plans on nearly twice the memory that these crates take, so
that half the processors would be idle: here it gets as many lanes as there are processors and 5 GB of memory for
each, unless RT_JOBS says how many. It tries edits by the functions that they change (edits.py), and builds the static
library that it has proved (library.py). With a kit that kit.py does not know it is `rt ci` as it stands.

A proof on a full disk ends with `it has no checked file in this check`, so there has to be room before the first.
"""

import os
import shutil
import subprocess
import sys
import tempfile

import edits
import kit
import library

EACH = 5_000_000_000
# What proofs of all crates write.
ROOM = 12_000_000_000


def lanes():
    """How many crates to prove at once."""
    memory = os.sysconf("SC_PAGE_SIZE") * os.sysconf("SC_PHYS_PAGES")
    return max(min(len(os.sched_getaffinity(0)), memory // EACH), 1)


def stop_without_room():
    """Ends the run where the disk has no room for all proofs."""
    for folder in (os.getcwd(), tempfile.gettempdir()):
        free = shutil.disk_usage(folder).free
        if free < ROOM:
            sys.exit(f"{folder}: {free // 10**9} GB are free, and the proofs of all crates need {ROOM // 10**9}")


def change(rt):
    """Changes the kit's module, here alone."""
    edits.try_together(rt)
    library.build_in_gate(rt)


if __name__ == "__main__":
    os.environ.setdefault("RT_JOBS", str(lanes()))
    words = sys.argv[1:] or ["ci"]
    if words == ["ci"]:
        stop_without_room()
    is_known = kit.version() in kit.KNOWN
    sys.exit(kit.run(words, change) if is_known else subprocess.run(["rt", *words]).returncode)
