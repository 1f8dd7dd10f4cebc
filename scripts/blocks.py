#!/usr/bin/env python3
"""Counts the blocks of code, to see which crates and functions are dear before anything is proved.

usage: blocks.py [CRATE..]
       blocks.py --test CRATE

A check goes through 3 to 10 blocks in a processor second. This lowers rv_cli, as quick.py does, or the tests of a
crate, and prints for each crate, and then for each function of the crates named that has 20 blocks or more, its blocks,
how many values it drops, and its name, those with the most first. What drops a local stands at each way out of the
function behind it, so many drops in a short function say that another one should own the value. A generic function
stands there once for each type that it is for.
"""

import re
import sys
import tempfile
from collections import Counter

import kit

PROGRAM = "rv_cli"
DEFINED = re.compile(r'@("[^"]*"|[\w.$]+)\(')
DROP = re.compile(r' call .*@"[^"]*::drop[:"]')
CRATE = re.compile(r"[<&\[]*(rv_\w+)")
LEAST = 20


def functions(module):
    """The blocks, the drops and the name of each function of a module."""
    with open(module, encoding="latin-1") as lines:
        for line in lines:
            if line.startswith("define "):
                name, blocks, drops = DEFINED.search(line)[1].strip('"'), 0, 0
            elif line.startswith("}"):
                yield blocks, drops, name
            elif line[0] not in " \n" and line.rstrip().split(";")[0].rstrip().endswith(":"):
                blocks += 1
            elif DROP.search(line):
                drops += 1


def main(*words):
    test = words[:1] == ("--test",)
    crates = words[test:]
    blocks, drops, found = Counter(), Counter(), []
    with tempfile.TemporaryDirectory(prefix="blocks-") as room:
        for count, dropped, name in functions(kit.lowered(crates[0] if test else PROGRAM, room, test=test)):
            owner = CRATE.match(name)
            if not owner:
                continue
            blocks[owner[1]] += count
            drops[owner[1]] += dropped
            if owner[1] in crates and LEAST <= count:
                found.append((count, dropped, name))
    rows = [(blocks[it], drops[it], it) for it, _ in blocks.most_common()]
    for count, dropped, name in rows + sorted(found, reverse=True):
        print(f"{count:5} {dropped:5} {name}")


if __name__ == "__main__":
    main(*sys.argv[1:])
