#!/usr/bin/env python3
"""Proves and builds a program and the libraries below it, those side by side that do not need each other.

usage: build.py PROGRAM
       build.py PROGRAM WORD ..    (in the program's folder, with all libraries built: runs it with these words)

It does what `rt run` does in the program's folder, which takes one crate after the other: each library is proved
over what earlier runs kept in its out/, and written there for the crates above. A crate that has not changed is
passed over. A line a crate tells the seconds that it took; the first that is refused ends the run, with its output.
As many checks run at once as there are processors and 3 GB of free memory for each, the longest chain first.
"""

import os
import signal
import subprocess
import sys
import time
from concurrent.futures import FIRST_COMPLETED, ThreadPoolExecutor, wait

import kit

EACH = 3_000_000_000


def lanes():
    """How many crates to work on at once."""
    with open("/proc/meminfo") as it:
        free = next(1024 * int(line.split()[1]) for line in it if line.startswith("MemAvailable"))
    return max(min(len(os.sched_getaffinity(0)), free // EACH), 1)


def stop(name, status, output):
    """Ends the run, and with it the checks of other crates, with what the checker wrote of this one."""
    print(f"{output}{name}: NOT PROVED", flush=True)
    os._exit(status if status > 0 else 1)


def build_all(crates, built, at_once):
    """Builds the libraries, lowest first, each once those below it are built."""
    length = {}
    for it in reversed(crates):
        length[it] = it.lines + max((length[up] for up in length if it in up.below), default=0)
    left, running, done = sorted(crates, key=lambda it: -length[it]), {}, {*built}
    with ThreadPoolExecutor(at_once) as pool:
        while left or running:
            ready = [it for it in left if done.issuperset(it.below)]
            for at, it in enumerate(ready):
                idle = at_once - sum(jobs for _, jobs, _ in running.values())
                if idle > 0:
                    left.remove(it)
                    # (a crate gets the processors that no other waits for)
                    jobs = max(idle // (len(ready) - at), 1)
                    running[pool.submit(it.build, jobs)] = it, jobs, time.monotonic()
            for ended in wait(running, return_when=FIRST_COMPLETED).done:
                crate, _, start = running.pop(ended)
                status, output = ended.result()
                if status:
                    stop(crate.name, status, output)
                done.add(crate)
                tell(f"{len(done) - len(built)}/{len(crates)}", crate.name, start)


def tell(count, name, start):
    print(f"{count:>7} {name:20}{time.monotonic() - start:6.0f} s", flush=True)


def build_program(program):
    """Proves, compiles and links the program over its libraries, and sees that it starts."""
    start = time.monotonic()
    how = {"cwd": f"{kit.ROOT}/crates/{program}", "stdout": subprocess.PIPE, "stderr": subprocess.STDOUT, "text": True}
    words = [sys.executable, os.path.realpath(__file__), program, "--version"]
    process = subprocess.run(words, stdin=subprocess.DEVNULL, errors="replace", **how)
    if process.returncode:
        stop(program, process.returncode, process.stdout)
    tell("program", program, start)


def main(program, *words):
    if words:
        return kit.run(["run", "--", *words])
    # (with Python's own handler, Ctrl-C would wait for the checks)
    signal.signal(signal.SIGINT, signal.SIG_DFL)
    with kit.libraries(program) as needed:
        built = [it for it in needed if it.is_built]
        crates = [it for it in needed if not it.is_built]
        at_once = lanes()
        print(f"{len(crates)} of {len(needed)} libraries to prove, up to {at_once} checks at once", flush=True)
        build_all(crates, built, at_once)
    build_program(program)
    return 0


if __name__ == "__main__":
    sys.exit(main(*sys.argv[1:]))
