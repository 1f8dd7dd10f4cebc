#!/usr/bin/env python3
"""Measures the page of `make page` in Chromium: how large it is, how soon it can be used, and how fast programs run.

usage: web.py

The time to the first interaction is that from the address to a program that can be stepped, of a browser that has
never been there: from a server on the same machine, and over a line of 10 Mbit/s with 40 ms to and fro. Both get packed
files, as servers send them. The pace is that of one thread by its processor time, once the engine has made its good
code; ./rv runs the same programs. What is printed goes to bench/out/page.json as well. It needs Chromium, page/, ./rv.
"""

import gzip
import resource
import subprocess
import sys
import tempfile
import time
from pathlib import Path

from results import Results

TOP = Path(__file__).resolve().parent.parent
sys.path.insert(0, str(TOP / "tests"))

import browser  # noqa: E402
import page  # noqa: E402

TIMES, COUNT = 5, 50_000_000
# Bytes a second, and milliseconds.
LINE = {"offline": False, "downloadThroughput": 10e6 / 8, "uploadThroughput": 10e6 / 8, "latency": 40}
# When the page could first be used, in milliseconds from the start of its opening.
FIRST = """
new MutationObserver(() => {
  if (document.documentElement?.dataset.ready === "true") {
    globalThis.firstForTests ??= performance.now();
  }
}).observe(document, { subtree: true, childList: true, attributes: true });
"""
PROGRAMS = {
    "arithmetic": """.globl _start
_start: addi a0, a0, 3
        xor  a2, a0, a1
        add  a3, a3, a2
        slli a4, a3, 1
        j    _start
""",
    "memory and calls": """.globl _start
_start: la   s0, table
        li   s1, 64
next:   lbu  a0, (s0)
        call mix
        sb   a0, (s0)
        addi s0, s0, 1
        addi s1, s1, -1
        bnez s1, next
        j    _start
mix:    addi sp, sp, -16
        sd   ra, 8(sp)
        slli a1, a0, 3
        xor  a0, a0, a1
        addi a0, a0, 7
        ld   ra, 8(sp)
        addi sp, sp, 16
        ret
.bss
table:  .zero 64
""",
}
RESULTS = Results("page")


def sizes():
    """The bytes of all files, and of the library's code, as they are and packed."""
    code = (page.PAGE / "rv.wasm").read_bytes()
    for name, held, packed in (
        ("all files", sum(it.stat().st_size for it in page.PAGE.rglob("*") if it.is_file()), page.packed()),
        ("rv.wasm of them", len(code), len(gzip.compress(code, 9))),
    ):
        print(f"{name}: {held:,} bytes, {packed:,} packed")
        RESULTS.add("page sizes", name, "page", bytes=held, packed=packed)


def first_time(address, line):
    """The seconds to the first interaction, in a browser without an earlier visit."""
    with browser.browsing() as chromium:
        tab = browser.Tab(chromium)
        tab.command("Page.addScriptToEvaluateOnNewDocument", source=FIRST)
        if line:
            tab.command("Network.emulateNetworkConditions", **line)
        tab.open(address)
        return tab.wait("() => globalThis.firstForTests", seconds=60) / 1000


def first_interaction(address):
    for name, line in (("same machine", None), ("10 Mbit/s, 40 ms", LINE)):
        seconds = sorted(first_time(address, line) for _ in range(TIMES))[TIMES // 2]
        print(f"first interaction, {name}: {seconds:.2f} s, the middle of {TIMES}")
        RESULTS.add("page start", name, "page", seconds=seconds)


def processor_seconds(tab):
    """What the page's process has taken."""
    tab.command("Performance.enable")
    return {it["name"]: it["value"] for it in tab.command("Performance.getMetrics")["metrics"]}["ProcessTime"]


def in_page(address, program):
    """Millions of instructions a second by each function that runs programs."""
    with browser.browsing() as chromium:
        person = page.Person(chromium, address)
        person.enter()
        person.look("warm", program)
        # (the engine goes on to make code for a while)
        time.sleep(3)
        for name in ("run", "state"):
            start = processor_seconds(person)
            person.look("runs", name, COUNT)
            yield f"rv_{name} in the page", COUNT / (processor_seconds(person) - start) / 1e6


def by_program(program):
    """The same of ./rv."""
    with tempfile.TemporaryDirectory() as folder:
        Path(folder, "a.s").write_text(program)
        start = resource.getrusage(resource.RUSAGE_CHILDREN).ru_utime
        subprocess.run([TOP / "rv", "run", "--limit", str(COUNT), "a.s"], cwd=folder, capture_output=True)
        return COUNT / (resource.getrusage(resource.RUSAGE_CHILDREN).ru_utime - start) / 1e6


def pace(address):
    print("Millions of instructions a second")
    for name, program in PROGRAMS.items():
        for tool, rate in [*in_page(address, program), ("rv run", by_program(program))]:
            print(f"{name:20}{tool:24}{rate:10.0f}")
            RESULTS.add("page pace", name, tool, rate=rate)


def main():
    why = page.missing() or ("" if (TOP / "rv").exists() else "there is no ./rv")
    if why:
        sys.exit(f"{why}: the page is not measured")
    RESULTS.begin(TOP / "rv")
    sizes()
    with browser.served(page.PAGE) as address:
        first_interaction(address)
        pace(address)


if __name__ == "__main__":
    main()
