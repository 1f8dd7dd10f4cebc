#!/usr/bin/env python3
"""Does with the streams of ./rv run and ./rv batch what a person does: pipes that stay open, devices, a reader that
goes away.

It shows that a line is answered before the next one is typed, that a run ends when nobody reads on, and what each
command says of a full disk, of an input that cannot be read, and of a word that is no text. Each check is bounded in
time. Standard library alone; the last line is 'N passed, M failed'.
"""

import os
import subprocess
import sys
import tempfile
from pathlib import Path

from run import RV, SECONDS, TESTS

EXAMPLES = TESTS.parent / "examples" / "streams"
GUEST = EXAMPLES / "cat.s"


def answers_each_line():
    """Over a pipe that stays open, each line comes back before the next is sent."""
    run = subprocess.Popen([RV, "run", GUEST], stdin=subprocess.PIPE, stdout=subprocess.PIPE, bufsize=0)
    for line in [b"one\n", b"two\n", b"\n", b"three\n"]:
        run.stdin.write(line)
        if run.stdout.readline() != line:
            return "a line did not come back"
    run.stdin.close()
    if run.stdout.read() != b"":
        return "there is more than was sent"
    return None if run.wait(SECONDS) == 0 else "another status"


def ends_when_nobody_reads():
    """`yes | rv run cat.s | head -1`"""
    words = f"yes | '{RV}' run '{GUEST}' | head -1"
    process = subprocess.run(words, shell=True, capture_output=True, timeout=SECONDS)
    return None if process.stdout == b"y\n" else f"{process.stdout!r}"


def reports_a_full_disk():
    with open("/dev/full", "wb") as full:
        process = subprocess.run(
            [RV, "run", GUEST], input=b"text", stdout=full, stderr=subprocess.PIPE, timeout=SECONDS
        )
    found = (process.returncode, process.stderr)
    return None if found == (1, b"rv: X2 OutputFault\n") else f"{found!r}"


def reports_a_failing_input():
    """A folder opens, but cannot be read."""
    folder = os.open(EXAMPLES, os.O_RDONLY)
    process = subprocess.run([RV, "run", GUEST], stdin=folder, capture_output=True, timeout=SECONDS)
    os.close(folder)
    found = (process.returncode, process.stdout, process.stderr)
    return None if found == (1, b"", b"rv: X1 InputFault\n") else f"{found!r}"


# A guest that reads four bytes and writes what came, and one that writes a byte; both exit with 0.
READS = """.globl _start
_start: addi a1, sp, -4; li a2, 4; li a7, 63; ecall
mv a2, a0; li a0, 1; li a7, 64; ecall
li a0, 0; li a7, 93; ecall
"""
WRITES = """.globl _start
_start: li t0, 104; sb t0, -1(sp)
li a0, 1; addi a1, sp, -1; li a2, 1; li a7, 64; ecall
li a0, 0; li a7, 93; ecall
"""
# What is said where standard input is a folder, which opens and cannot be read: words, the source a.s, whether standard
# output is a full disk, the status, standard output and error.
FAILURES = [
    ("run -", WRITES, False, 1, "", "rv: -: cannot read\n"),
    ("run a.s", READS, False, 1, "", "rv: X1 InputFault\n"),
    # what the guest does not read cannot fail
    ("run a.s", WRITES, False, 0, "h", ""),
    ("run a.s", WRITES, True, 1, "", "rv: X2 OutputFault\n"),
    ("stats a.s", READS, False, 1, "", "rv: X1 InputFault\n"),
    ("stats a.s", WRITES, True, 1, "", "rv: X2 OutputFault\n"),
    ("run --report a.s", READS, False, 1, "", "rv: X1 InputFault\n"),
    ("map a.s", WRITES, True, 1, "", "rv: -: cannot write\n"),
    ("dump a.s", WRITES, True, 1, "", "rv: -: cannot write\n"),
    ("--help", WRITES, True, 1, "", "rv: -: cannot write\n"),
]


def of_source(words, source, **streams):
    """The status of a call beside the source a.s, and what it wrote."""
    with tempfile.TemporaryDirectory() as folder:
        Path(folder, "a.s").write_text(source)
        process = subprocess.run([RV, *words], cwd=folder, timeout=SECONDS, stderr=subprocess.PIPE, **streams)
    return process.returncode, (process.stdout or b"").decode(), process.stderr.decode()


def reports_each_failure():
    folder, full = os.open(EXAMPLES, os.O_RDONLY), os.open("/dev/full", os.O_WRONLY)
    for words, source, is_full, *wanted in FAILURES:
        came = of_source(words.split(), source, stdin=folder, stdout=full if is_full else subprocess.PIPE)
        if came != (*wanted,):
            return f"{words}: {came!r}"
    return None


def tells_no_trace_to_a_full_disk():
    """A trace goes to standard error, so that only the status tells of it."""
    with tempfile.TemporaryDirectory() as folder, open("/dev/full", "wb") as full:
        Path(folder, "a.s").write_text(WRITES)
        process = subprocess.run([RV, "trace", "a.s"], cwd=folder, timeout=SECONDS, stdout=subprocess.PIPE, stderr=full)
    return None if process.returncode == 1 else f"status {process.returncode}"


def is_quiet_when_nobody_reads():
    """What was asked for goes nowhere, and nothing is said of it."""
    for words in (["map", "a.s"], ["dump", "a.s"], ["check", "a.s"], ["--help"]):
        theirs, ours = os.pipe()
        os.close(theirs)
        came = of_source(words, WRITES, stdin=subprocess.DEVNULL, stdout=ours, restore_signals=False)
        os.close(ours)
        if came != (1, "", ""):
            return f"{words}: {came!r}"
    return None


def refuses_a_word_that_is_no_text():
    came = of_source([b"run", b"\xff"], WRITES, stdout=subprocess.PIPE)
    return None if came == (2, "", "rv: a word of the command line is not text\n") else f"{came!r}"


def leaves_what_it_did_not_read():
    """What a guest did not ask for is there for the next program."""
    words = f"'{RV}' run --limit 12 '{GUEST}'; cat"
    process = subprocess.run(words, shell=True, input=b"abc", capture_output=True, timeout=SECONDS)
    return None if process.stdout == b"abc" else f"{process.stdout!r}"


def copies_a_large_input():
    text = bytes(range(256)) * 256
    process = subprocess.run([RV, "run", GUEST], input=text, capture_output=True, timeout=SECONDS)
    return None if (process.returncode, process.stdout) == (0, text) else "it is not the input"


CALL = b'{"id": 1, "sources": []}\n'
ANSWER = b'{"error":"L7 EntryMissing","id":1,"status":1}\n'


def answers_each_call():
    """Over a pipe that stays open, each answer comes before the next call is sent, also where that comes in parts."""
    batch = subprocess.Popen([RV, "batch"], stdin=subprocess.PIPE, stdout=subprocess.PIPE, bufsize=0)
    for parts in [[CALL], [CALL[:5], CALL[5:]], [2 * CALL]]:
        for it in parts:
            batch.stdin.write(it)
        for _ in range(b"".join(parts).count(b"\n")):
            if (came := batch.stdout.readline()) != ANSWER:
                return f"{came!r}"
    batch.stdin.write(CALL.strip())
    batch.stdin.close()
    if batch.stdout.read() != ANSWER:
        return "the last line has another answer"
    return None if batch.wait(SECONDS) == 0 else "another status"


def ends_when_nobody_reads_answers():
    words = f"yes '{CALL.decode().strip()}' | '{RV}' batch | head -1"
    process = subprocess.run(words, shell=True, capture_output=True, timeout=SECONDS)
    return None if process.stdout == ANSWER else f"{process.stdout!r}"


def answers_around_a_line_too_long():
    """A line that memory does not hold has an answer of its own, and the calls beside it have theirs."""
    words = f"ulimit -v {1 << 17}; exec '{RV}' batch"
    lines = CALL + b" " * (1 << 27) + b"\n" + CALL
    process = subprocess.run(words, shell=True, input=lines, capture_output=True, timeout=SECONDS)
    found = (process.returncode, process.stdout)
    wanted = (0, ANSWER + b'{"error":"out of memory","status":1}\n' + ANSWER)
    return None if found == wanted else f"{found!r}, {process.stderr!r}"


CHECKS = [
    answers_each_line,
    ends_when_nobody_reads,
    reports_a_full_disk,
    reports_a_failing_input,
    reports_each_failure,
    tells_no_trace_to_a_full_disk,
    is_quiet_when_nobody_reads,
    refuses_a_word_that_is_no_text,
    leaves_what_it_did_not_read,
    copies_a_large_input,
    answers_each_call,
    ends_when_nobody_reads_answers,
    answers_around_a_line_too_long,
]


def main():
    failed = 0
    for check in CHECKS:
        fault = check()
        failed += fault is not None
        if fault:
            print(f"{check.__name__}: {fault}")
    print(f"{len(CHECKS) - failed} passed, {failed} failed")
    return int(failed > 0)


if __name__ == "__main__":
    sys.exit(main())
