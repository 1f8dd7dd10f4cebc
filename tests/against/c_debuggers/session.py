"""What gdb is asked about a program of C, of which it knows the executable and each source: gdb runs this file.

`WORDS` of the environment are the program that speaks GDB's remote protocol, with its words; `SOURCES` the names of the
sources, in the working directory. Each question is a line that begins with MARK, and below it stands what gdb says;
the last one is END.
"""

import os
import re
from pathlib import Path

import gdb

MARK, END = "<<< ", "the end"
# The most instructions of the program, which none reaches, as `next` would not end there; the most stops in functions
# and at lines, and about how many lines have one.
LIMIT, FUNCTIONS, LINES, POINTS = 1_000_000, 25, 12, 120
# A function and a variable, with the line that declares it: GNU as has none for those of assembly, and rv not these.
FUNCTION, VARIABLE = r"\d+:\t.*?(\w+)\(", r"\d+:\t.*?(\w+)\)?(?:\[\d*\])*(?:\(.*\))?;$"
AT_STOP = ("backtrace 12", "info args", "info locals")


def ask(command):
    """Puts a question, with what gdb answers; whether it has an answer."""
    print(MARK + command)
    try:
        gdb.execute(command)
    except gdb.error as why:
        print(f"error: {why}")
        return False
    return True


def names(kind, form):
    """The functions or variables of the units of C with their sources, by the line in which gdb shows them."""
    source = ""
    for line in gdb.execute(f"info {kind} -n", to_string=True).splitlines():
        if found := re.match(r"File (.+):$", line):
            source = found[1]
        elif found := re.match(form, line):
            yield source, found[1]


def places():
    """Each line of the sources."""
    for name in os.environ["SOURCES"].split():
        for number in range(1, len(Path(name).read_text().splitlines()) + 1):
            yield f"{name}:{number}"


def points():
    """Some of these lines, as far apart as another; all of a short program."""
    found = list(places())
    return found[:: len(found) // POINTS + 1]


def is_alive():
    """Whether the program has a state."""
    return gdb.selected_thread() is not None


def ask_of_names(functions):
    """What needs no run: types, addresses, scopes and lines."""
    for source, function in functions:
        ask(f"ptype '{source}'::{function}")
        for question in ("info scope", "info line", "break"):
            ask(f"{question} {source}:{function}")
    for source, variable in names("variables", VARIABLE):
        for question in ("ptype ", "whatis ", "print ", "print &"):
            ask(f"{question}'{source}'::{variable}")
    ask("info types")
    for place in places():
        ask(f"info line {place}")
    for place in points():
        ask(f"break {place}")
    gdb.execute("delete")


def ask_of_functions(functions):
    """Stops once in each function, and goes on to its end."""
    for source, function in functions:
        ask(f"tbreak {source}:{function}")
    for _ in range(FUNCTIONS):
        if not ask("continue") or not is_alive():
            break
        for question in (*AT_STOP, "info frame", "up", "info locals", "down", "finish", *AT_STOP):
            ask(question)


def ask_of_lines():
    """Stops at some lines, and goes on by lines."""
    gdb.execute("delete")
    for place in points():
        ask(f"tbreak {place}")
    for _ in range(LINES):
        if not ask("continue") or not is_alive():
            break
        for question in (*AT_STOP, "next", "info locals", "step", "info locals", "reverse-step", "info locals"):
            ask(question)


def main():
    for words in (
        "pagination off",
        "confirm off",
        "width 0",
        "remotetimeout 60",
        "breakpoint pending off",
        "breakpoint always-inserted on",
    ):
        gdb.execute(f"set {words}")
    functions = list(names("functions", FUNCTION))
    ask_of_names(functions)
    remote = f"target remote | {os.environ['WORDS']}"
    ask(remote)
    ask(f"monitor limit {LIMIT}")
    ask_of_functions(functions)
    if is_alive():
        gdb.execute("disconnect")
    ask(remote)
    ask(f"monitor limit {LIMIT}")
    ask_of_lines()
    print(f"{MARK}{END}")


main()
