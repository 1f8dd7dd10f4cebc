#!/usr/bin/env python3
"""Writes the man page of rv to standard output, from what ./rv says of itself: manual_page.py [RV]

Each part is the help of a word, which the program makes from its table of words. Standard library alone.
"""

import re
import subprocess
import sys
from pathlib import Path

ROOT = Path(__file__).resolve().parent.parent


def help_of(rv, *words):
    return subprocess.run([rv, *words, "--help"], capture_output=True, text=True, check=True).stdout


def parts(text):
    """The paragraphs of a help by their headings; the first has none."""
    found = re.split(r"(?m)^(Usage|Commands|Arguments|Options|Examples?):[ \n]?", text)
    return found[0].strip(), dict(zip(found[1::2], (it.rstrip("\n") for it in found[2::2])))


def escaped(text):
    """A text as roff shows it, with no line that begins with a request."""
    text = text.replace("\\", "\\e").replace("-", "\\-")
    return re.sub(r"(?m)^([.'])", r"\\&\1", text)


def rows(text):
    """The lines of a list as items: what they name, and what is said of it."""
    for line in text.splitlines():
        if found := re.match(r"  +(-\S.*?|\S+?)(?:  +(\S.*))?$", line):
            name, said = found.groups()
            yield f".TP\n.B {escaped(name.strip())}\n{escaped(said or '')}"


def as_it_is(text):
    return f".nf\n{escaped(text)}\n.fi"


def word_part(rv, word):
    about, named = parts(help_of(rv, word))
    yield f".SS {escaped(named['Usage'].strip())}\n{escaped(about)}"
    for heading in ("Arguments", "Options"):
        yield from rows(named.get(heading, ""))
    for heading in ("Example", "Examples"):
        if heading in named:
            yield f".PP\n{as_it_is(named[heading])}"


def page(rv):
    about, named = parts(help_of(rv))
    words = re.findall(r"(?m)^  (\w+)  ", named["Commands"])
    examples, _, rest = named["Examples"].partition("\n\n")
    yield ".TH RV 1"
    yield f".SH NAME\nrv \\- {escaped(about[0].lower() + about[1:].rstrip('.'))}"
    yield f".SH SYNOPSIS\n{escaped(named['Usage'].strip())}"
    yield f".SH DESCRIPTION\n{escaped(about)}\n.PP\n{escaped(rest)}"
    yield ".SH COMMANDS"
    for word in words:
        if word != "help":
            yield from word_part(rv, word)
    yield ".SH OPTIONS"
    yield from rows(named["Options"])
    yield f".SH EXAMPLES\n{as_it_is(examples)}"


if __name__ == "__main__":
    print("\n".join(page(sys.argv[1] if len(sys.argv) > 1 else ROOT / "rv")))
