#!/usr/bin/env python3
"""The words of the language, for an editor: mnemonics and directives with their operands, registers, and what the
faults and ends are. All of it is read from the tables of the code and from the lists of the manual.

usage: language.py    (prints it as JSON)
"""

import json
import re
from pathlib import Path

ROOT = Path(__file__).resolve().parent.parent
WORDS = ROOT / "crates/rv_parse_words/src/words.rt"
FORMS = ROOT / "crates/rv_fault_texts/src/forms.rt"
REGISTERS = ROOT / "crates/rv_isa/src/register.rt"
ENTRIES = ROOT / "crates/rv_fault_texts/src/table.rt"
MANUAL = ROOT / "docs/manual/source.md"
CODE = re.compile(r"`([^`]+)`")
# Sorts whose mnemonics have forms of their own.
MANY_FORMS = {"Jalr", "Jump", "Fence", "Parcel"}


def table(text, name):
    """The rows of a table of words.rt: a word, and the sort of what it stands for."""
    rows = re.search(rf"const {name}: [^=]*= \[(.*?)\n?\];", text, re.S)[1]
    return re.findall(r'\(\s*"([^"]+)",\s*(?:\w+::)?(\w+)', rows)


def mnemonics(text):
    """All mnemonics with their sorts; an atomic is an operation with an ending."""
    plain = [it for name in re.findall(r"const (OF_\w+):", text) for it in table(text, name)]
    fronts = [("lr", "LoadReserved"), *((front, "Atomic") for front, _ in table(text, "ATOMICS"))]
    return plain + [(front + end, sort) for front, sort in fronts for end, _ in table(text, "FORMS")]


def forms(text):
    """The operands of each sort of mnemonic that has one form."""
    arms = re.findall(r'((?:Mnemonic::\w+(?:\([_.]+\))?(?: \| )?)+) => "([^"]+)"', text)
    return {sort: operands for sorts, operands in arms for sort in re.findall(r"::(\w+)", sorts)}


def shown(page, known):
    """The operands of the other mnemonics, as the lists of the manual show them: names, a colon, operands; where `;`
    divides the names, it divides the operands too. Or they stand behind the name."""
    found = {}
    for line in re.findall(r"^- (`.*)$", page, re.M):
        head, _, rest = re.sub(r"; of x8 to x15|, of x8 to x15:", lambda it: it[0][-1], line).partition(": ")
        groups, operands = head.split(";"), CODE.findall(rest)
        for group, its in zip(groups, operands if len(operands) == len(groups) > 1 else operands[:1] * len(groups)):
            for names in CODE.findall(group):
                first, _, own = names.partition(" ")
                is_alone = own and own.split()[0] not in known
                for name in [first] if is_alone else names.split():
                    found.setdefault(name, (own if is_alone else its).lower())
    return found


def directives(text, page):
    """Each directive with its operands, which the manual has behind it, behind another of its sort, or behind the one
    before it in a list."""
    sorts, behind = dict(re.findall(r'\("(\.[^"]+)", DirectiveWord::(\w+)', text)), {}
    lists = re.findall(r"^- (`\..*?)(?:: |$)", page, re.M)
    for line, is_list in [(page, False), *((it, True) for it in lists)]:
        last = ""
        for name, _, operands in (it.partition(" ") for it in CODE.findall(line)):
            last = operands or (last if is_list else "")
            if last and sorts.get(name, "Ignored") not in ("Ignored", "Enters"):
                behind.setdefault(sorts[name], last)
    return {name: behind.get(sort, "") for name, sort in sorted(sorts.items())}


def entries(text):
    """What the program explains of each code and each end: cause, example and cure."""
    body = re.search(r'TABLE: &str = "(.*?)";', text, re.S)[1].replace('\\"', '"').replace("\\\\", "\\")
    found = {}
    for entry in re.split(r"\n\n(?=[A-Z]\w* ?\w*\nCause:)", body):
        title, _, rest = entry.partition("\n")
        parts = re.fullmatch(r"Cause: (.*?)\n(?:Example:\n(.*?)\n)?Cure: (.*)", rest.strip(), re.S)
        if parts:
            cause, example, cure = (it or "" for it in parts.groups())
            one_line = lambda it: re.sub(r"\n +", " ", it)
            told = {"title": title, "cause": one_line(cause), "example": example, "cure": one_line(cure)}
            found[title.split()[0]] = told
    return found


def language():
    words, page = WORDS.read_text(), MANUAL.read_text()
    known, by_sort = dict(mnemonics(words)), forms(FORMS.read_text())
    by_name = shown(page[page.index("## Instructions") : page.index("## Short calls")], known)
    operands = lambda name, sort: by_sort.get(sort) or (by_name.get(name, "") if sort in MANY_FORMS else "")
    return {
        "mnemonics": {name: operands(name, sort) for name, sort in sorted(known.items())},
        "directives": directives(words, page),
        "functions": [name for name, _ in table(words, "FUNCTIONS")],
        "registers": re.findall(r'=> "(\w+)",', REGISTERS.read_text()),
        "entries": entries(ENTRIES.read_text()),
    }


if __name__ == "__main__":
    print(json.dumps(language(), indent=1))
