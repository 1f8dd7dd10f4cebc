#!/usr/bin/env python3
"""The definitions with which whoever relies on docs/PROVED.md has to agree: make definitions.

A claim of that page names functions and definitions in backticks and links their files. From the contracts of these
functions (where the claim names clauses, from these) this follows every word to the definition or type that it names.

    scripts/trusted.py           prints what it reaches in reading order, a definition after those that it uses, each
                                 with the section of its standard and the claims that rest on it
    scripts/trusted.py --page    prints the list of its files: docs/DEFINITIONS.md
    scripts/trusted.py --check   tests that the page is that list and that every numbered claim leads to something;
                                 the last line is 'N passed, M failed'
"""

import re
import sys
from collections import defaultdict
from functools import cache
from pathlib import Path

TOP = Path(__file__).resolve().parent.parent
CRATES, PAGE = TOP / "crates", TOP / "docs/DEFINITIONS.md"
ORDER = re.findall(r"^(\w+)(?: staticlib)?:", (TOP / "crates.txt").read_text(encoding="utf-8"), re.M)
WORD = r"[A-Za-z_][\w'-]*"
USE = re.compile(r"^\s*(?:(?:unfoldable|pub|ghost) )*use (Rattle[\w.]+?)(?:\.\{([^}]*)\})?(?: as (\w+))?;?$", re.M)
RUST_USE = re.compile(r"^(?:pub(?:\(crate\))? )?use (\w+)::(?:\w+::)*(?:\{([^}]*)\}|(\w+))(?: as (\w+))?;", re.M)
NO_HEAD = re.compile(r"(?:unfoldable )?(?:pub )?(?:use|mod|infix\w?|unfolding)\b|[})\]\s]|$")
HEAD = re.compile(rf"(?:(?:abbrev|unfoldable|pub|data|record) )*({WORD}|\S*◌\S*)")
TYPE = re.compile(r"(?:pub(?:\(crate\))? )?(struct|enum|trait|const|type) (\w+)")
FUNCTION = re.compile(r"( *)(?:pub(?:\(crate\))? )?(?:const )?fn (\w+)")
CLAUSE = re.compile(rf"\s*(?:requires|ensures ({WORD} )?)")
CITED = re.compile(r"(?:\(|: (?=RISC-V|System V))((?:[^()]|\([^()]*\))*?)(?:\)|\.(?= |$))")
NAMES = r"gABI=gABI ar=V,?..ar\b|GNU.ar\b psABI=psABI ISA=\bISA\b APM=Programmer's as=GNU.as ld=GNU.ld DWARF=DWARF"
STANDARDS = dict(pair.split("=") for pair in f"{NAMES} Intel=Intel, Motorola=Motorola, IEEE=IEEE ECMA=ECMA".split())
SAFETY = 0
HOME, TYPES, FUNCTIONS, MODULES = {}, defaultdict(list), defaultdict(list), {}
INTRODUCTION = """# Definitions

Whoever relies on [PROVED](PROVED.md) has to agree with the definitions in these files, which are in reading order with
their standards. A file without one joins others, or has [this project's rules](manual/README.md). `make definitions`
prints each definition with its sections of standards and the claims that rest on it. A type of the code, such as an
enum, is under `specs.declared`. `scripts/trusted.py` makes this page.

Standards: RISC-V Unprivileged ISA 20191213, RISC-V ELF psABI, Assembly Programmer's Manual (APM), System V gABI,
GNU as, GNU ar (System V "ar"), GNU ld, DWARF 5.
"""


class Part:
    """A definition with its comment, or a type of the code."""

    def __init__(self, file, text):
        self.file, self.text, self.claims = file, text, []

    @cache
    def uses(self):
        """The parts that its words name."""
        return used(self.file, re.sub(r"(?:--|//).*", "", self.text)) - {self}

    def standard(self):
        """The sections of standards that its comment names, else those of its file."""
        return cited(" ".join(re.findall(r"(?:--|//) ?(.*)", self.text))) or cited(self.file.head) or "no standard"


class File:
    """A file of definitions or of code: where its words come from, and its parts."""

    def __init__(self, path):
        self.path, self.text = path, path.read_text(encoding="utf-8")
        self.crate, self.folder, *_ = path.relative_to(CRATES).parts
        self.module = "Rattle." + ".".join(path.relative_to(CRATES).with_suffix("").parts)
        MODULES[self.module] = self
        self.names, self.aliases, self.types = {}, {}, {}
        for module, names, alias in USE.findall(self.text):
            self.names.update((here, (module, there)) for there, here in listed(names))
            self.aliases.update({} if names else {alias or module.rpartition(".")[2]: module})
        for crate, names, name, alias in RUST_USE.findall(self.text):
            crate = self.crate if crate == "crate" else crate
            self.types.update((alias or here, (crate, there)) for there, here in listed(names or name))
        comment = re.match(r"(?:(?:--|//!).*\n)*", self.text)[0]
        self.head = " ".join(re.sub(r"^(?:--|//!)", "", comment, flags=re.M).split())
        (self.read_definitions if self.folder == "specs" else self.read_code)()

    def read_definitions(self):
        """Its paragraphs, each by every name that it defines, with those of a type's cases."""
        for paragraph in re.split(r"\n{2,}", self.text):
            lines = re.sub(r"--.*", "", paragraph).splitlines()
            names = [found[1] for line in lines if not NO_HEAD.match(line) and (found := HEAD.match(line))]
            part = next((HOME[self.module, name] for name in names if (self.module, name) in HOME), Part(self, ""))
            part.text = (part.text + "\n\n" + paragraph).strip("\n")
            is_type = any(re.match("(?:pub )?data ", line) for line in lines)
            cases = [found[1] for line in lines if is_type and (found := re.match(rf" +((?:{WORD} )+):", line))]
            for name in [*names, *" ".join(cases).split()]:
                HOME.setdefault((self.module, name), part)

    def read_code(self):
        """Its types, its constants and its contracts."""
        owner, comment, lines = "", [], self.text.splitlines()
        module = self.module.replace(".src.", ".specs.declared.", 1)
        for start, line in enumerate(lines):
            owner = line if re.match(r"(?:impl|(?:pub )?trait)\b", line) else owner
            if found := TYPE.match(line):
                kind, name = found.groups()
                end = ".*;$" if kind in ("const", "type") else "}|.*[};]$" if line.endswith(("}", ";")) else "}"
                last = next(at for at in range(start, len(lines)) if re.match(end, lines[at]))
                TYPES[self.crate, name].append(Part(self, "\n".join([*comment, *lines[start : last + 1]])))
                HOME[f"{module}.{'TheConstants' if kind == 'const' else name}", name] = TYPES[self.crate, name][-1]
            elif (found := FUNCTION.match(line)) and len(contract := clauses(lines[start:], found[1])) > 1:
                FUNCTIONS[found[2]].append((self, re.findall(r"\w+", owner) if found[1] else [], contract))
            comment = [*comment, line] if line.startswith(("///", "#[")) else []


def listed(names):
    """The names between the braces of an import, each with what it is called here."""
    pairs = (name.strip().partition(" as ") for name in names.split(","))
    return [(there, here or there) for there, _, here in pairs if there]


def cited(text):
    """What a comment has of standards in parentheses."""
    return "; ".join(group for group in CITED.findall(text) if re.search("|".join(STANDARDS.values()), group))


def clauses(lines, indent):
    """The head of the function that begins with these lines, and its clauses."""
    found = lines[:1]
    for line in lines[1:] if not lines[0].endswith(("{", "}", ";")) else []:
        if CLAUSE.match(line):
            found.append(line)
        elif line.startswith(indent + "{") or len(found) == 1 and line.endswith(("{", ";")):
            break
        else:
            found[-1] += "\n" + line
        if len(found) > 1 and line.endswith("};"):
            break
    return found


@cache
def home(module, name):
    """The part that a name of a module is, defined there or handed on."""
    module = module.removesuffix(".TheVariants")
    part = HOME.get((module, name)) or HOME.get((module, module.rpartition(".")[2]))
    file = MODULES.get(module)
    ways = [file.names.get(name), *((other, name) for other in file.aliases.values())] if file and not part else []
    return part or next(filter(None, (home(*way) for way in ways if way)), None)


def used(file, text):
    """The parts that the words of a text of a file name."""
    signs = [way for name, way in file.names.items() if "◌" in name and all(sign in text for sign in name.split("◌"))]
    found = {home(*way) for way in signs}
    for word, part in re.findall(rf"(?<![\w'.-])({WORD})(?:\.({WORD}))?", text):
        found.add(home(file.aliases[word], part) if part and word in file.aliases else None)
        found.add(home(*file.names.get(word, (file.module, word))))
        found.update(TYPES[file.types.get(word, (file.crate, word))][:1] if file.folder == "src" else [])
    return found - {None}


def roots(line):
    """The parts with which a claim begins."""
    links = set(re.findall(r"\]\(\.\./crates/(\w+)/(?:(?:src|specs)/?)?(?:\w+/)*(\w*)", line))
    names = [one or other for one, other in re.findall(r"`([\w:]+)`|\[`?([\w:]+)`?\]\(\.\./crates", line)]
    crates, found = {crate for crate, _ in links}, set()
    for owner, _, name in (name.rpartition("::") for name in names):
        known = [one for one in FUNCTIONS[name] if one[0].crate in crates and (not owner or owner in one[1])]
        known += [one for group in FUNCTIONS.values() for one in group if one[0].crate in crates and name in one[1]]
        for file, _, (head, *parts) in [one for one in known if (one[0].crate, one[0].path.stem) in links] or known:
            named = [part for part in parts if (CLAUSE.match(part)[1] or "").strip() in names]
            found |= used(file, head) | used(file, "".join(named or parts))
        found |= {part for (_, word), part in HOME.items() if word == name and part.file.crate in crates}
    return found


def follow():
    """Says of each part which claims of PROVED reach it, and gives all claims and those that reach nothing."""
    sections, numbers, empty = (TOP / "docs/PROVED.md").read_text(encoding="utf-8").split("\n## ")[1:], [], []
    for line in "\n".join(text for text in sections if not text.startswith("What is")).splitlines():
        number = re.match(r"(?:(\d+)\.|-) ", line)
        if number and (number[1] or "](../crates" in line):
            numbers.append(int(number[1] or SAFETY))
            waiting, seen = list(roots(line)), set()
            empty += [] if waiting else numbers[-1:]
            while waiting:
                part = waiting.pop()
                if part not in seen:
                    seen.add(part)
                    part.claims.append(numbers[-1])
                    waiting += part.uses()
    return numbers, empty


def in_reading_order(parts):
    """The parts by file, those of a lower crate first, and in a crate those that others use."""
    files, done = defaultdict(list), {}
    for part in parts:
        files[part.file].append(part)

    def visit(file):
        if file not in done:
            done[file] = None
            lower = {other.file for part in files[file] for other in part.uses() if other.file.crate == file.crate}
            for other in sorted(lower & files.keys(), key=lambda other: other.path):
                visit(other)
            done[file] = done.pop(file) or files[file]

    for file in sorted(files, key=lambda file: (ORDER.index(file.crate), file.path)):
        visit(file)
    return done


def ranges(parts):
    """The claims of parts in few words: '1-6,24'."""
    runs = []
    for number in sorted({number for part in parts for number in part.claims}):
        if runs and number == runs[-1][1] + 1 > 1:
            runs[-1][1] = number
        else:
            runs.append([number, number])
    return ",".join(f"{first}-{last}" if first < last else f"{first or 'safety'}" for first, last in runs)


def page(files):
    """docs/DEFINITIONS.md: a paragraph a crate, a line a file."""
    crates = defaultdict(list)
    for file in files:
        if file.folder == "specs":
            standards = ",".join(name for name, words in STANDARDS.items() if re.search(words, cited(file.head)))
            link = f"[{file.path.stem}](../{file.path.relative_to(TOP)})"
            crates[file.crate].append(link + (f"<sup>{standards}</sup>" if standards else ""))
    return INTRODUCTION + "".join(f"\n**{crate}**\n" + ";\n".join(lines) + "\n" for crate, lines in crates.items())


def text(files):
    """The definitions in reading order, under a list of contents."""
    lines = {file: sum(bool(line.strip()) for part in files[file] for line in part.text.split("\n")) for file in files}
    count = sum(map(len, files.values()))
    yield f"{count} definitions and types, {sum(lines.values())} lines, in {len(files)} files: PROVED rests on them\n"
    for file in files:
        yield f"{lines[file]:6}  {file.path.relative_to(CRATES)}  {cited(file.head)}".rstrip()
    for file, parts in files.items():
        yield f"\n{'=' * 100}\n{file.path.relative_to(TOP)}\n{file.head}"
        for part in parts:
            yield f"\n[{part.standard()}; claims {ranges([part])}]\n{part.text}"


def main(words):
    for crate in ORDER:
        for folder, kind in (("src", "*.rt"), ("specs", "*.antt")):
            for path in sorted((CRATES / crate / folder).rglob(kind)):
                File(path)
    numbers, empty = follow()
    files = in_reading_order(dict.fromkeys(part for part in HOME.values() if part.claims))
    if "--check" not in words:
        print(page(files) if "--page" in words else "\n".join(text(files)) + "\n", end="")
        return 0
    faults = [f"docs/PROVED.md: claim {number} leads to no contract and no definition" for number in empty]
    if PAGE.read_text(encoding="utf-8") != page(files):
        faults.append("docs/DEFINITIONS.md: scripts/trusted.py --page prints another page")
    print(*faults, f"{len(numbers) + 1 - len(faults)} passed, {len(faults)} failed", sep="\n")
    return 1 if faults else 0


if __name__ == "__main__":
    sys.exit(main(sys.argv[1:]))
