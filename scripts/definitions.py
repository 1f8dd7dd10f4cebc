#!/usr/bin/env python3
"""Tests that a word of the definitions leads to one thing, and that what is proved once is not proved again.

Over crates/*/specs: no word is defined in more than two files, and no line but a `use` or a comment is longer than 100
characters. Over crates/*/proofs as well: no function stands twice in one crate, or in a crate and one that its line of
crates.txt names, where all its words come from the same files.

Lists what breaks this. Standard library alone; the last line is 'N passed, M failed', where a file counts once for
each fault, or once without any.
"""

import re
import sys
from collections import Counter, defaultdict
from pathlib import Path

TOP = Path(__file__).resolve().parent.parent
LONGEST = 100
MOST_MEANINGS = 2
WORD = r"[A-Za-z_][\w'-]*"
HEAD = re.compile(rf"(?:(?:abbrev|unfoldable|pub|data|record) )*({WORD})")
USE = re.compile(r"^(?:(?:unfoldable )?pub )?use ([\w.]+?)(?:\.\{([^}]*)\})?(?: as (\w+))?\s*$", re.M)
NO_DEFINITION = ("use ", "pub use", "unfoldable pub use", "pub mod", "unfolding")
# What a definition with such a result says, other files see only by `abbrev`; so without it may stand again.
KEPT_BACK = re.compile(r"(?:Bool|ℕ|Type 0|Site|Row|Token|Options|Expression|StatementKind|(?:List|Option) .*)")


class File:
    """A file of definitions or lemmas: the text of each, and where its words come from."""

    def __init__(self, path):
        self.path, self.text = path, path.read_text(encoding="utf-8")
        self.crate = path.relative_to(TOP / "crates").parts[0]
        self.is_spec = "specs" in path.parts
        self.module = "Rattle." + ".".join(path.relative_to(TOP / "crates").with_suffix("").parts)
        self.said = self.blocks()
        self.origin = {name: f"{self.module}.{name}" for name in self.said}
        self.aliases, self.used = {}, set()
        for module, names, alias in USE.findall(self.text):
            self.used.add(module)
            for name in filter(None, map(str.strip, names.split(","))):
                there, _, here = name.partition(" as ")
                self.origin[here or there] = f"{module}.{there}"
            if not names:
                self.aliases[alias or module.rpartition(".")[2]] = module

    def blocks(self):
        """The text of each definition with all its clauses, its own name taken out."""
        found = defaultdict(list)
        for block in re.split(r"\n(?=\S)", re.sub(r"--[^\n]*", "", self.text)):
            head = HEAD.match(block)
            if head and not block.startswith(NO_DEFINITION):
                found[head[1]].append(block)
        return {name: Definition(name, "\n".join(blocks)) for name, blocks in found.items()}

    def faults(self):
        """The lines of a file of definitions that are too long."""
        for number, line in enumerate(self.text.splitlines() if self.is_spec else [], 1):
            if len(line) > LONGEST and not line.startswith(("use ", "pub use ", "unfoldable pub use ", "--")):
                yield f"line {number} has {len(line)} characters"


class Definition:
    """A definition or a lemma."""

    def __init__(self, name, text):
        first = text.split(f"\n{name} ")[0]
        self.is_shown = first.startswith("abbrev")
        result = re.split("→| : ", " ".join(first.split()))[-1].strip()
        is_type = bool(re.match("(?:pub )?(?:record|data) ", first))
        self.is_kept_back = is_type or not self.is_shown and bool(KEPT_BACK.fullmatch(result))
        text = re.sub(r"\b(?:abbrev|unfoldable|pub) ", "", text)
        text = re.sub(rf"(?<![\w'-]){re.escape(name)}(?![\w'-])", "◌", text)
        self.text = " ".join(text.split())


def takes(crates, file, name, lower, other):
    """Whether a file could take a definition of its own from another file: it sees it, and it says the same."""
    mine, theirs = file.said[name], lower.said[other]
    if file.is_spec or mine.is_kept_back or (mine.is_shown and not theirs.is_shown):
        return False
    if lower.crate not in (crates.get(file.crate, set()) | {file.crate}) or file.module in lower.used:
        return False
    for word, part in re.findall(rf"(?<![\w'-])({WORD})(\.{WORD})?", mine.text):
        if part and (word in file.aliases or word in lower.aliases):
            if file.aliases.get(word) != lower.aliases.get(word):
                return False
        elif not same(file.origin.get(word), lower.origin.get(word)):
            return False
    return True


def same(one, other):
    """Whether two words come from the same file; the library hands its own on from several."""
    in_library = one and other and one.startswith("Rattle.std") and other.startswith("Rattle.std")
    return one == other or bool(in_library and one.rpartition(".")[2] == other.rpartition(".")[2])


def crates_named():
    """The crates that each line of crates.txt names."""
    lines = (TOP / "crates.txt").read_text(encoding="utf-8").splitlines()
    split = (line.partition(":") for line in lines if line and not line.startswith("#"))
    return {crate.split()[0]: set(names.split()) for crate, _, names in split}


def main():
    paths = [path for folder in ("specs", "proofs") for path in sorted((TOP / "crates").glob(f"*/{folder}/**/*.antt"))]
    paths = [path for path in paths if path.name not in ("Lib.antt", "Answers.antt", "Invariants.antt")]
    files = [File(path) for path in paths if "declared" not in path.parts]
    crates, faults = crates_named(), [(file, fault) for file in files for fault in file.faults()]
    meanings = Counter(name for file in files if file.is_spec for name in file.said)
    places = defaultdict(list)
    for file in files:
        for name, said in file.said.items():
            if file.is_spec and meanings[name] > MOST_MEANINGS:
                faults.append((file, f"{name} is defined in {meanings[name]} files"))
            if len(said.text) > 25:
                places[said.text].append((file, name))
    for equal in places.values():
        for file, name in equal:
            homes = [(lower, other) for lower, other in equal if lower is not file]
            home = next((home for home in homes if takes(crates, file, name, *home)), None)
            if home:
                faults.append((file, f"{name} stands in {home[0].module} as {home[1]}"))
    for file, fault in faults:
        print(f"{file.path.relative_to(TOP)}: {fault}")
    print(f"{len(files) - len({file.path for file, _ in faults})} passed, {len(faults)} failed")
    return 1 if faults else 0


if __name__ == "__main__":
    sys.exit(main())
