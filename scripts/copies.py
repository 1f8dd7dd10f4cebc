#!/usr/bin/env python3
"""Lists the lemmas that say the same: their statements are equal up to the names of variables.

Over crates/*/proofs, but for answers and invariants, and for what stands in a `module` with arguments. A lemma is what
states a proposition: its result has a relation in it, or is a predicate of something. Two words are the same if the
`use` lines lead to the same definition, and of the standard library if they have the same name there. An argument that
nothing else names is a premise, named or not. What is read as its right side (`abbrev`, `unfoldable`) is no lemma.

--lemmas also lists the lemmas that say nothing but of the standard library and do not stand in rv_list_laws. Lists
each group; the last line is 'N passed, M failed', where the copies beyond the most that may be are failures.
"""

import re
import sys
from collections import defaultdict
from pathlib import Path

TOP = Path(__file__).resolve().parent.parent
MOST_COPIES = 8
LIBRARY_OF_LISTS = "rv_list_laws"
NO_LEMMAS = ("Lib.antt", "Answers.antt", "Invariants.antt")
USE = re.compile(r"^(?:(?:unfoldable |pub )*)use ([\w.]+?)(?:\.\{([^}]*)\})?(?: as (\S+))?\s*$", re.M)
SIGN = re.compile(r"((?:(?:abbrev|unfoldable|pub) )*)([^\s(){}\[\],;:]+) :(?= |$)")
TOKEN = re.compile(r"[(){}\[\],;]|[^\s(){}\[\],;]+")
CLOSING = {"(": ")", "{": "}", "[": "]"}
RELATION = re.compile(r"^[≡≢≤<⊎↔⊥≥]$|^≤ℤ$|^<ℤ$")
NO_PREDICATES = {"List", "Option", "Result", "Vec", "Box", "Type", "Unit", "String", "Iter"}
KEPT = set("λ → × : = | ↦ ; , . let in elim as if then else record with where _ suc zero Type Unit tt".split())


def parsed(tokens):
    """Tokens as a list of words and of (opening, list) pairs."""
    stack = [("", [])]
    for token in tokens:
        if token in CLOSING:
            stack.append((token, []))
        elif token in CLOSING.values():
            if len(stack) < 2:
                break
            opened = stack.pop()
            stack[-1][1].append(opened)
        else:
            stack[-1][1].append(token)
    while len(stack) > 1:
        opened = stack.pop()
        stack[-1][1].append(opened)
    return stack[0][1]


def names_bound(group):
    """The names and the type of a group `(a b : T)` or `{a b : T}`, or None."""
    if not isinstance(group, tuple) or group[0] not in "({" or ":" not in group[1]:
        return None
    at = group[1].index(":")
    names = group[1][:at]
    return (names, group[1][at + 1 :]) if names and all(isinstance(name, str) for name in names) else None


def is_named(name, terms):
    """Whether a term has a variable of that name at the head of a word."""
    return any(
        is_named(name, term[1]) if isinstance(term, tuple) else term == name or term.startswith(f"{name}.")
        for term in terms
    )


class Canon:
    """Writes a statement with its variables numbered and its other words led to their definitions."""

    def __init__(self, origin_of):
        self.origin_of, self.count = origin_of, 0

    def fresh(self):
        self.count += 1
        return f"#{self.count}"

    def word(self, word, bound):
        head, dot, rest = word.partition(".")
        if head in bound:
            return bound[head] + dot + rest
        if word in KEPT or not head:
            return word
        return self.origin_of(word)

    def sequence(self, terms, bound):
        """A run of terms in one pair of brackets; what a group or a λ binds holds up to its end."""
        out, bound, i = [], dict(bound), 0
        while i < len(terms):
            term = terms[i]
            group = names_bound(term)
            arrow = i + 1 < len(terms) and (terms[i + 1] in ("→", "×") or names_bound(terms[i + 1]))
            if group and arrow:
                out += self.group(term[0], *group, terms[i + 1 :], bound)
            elif isinstance(term, tuple):
                inner = self.sequence(term[1], bound)
                alone = term[0] == "(" and (len(inner) == 1 or (i == 0 and len(terms) == 1))
                out += inner if alone else [term[0], *inner, CLOSING[term[0]]]
            elif term == "λ":
                i, words = self.function(terms, i + 1, bound)
                out += words
            else:
                out.append(self.word(term, bound))
            i += 1
        return out

    def group(self, opening, names, typed, rest, bound):
        """A group with a `→` or `×` behind it: each name by itself, and a name that nothing has is left out."""
        out = []
        said = self.sequence(typed, bound)
        follows = next((word for word in rest if word in ("→", "×")), "→")
        for k, name in enumerate(names):
            used = is_named(name, rest) or opening == "{"
            last = k == len(names) - 1 and rest[0] in ("→", "×")
            if used:
                bound[name] = self.fresh()
                out += [opening, bound[name], ":", *said, CLOSING[opening]]
            else:
                out += said if len(said) == 1 else ["(", *said, ")"]
            out += [] if last else [follows]
        return out

    def function(self, terms, i, bound):
        """The names behind a λ, up to the one that ends in a dot."""
        out = ["λ"]
        while i < len(terms) and isinstance(terms[i], str):
            name = terms[i].rstrip(".")
            bound[name] = self.fresh()
            out.append(bound[name])
            if terms[i].endswith("."):
                break
            i += 1
        return i, [*out, "."]


class Lemma:
    """A name with its statement, in brackets as `parsed` reads it."""

    def __init__(self, file, name, signs, statement, line):
        self.file, self.name, self.signs, self.line = file, name, signs, line
        self.terms = parsed(TOKEN.findall(statement))

    def canon(self, origin_of):
        return " ".join(without_brackets(Canon(origin_of).sequence(self.terms, {})))

    def is_lemma(self):
        """Whether it states a proposition that is not read as its right side."""
        terms = self.terms
        while "→" in terms:
            terms = terms[terms.index("→") + 1 :]
        flat = [word for word in terms if isinstance(word, str)]
        deep = any(RELATION.match(word) for word in words_of(terms))
        head = next(iter(flat), "").rpartition(".")[2]
        predicate = head[:1].isupper() and len(terms) > 1 and head not in NO_PREDICATES
        plain = "abbrev" not in self.signs and "unfoldable" not in self.signs
        return plain and (deep or predicate)


def words_of(terms):
    for term in terms:
        if isinstance(term, tuple):
            yield from words_of(term[1])
        else:
            yield term


def without_brackets(words):
    """Takes the brackets from a premise of the outermost row that needs none: one without an arrow in it."""
    depth, row, out = 0, [[]], []
    for word in words:
        depth += (word in CLOSING) - (word in CLOSING.values())
        if word == "→" and depth == 0:
            row.append([])
        else:
            row[-1].append(word)
    for k, part in enumerate(row):
        if part[:1] == ["("] and part[-1:] == [")"] and part[2:3] != [":"] and closes(part) and "→" not in part:
            part = part[1:-1]
        out += part + (["→"] if k < len(row) - 1 else [])
    return out


def closes(part):
    """Whether the first bracket of a part is closed by its last word."""
    depth = 0
    for k, word in enumerate(part):
        depth += (word in CLOSING) - (word in CLOSING.values())
        if depth == 0:
            return k == len(part) - 1
    return False


class File:
    """A file of lemmas: what its words lead to, and its lemmas."""

    def __init__(self, path, top=TOP):
        self.path, self.text = path, path.read_text(encoding="utf-8")
        self.relative = path.relative_to(top / "crates")
        self.module = "Rattle." + ".".join(self.relative.with_suffix("").parts)
        self.crate = self.relative.parts[0]
        self.origin, self.aliases, self.parts = {}, {}, {}
        for module, names, alias in USE.findall(self.text):
            for name in filter(None, (x.strip() for x in names.replace("\n", " ").split(","))):
                there, _, here = name.partition(" as ")
                self.origin[here or there] = (module, there)
            if not names:
                self.aliases[alias or module.rpartition(".")[2]] = module
        self.lemmas = list(self.items())
        self.own = {lemma.name for lemma in self.lemmas}
        self.origin |= {name: (self.module, name) for name in self.own}
        for name in self.origin:
            if "◌" in name:
                self.parts |= {part: name for part in name.split("◌") if part}

    def items(self):
        """Each signature at the left edge, with the text up to what is next."""
        blocks = list(re.finditer(r"(?m)^(?=[^\s)}\]-])", self.text))
        ends = [*(m.start() for m in blocks[1:]), len(self.text)]
        for found, end in zip(blocks, ends, strict=True):
            block = re.sub(r"--[^\n]*", "", self.text[found.start() : end])
            sign = SIGN.match(block)
            if sign and not block.startswith(("use ", "module ", "unfolding")):
                line = self.text.count("\n", 0, found.start()) + 1
                yield Lemma(self, sign[2], sign[1], block[sign.end() :], line)

    def led(self, word):
        """Where a word of the file leads, as text."""
        head, dot, rest = word.partition(".")
        if head in self.aliases and rest:
            name, _, rest = rest.partition(".")
            return of_library(self.aliases[head], name) + ("." + rest if rest else "")
        if head in self.origin:
            return of_library(*self.origin[head]) + dot + rest
        whole = self.parts.get(word)
        return f"{of_library(*self.origin[whole])}/{word}" if whole else word


def of_library(module, name):
    """A definition's own name; the standard library hands its names on from several files."""
    return f"{module}.{name}" if module.startswith("Rattle.rv_") else name


def handed_on(files):
    """What files hand on from others: (module, name) to (module, name)."""
    passed = {}
    for path in files:
        text = path.read_text(encoding="utf-8")
        module = "Rattle." + ".".join(path.relative_to(TOP / "crates").with_suffix("").parts)
        for there, names in re.findall(r"^(?:unfoldable )?pub use ([\w.]+)\.\{([^}]*)\}", text, re.M):
            for name in filter(None, (x.strip() for x in names.split(","))):
                old, _, new = name.partition(" as ")
                passed[(module, new or old)] = (there, old)
    return passed


def lemma_files():
    """The files of lemmas, in the order of crates.txt."""
    order = re.findall(r"^(rv_\w+)(?: staticlib)?:", (TOP / "crates.txt").read_text(encoding="utf-8"), re.M)
    for crate in order:
        for path in sorted((TOP / "crates" / crate / "proofs").rglob("*.antt")):
            if path.name not in NO_LEMMAS and "declared" not in path.parts:
                yield path


def statements():
    """The lemmas that say each thing, by what they say."""
    files = [File(path) for path in lemma_files()]
    passed = handed_on(sorted((TOP / "crates").glob("*/*/**/*.antt")))
    said = defaultdict(list)
    for file in files:
        for word, there in file.origin.items():
            while there in passed:
                there = passed[there]
            file.origin[word] = there
        for lemma in filter(Lemma.is_lemma, file.lemmas):
            said[lemma.canon(file.led)].append(lemma)
    return said


def place(lemma):
    return f"{lemma.file.path.relative_to(TOP)}:{lemma.line}: {lemma.name}"


def main():
    said = statements()
    groups = [lemmas for lemmas in said.values() if len(lemmas) > 1]
    for lemmas in groups:
        print(f"{len(lemmas)} times the same:", *map(place, lemmas), sep="\n    ")
    plain = [x for s, ls in said.items() if "Rattle.rv_" not in s for x in ls if x.file.crate != LIBRARY_OF_LISTS]
    if "--lemmas" in sys.argv:
        print(*map(place, plain), sep="\n")
    count, copies = sum(map(len, said.values())), sum(map(len, groups)) - len(groups)
    print(f"{count} lemmas, of which {len(plain)} are of the standard library alone and not in {LIBRARY_OF_LISTS}")
    print(f"{len(groups)} statements stand more than once, with {copies} copies; {MOST_COPIES} copies may be")
    print(f"{count - copies} passed, {max(0, copies - MOST_COPIES)} failed")
    return 1 if copies > MOST_COPIES else 0


if __name__ == "__main__":
    sys.exit(main())
