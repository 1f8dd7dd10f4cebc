"""Tries the must-fail edits of a crate together, by the functions that they change.

The kit checks the whole crate with each edit. But an edit is refused by the proof of a function that it changes, or of
one above, and `--only` asks for the first alone: what is refused so is refused in the whole crate as well, because a
whole check proves each of its functions. And a proof takes only contracts of other functions, so one check, which loads
the libraries once, tries the edits of different functions. A function that calls a refused one is not tried beside it,
so its edit waits for the next round. What no round refuses is tried as the kit tries it.
"""

import difflib
import os
import re
import shutil
import subprocess
import tempfile

import kit

FUNCTION = re.compile(r"( *)(?:pub(?:\([^)]*\))? |const |unsafe )*fn (\w+)")
OF_ONLY = re.compile(r"only=\d+ proved=\d+")
# A function whose own proof fails, and not that of one that it calls.
FAILS = re.compile(r"fn \w+::(\S+): (?:no proof|not proved)(?!.*\bit calls\b)")
# What the check says where it cannot try a function's contract.
UNCOVERED = "the borrow checker does not cover this function"


def changed_functions(folder, texts):
    """The functions that an edit changes, by the paths that a check prints; none where it changes something else."""
    found = set()
    for path, text in texts.items():
        if not path.startswith("src/") or not path.endswith(".rt"):
            return set()
        with open(f"{folder}/{path}", encoding="utf-8") as it:
            lines = it.read().split("\n")
        for at in changed_lines(lines, text.split("\n")):
            if not lines[at].startswith(("use ", "ghost use ")):
                found.add(function_around(path, lines, at))
    return set() if None in found else found


def changed_lines(lines, others):
    """The numbers of the lines, from 0, that others stand for; of one that is added, the line before it."""
    for kind, start, end, _, _ in difflib.SequenceMatcher(None, lines, others, autojunk=False).get_opcodes():
        if kind != "equal":
            yield from range(start, end) if start < end else [max(start - 1, 0)]


def function_around(path, lines, at):
    """The path of the function in whose body a line stands; None where it stands in none, or in the head of one."""
    for start in range(at, -1, -1):
        head = FUNCTION.match(lines[start])
        if head:
            ends = f"{head[1]}}}"
            begins = re.compile(rf"{head[1]}(?! ).*{{")
            body = next(it for it in range(start, len(lines)) if begins.fullmatch(lines[it]))
            if at <= body or any(it == ends for it in lines[start + 1 : at]):
                return None
            # (a check names a method by its type's module, which may be another, and takes the end of a name)
            return "::".join([*(owner(lines, start, head[1]) or modules(path)), head[2]])
    return None


def modules(path):
    """The modules of a file, outermost first."""
    parts = path[len("src/") : -len(".rt")].split("/")
    return parts[:-1] if parts[-1] in ("lib", "main", "mod") else parts


def owner(lines, at, indent):
    """The type or trait of the method at a line, none of a function."""
    for it in reversed(lines[:at] if indent else []):
        item = kit.ITEM.match(it)
        if item and item[2] in ("impl", "trait") and len(item[1]) < len(indent):
            return [kit.last_word(item[3]) if item[2] == "trait" else kit.implementor(item[3])]
    return []


class Rounds:
    """The edits of a crate, as many in one check as change different functions, each round over what the earlier ones
    kept in a folder, if there is one."""

    def __init__(self, rt, check, crate, flags, kept=None):
        self.rt, self.check, self.crate, self.flags, self.kept = rt, check, crate, flags, kept
        self.functions, self.is_used = set(), False

    def refused(self, edits):
        """What comes of each edit that a round refuses, and what is said of it, by its file."""
        told, left = {}, [*edits]
        while left:
            found = self.round(*self.together(left))
            told |= found
            left = [it for it in left if it not in told]
            self.is_used = self.is_used or bool(left)
            if not found:
                break
        return told

    def together(self, edits):
        """The texts that as many of the edits make of the crate's files as change other functions, and these functions
        by the edits."""
        made, functions = {}, {}
        with tempfile.TemporaryDirectory(prefix="rt-edits-") as room:
            shutil.copytree(f"{self.crate.folder}/src", f"{room}/src")
            for edit in edits:
                paths = paths_of(self.rt, self.crate, edit)
                texts, why = self.rt.read_edit(edit, room) if paths else ({}, "it changes something else")
                if not why and paths.isdisjoint(it for of in functions.values() for it in of):
                    functions[edit] = paths
                    made |= texts
                    for path, text in texts.items():
                        with open(f"{room}/{path}", "w", encoding="utf-8") as it:
                            it.write(text)
        return made, functions

    def round(self, texts, functions):
        """The same of each of these edits that a check with all of them refuses. Where one makes a function of which no
        contract was tried, it is a bad edit."""
        if not functions:
            return {}
        lines = self.checked(texts, functions.values()).stdout.rstrip("\n").split("\n")
        if not OF_ONLY.fullmatch(lines[-1]) or any(self.rt.unread(it, texts) for it in lines):
            return {}
        fails = {f"::{it[1]}": it.string for it in map(FAILS.match, lines) if it}
        told = {
            edit: [line for it, line in fails.items() if any(it.endswith(f"::{path}") for path in paths)]
            for edit, paths in functions.items()
        }
        return {it: self.outcome(it, why) for it, why in told.items() if why}

    def outcome(self, edit, why):
        """What comes of an edit for which functions fail, with the lines that say why, and what is said of it."""
        label = f"must-fail {self.crate.name}/{os.path.basename(edit)}"
        tried = next((it for it in why if UNCOVERED not in it), "")
        if tried:
            return self.rt.REFUSED, f"{label}: refused, as it must be: {tried}"
        return self.rt.BAD, f"{label}: BAD EDIT: no contract was tried: {why[0]}"

    def checked(self, texts, functions):
        """The check of these functions alone, with some texts changed."""
        self.functions.update(*functions)
        only = [word for it in sorted(set().union(*functions)) for word in ("--only", it)]
        return self.check(self.crate, texts, [*self.flags, *only], self.kept)

    def as_it_stands(self):
        """The check of all that the edits change, without them, over what the rounds kept, if anything used that."""
        return self.checked({}, [self.functions]) if self.is_used else subprocess.CompletedProcess([], 0, "")


def try_together(rt):
    """Changes the kit's module, here alone, so that it tries edits so. The kit tries those of a crate over a seed, a
    folder of what its check kept, which in the end has to serve the crate as it stands: here the rounds make the seed.
    """
    if not hasattr(rt, "seeded"):
        return
    of_whole_crate, check, told, rounds = rt.must_fail, rt.checked, {}, {}

    def seeded(crate, flags, start=None):
        room = tempfile.mkdtemp(prefix=f"rt-edits-{os.getpid()}-")
        rt.SEEDS.append(room)
        seed = f"{room}/seed"
        if start:
            rt.linked(start, seed)
        else:
            os.mkdir(seed)
        rounds[seed] = Rounds(rt, check, crate, flags, seed)
        rounds[seed].is_used = bool(start)
        told.update(rounds[seed].refused(rt.edits_of(crate)[0]))
        return room

    def must_fail(crate, edit, flags, kept=None):
        if edit not in told and not kept:
            told.update(Rounds(rt, check, crate, flags).refused([edit]))
        return told[edit] if edit in told else of_whole_crate(crate, edit, flags, kept)

    def checked(crate, texts, flags, kept):
        own = rounds.get(kept)
        if texts or not own:
            return check(crate, texts, flags, kept)
        ran = own.as_it_stands()
        if ran.returncode:
            for it in rt.edits_of(crate)[0]:
                told.pop(it, None)
        return ran

    rt.seeded, rt.must_fail, rt.checked = seeded, must_fail, checked


def paths_of(rt, crate, edit):
    """The functions that an edit of a crate changes; none where it cannot be read."""
    texts, why = rt.read_edit(edit, crate.folder)
    return set() if why else changed_functions(crate.folder, texts)
