#!/usr/bin/env python3
"""Tests that want of memory is answered where a growth was refused, and nowhere else.

The answer of a growth is handed on by `?`. So no line of crates/*/src makes an `AllocError`, an `AllocFailed`, an
`..::OutOfMemory` or an `..::Memory` of an enum by its name, but in an `impl .. From<..>` and in an arm, or an `if let`,
whose pattern names want of memory in each of its alternatives: `Err(SourceFault::OutOfMemory) => Err(Fault::Memory)`.
Types, patterns, comparisons, `use`, ghost code, contracts and comments make none; test crates are not looked at.

Lists each line that breaks this, first of all those of its own cases (`CASES`) that it takes wrongly. Standard library
alone; the last line is 'N passed, M failed', where a source file counts once for each such line, or once without any.
"""

import re
import sys
from dataclasses import dataclass
from pathlib import Path

TOP = Path(__file__).resolve().parent.parent
TOKEN = re.compile(
    r"""(?P<blank>\s+|//[^\n]*|/\*.*?\*/)
    |(?P<literal>b?r(?P<hashes>\#*)".*?"(?P=hashes)|b?"(?:[^"\\]|\\.)*"|b?'(?:[^'\\\n]|\\.[^'\n]*)')
    |(?P<word>'?\w+)
    |(?P<sign>::|=>|->|==|!=|<=|>=|&&|\|\||\.\.=?|.)""",
    re.X | re.S,
)
CLOSED_BY = {"(": ")", "[": "]", "{": "}"}
OF_TYPES = {"<", "->", ":", "for", "as"}
OF_TRAITS = {"impl", ">", "::"}


@dataclass
class Item:
    """A token, or a bracket with the items inside it."""

    text: str
    line: int
    inside: list = None


END = Item("", 0)


def items_of(source):
    """The tokens of a source as a tree of brackets."""
    stack, line = [Item("", 0, [])], 1
    for it in TOKEN.finditer(source):
        text = it[0]
        if it.lastgroup == "sign" and text in CLOSED_BY:
            stack.append(Item(text, line, []))
            stack[-2].inside.append(stack[-1])
        elif it.lastgroup == "sign" and len(stack) > 1 and text == CLOSED_BY[stack[-1].text]:
            stack.pop()
        elif it.lastgroup != "blank":
            stack[-1].inside.append(Item("''" if it["literal"] else text, line))
        line += text.count("\n")
    return stack[0].inside


def at(items, index):
    return items[index] if 0 <= index < len(items) else END


def find(items, start, *texts):
    """Where the first item with one of these texts stands, from `start` on; the end without one."""
    return next((it for it in range(start, len(items)) if items[it].text in texts), len(items))


def names(items, index):
    """Whether an item names want of memory, as a value or in a pattern."""
    it, before, after = items[index], at(items, index - 1).text, at(items, index + 1).text
    if it.text == "OutOfMemory":
        return True
    if it.text == "Memory":
        return before == "::" and at(items, index - 2).text[:1].isupper() and after != "::"
    if it.text == "AllocError":
        return before not in OF_TYPES and after not in ("::", ">")
    return it.text == "AllocFailed" and after in ("{", "(")


def is_compared(items, index):
    """Whether the path that ends here stands beside == or !=."""
    start = index
    while at(items, start - 1).text == "::":
        start -= 2
    return bool({at(items, start - 1).text, at(items, index + 1).text} & {"==", "!="})


def parted(items, by):
    """The items between the separators."""
    parts = [[]]
    for it in items:
        if it.text == by:
            parts.append([])
        else:
            parts[-1].append(it)
    return parts


def is_of_memory(pattern):
    """Whether each alternative of a pattern names want of memory."""
    pattern = pattern[: find(pattern, 0, "if")]
    return all(
        any(names(part, it) or bool(part[it].inside) and is_of_memory(part[it].inside) for it in range(len(part)))
        for part in parted(pattern, "|")
    )


def end_of_answer(items, start):
    """Where the expression of an arm ends."""
    first, end = at(items, start).text, start
    if first == "{":
        end = start + 1
    elif first in ("match", "if", "for", "while", "loop", "unsafe"):
        end = find(items, start, "{") + 1
        while at(items, end).text == "else":
            end = find(items, end, "{") + 1
    is_whole = end > start and at(items, end).text not in (".", "?", ",")
    return end if is_whole else find(items, start, ",")


def arms(items):
    """The patterns and expressions of a match."""
    index = 0
    while index < len(items):
        arrow = find(items, index, "=>")
        end = end_of_answer(items, arrow + 1)
        yield items[index:arrow], items[arrow + 1 : end]
        index = end + 1 if at(items, end).text == "," else end


def made_in_if(items, index):
    """The lines that an `if let` or `while let` makes want of memory on, but for the patterns; and where its block
    ends."""
    block = find(items, index, "{")
    patterns, lines = [], []
    for part in parted(items[index + 1 : block], "&&"):
        equals = find(part, 0, "=") if at(part, 0).text == "let" else -1
        patterns += [part[1:equals]] if equals >= 0 else []
        lines += made(part[equals + 1 :])
    if not any(is_of_memory(it) for it in patterns):
        lines += made(items[block : block + 1])
    return lines, block + 1


def skipped(items, index):
    """Where what makes nothing and begins here ends: attributes, ghost code, `use`, types and patterns; or `index`."""
    text = items[index].text
    if text == "#":
        return find(items, index, "[") + 1
    if text in ("use", "ghost"):
        return find(items, index, ";", *([","] if text == "ghost" else [])) + 1
    if text in ("requires", "ensures"):
        return find(items, index, "{") + 1
    if text in ("enum", "struct"):
        return find(items, index, "{", ";") + 1
    if text == "fn":
        return find(items, index, "{", ";", "requires", "ensures")
    if text == "impl":
        body = find(items, index, "{")
        return body + any(items[it].text == "From" and items[it - 1].text in OF_TRAITS for it in range(index + 1, body))
    if text in ("let", "const", "static", "type"):
        return find(items, index, "=", ";")
    if text == "matches" and at(items, index + 1).text == "!":
        return index + 3
    return index


def made(items):
    """The lines on which items make want of memory by its name."""
    lines, index = [], 0
    while index < len(items):
        it, end = items[index], skipped(items, index)
        if it.text == "matches" and end > index:
            inside = items[end - 1].inside or []
            lines += made(inside[: find(inside, 0, ",")])
        elif it.text in ("if", "while") and at(items, index + 1).text == "let":
            more, end = made_in_if(items, index)
            lines += more
        elif it.text == "match":
            end = find(items, index, "{") + 1
            lines += made(items[index + 1 : end - 1])
            for pattern, answer in arms(at(items, end - 1).inside or []):
                lines += [] if is_of_memory(pattern) else made(answer)
        elif end == index:
            end = index + 1
            lines += made(it.inside) if it.inside else []
            if names(items, index) and not is_compared(items, index):
                lines.append(it.line)
        index = end
    return lines


# Each case is one file: a line that ends with '// !' is to be found, and no other.
CASES = [
    """
use std::alloc::{AllocError, AllocFailed, Global};
ghost use Rattle.rv_fault.specs.declared.file_fault.FileFault.TheVariants.{OutOfMemory};
/// `Err(AllocError)`: this is no line of code.
#[derive(Drop, Error)]
pub enum Fault {
    #[error("FileFault::OutOfMemory")]
    OutOfMemory,
    Refused(AllocError),
}
impl<T: Drop> From<AllocFailed<T>> for Fault {
    ghost from_gives = { λ _ fault. fault ≡ OutOfMemory };

    fn from(_: AllocFailed<T>) -> Self {
        Fault::OutOfMemory
    }
}
""",
    """
fn grown(alloc: Global, count: usize) -> Result<Vec<u8>, AllocError>
    ensures { IfErr result (λ e. e ≡ OutOfMemory) }
{
    if count > MOST {
        return Err(AllocError); // !
    }
    let length: Result<usize, AllocError> = count.checked_add(1).ok_or(AllocError); // !
    let Some(length) = length.ok() else { return Err(Fault::OutOfMemory) }; // !
    let made = items.try_collect::<Result<Vec<u8>, AllocError>>(alloc).map_err(AllocError::from)?;
    grow(alloc, length).map_err(|_| Stop::Memory)?; // !
    Err(AllocFailed { value: length }) // !
}
""",
    """
impl<E: From<AllocError>> Reader<E> {
    fn read(&self, fault: Fault) -> Option<Fault> {
        match fault {
            Err(FileFault::OutOfMemory) => return Err(Fault::Memory),
            Fault::OutOfMemory if self.open => {
                Some(Fault::Memory)
            }
            Fault::At { code, line: 0 } => match code {
                Code::Last => None,
                _ => Some(Fault::Memory), // !
            }
            Fault::OutOfMemory | Fault::Link(_) => Some(Fault::Memory), // !
            ErrorKind::OutOfMemory | ErrorKind::Memory => CliError::Memory,
            Err(_) => Err(AllocError), // !
            _ => Fault::OutOfMemory, // !
        }
    }
}
""",
    """
fn tells<M: Memory>(memory: &rv_memory::Memory, fault: Fault) -> bool {
    if let Err(Fault::OutOfMemory) = fault {
        return end(Fault::Memory);
    }
    if let Some(name) = fault.name() && name == '{' {
        return end(Fault::Memory); // !
    }
    let Some(number) = fault.number() else {
        return Ok(CliError::Memory); // !
    };
    matches!(fault, Fault::OutOfMemory) || fault == Fault::OutOfMemory || made(Stop::OutOfMemory) // !
}
""",
]


def of_cases():
    """The lines of the cases that are taken wrongly, and how many are taken rightly."""
    wrong, right = [], 0
    for number, text in enumerate(CASES, 1):
        wanted = [line for line, it in enumerate(text.split("\n"), 1) if it.endswith("// !")]
        found = made(items_of(text))
        wrong += [f"case {number}, line {it}: taken wrongly" for it in sorted({*wanted} ^ {*found})]
        right += found == wanted
    return wrong, right


def main():
    broken, passed = of_cases()
    files = [
        it for it in sorted(TOP.glob("crates/*/src/**/*.rt")) if not it.relative_to(TOP).parts[1].endswith("_tests")
    ]
    for path in files:
        source = path.read_text(encoding="utf-8")
        lines = made(items_of(source))
        text = source.split("\n")
        broken += [f"{path.relative_to(TOP)}:{it}: want of memory by name: {text[it - 1].strip()}" for it in lines]
        passed += not lines
    print("\n".join(broken), end="\n" if broken else "")
    print(f"want of memory in {len(files)} source files")
    print(f"{passed} passed, {len(broken)} failed")
    return 1 if broken or not files else 0


if __name__ == "__main__":
    sys.exit(main())
