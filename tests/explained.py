#!/usr/bin/env python3
"""Looks at what `rv explain` says of each code and of each end of a run.

- The example of a code of a source or of a link gives that very code when it is built, that of an end gives the end
  when it is run. The example of L4 is an object, and that of L10 a count of files: they are made here.
- The causes are those of docs/manual/faults.md, and the ends those of docs/manual/platform.md. Each code has a cure.

Standard library alone; the last line is 'N passed, M failed'.
"""

import json
import re
import subprocess
import sys
import tempfile
from pathlib import Path

from run import RV, SECONDS, TESTS, Failed, same

MANUAL = TESTS.parent / "docs" / "manual"
ROW = re.compile(r'- <a id="\w+"></a>(.*?): (.*)')


def rv(folder, *words):
    return subprocess.run([RV, *words], cwd=folder, capture_output=True, timeout=SECONDS, stdin=subprocess.DEVNULL)


def plain(text):
    """A text of the manual without marks and links."""
    return re.sub(r"\[([^\]]*)\]\([^)]*\)", r"\1", text).replace("`", "").strip()


def rows():
    """The title and the cause of each code in the manual."""
    for line in (MANUAL / "faults.md").read_text().splitlines():
        if found := ROW.fullmatch(line):
            title, cause = map(plain, found.groups())
            yield " ".join(title.split()[:2]), cause


def entry(folder, code):
    """The title, cause, example and cure that rv prints of a code."""
    text = rv(folder, "explain", code).stdout.decode()
    title, cause, example, cure = re.fullmatch(
        r"(.*)\nCause: (.*)\nExample:\n((?:    .*\n)+)Cure: (.*)\n", text, re.S
    ).groups()
    return title, " ".join(cause.split()), [it[4:] for it in example.splitlines()], " ".join(cure.split())


def files(folder, code, example):
    """Writes the files of an example; the words of the call that shows its fault."""
    for part in "\n".join(["#--- a.s", *example, ""]).split("#--- ")[1:]:
        name, _, text = part.partition("\n")
        (folder / name).write_text(text)
    names = sorted(it.name for it in folder.iterdir())
    if example[0].startswith("$ rv "):
        return example[0].split()[2:]
    if code == "L10":
        return ["build", "-o", "a", *1025 * names]
    return ["build", "-o", "a", *names]


def look_at(title):
    """Compares what an example gives with the code, or the end, that it is of."""
    code = title.split()[0]
    with tempfile.TemporaryDirectory() as name:
        folder = Path(name)
        told, _, example, _ = entry(folder, code)
        same("the title", title, told)
        same("in small letters", told, entry(folder, code.lower())[0])
        if title != "E17 Limit":
            same("by its name", told, entry(folder, title.split()[-1])[0])
        if re.match(r"[EL]\d", code) and code != "L4":
            words = files(folder, code, example)
            message = rv(folder, *words).stderr.decode()
            if not re.fullmatch(rf"rv: (?:a\.s:\d+: )?{title}(?: f)?\n", message):
                raise Failed(f"the example gives {message!r}")
        elif title == "Reached":
            words = files(folder, code, example)
            (folder / "a.s").write_text(".globl _start\n_start: nop\nf: ret\n")
            same("the end of the example", title, json.loads(rv(folder, *words).stderr)["end"])
        elif " " not in title:
            files(folder, code, example)
            process = rv(folder, "run", "--limit", "1000", "a.s")
            came = "Exited" if process.returncode == 7 else process.stderr.decode().removeprefix("rv: ").split()[0]
            same("the end of the example", title, came)


def look_at_manual(titles):
    """Compares the entries with the manual's."""
    with tempfile.TemporaryDirectory() as folder:
        coded = [it for it in titles if " " in it]
        same("the codes", [it[0] for it in rows()], coded)
        for title, cause in rows():
            _, printed, _, cure = entry(folder, title.split()[0])
            same(f"the cause of {title}", cause, printed)
            if not cure:
                raise Failed(f"{title} has no cure")
    ends = re.findall(
        r"`([A-Z]\w+)`", (MANUAL / "platform.md").read_text().split("## How a run ends")[1].split("\n\n")[1]
    )
    same("the ends", ends, [it for it in titles if " " not in it])


def main():
    titles = rv(None, "explain").stdout.decode().splitlines()
    looks = [(it, look_at, it) for it in titles] + [("manual", look_at_manual, titles)]
    failed = 0
    for name, look, of in looks:
        try:
            look(of)
        except (Failed, AttributeError, IndexError, subprocess.TimeoutExpired) as why:
            print(f"{name}: {why}")
            failed += 1
    print(f"{len(looks) - failed} passed, {failed} failed")
    return 1 if failed or len(titles) != 62 else 0


if __name__ == "__main__":
    sys.exit(main())
