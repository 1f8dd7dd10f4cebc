"""What ./rv gives for calls that need no files of a system, and what the library gives in a page: cases of tests/, and
random programs.

A case is its files and the calls that make others of them, up to the first that the library has not: each call is
asked of both, with what each made itself.
"""

import base64
import hashlib
import json
import os
import re
import subprocess
import tempfile
from collections import Counter
from concurrent.futures import ThreadPoolExecutor
from pathlib import Path

import random_programs
import run as cases_of

ROOT = Path(__file__).resolve().parent.parent
RV = ROOT / "rv"
# A run has so many instructions at most, unless its case says fewer; and so many are those of a random program.
MOST, LIMIT = 10_000_000, 20_000
# JSON's numbers are exact below.
EXACT = 2**53
# (an address is written as hexadecimal, because JSON's numbers lose its last digits)
TEXT_START, WITH_MAP = "0x10000", 4
KNOWN = {"--no-relax": 1, "--gc-sections": 2}
MAKERS = {"build": "executable", "ld": "executable", "as": "object"}
NUMBER = re.compile(r"0x[0-9a-fA-F]+|\d+")
# What a case changes in a file behind a call.
CHANGES = {"patch", "cut", "archive", "wide", "unindexed"}
# The bytes of one message to the page.
MESSAGE = 8_000_000


def letters(bytes_):
    return base64.b64encode(bytes_).decode()


def asked(files, head):
    """A case as both are asked it, or nothing where its first call is none of the library's."""
    if any(key == "environment" for key, _ in head):
        return None
    steps, known = [], {*files}
    for words, expected in cases_of.calls(files, head):
        made = steps_of(words, expected, known)
        steps += made
        known |= {it["to"] for it in made if "to" in it}
        if not made or CHANGES & {key for key, _ in expected}:
            break
    held = {it: letters(files[it]) for step in steps for it in step["names"] if it in files}
    return {"files": held, "steps": steps} if steps else None


def steps_of(words, expected, known):
    """What a call asks of the library; nothing where it needs other calls or other files."""
    verb, *rest = words or [""]
    if verb == "run" and rest and rest[-1] in known:
        limit = number_behind("--limit", rest[:-1])
        if len(rest) != (1 if limit is None else 3):
            return []
        given = b"".join(cases_of.repeated_text(value) for key, value in expected if key == "input")
        step = {"verb": "run", "names": rest[-1:], "limit": MOST if limit is None else limit, "input": letters(given)}
        builds = [step_of("build", [*rest[-1:], "-o", "exe"], known), {**step, "names": ["exe"]}]
        return builds if rest[-1].endswith(".s") else [step]
    step = step_of(verb, rest, known) if verb in (*MAKERS, "list", "check") else None
    return [step] if step else []


def number_behind(option, words):
    value = words[words.index(option) + 1] if option in words else ""
    return int(value) if value.isdigit() and int(value) < EXACT else None


def step_of(verb, words, known):
    """A call with its files and options; nothing where it has other words."""
    step, words = {"verb": verb, "names": [], "flags": WITH_MAP, "start": TEXT_START, "to": verb}, [*words]
    while words:
        it = words.pop(0)
        if it in ("-o", "--map"):
            step["to"] = words.pop(0) if it == "-o" else (words.pop(0), step["to"])[1]
        elif it in KNOWN and verb in ("build", "ld"):
            step["flags"] |= KNOWN[it]
        elif it == "--text-start" and verb in ("build", "ld") and NUMBER.fullmatch(words[0]):
            step["start"] = hex(int(words.pop(0), 0))
        elif verb == "check" and it.startswith("--format="):
            continue
        elif it in known and not it.endswith(".a"):
            step["names"].append(it)
        else:
            return None
    # (there are no folders and no standard output)
    is_file = step["to"] != "-" and "/" not in step["to"]
    is_whole = step["names"] and (verb != "as" or len(step["names"]) == 1) and is_file
    return step if is_whole else None


def program(words, folder, given=b""):
    variables = {name: value for name, value in os.environ.items() if name != "RV_LIMIT"}
    return subprocess.run([RV, *words], cwd=folder, input=given, capture_output=True, env=variables)


def fault_of(process):
    """The fault that a call was refused for."""
    return process.stderr.decode("utf8", "replace").splitlines()[-1].removeprefix("rv: ")


def digest(bytes_):
    return hashlib.sha256(bytes_).hexdigest()


def by_program(case):
    """What ./rv gives for each call, up to the first that is refused."""
    found = []
    with tempfile.TemporaryDirectory() as folder:
        for name, held in case["files"].items():
            Path(folder, name).write_bytes(base64.b64decode(held))
        for step in case["steps"]:
            found.append(step_by_program(step, folder))
            if "fault" in found[-1]:
                break
    return found


def step_by_program(step, folder):
    verb, names = step["verb"], step["names"]
    if verb == "check":
        return {"text": digest(program(["check", "--json", *names], folder).stdout)}
    if verb == "run":
        return run_by_program(step, folder)
    options = ["--text-start", step.get("start", TEXT_START)]
    options += [it for it, bit in KNOWN.items() if step["flags"] & bit]
    words = {"as": ["-o", step["to"]], "list": []}.get(verb, ["-o", step["to"], "--map", "map", *options])
    process = program([verb, *words, *names], folder)
    if process.returncode:
        return {"fault": fault_of(process)}
    if verb == "list":
        return {"text": digest(process.stdout)}
    made = {MAKERS[verb]: step["to"], **({} if verb == "as" else {"map": "map"})}
    return {it: digest(Path(folder, file).read_bytes()) for it, file in made.items()}


def run_by_program(step, folder):
    words = ["run", "--limit", str(step["limit"]), *step["names"]]
    process = program(words, folder, base64.b64decode(step["input"]))
    is_fault = process.returncode == 1 and process.stderr.startswith(b"rv: ")
    if is_fault:
        return {"fault": fault_of(process)}
    end = fault_of(process) if process.stderr.startswith(b"rv: ") else f"exit {process.returncode}"
    return {"console": letters(process.stdout), "end": end, "isSame": True}


def outcome(given):
    """What came of a call, in a word."""
    if "fault" in given:
        return "refused"
    return given["end"].split()[0] if "end" in given else "+".join(given)


def parts(cases):
    """Cases in messages of some bytes each."""
    part, size = [], 0
    for it in cases:
        part.append(it)
        size += 300 + sum(map(len, it["files"].values()))
        if size > MESSAGE:
            yield part
            part, size = [], 0
    yield part


def differences(tab, name, cases):
    """Compares cases, tells what came of them and a few that differ, and gives how many differ."""
    with ThreadPoolExecutor(len(os.sched_getaffinity(0))) as pool:
        wanted = [*pool.map(by_program, [it for _, it in cases])]
    # (only then, because Chromium is not heard while processes begin beside it)
    came = [it for part in parts(it for _, it in cases) for it in tab.look("given", part)]
    wrong = [(it[0], one, other) for it, one, other in zip(cases, wanted, came) if one != other]
    ends = Counter(outcome(it) for case in wanted for it in case)
    print(f"{len(cases)} {name} compared, {len(wrong)} differ; {ends.total()} calls: ", end="")
    print(", ".join(f"{count} {it}" for it, count in ends.most_common()), flush=True)
    for it in wrong[:5]:
        print(*it, sep="\n  ")
    return len(wrong)


def cases():
    """The cases that can be asked, and how many there are in all."""
    known = [(name, asked(files, head)) for name, files, head in cases_of.cases([])]
    return [it for it in known if it[1]], len(known)


def random_cases(count, language):
    """Random programs, each built and run; of every fifth the faults and warnings, of every fifth the listing."""
    words = json.loads(language.read_text())
    for seed in range(count):
        text, given = random_programs.program(seed, words)
        more = {0: [step_of("check", ["a.s"], {"a.s"})], 1: [step_of("list", ["a.s"], {"a.s"})]}.get(seed % 5, [])
        run = {"verb": "run", "names": ["exe"], "limit": LIMIT, "input": letters(given)}
        steps = [*more, step_of("build", ["a.s", "-o", "exe"], {"a.s"}), run]
        yield f"random {seed}", {"files": {"a.s": letters(text.encode())}, "steps": steps}
