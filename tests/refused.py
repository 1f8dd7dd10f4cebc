#!/usr/bin/env python3
"""Refuses each request for memory of ./rv, and of each call of the library, in turn, and looks at what is answered.

usage: refused.py [WORD ..]     only cases whose names begin so, as `ld` or `run echo_four` or `step`

A case is a command of ./rv, or a call that ./rv_refusal_tests makes (crates/rv_refusal_tests), and a source. It runs
once as it is, which gives the ordinary answer and the count of requests; then once for each number up to that count
with that request refused (refuse.c), and once with the number after it. Of a command is wanted `rv: out of memory` with
status 1, no output but whole lines of a trace or whole packets for gdb, no input taken but packets, and no file left,
or, where it has begun a case of `test` or a call of `batch`, that this one fails so; of a call that it answers so, and
gives the ordinary answer when it is made again. In the end the ordinary answer is wanted. A text of more than 64 KiB is
written as it comes; no case has one. One line for each other answer. Needs a C compiler, `cc`, and glibc; the last line
is 'N passed, M failed'.
"""

import json
import os
import re
import subprocess
import sys
import tempfile
from concurrent.futures import ThreadPoolExecutor
from dataclasses import dataclass, replace
from pathlib import Path

from against.gdb_packets import framed
from archives import archive_of

TESTS = Path(__file__).resolve().parent
RV, LIBRARY = TESTS.parent / "rv", TESTS.parent / "rv_refusal_tests"
SECONDS = 60
START = ".globl _start; _start: "
EXIT = "li a7, 93; ecall"


@dataclass
class Source:
    """A program: its files, of a line each, what its run gives, the end that it comes to, and its input; or its fault.
    Its links are made with the options."""

    files: list
    status: int = 0
    console: bytes = b""
    end: str = ""
    given: bytes = b""
    fault: str = ""
    options: tuple = ()


SOURCES = {
    "exit7": Source([f".option norvc; {START}li a0, 7; {EXIT}"], status=7),
    "hello": Source(
        [
            f"{START}li a0, 1; la a1, msg; li a2, 5; li a7, 64; ecall; li a0, 0; {EXIT}; "
            '.section .rodata; msg: .ascii "hello"'
        ],
        console=b"hello",
    ),
    "far_tail": Source([f"{START}tail f; {1021 * 'nop; '}f: {EXIT}"]),
    "two_files": Source(
        [
            f"{START}li a0, 0; loop: addi a0, a0, 1; li t0, 3; blt a0, t0, loop; tail f",
            f".globl f, loop; f: loop: addi a0, a0, 4; li t0, 10; blt a0, t0, loop; {EXIT}",
        ],
        status=11,
    ),
    "echo_four": Source(
        [
            f"{START}li a0, 0; la a1, b; li a2, 4; li a7, 63; ecall; mv a2, a0; li a0, 1; li a7, 64; ecall; "
            f"li a0, 0; {EXIT}; "
            ".bss; b: .zero 4"
        ],
        console=b"abcd",
        given=b"abcdef",
    ),
    "outside": Source(
        [f"{START}li a0, 1; la a1, b; li a2, 1; li a7, 64; ecall; ld a0, (zero); .data; .weak b; b: .byte 'b'"],
        console=b"b",
        status=125,
        end="LoadOutside 0",
    ),
    "left_out": Source(
        [
            f'{START}call f; {EXIT}; .section .text.g, "ax"; g: la a0, d; ret; .data; d: .dword 9',
            '.globl f; .section .text.f, "ax"; f: li a0, 4; ret; .bss; .zero 8',
        ],
        status=4,
        options=("--gc-sections",),
    ),
    "deep_expression": Source(
        [
            f"{START}li a0, 1-(2-(3-(4-(5-(6-(7-(8-(9-10)))))))) + 10; {EXIT}; "
            ".data; .dword 1+(2+(3+(4+(5+(6+(7+(8+(9+d)))))))); d:"
        ],
        status=5,
        options=("--no-relax",),
    ),
    "many_names": Source(
        [
            f".set x, 2; .weak w; .globl v; {START}1: li a0, x; .option push; .option norvc; beqz a0, 1b; .option pop; "
            f".set x, 5; 2: li a0, x; j 3f; .balign 16; 3: {EXIT}; "
            ".data; 1: .half 7; v: .half x, v - 1b; 1: .balign 8; d: .dword d, w; .set z, . - d"
        ],
        status=5,
        options=("--no-relax",),
    ),
    "undefined": Source([f"{START}call f; call _g"], fault="L5 Undefined f"),
    "twice": Source([f"{START}{EXIT}", ".globl _start; _start: nop"], fault="L6 Duplicate _start"),
    "no_operands": Source([f"{START}addi a0, a1; {EXIT}"], fault="1.s:1: E7 BadOperands"),
}
OF_FIRST_FILE = ("read_object", "write_object")
# What gdb asks of the run of `echo_four`, which reads four bytes to BUFFER and writes them: points, steps on and back,
# what stops at the read, the run back from there, writes, after which a new run begins there, and the end.
BUFFER = "11000"
SESSION = f"""
    qSupported:multiprocess+;swbreak+ ? vCont? Hg0 qC qfThreadInfo qXfer:features:read:target.xml:0,200 g p2 m10000,8
    Z0,10002,4 c s g bs p20 z0,10002,4 Z2,{BUFFER},4 c m{BUFFER},4 bc vCont;c p20 bs m{BUFFER},4 s
    P10=0100000000000000 M{BUFFER},2:7a79 m{BUFFER},4 G00 qRcmd,7374617473
    qRcmd,6c696d69742039 vCont;s:1 c g k
""".split()
PACKETS = re.compile(rb"(?:\+|\$[^#]*#[0-9a-f]{2})*")


@dataclass(frozen=True)
class Answer:
    """What a call gave: its status, what it wrote, how much of its input it took, and the files that it left."""

    status: int
    out: bytes
    message: str
    taken: int
    left: tuple

    def __str__(self):
        ended = f"signal {-self.status}" if self.status < 0 else f"status {self.status}"
        parts = [ended, self.message.strip().replace("\n", " / ") or "nothing said"]
        parts += [f"{len(self.out)} bytes of output, {self.out[:40]!r} .."] if self.out else []
        parts += [f"{self.taken} bytes of input taken"] if self.taken else []
        parts += [f"{name} left" for name, _ in self.left]
        return ", ".join(parts)


REFUSED = Answer(1, b"", "rv: out of memory\n", 0, ())


@dataclass
class Case:
    """A call of a program in the folder `at`, where its files are, and the answer that is wanted of it."""

    name: str
    words: list
    at: Path
    given: bytes
    wanted: Answer

    @property
    def is_of_library(self):
        return self.words[0] == LIBRARY

    def answer(self, shim=None, number=0, count=None):
        """Runs the call in a new folder, with a request refused."""
        set_by = {"LD_PRELOAD": str(shim), "REFUSE": str(number)} if shim else {}
        set_by.update({"REQUESTS": str(count)} if count else {})
        set_by.update({"MARKED": "1"} if self.is_of_library else {})
        with tempfile.TemporaryDirectory() as folder, tempfile.TemporaryFile() as given:
            given.write(self.given)
            given.flush()
            os.lseek(given.fileno(), 0, os.SEEK_SET)
            process = subprocess.run(
                self.words, cwd=folder, stdin=given, capture_output=True, timeout=SECONDS, env={**os.environ, **set_by}
            )
            taken = os.lseek(given.fileno(), 0, os.SEEK_CUR)
            # (what -g adds has the path of the folder, which is as long each time)
            here = os.fsencode(os.path.realpath(folder))
            left = tuple((it.name, it.read_bytes().replace(here, b"")) for it in sorted(Path(folder).iterdir()))
        message = process.stderr.decode("utf8", "replace").replace(f"{self.at}/", "")
        return Answer(process.returncode, process.stdout, message, taken, left)

    def requests(self, shim):
        """How many requests for memory the call makes."""
        with tempfile.NamedTemporaryFile("r") as count:
            self.answer(shim, 0, count.name)
            return int(count.read() or 0)

    def refused(self):
        """The answer that is wanted where a request is refused."""
        if self.is_of_library:
            return replace(self.wanted, out=self.wanted.out.replace(b"begin\n", b"begin\nmemory\n", 1))
        return REFUSED

    def wrong(self, wanted, shim=None, number=0):
        """The line of an answer that is not wanted, or nothing."""
        came = self.answer(shim, number)
        is_wanted = came == wanted or (wanted == REFUSED and self.was_begun(came))
        return None if is_wanted else f"{self.name}: request {number}: {came}"

    def was_begun(self, came):
        """Whether an answer was begun, and tells then that memory ran out."""
        kinds = {"trace": self.has_lines, "test": self.has_failed, "batch": self.has_answer, "gdb": self.has_packets}
        begun = kinds.get(self.words[1])
        return begun is not None and begun(came)

    def has_lines(self, came):
        """Whether whole lines of a run were told, and then that memory ran out."""
        lines, told, rest = came.message.partition(REFUSED.message)
        is_part = lines.endswith("\n") and self.wanted.message.startswith(lines)
        return is_part and not rest and replace(came, message=told) == REFUSED

    def has_packets(self, came):
        """Whether whole packets were sent, and then that memory ran out."""
        is_part = self.wanted.out.startswith(came.out) and PACKETS.fullmatch(came.out) is not None
        return is_part and replace(came, out=b"", taken=0) == REFUSED

    def has_failed(self, came):
        """Whether the one case failed, because memory ran out."""
        lines = f"{self.words[2]}/1.s: out of memory\n0 passed, 1 failed\n".encode()
        return came == Answer(1, lines, "", 0, ())

    def has_answer(self, came):
        """Whether the one call is answered by that memory ran out, beside parts of the ordinary answer."""
        if came != replace(self.wanted, out=came.out):
            return False
        answer, ordinary = json.loads(came.out), json.loads(self.wanted.out)
        told = answer.pop("error", ""), answer.pop("status", 0)
        return told == ("out of memory", 1) and all(ordinary.get(key) == answer[key] for key in answer)


def output_of(at, *words):
    """What ./rv writes to standard output for a call that makes what cases begin with, or are compared with."""
    return subprocess.run([RV, *words], cwd=at, check=True, timeout=SECONDS, stdout=subprocess.PIPE).stdout


def ordinary(words, at, given=b""):
    """The answer of a call of ./rv that has to succeed and to say nothing, where its program does not end it."""
    return replace(Case("", [RV, *words], at, given, None).answer(), status=0, message="")


def written(at, texts, options):
    """What ./rv makes of sources: the file of each object, the executable, its map and its listing."""
    for text in texts:
        output_of(at, "as", "-o", text.replace(".s", ".o"), text)
    output_of(at, "build", *options, "-o", "exe", "--map", "map", *texts)
    files = [(at / it).read_bytes() for it in (*[it.replace(".s", ".o") for it in texts], "exe", "map")]
    return *files, output_of(at, "objdump", "--map", "map", "exe")


def raw_listing(at):
    """The raw listing of what ./rv made of sources, or nothing where it has none."""
    return subprocess.run(
        [RV, "objdump", "--raw", "exe"], cwd=at, timeout=SECONDS, stdout=subprocess.PIPE, stderr=subprocess.PIPE
    ).stdout


def commands(name, source, at, texts):
    """The cases of a source's commands, each with files that are wanted of it, and output."""
    *objects, exe, map_, listing = written(at, texts, source.options)
    paths = [*source.options, *[str(at / it) for it in texts]]
    message = f"rv: {source.end}\n" if source.end else ""
    ran = Answer(source.status, source.console, message, min(len(source.console), len(source.given)), ())
    wrote = lambda **files: Answer(0, b"", "", 0, tuple(files.items()))
    shown = lambda out: Answer(0, out, "", 0, ())
    dump = output_of(at, "dump", "exe")
    objs = [str(at / it.replace(".s", ".o")) for it in texts]
    looked = [
        ["size", *objs],
        ["nm", objs[0]],
        ["nm", "--map", str(at / "map"), str(at / "exe")],
        ["elf", objs[0]],
        ["dis", objs[0]],
        ["dis", "--map", str(at / "map"), str(at / "exe")],
        ["list", *paths],
    ]
    calls = [
        (f"as {name}" + f" {text}" * (len(texts) > 1), ["as", "-o", "obj", path], wrote(obj=held))
        for text, path, held in zip(texts, paths[len(source.options) :], objects)
    ]
    calls += [
        (
            f"ld {name}",
            ["ld", "-o", "exe", "--map", "map", *[it.replace(".s", ".o") for it in paths]],
            wrote(exe=exe, map=map_),
        ),
        (f"build --map {name}", ["build", "-o", "exe", "--map", "map", *paths], wrote(exe=exe, map=map_)),
        (f"build {name}", ["build", "-o", "exe", *paths], wrote(exe=exe)),
        (f"run {name}", ["run", str(at / "exe")], ran),
        (f"objdump {name}", ["objdump", "--map", str(at / "map"), str(at / "exe")], shown(listing)),
        (f"map {name}", ["map", *paths], shown(map_)),
        (f"dump {name}", ["dump", str(at / "exe")], shown(dump)),
        (f"check {name}", ["check", *paths], shown(output_of(at, "check", *paths))),
        (f"explain {name}", ["explain"], shown(output_of(at, "explain"))),
        (f"explain E14 {name}", ["explain", "E14"], shown(output_of(at, "explain", "E14"))),
    ]
    calls += [(f"{it[0]} {name} {number}", it, shown(output_of(at, *it))) for number, it in enumerate(looked)]
    raw = raw_listing(at)
    calls += [(f"objdump --raw {name}", ["objdump", "--raw", str(at / "exe")], shown(raw))] if raw else []
    # (a run of sources takes no options of the link)
    calls += [(f"run of sources {name}", ["run", *paths], ran)] if not source.options else []
    calls += [(f"run --board {name}", ["run", "--board", "virt", *paths], ran)] if name == "exit7" else []
    shells = [["completions", shell] for shell in ("bash", "zsh", "fish")] if name == "exit7" else []
    calls += [(f"{' '.join(it)} {name}", it, shown(output_of(at, *it))) for it in shells]
    calls += watched(name, source, at, paths) if name in ("exit7", "two_files") else []
    calls += images(name, at) if name == "hello" else []
    if name == "two_files":
        (at / "x.a").write_bytes(archive_of([("2.o", objects[1])]))
        library, outputs = ["--library", str(at / "x.a")], ["-o", "exe", "--map", "map"]
        calls += [(f"ld of an archive {name}", ["ld", *outputs, objs[0], *library], wrote(exe=exe, map=map_))]
        known = [("build -g", paths), ("build -g with an archive", [paths[0], *library])]
        known = [(called, ["build", "-g", *outputs, *files]) for called, files in known]
        known += named(at, paths, outputs)
        calls += [(f"{called} {name}", words, ordinary(words, at)) for called, words in known]
    for called, words, wanted in calls:
        yield Case(called, [RV, *words], at, source.given if wanted is ran else b"", wanted)
    if name == "echo_four":
        yield from of_loops(name, source, at)
        yield of_gdb(name, source, at)


def named(at, paths, outputs):
    """Calls with -g of an object of a source and of objects that name theirs, one by a path below a directory."""
    objects = [str(at / f"named{number}.o") for number in range(len(paths))]
    for made, path in zip(objects, [Path(paths[0]).name, *paths[1:]]):
        output_of(at, "as", "-g", "-o", made, path)
    return [("as -g", ["as", "-g", "-o", "obj", paths[0]]), ("ld -g", ["ld", "-g", *outputs, *objects])]


def of_loops(name, source, at):
    """A folder with one case, and a call for an answer; both runs read input, and write to the console."""
    folder = at / "cases"
    folder.mkdir()
    head = f"# input: {source.given.decode()}\n# console: {source.console.decode()}\n"
    (folder / "1.s").write_text(head + source.files[0] + "\n")
    yield Case(f"test {name}", [RV, "test", folder], at, b"", Answer(0, b"1 passed, 0 failed\n", "", 0, ()))
    wants = ["console", "end", "count", "map", "faults"]
    whole = {"id": [1], "sources": [source.files[0]], "input": source.given.decode(), "want": wants}
    for called, call in (("batch", whole), ("batch of no call", {"source": ""})):
        given = json.dumps(call).encode() + b"\n"
        process = subprocess.run([RV, "batch"], input=given, check=True, timeout=SECONDS, stdout=subprocess.PIPE)
        yield Case(f"{called} {name}", [RV, "batch"], at, given, Answer(0, process.stdout, "", len(given), ()))


def of_gdb(name, source, at):
    """A session of gdb, whose packets come all at once."""
    (at / "input").write_bytes(source.given)
    words = ["gdb", "--input", str(at / "input"), str(at / "1.s")]
    # (a `-` asks for the answer before it again)
    given = b"-".join(framed(it.encode()) for it in SESSION)
    return Case(f"gdb {name}", [RV, *words], at, given, ordinary(words, at, given))


def images(name, at):
    """The images of an executable in each format, with gaps and with gaps filled."""
    for options in (["--bin"], ["--ihex"], ["--srec"], ["--vhex"], ["--ihex", "--fill", "0xa5"]):
        words = ["image", *options, "-o", "image"]
        output_of(at, *words, "exe")
        wanted = Answer(0, b"", "", 0, (("image", (at / "image").read_bytes()),))
        yield " ".join([*words[:-2], name]), [*words, str(at / "exe")], wanted


def watched(name, source, at, paths):
    """Runs of a source that are looked at; they take memory while the guest runs, so it is one that writes nothing."""
    calls = [
        (source.status, ["stats", "--lines"]),
        (source.status, ["trace"]),
        (source.status, ["trace", "--events"]),
        (125, ["run", "--report", "--limit", "1"]),
    ]
    for status, words in calls:
        told = subprocess.run([RV, *words, *paths], timeout=SECONDS, stderr=subprocess.PIPE).stderr.decode()
        wanted = Answer(status, b"", told.replace(f"{at}/", ""), 0, ())
        yield " ".join([*words, name]), [*words, *paths], wanted


def faulty(name, source, at, texts):
    """The cases of a source that is refused for a fault."""
    paths = [str(at / it) for it in texts]
    for words in (["build", "-o", "exe", "--map", "map"], ["build", "-o", "exe"], ["map"]):
        wanted = Answer(1, b"", f"rv: {source.fault}\n", 0, ())
        yield Case(" ".join([words[0], name]), [RV, *words, *paths], at, b"", wanted)
    for words in (["check"], ["check", "--format=gcc"], ["check", "--format=json"]):
        shown = subprocess.run([RV, *words, *paths], cwd=at, timeout=SECONDS, stdout=subprocess.PIPE).stdout
        yield Case(" ".join([*words, name]), [RV, *words, *paths], at, b"", Answer(1, shown, "", 0, ()))
    words = ["build", "--explain", "-o", "exe"]
    told = subprocess.run([RV, *words, *paths], cwd=at, timeout=SECONDS, stderr=subprocess.PIPE).stderr.decode()
    yield Case(
        f"build --explain {name}", [RV, *words, *paths], at, b"", Answer(1, b"", told.replace(f"{at}/", ""), 0, ())
    )


def of_bad_files(name, at):
    """The cases of files that are refused: cut off after 100 bytes, or no map."""
    for it in ("1.o", "exe"):
        (at / f"cut_{it}").write_bytes((at / it).read_bytes()[:100])
    calls = [
        ("cut_1.o: F1 Truncated", ["ld", "-o", "made", str(at / "cut_1.o")]),
        ("cut_exe: F1 Truncated", ["run", str(at / "cut_exe")]),
        ("1.s: not a map", ["objdump", "--map", str(at / "1.s"), str(at / "exe")]),
    ]
    for fault, words in calls:
        wanted = Answer(1, b"", f"rv: {fault}\n", 0, ())
        yield Case(f"{words[0]} of a bad file {name}", [RV, *words], at, b"", wanted)


def of_library(name, source, at, texts):
    """The cases of the library's calls: what ./rv_refusal_tests is given, and what it writes."""
    *objects, exe, map_, listing = written(at, texts, source.options)
    end = f"{source.end or f'Exited {source.status}'}\n".encode() + source.console
    built = exe.hex().encode() + b"\n" + map_
    left = f"{max(len(source.given) - len(source.console), 0)} bytes of input left\n".encode()
    wanted = {
        "build": built,
        "link_objects": built,
        "run_exec": end,
        "run_io": left + end,
        "listing": listing,
        "read_map": map_,
        "write_map": map_,
    }
    raw = raw_listing(at)
    wanted.update({"raw_listing": raw} if raw else {})
    # a step asks for memory where it writes to the console
    wanted.update({"step": end} if source.console else {})
    calls = [(call, name, source.files, held) for call, held in wanted.items()]
    for at_file, (text, held) in enumerate(zip(texts, objects)):
        which = f"{name} {text}" if len(texts) > 1 else name
        first = source.files[at_file:] + source.files[:at_file]
        calls += [(call, which, first, held.hex().encode() + b"\n") for call in OF_FIRST_FILE]
    for call, which, files, held in calls:
        given = b"\n".join([call.encode(), source.given, *[it.encode() for it in files]]) + b"\n"
        yield Case(f"{call} {which}", [LIBRARY], at, given, Answer(0, b"begin\nanswer\n" + held, "", len(given), ()))


def cases(name, source, at):
    """The cases of a source, whose files are written to a folder."""
    texts = [f"{number}.s" for number in range(1, len(source.files) + 1)]
    for text, held in zip(texts, source.files):
        (at / text).write_text(held + "\n")
    if source.fault:
        return [*faulty(name, source, at, texts)]
    if source.options:
        return [*commands(name, source, at, texts)]
    return [*commands(name, source, at, texts), *of_bad_files(name, at), *of_library(name, source, at, texts)]


def wrong_at_the_limit(at):
    """What `read_whole`, which also reads the files of ./rv, answers at its limit: ./rv_refusal_tests takes an input of
    1 MiB, empty lines at its end, and none of a byte more."""
    lines = f"write_map\n\n{SOURCES['exit7'].files[0]}"
    for size, status in ((1 << 20, 0), ((1 << 20) + 1, 1)):
        given = lines.encode().ljust(size, b"\n")
        came = Case("", [LIBRARY], at, given, None).answer()
        said = "" if status == 0 else "rv_refusal_tests: no answer\n"
        right = (came.status, came.message) == (status, said)
        yield None if right else f"an input of {size} bytes: {came}"


def main(names):
    for it in (RV, LIBRARY):
        if not it.exists():
            sys.exit(f"no ./{it.name}: run make {it.name} first")
    lines = []
    with tempfile.TemporaryDirectory() as folder, ThreadPoolExecutor(len(os.sched_getaffinity(0))) as pool:
        shim = Path(folder, "refuse.so")
        subprocess.run(["cc", "-shared", "-fPIC", "-O1", "-o", shim, TESTS / "refuse.c"], check=True)
        for name, source in SOURCES.items():
            at = Path(folder, name)
            at.mkdir()
            for case in cases(name, source, at):
                if names and not any(case.name.startswith(it) for it in names):
                    continue
                count = case.requests(shim)
                lines += [case.wrong(case.wanted), None if count else f"{case.name}: no request was counted"]
                for number in range(1, count + 2):
                    wanted = case.refused() if number <= count else case.wanted
                    lines.append(pool.submit(case.wrong, wanted, shim, number))
        lines += [] if names else wrong_at_the_limit(Path(folder))
        lines = [it.result() if hasattr(it, "result") else it for it in lines]
    for it in filter(None, lines):
        print(it)
    failed = sum(it is not None for it in lines)
    print(f"{len(lines) - failed} passed, {failed} failed")
    return 1 if failed or not lines else 0


if __name__ == "__main__":
    sys.exit(main(sys.argv[1:]))
