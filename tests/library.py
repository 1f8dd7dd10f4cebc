#!/usr/bin/env python3
"""Programs in C, C++, Rust and Python call librv, and what comes of the calls is right.

usage: library.py [FOLDER]    (that of librv; out/library if it is there, else out/quick-library)

Expected values come from the worked rows of the definitions (crates/rv_examples), from GNU's tools and from
qemu-riscv64, and random arguments go to each function under valgrind, ASan and UBSan (tests/against/library_calls.py);
what is not installed is passed over, with a line. Standard library alone; the last line is 'N passed, M failed'.
"""

import importlib.util
import json
import os
import re
import shutil
import subprocess
import sys
import tempfile
from concurrent.futures import ThreadPoolExecutor
from pathlib import Path

from against import library_calls

TOP = Path(__file__).resolve().parent.parent
FOLDERS = ("out/library", "out/quick-library")
EXAMPLES = TOP / "examples/library"
GNU = "riscv64-unknown-elf-"
SUM = TOP / "examples/sum.s"
# How refusals.c stands between the library and malloc.
WRAPPED = ["-Wl,--wrap=malloc,--wrap=realloc,--wrap=free"]
# What the programs print for examples/sum.s: it adds 2, 3 and 4 to 1, and exits.
C_SAYS = """\
end 0, code 10
   3     1000c:  addi a0,a0,4             a0 = 6
   4     10010:  addi a7,zero,93          a0 = 10
   5     10014:  ecall                    a0 = 10
"""
RUST_SAYS = """\
exit Some(10)
  5    10014: ecall                a0 = 10
  4    10010: addi a7,zero,93      a0 = 10
  3    1000c: addi a0,a0,4         a0 = 6
  2    10008: addi a0,a0,3         a0 = 3
  1    10004: addi a0,a0,2         a0 = 1
  0    10000: addi a0,zero,1       a0 = 0
"""
# What grade.py says of sum.s and of the sources below.
GRADES = """\
sum.s: right, in 6 instructions
wrong.s: exits with 7
endless.s: does not exit: LIMIT after 100 instructions
faulty.s: line 2: """
WRONG = ".globl _start\n_start: li a0, 7\nli a7, 93\necall\n"
ENDLESS = ".globl _start\n_start: j _start\n"
FAULTY = ".globl _start\n_start: lo a0, 7\n"
X = "li a7, 93; ecall\n"
# The ends of worked rows: a source, the kind of the end, and its code or its address.
ENDS = (
    (f"_start: li a0, 7; {X}", "EXITED", 7),
    (f"_start: li a0, 1; call f; {X} f: slli a0, a0, 3; ret\n", "EXITED", 8),
    ("_start: li t0, 0xfff9; sd zero, 0(t0)\n", "STORE_TEXT", 0xFFF9),
    ("_start: la t0, _start; lw t1, 0(t0)\n", "LOAD_TEXT", 0x10000),
    ("_start: addi t0, sp, -16; jr t0\n", "FETCH_OUTSIDE", 0x3FFFFFF0),
    ("_start: sd zero, -4(sp)\n", "STORE_OUTSIDE", 0x3FFFFFFC),
    ("_start: ebreak\n", "BREAKPOINT", 0),
    (f"_start: li t0, -7; li t1, 2; rem a0, t0, t1; addi a0, a0, 2; {X}", "EXITED", 1),
)
# Of the cases of tests/ one in so many is tried, if its sources are not longer than this; the most instructions of
# its run.
EACH, LONG, LIMIT = 12, 100_000, 100_000
# How many seeds make random calls.
SEEDS = 10
# Sources that GNU as assembles as well, one instruction a line.
CODE = "addi a0, a1, -3\nsd s0, 16(sp)\nlui t0, 0x12345\nmul a2, a3, a4\namoswap.w.aq t0, t1, (a0)\nsraiw a5, a5, 3\n"


def ran(words, folder, **more):
    """The status of a command in a folder, and all that it writes."""
    how = {"stdout": subprocess.PIPE, "stderr": subprocess.STDOUT, "stdin": subprocess.DEVNULL, "text": True}
    process = subprocess.run([str(it) for it in words], cwd=folder, timeout=600, **how, **more)
    return process.returncode, process.stdout


def library():
    """The folder of librv."""
    for it in sys.argv[1:] or FOLDERS:
        if (TOP / it / "librv.so").exists():
            return TOP / it
    sys.exit("no librv: run make library first")


def made(made_by, folder, name, wanted, words=(), **more):
    """Whether a compiler makes a program, and this says what is wanted."""
    status, message = ran(made_by, folder)
    yield f"{name} is made", status == 0 and not message, message
    if status == 0:
        status, message = ran([folder / "program", *words], folder, **more)
        yield name, status == 0 and message == wanted, message


def in_c(rv, folder, environment):
    """The programs in C and C++, over the shared library and over the archive."""
    flags = ["-std=c11", "-Wall", "-Wextra", "-Werror", f"-I{TOP}/include", "-o", "program"]
    shared, archive = [f"-L{rv}", "-lrv"], [rv / "librv.a"]
    steps = EXAMPLES / "c/steps.c"
    yield from made(["cc", *flags, steps, *shared], folder, "steps.c", C_SAYS, [SUM], env=environment)
    yield from made(["cc", *flags, steps, *archive], folder, "steps.c with librv.a", C_SAYS, [SUM])
    for name, more in (("calls.c", []), ("refusals.c", WRAPPED)):
        status, message = ran(["cc", *flags, TOP / "tests/library" / name, *archive, *more], folder)
        yield f"{name} is made", status == 0 and not message, message
        status, message = ran([folder / "program"], folder)
        yield name, status == 0 and message.endswith(" 0 failed\n"), message
    if not shutil.which("c++"):
        print("c++ is not there")
        return
    flags[0] = "-std=c++17"
    wanted = "the same, exit 42\nL5 Undefined twice\n"
    together = ["c++", *flags, EXAMPLES / "cpp/together.cpp", *shared]
    yield from made(together, folder, "together.cpp", wanted, env=environment)


def names(rv):
    """No name but those of rv.h is visible, and each of those is."""
    header = (TOP / "include/rv.h").read_text()
    wanted = sorted(re.findall(r"^uint32_t (rv_\w+)\(", header, re.M))
    for file, words in (("librv.so", ["-D", "--defined-only"]), ("librv.a", ["-g", "--defined-only"])):
        status, message = ran(["nm", *words, rv / file], rv)
        found = sorted(it.split()[-1].split("@")[0] for it in message.splitlines() if re.search(r" [TDBRVW] ", it))
        yield f"the names of {file}", status == 0 and found == wanted, message
    status, message = ran(["readelf", "-d", rv / "librv.so"], rv)
    version = re.search(r'RV_VERSION "(\d+)', header)[1]
    yield "the name of librv.so", f"[librv.so.{version}]" in message, message


def in_rust(rv, folder, environment):
    """The crate in Rust."""
    if not shutil.which("cargo"):
        print("cargo is not there")
        return
    shutil.copytree(EXAMPLES / "rust", folder / "rust", ignore=shutil.ignore_patterns("target"))
    words = {**environment, "RV_LIB_DIR": str(rv)}
    status, message = ran(["cargo", "run", "--quiet", "--offline", "--", SUM], folder / "rust", env=words)
    yield "the crate in Rust", status == 0 and message == RUST_SAYS, message


def in_python(rv, folder, environment):
    """The package of Python, and its example."""
    words = {**environment, "PYTHONPATH": str(TOP / "python"), "RV_LIBRARY": str(rv / "librv.so")}
    for name, text in (("wrong.s", WRONG), ("endless.s", ENDLESS), ("faulty.s", FAULTY)):
        (folder / name).write_text(text)
    shutil.copy(SUM, folder)
    sources = ["sum.s", "wrong.s", "endless.s", "faulty.s"]
    status, message = ran([sys.executable, EXAMPLES / "python/grade.py", *sources], folder, env=words)
    yield "grade.py", status == 0 and message.startswith(GRADES), message
    status, message = ran([sys.executable, "-m", "doctest", TOP / "python/rv/__init__.py"], folder, env=words)
    yield "the examples in the package", status == 0 and not message, message
    if not importlib.util.find_spec("pip"):
        print("pip is not there")
        return
    pip = [sys.executable, "-m", "pip", "--disable-pip-version-check", "install", "--quiet", "--no-index"]
    status, message = ran([*pip, "--target", folder / "installed", TOP / "python"], folder)
    yield "pip installs the package", status == 0, message
    words["PYTHONPATH"] = str(folder / "installed")
    script = "import doctest, sys, rv; print(rv.__file__); sys.exit(doctest.testmod(rv).failed)"
    status, message = ran([sys.executable, "-c", script], folder, env=words)
    wanted = str(folder / "installed/rv/__init__.py\n")
    yield "the package that pip installs", status == 0 and message == wanted, message


def known(rv):
    """The package of this tree over this library."""
    os.environ["RV_LIBRARY"] = str(rv / "librv.so")
    sys.path.insert(0, str(TOP / "python"))
    import rv as package

    return package


def worked(rv):
    """Worked rows: bytes, ends, refusals and states."""
    exe = rv.build(f".option norvc\n.globl _start\n_start: li a0, 7\n{X}").executable
    text = exe[0x1000:]
    yield "the text of the first row", text.hex() == "130570009308d00573000000" and len(exe) == 4108, text.hex()
    short = rv.build(f".globl _start\n_start: li a0, 7\n{X}").executable[0x1000:]
    yield "its text in parcels", short.hex() == "1d459308d00573000000", short.hex()
    for source, kind, number in ENDS:
        end = rv.run(rv.build(".globl _start\n" + source).executable, limit=1000).end
        came = (end.kind.name, end.code or end.address)
        yield f"the end of {source!r}", came == (kind, number), str(end)
    first = "_start: li a0, 0\nloop: addi a0, a0, 1; li t0, 3; blt a0, t0, loop; tail f\n"
    second = f".globl f, loop\nf: loop: addi a0, a0, 4; li t0, 10; blt a0, t0, loop; {X}"
    both = rv.build(".globl _start\n" + first, second, map=True)
    objects = [rv.assemble(".globl _start\n" + first), rv.assemble(second)]
    yield "two sources", rv.run(both.executable).end.code == 11, ""
    yield "their objects", rv.link(*objects, map=True) == both, ""
    for name, call, code, line in (
        ("L5", lambda: rv.link(objects[0]), "L5", "L5 Undefined f"),
        ("L7", lambda: rv.build(), "L7", "L7 EntryMissing"),
        ("L6", lambda: rv.build(".globl f\nf:\n", second), "L6", "L6 Duplicate f"),
        ("E17", lambda: rv.assemble(b"\n" * (16 * 2**20 + 1)), "E17", "source 1:0: E17 Limit"),
        ("F1", lambda: rv.run(exe[:100]), "F1", "file 1: F1 Truncated"),
        ("F14", lambda: rv.link(exe), "F14", "file 1: F14 NotObject"),
        ("F11", lambda: rv.run(objects[0]), "F11", "file 1: F11 NotExecutable"),
    ):
        try:
            call()
            yield name, False, "not refused"
        except rv.Fault as fault:
            yield name, fault.code == code and str(fault) == line, str(fault)
    hello = f"_start: li a0, 1; la a1, msg; li a2, 5; li a7, 64; ecall; li a0, 0; {X}"
    exe = rv.build(".globl _start\n" + hello + '.section .rodata\nmsg: .ascii "hello"\n').executable
    consoles = [rv.state(exe, steps).console for steps in (0, 5, 6, 100)]
    yield "hello, step by step", consoles == [b"", b"", b"hello", b"hello"], str(consoles)
    ends = [rv.run(exe, limit=limit).end.kind.name for limit in (0, 8, 9)]
    yield "its limits", ends == ["LIMIT", "LIMIT", "EXITED"], str(ends)
    reads = "_start: li a0, 0; la a1, b; li a2, 4; li a7, 63; ecall; mv a2, a0; li a0, 1; li a7, 64; ecall; li a0, 0\n"
    exe = rv.build(f".globl _start\n{reads}{X}.bss\nb: .zero 4\n").executable
    came = [rv.run(exe, input=it).console for it in ("abcdef", "ab", "")]
    yield "its input", came == [b"abcd", b"ab", b""], str(came)
    after = rv.state(exe, 7, input="abcdef", address=rv.state(exe, 7).register("a1"), size=4)
    yield "its memory", after.memory == b"abcd" and set(after.rights) == {rv.Rights.READ | rv.Rights.WRITE}, str(after)
    try:
        rv.build(".globl _start\n", text_start=2**64)
        yield "a number that is too large", False, ""
    except ValueError:
        yield "a number that is too large", True, ""


def at_once(rv):
    """Threads that build and run programs of their own at the same time."""

    def code(number):
        return rv.run(rv.build(f".globl _start\n_start: li a0, {number}; {X}").executable).end.code

    with ThreadPoolExecutor(8) as pool:
        codes = [*pool.map(code, range(256))]
    yield "threads at once", codes == [*range(256)], str(codes)


def beside_gnu(rv, folder):
    """The objects and programs of GNU's tools, and what they show."""
    if not shutil.which(f"{GNU}as"):
        print(f"{GNU}as is not there")
        return
    (folder / "a.s").write_text(CODE)
    ran([f"{GNU}as", "-march=rv64ima", "-mabi=lp64", "-o", "a.o", "a.s"], folder)
    ran([f"{GNU}objcopy", "-O", "binary", "-j", ".text", "a.o", "a.bin"], folder)
    code = (folder / "a.bin").read_bytes()
    shown = "".join(f"{found.text}\n" for _, found in rv.disassembly(code) if found)
    (folder / "b.s").write_text(shown)
    status, message = ran([f"{GNU}as", "-march=rv64ima", "-mabi=lp64", "-o", "b.o", "b.s"], folder)
    ran([f"{GNU}objcopy", "-O", "binary", "-j", ".text", "b.o", "b.bin"], folder)
    yield "GNU as takes what is disassembled", status == 0 and (folder / "b.bin").read_bytes() == code, shown + message
    (folder / "c.s").write_text(f".globl _start\n_start: li a0, 5; call f; {X}.globl f\nf: addi a0, a0, 37; ret\n")
    ran([f"{GNU}as", "-march=rv64imac", "-mabi=lp64", "-o", "c.o", "c.s"], folder)
    linked = rv.link((folder / "c.o").read_bytes()).executable
    (folder / "linked").write_bytes(linked)
    (folder / "linked").chmod(0o755)
    yield "an object of GNU as", rv.run(linked).end.code == 42, ""
    if shutil.which("qemu-riscv64"):
        status, message = ran(["qemu-riscv64", folder / "linked"], folder)
        yield "it in qemu", status == 42, message
    status, _ = ran([f"{GNU}ld", "-o", "theirs", "c.o"], folder)
    theirs = (folder / "theirs").read_bytes()
    yield "an executable of GNU ld", status == 0 and rv.run(theirs).end.code == 42, ""


def random_calls(rv, librv, folder):
    """Random arguments of each function, under each tool that looks for wrong accesses."""
    for name, found, counts in library_calls.compared(rv, librv, folder, SEEDS):
        print("\n".join(library_calls.told(name, counts)), flush=True)
        yield f"random calls, {name}", not found, "\n".join(found)


def said(words, folder):
    """The status, standard output and the message of a command of ./rv, without `rv: `."""
    how = {"stdin": subprocess.DEVNULL, "capture_output": True, "cwd": folder, "timeout": 60}
    process = subprocess.run([TOP / "rv", *words], **how)
    message = process.stderr.decode("latin-1").splitlines()
    return process.returncode, process.stdout, message[-1].removeprefix("rv: ") if message else ""


def answer_of(call, names):
    """What a call gives, or the line of its fault with the names of the sources."""
    try:
        return call()
    except Exception as fault:
        line = re.sub(r"^source (\d+)", lambda it: names[int(it[1]) - 1], str(fault))
        return line.encode(errors="replace").decode("latin-1")


def end_line(end):
    """The end of a run as the program says it, nothing for an exit."""
    name = end.kind.name.title().replace("_", "")
    return "" if name == "Exited" else f"{name} {end.address:x}" if end.kind >= end.kind.ILLEGAL else name


def differs(rv, folder, files):
    """In what ./rv and the library differ for sources, if in something."""
    folder.mkdir()
    names, texts = [*files], [*files.values()]
    for name, text in files.items():
        (folder / name).write_bytes(text)
    status, _, line = said(["build", "-o", "exe", "--map", "map", *names], folder)
    built = answer_of(lambda: rv.build(*texts, map=True), names)
    if status:
        wanted = line
    else:
        wanted = rv.Built((folder / "exe").read_bytes(), (folder / "map").read_bytes().decode(errors="surrogateescape"))
    if built != wanted:
        return f"build: {built} and {wanted}"
    status, out, line = said(["list", *names], folder)
    listed = answer_of(lambda: rv.listing(*texts, names=names).encode(errors="surrogateescape"), names)
    if listed != (line if status else out):
        return f"list: {listed} and {line if status else out}"
    _, out, _ = said(["check", "--json", *names], folder)
    found = [rv.Finding(**json.loads(it)) for it in out.decode(errors="surrogateescape").splitlines()]
    if answer_of(lambda: rv.check(*texts, names=names), names) != found:
        return f"check: {found}"
    return None if isinstance(built, str) else runs_differ(rv, folder, built.executable, texts)


def runs_differ(rv, folder, executable, texts):
    """The same of the run of an executable, its state at the end, and of the link of its sources' objects."""
    _, out, line = said(["run", "--limit", str(LIMIT), "exe"], folder)
    ran = rv.run(executable, limit=LIMIT)
    last = rv.state(executable, LIMIT)
    if (ran.console, end_line(ran.end)) != (out, line):
        return f"run: {ran} and {out} {line}"
    if (last.console, last.end) != (ran.console, ran.end):
        return f"state: {last} and {ran}"
    before = rv.state(executable, max(last.count - 1, 0))
    if before.end.kind is not rv.EndKind.LIMIT or before.count != max(last.count - 1, 0):
        return f"the state before: {before}"
    linked = rv.link(*map(rv.assemble, texts)).executable
    return None if linked == executable else "link"


def beside_rv(rv, folder):
    """What ./rv writes for sources of the cases of tests/, and what the library gives for them."""
    if not (TOP / "rv").exists():
        print("./rv is not there")
        return
    sys.path.insert(0, str(TOP / "tests"))
    import run

    taken = [(name, files) for name, files, _ in run.cases([]) if all(it.endswith(".s") for it in files)]
    taken = [it for it in taken if sum(map(len, it[1].values())) < LONG][::EACH]
    with ThreadPoolExecutor() as pool:
        made = pool.map(lambda it: differs(rv, folder / f"case{it[0]}", it[1][1]), enumerate(taken))
        for (name, _), message in zip(taken, made):
            yield name, message is None, message or ""


def results(rv, folder):
    environment = {**os.environ, "LD_LIBRARY_PATH": str(rv)}
    yield from names(rv)
    yield from in_c(rv, folder, environment)
    yield from in_rust(rv, folder, environment)
    yield from in_python(rv, folder, environment)
    package = known(rv)
    yield from worked(package)
    yield from at_once(package)
    yield from random_calls(package, rv, folder)
    yield from beside_gnu(package, folder)
    yield from beside_rv(package, folder)


def main():
    passed = failed = 0
    with tempfile.TemporaryDirectory() as folder:
        for name, holds, message in results(library(), Path(folder)):
            passed += bool(holds)
            failed += not holds
            if not holds:
                print(f"{name}: {message.strip()}")
    print(f"{passed} passed, {failed} failed")
    return int(failed > 0)


if __name__ == "__main__":
    sys.exit(main())
