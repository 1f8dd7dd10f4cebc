"""What the comparisons share: where the program is, how tools are called, and the programs that csmith draws."""

import argparse
import os
import re
import shutil
import subprocess
import sys
import tempfile
from pathlib import Path

ROOT = Path(__file__).resolve().parents[2]
RV = ROOT / "rv"
# The header and the runtime of csmith's programs.
CSMITH = Path(__file__).resolve().parent / "csmith"
GNU = "riscv64-unknown-elf-"
QEMU = "qemu-riscv64"
FLAGS = f"-march=rv64imac -mabi=lp64 -ffreestanding -w -I{CSMITH} -I/usr/include/csmith".split()
# What the language leaves out: .comm, and .set of a name as another's, which GCC writes for equal constants.
LEFT_OUT = ["refused E9 .comm", "refused E13 .set"]
SECONDS = 60


def need(*tools):
    """Ends the script where a tool is not there."""
    for tool in tools:
        if shutil.which(tool) is None:
            sys.exit(f"{tool} is not there")


def completed(words, seconds=SECONDS, **more):
    """A tool's status and what it wrote; none where it does not end in time."""
    words = [str(word) for word in words]
    try:
        return subprocess.run(words, stdout=subprocess.PIPE, stderr=subprocess.PIPE, timeout=seconds, **more)
    except subprocess.TimeoutExpired:
        return None


def succeeds(words, **more):
    """Whether a tool does its work."""
    process = completed(words, **more)
    return process is not None and process.returncode == 0


def draw(folder, seed):
    """Draws the program of a seed, as folder/program.c; whether csmith can."""
    return succeeds(["csmith", "--seed", seed, "--no-argc", "-o", "program.c"], cwd=folder)


def assemblies(folder, flags, apart):
    """GCC's assembly of a program, one file, or two with the runtime apart; none where GCC fails."""
    gcc = [f"{GNU}gcc", *FLAGS, *flags.split(), "-S"]
    program, runtime = folder / "program.s", folder / "runtime.s"
    if not succeeds([*gcc, *(["-DAPART"] if apart else []), "-o", program, folder / "program.c"]):
        return None
    if not apart:
        return [program]
    return [program, runtime] if succeeds([*gcc, "-o", runtime, CSMITH / "runtime.c"]) else None


def gnu_link(folder, sources, *options):
    """Whether GNU's tools make an executable of the sources, as folder/theirs; ld takes the options."""
    objects = [source.with_suffix(".o") for source in sources]
    for source, assembled in zip(sources, objects):
        if not succeeds([f"{GNU}as", "-march=rv64imac", "-mabi=lp64", "-o", assembled, source]):
            return False
    ld = [f"{GNU}ld", "--no-warn-rwx-segments", *options, "-o", folder / "theirs"]
    # its own shortening of addresses fails at times ("relocation truncated to fit: R_RISCV_GPREL_I")
    return succeeds([*ld, *objects]) or succeeds([*ld, "--no-relax", *objects])


def run_by_qemu(program, seconds=SECONDS):
    """The end of a run under qemu."""
    return completed([QEMU, program], seconds, stdin=subprocess.DEVNULL)


def run_by_rv(options, program, times=1):
    """The end of a run by rv, of at most so many times the instructions that the words allow."""
    words = [options.rv, "run", "--limit", times * options.limit, program]
    return completed(words, 10 * SECONDS, stdin=subprocess.DEVNULL)


def outcome(process):
    """The status of a run and what it printed; none where it did not end."""
    return None if process is None else (process.returncode, process.stdout)


def is_limit(process):
    """Whether a run of rv came to its limit."""
    return process.returncode == 125 and process.stderr.startswith(b"rv: Limit")


def is_past_end(folder, process):
    """Whether a run of rv ended at a load that goes on past the end of a region of folder/map."""
    load = re.match(rb"rv: LoadOutside ([0-9a-f]+)", process.stderr)
    if process.returncode != 125 or load is None:
        return False
    regions = re.findall(r"^(?:rodata|data|bss) \S+ (\S+)$", (folder / "map").read_text(), re.M)
    start = int(load.group(1), 16)
    return any(start < int(end, 16) < start + 8 for end in regions)


def refusal(process):
    """How a program counts that rv does not build: the code, and the first word of a source's line."""
    message = process.stderr.decode(errors="replace")
    of_source = re.match(r"rv: (.*):(\d+): (E\d+) ", message)
    if process.returncode == 1 and of_source:
        path, line, code = of_source.groups()
        statement = Path(path).read_text().split("\n")[int(line) - 1]
        return f"refused {code} {statement.split()[0]}"
    of_link = re.match(r"rv: (L\d+) ", message)
    return f"refused {of_link.group(1)}" if process.returncode == 1 and of_link else "differs"


def keep(folder, seed, way, end, options):
    """Keeps the files of a program that differs, or that is refused for no reason known here."""
    if options.keep is None:
        options.keep = tempfile.mkdtemp(prefix="rv-random-")
    kept = Path(options.keep) / f"{seed}{way.replace(' ', '')}"
    shutil.copytree(folder, kept)
    print(f"{seed} {way}: {end}, kept in {kept}", flush=True)


def csmith_options(document, count, limit=20_000_000):
    """The words of a comparison over csmith's programs: how many it takes, up to which limit, by default."""
    words = argparse.ArgumentParser(description=document.split("\n")[0])
    words.add_argument("--first", type=int, default=1, metavar="SEED")
    words.add_argument("--count", type=int, default=count, metavar="N")
    words.add_argument("--jobs", type=int, default=processors(), metavar="N")
    words.add_argument("--limit", type=int, default=limit, metavar="N")
    words.add_argument("--keep", metavar="FOLDER")
    words.add_argument("--rv", default=str(RV), metavar="RV")
    return words.parse_args()


def random_parser(document, count=None, first=0):
    """Reads the words of a comparison over lists or files that a seed and a number draw."""
    words = argparse.ArgumentParser(description=document.split("\n")[0])
    words.add_argument("count", type=int, nargs=None if count is None else "?", default=count)
    words.add_argument("--seed", type=int, default=1)
    words.add_argument("--from", type=int, default=first, dest="first")
    words.add_argument("--only", type=int)
    words.add_argument("--jobs", type=int, default=processors())
    words.add_argument("--rv", type=Path, default=RV)
    return words


def numbers_of(options):
    """The numbers of the lists or files that the words name."""
    return range(options.first, options.first + options.count) if options.only is None else [options.only]


def processors():
    """How many processors there are for the comparison."""
    return len(os.sched_getaffinity(0))


def summary(counts, groups):
    """Prints how many of each group ended how; the status."""
    for group in groups:
        ends = sorted((end, count) for (its, end), count in counts.items() if its == group)
        print(f"{group}: " + ", ".join(f"{end} {count}" for end, count in ends))
    differing = sum(count for (_, end), count in counts.items() if end == "differs")
    print(f"differs={differing}")
    return 0 if differing == 0 else 1
