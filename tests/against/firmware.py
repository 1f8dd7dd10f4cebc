"""Reads images of executables back with GNU objcopy: each format gives the bytes of the raw binary.

usage: compare.py firmware SOURCE ..    (with ./rv and riscv64-unknown-elf-objcopy)

Of each source, at two addresses, with gaps filled and without. GNU's verilog format is written only, so that text is
read here. The last line is 'N read back, M differ'.
"""

import sys
import tempfile
from pathlib import Path

from against.common import GNU, RV, need, succeeds

OBJCOPY = f"{GNU}objcopy"
READ_BACK = {"ihex": "ihex", "srec": "srec"}
STARTS = ("0x10000", "0x20fff000")


def memory_of(text):
    """The bytes at addresses that a text for $readmemh gives."""
    found = {}
    for line in text.splitlines():
        address = int(line.split()[0][1:], 16)
        found.update((address + at, int(byte, 16)) for at, byte in enumerate(line.split()[1:]))
    return found


def read_memory_text(path, fill):
    """The bytes of such a text from its lowest address on, with `fill` in the gaps."""
    memory = memory_of(path.read_text())
    if not memory:
        return b""
    return bytes(memory.get(at, fill) for at in range(min(memory), max(memory) + 1))


def images_agree(folder, exe, filled):
    """How many formats give the bytes of the raw binary, and how many don't."""
    fill = ["--fill", "0xa5"] if filled else []
    byte = 0xA5 if filled else 0
    succeeds([RV, "image", "--bin", *fill, "-o", folder / "raw", exe])
    wanted, good, bad = (folder / "raw").read_bytes(), 0, 0
    for name, kind in READ_BACK.items():
        text, back = folder / name, folder / f"{name}.bin"
        succeeds([RV, "image", f"--{name}", *fill, "-o", text, exe])
        gap = ["--gap-fill", str(byte)]
        agrees = succeeds([OBJCOPY, "-I", kind, "-O", "binary", *gap, text, back]) and back.read_bytes() == wanted
        good, bad = good + agrees, bad + (not agrees)
    succeeds([RV, "image", "--vhex", *fill, "-o", folder / "vhex", exe])
    agrees = read_memory_text(folder / "vhex", byte) == wanted
    return good + agrees, bad + (not agrees)


def main():
    need(RV, OBJCOPY)
    good, bad = 0, 0
    with tempfile.TemporaryDirectory() as folder:
        exe = Path(folder) / "exe"
        for source in sys.argv[1:]:
            for start in STARTS:
                if not succeeds([RV, "build", "--text-start", start, "-o", exe, source]):
                    continue
                for filled in (False, True):
                    same, other = images_agree(Path(folder), exe, filled)
                    good, bad = good + same, bad + other
                    if other:
                        print(f"{source} at {start}: {other} formats differ")
    print(f"{good} read back, {bad} differ")
    return bad != 0
