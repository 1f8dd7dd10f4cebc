"""Writes an object's file from lines, one a section, a relocation or a symbol; README.md says how they look."""

import re
import struct

# relocations by their names in the psABI, without R_RISCV_
# fmt: off
KINDS = {
    "NONE": 0, "32": 1, "64": 2, "BRANCH": 16, "JAL": 17, "CALL": 18, "CALL_PLT": 19, "PCREL_HI20": 23,
    "PCREL_LO12_I": 24, "PCREL_LO12_S": 25, "HI20": 26, "LO12_I": 27, "LO12_S": 28, "ADD8": 33, "ADD16": 34,
    "ADD32": 35, "ADD64": 36, "SUB8": 37, "SUB16": 38, "SUB32": 39, "SUB64": 40, "ALIGN": 43, "RVC_BRANCH": 44,
    "RVC_JUMP": 45, "RELAX": 51, "SUB6": 52, "SET6": 53, "SET8": 54, "SET16": 55, "SET32": 56, "32_PCREL": 57,
}
# fmt: on
SECTION = re.compile(
    r"section (?P<name>\S*) (?P<flags>[wax]+|-) (?P<align>\d+)(?: size (?P<size>\S+)|: ?(?P<bytes>[0-9a-f ]*))"
)
RELOC = re.compile(r"reloc (?P<place>\S+) (?P<kind>\w+)(?: (?P<symbol>[^+\s-]*)(?P<addend>[+-]\S+)?)?")
SYMBOL = re.compile(r"symbol (?P<name>\S*) (?P<binding>local|global|weak|\d+) (?P<where>\w+) (?P<value>\S+)")
FLAGS = {"w": 1, "a": 2, "x": 4, "-": 0}
BINDINGS = {"local": 0, "global": 1, "weak": 2}


def binding(word):
    """The number of a binding, by its name or as it stands."""
    return BINDINGS[word] if word in BINDINGS else int(word)


def parsed(text):
    """The flag of compressed code, the sections, each with its relocations, and the symbols, local ones first."""
    flags, sections, symbols = 0, [], []
    for line in filter(None, (it.strip() for it in re.split("[;\n]", text))):
        if line == "rvc":
            flags = 1
        elif it := SECTION.fullmatch(line):
            sections.append((it, []))
        elif it := RELOC.fullmatch(line):
            sections[-1][1].append(it)
        elif it := SYMBOL.fullmatch(line):
            symbols.append(it)
        else:
            raise ValueError(f"no line of an object: {line}")
    return flags, sections, sorted(symbols, key=lambda it: it["binding"] != "local")


def object_of(text):
    """The file of these lines: the sections, a table of relocations for each that has some, symbols and names."""
    flags, sections, symbols = parsed(text)
    names, held, headers = bytearray(1), bytearray(64), [bytes(64)]

    def named(name):
        names.extend(name.encode() + b"\0")
        return len(names) - len(name.encode()) - 1

    def add(name, kind, flags, body, align, link=0, info=0, record=0, size=None):
        held.extend(bytes(-len(held) % 8))
        headers.append(
            struct.pack(
                "<IIQQQQIIQQ",
                named(name),
                kind,
                flags,
                0,
                len(held),
                len(body) if size is None else size,
                link,
                info,
                align,
                record,
            )
        )
        held.extend(body)

    table = 1 + len(sections) + sum(bool(relocs) for _, relocs in sections)
    for it, _ in sections:
        of, size = sum(FLAGS[letter] for letter in it["flags"]), it["size"] and int(it["size"], 0)
        add(it["name"], 8 if it["size"] else 1, of, bytes.fromhex(it["bytes"] or ""), int(it["align"]), size=size)
    order = [it["name"] for it in symbols]
    for index, (it, relocs) in enumerate(sections, 1):
        rows = [
            (
                int(r["place"], 0),
                (order.index(r["symbol"]) + 1 if r["symbol"] else 0) << 32 | KINDS[r["kind"]],
                int(r["addend"] or "0", 0),
            )
            for r in relocs
        ]
        if rows:
            add(".rela" + it["name"], 4, 0, b"".join(struct.pack("<QQq", *row) for row in rows), 8, table, index, 24)
    places = {"undefined": 0, "absolute": 0xFFF1, "symtab": table}
    rows = [
        (
            named(it["name"]),
            16 * binding(it["binding"]),
            0,
            places.get(it["where"]) if it["where"] in places else int(it["where"]),
            int(it["value"], 0),
            0,
        )
        for it in symbols
    ]
    local = 1 + sum(it["binding"] == "local" for it in symbols)
    add(".symtab", 2, 0, bytes(24) + b"".join(struct.pack("<IBBHQQ", *row) for row in rows), 8, table + 1, local, 24)
    add(".strtab", 3, 0, names, 1)
    held.extend(bytes(-len(held) % 8))
    held[:64] = (
        b"\x7fELF\2\1\1"
        + bytes(9)
        + struct.pack("<HHIQQQIHHHHHH", 1, 243, 1, 0, 0, len(held), flags, 64, 0, 0, 64, len(headers), table + 1)
    )
    return bytes(held) + b"".join(headers)
