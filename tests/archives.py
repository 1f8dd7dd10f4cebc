"""Archives of a case: members one after another, as GNU ar writes them (System V, "ar": <ar.h>).

An archive has an index of the names that its members define for all files, in the order of the members and of their
symbols, and a table of the names that do not fit into a head. Standard library alone.
"""

import struct

FITS = 15


def head(name, size):
    """A member's head: its name, and the size of its contents."""
    return f"{name:16}{0:<12}{0:<6}{0:<6}{644:<8}{size:<10}`\n".encode()


def padded(contents):
    """Contents up to an even place."""
    return contents + b"\n" * (len(contents) % 2)


def defined(obj):
    """The names that an object defines for all files, in the order of its symbols (gABI, "Symbol Table")."""
    at, count = struct.unpack_from("<Q", obj, 40)[0], struct.unpack_from("<H", obj, 60)[0]
    sections = [struct.unpack_from("<IIQQQQIIQQ", obj, at + 64 * index) for index in range(count)]
    for kind, offset, size, link in ((it[1], it[4], it[5], it[6]) for it in sections):
        if kind == 2:
            for place in range(offset, offset + size, 24):
                name, info, _, section = struct.unpack_from("<IBBH", obj, place)
                start = sections[link][4] + name
                if info >> 4 and section:
                    yield obj[start : obj.index(b"\0", start)]


def archive_of(members, indexed=True, width=4):
    """The archive of these names and objects; the numbers of its index have 4 bytes or 8."""
    table, names = b"", []
    for name, _ in members:
        if len(name) > FITS:
            names.append(f"/{len(table)}")
            table += f"{name}/\n".encode()
        else:
            names.append(f"{name}/")
    contents = head("//", len(table)) + padded(table) if table else b""
    entries = [(name, number) for number, (_, obj) in enumerate(members) for name in defined(obj)]
    strings = b"".join(name + b"\0" for name, _ in entries)
    size = width + width * len(entries) + len(strings)
    place, places = 8 + (60 + size + size % 2 if indexed and members else 0) + len(contents), []
    for name, (_, obj) in zip(names, members):
        places.append(place)
        contents += head(name, len(obj)) + padded(obj)
        place += 60 + len(obj) + len(obj) % 2
    if not indexed or not members:
        return b"!<arch>\n" + contents
    numbers = [len(entries), *(places[number] for _, number in entries)]
    index = b"".join(number.to_bytes(width, "big") for number in numbers) + strings
    return b"!<arch>\n" + head("/" if width == 4 else "/SYM64/", size) + padded(index) + contents
