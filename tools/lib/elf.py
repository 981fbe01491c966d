"""Reads of a program for 64-bit Linux which libraries it needs, and which versions of their symbols."""
import struct
from collections import namedtuple

# Kinds of a program header, and of an entry of the dynamic section.
LOAD, DYNAMIC = 1, 2
NEEDED, STRINGS, VERSIONS, COUNT_OF_VERSIONS = 1, 5, 0x6FFFFFFE, 0x6FFFFFFF

Part = namedtuple("Part", "kind flags offset address physical size memory align")


class NoProgram(Exception):
    """A file that isn't such a program."""


def parts_of(octets):
    if octets[:6] != b"\x7fELF\x02\x01":
        raise NoProgram("the program is no little-endian ELF file of 64 bits")
    (start,) = struct.unpack_from("<Q", octets, 32)
    size, count = struct.unpack_from("<HH", octets, 54)
    return [Part(*struct.unpack_from("<IIQQQQQQ", octets, start + at * size)) for at in range(count)]


def read(octets):
    """The libraries that a program needs, each with the names of the versions of its symbols."""
    parts = parts_of(octets)
    dynamic = [struct.unpack_from("<QQ", octets, it.offset + at) for it in parts if it.kind == DYNAMIC for at in range(0, it.size, 16)]
    first = dict(reversed(dynamic))

    def offset_of(address):
        return next(it.offset + address - it.address for it in parts if it.kind == LOAD and it.address <= address < it.address + it.size)

    def name_at(place):
        begin = offset_of(first[STRINGS]) + place
        return octets[begin : octets.index(b"\0", begin)].decode()

    found = {name_at(value): [] for kind, value in dynamic if kind == NEEDED}
    at = offset_of(first[VERSIONS]) if VERSIONS in first else 0
    for _ in range(first.get(COUNT_OF_VERSIONS, 0)):
        _, count, library, version, following = struct.unpack_from("<HHIII", octets, at)
        place = at + version
        for _ in range(count):
            _, _, _, name, next_place = struct.unpack_from("<IHHII", octets, place)
            found.setdefault(name_at(library), []).append(name_at(name))
            place += next_place
        at += following
    return found
