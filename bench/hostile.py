#!/usr/bin/env python3
"""Makes object files that are dear to read: hostile.py FOLDER [MIB ..] writes for each case and size FOLDER/CASE-MIB.o."""
import os
import struct
import sys

FUNC, OBJECT = 0x12, 0x11
PROGBITS, SYMTAB, STRTAB, REL = 1, 2, 3, 9
INT, PTR, ARRAY, STRUCT, TYPEDEF, VAR, DATASEC = 1, 2, 3, 4, 8, 14, 15
MOST = 65535
# r1 = a number in two slots, of which r0 = 2 and exit stand behind
WIDE = bytes.fromhex("1801000000000000" "0000000000000000")
CODE = WIDE + bytes.fromhex("b700000002000000" "9500000000000000")


class Names:
    """Names, one behind the other, with a zero byte behind each."""

    def __init__(self):
        self.bytes = bytearray(1)
        self.places = {b"": 0}

    def at(self, name):
        if name not in self.places:
            self.places[name] = len(self.bytes)
            self.bytes += name + b"\0"
        return self.places[name]


class Types:
    """Types of a BTF section, by their numbers from 1 on."""

    def __init__(self):
        self.bytes, self.names, self.count = bytearray(), Names(), 0

    def add(self, name, kind, entries, target, tail=b""):
        self.bytes += struct.pack("<III", self.names.at(name), kind << 24 | entries, target) + tail
        self.count += 1
        return self.count

    def chain(self, kind, length, target, tail=b""):
        """So many types, each made of the one behind it and the last of the target."""
        first = self.count + 1
        if kind == ARRAY:
            rows = (struct.pack("<IIIIII", 0, ARRAY << 24, 0, n, 1, 1) for n in range(first + 1, first + length))
            last = struct.pack("<IIIIII", 0, ARRAY << 24, 0, target, 1, 1)
        else:
            rows = (struct.pack("<III", 0, kind << 24, n) for n in range(first + 1, first + length))
            last = struct.pack("<III", 0, kind << 24, target)
        self.bytes += b"".join(rows) + last
        self.count += length
        return first

    def number(self, value):
        """A type from which libbpf's __uint reads this number."""
        array = self.add(b"", ARRAY, 0, 0, struct.pack("<III", 1, 1, value))
        return self.add(b"", PTR, 0, array)

    def structure(self, members):
        tail = b"".join(struct.pack("<III", self.names.at(name), target, 0) for name, target in members)
        return self.add(b"", STRUCT, len(members), 8 * len(members), tail)

    def section(self, name, variables):
        tail = b"".join(struct.pack("<III", variable, 0, 8) for variable in variables)
        return self.add(name, DATASEC, len(variables), 8, tail)

    def content(self):
        strings = bytes(self.names.bytes)
        header = struct.pack("<HBBIIIII", 0xEB9F, 1, 0, 24, 0, len(self.bytes), len(self.bytes), len(strings))
        return header + bytes(self.bytes) + strings


def types_with_int():
    types = Types()
    types.add(b"int", INT, 0, 4, struct.pack("<I", 0x01000020))
    return types


class File:
    """An object with a program; other sections share bytes where they are given a place."""

    def __init__(self, programs=1):
        self.names, self.headers, self.bytes = Names(), [bytes(64)], bytearray()
        self.strings, self.symbols = Names(), [bytes(24)]
        self.code = self.section(b"xdp", PROGBITS, CODE, flags=6)
        for number in range(programs):
            self.symbol(b"program%d" % number, FUNC, self.code, len(CODE))

    def symbol(self, name, info, section, size=0):
        self.symbols.append(struct.pack("<IBBHQQ", self.strings.at(name), info, 0, section, 0, size))
        return len(self.symbols) - 1

    def section(self, name, kind, content, flags=0, link=0, info=0, entry=0):
        self.headers.append((name, kind, flags, len(self.bytes), len(content), link, info, entry))
        self.bytes += content
        return len(self.headers) - 1

    def again(self, section, count, shift=0):
        """So many sections more like one, each so many bytes behind the one before it, and that much shorter."""
        name, kind, flags, place, size, link, info, entry = self.headers[section]
        for number in range(1, count + 1):
            self.headers.append((name, kind, flags, place + shift * number, size - 16 * bool(shift), link, info, entry))

    def relocs(self, rows, info):
        """A section of relocations; the symbols will be the last section but two."""
        content = b"".join(struct.pack("<QII", offset, kind, symbol) for offset, kind, symbol in rows)
        return self.section(b".rel", REL, content, link=-1, info=info, entry=16)

    def content(self):
        strings = self.section(b".strtab", STRTAB, bytes(self.strings.bytes))
        symbols = self.section(b".symtab", SYMTAB, b"".join(self.symbols), link=strings, entry=24)
        for header in self.headers[1:]:
            self.names.at(header[0])
        shown = self.names.at(b".names")
        self.headers.append((b".names", STRTAB, 0, len(self.bytes), len(self.names.bytes), 0, 0, 0))
        self.bytes += self.names.bytes
        table = b"".join(self.header(row, symbols) for row in self.headers[1:])
        head = bytes.fromhex("7f454c460201010000000000000000000100f70001000000") + bytes(16)
        head += struct.pack("<QIHHHHHH", 64, 0, 64, 0, 0, 64, len(self.headers), len(self.headers) - 1)
        return head + bytes(64) + table + bytes(self.bytes)

    def header(self, row, symbols):
        name, kind, flags, place, size, link, info, entry = row
        place += 64 + 64 * len(self.headers)
        link = symbols if link < 0 else link
        return struct.pack("<IIQQQQIIQQ", self.names.at(name), kind, flags, 0, place, size, link, info, 1, entry)


def with_types(types, programs=1):
    file = File(programs)
    file.section(b".BTF", PROGBITS, types.content())
    return file


def relocs_over(size, info):
    """As many sections of relocations as there can be, over the same bytes."""
    file = File()
    sections = min(60000, size // 2 // 64)
    index = file.symbol(b"none", OBJECT, file.code)
    target = file.code if info else 0
    first = file.relocs([(1 << 40, 1, index)] * (size // 2 // 16), target)
    file.again(first, sections)
    return file


def relocs_for_no_code(size):
    return relocs_over(size, False)


def relocs_for_code(size):
    return relocs_over(size, True)


def relocs_at_each_place(size):
    """A section of relocations at each remainder by 16, with zeros: symbol 0 each."""
    file = File()
    first = file.section(b".rel", REL, bytes(size - 4096), link=-1, info=0, entry=16)
    name, kind, flags, place, count, link, info, entry = file.headers[first]
    file.headers[first] = (name, kind, flags, place, count // 16 * 16, link, info, entry)
    file.again(first, 15, 1)
    return file


def named(letter, length):
    return letter * length


def sections_of_one_name(size):
    types = types_with_int()
    long = named(b"s", size // 2)
    place = types.names.at(long)
    count = size // 2 // 12
    types.bytes += struct.pack("<III", place, DATASEC << 24, 0) * count
    types.count += count
    return with_types(types)


def members_of_one_name(size):
    types = types_with_int()
    count = min(MOST, size // 3 // 12)
    long = named(b"m", size - 12 * count - 4096)
    map = types.structure([(long, 1)] * count)
    types.section(b".maps", [types.add(b"map", VAR, 0, map, bytes(4))])
    return with_types(types)


def entries_of_one_name(size):
    types = types_with_int()
    count = min(MOST, size // 3 // 12)
    variable = types.add(b"_" + named(b"v", size - 12 * count - 4096), VAR, 0, 1, bytes(4))
    types.section(b".xdp_run_config", [variable] * count)
    return with_types(types, 32)


def map_of(types, members):
    members = members + [(b"type", types.number(1)), (b"max_entries", types.number(1)), (b"value_size", types.number(4))]
    map = types.structure(members)
    types.section(b".maps", [types.add(b"map", VAR, 0, map, bytes(4))] * 32)


def keys_by(size, kind, width):
    types = types_with_int()
    count = min(MOST - 3, size // 3 // 12)
    chain = types.chain(kind, (size - 12 * count - 4096) // width, 1)
    map_of(types, [(b"key", types.add(b"", PTR, 0, chain))] * count)
    return with_types(types)


def keys_by_typedefs(size):
    return keys_by(size, TYPEDEF, 12)


def keys_by_arrays(size):
    return keys_by(size, ARRAY, 24)


def numbers_by_typedefs(size):
    types = types_with_int()
    count = min(MOST - 3, size // 3 // 12)
    number = types.number(4)
    chain = types.chain(TYPEDEF, (size - 12 * count - 4096) // 12, number)
    map_of(types, [(b"key_size", chain)] * count)
    return with_types(types)


def priorities_by_typedefs(size):
    types = types_with_int()
    count = min(MOST, size // 3 // 12)
    chain = types.chain(TYPEDEF, (size - 12 * count - 4096) // 12, types.number(4))
    config = types.structure([(b"priority", chain)] * count)
    types.section(b".xdp_run_config", [types.add(b"_program%d" % n, VAR, 0, config, bytes(4)) for n in range(32)])
    return with_types(types, 32)


def relocs_of_one_name(size):
    """Relocations to one map with a long name, each at the same place."""
    types = types_with_int()
    long = named(b"n", size // 3)
    map = types.structure([(b"type", types.number(1)), (b"max_entries", types.number(1)), (b"value_size", types.number(4)), (b"key_size", types.number(4))])
    types.section(b".maps", [types.add(long, VAR, 0, map, bytes(4))])
    file = with_types(types)
    maps = file.section(b".maps", PROGBITS, bytes(32))
    index = file.symbol(long, OBJECT, maps)
    file.relocs([(0, 1, index)] * (size // 4 // 16), file.code)
    return file


def constants_of_one_name(size):
    """Sections of constants that share a long name, for as many programs as there can be."""
    file = File(32)
    first = file.section(b".rodata." + named(b"c", size - 8192), PROGBITS, bytes(8), flags=2)
    file.again(first, 31)
    return file


CASES = [relocs_for_no_code, relocs_for_code, relocs_at_each_place, sections_of_one_name, members_of_one_name, entries_of_one_name,
         keys_by_typedefs, keys_by_arrays, numbers_by_typedefs, priorities_by_typedefs, relocs_of_one_name, constants_of_one_name]


def main():
    folder, sizes = sys.argv[1], [int(word) for word in sys.argv[2:]] or [1, 4, 16]
    for make in CASES:
        for mib in sizes:
            content = make(mib << 20).content()
            with open(os.path.join(folder, f"{make.__name__}-{mib}.o"), "wb") as file:
                file.write(content)


main()
