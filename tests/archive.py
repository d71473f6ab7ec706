#!/usr/bin/env python3
"""tests/archive.py FILE..: the read-only bytes of static libraries and programs, and that none has a table of the 900 powers (request 2.6).

A constant array lies in one section of data, or stands in the code as numbers that are stored one by one. So every section of data that is loaded has to be
shorter than the table, and no section may have a power that only a table would name, as a table in parts has too. Fails if one is found.
"""

import struct
import sys

TABLE = 900 * 8
POWERS = [d ** 8 for d in range(51, 100, 2)]  # six or seven bytes, the lowest not 0: not met by chance
MAGIC = b'!<arch>\n'
WRITABLE, LOADED, EXECUTABLE = 1, 2, 4  # flags of a section
NO_BYTES = 8  # a type of section


def members(content):
    """(name, bytes) of each object of an archive, or of the one object or program that content is"""
    if not content.startswith(MAGIC):
        yield '', content
        return
    at = len(MAGIC)
    while at < len(content):
        name, size = content[at:at + 16].decode().rstrip(), int(content[at + 48:at + 58])
        at += 60
        if name not in ('/', '//', '/SYM64/'):  # the archive's own tables
            yield name.rstrip('/'), content[at:at + size]
        at += size + size % 2


def sections(elf):
    """(name, flags, bytes) of each section that is loaded"""
    if elf[:6] != b'\x7fELF\x02\x01':
        raise ValueError('not a file of 64-bit little-endian code')
    start, = struct.unpack_from('<Q', elf, 40)
    each, count, of_names = struct.unpack_from('<3H', elf, 58)
    heads = [struct.unpack_from('<2I4Q', elf, start + i * each) for i in range(count)]
    names = heads[of_names][4]
    for name, kind, flags, _, at, size in heads:
        if flags & LOADED and kind != NO_BYTES:
            yield elf[names + name:elf.index(b'\0', names + name)].decode(), flags, elf[at:at + size]


def look(content):
    """(bytes of code, bytes of constants, the sections that could have a table) of a library or program"""
    code, constants, found = 0, 0, []
    for member, elf in members(content):
        for name, flags, loaded in sections(elf):
            executable, named = flags & EXECUTABLE, sum(struct.pack('<Q', power) in loaded for power in POWERS)
            if executable:
                code += len(loaded)
            elif not flags & WRITABLE:
                constants += len(loaded)
            if named or not executable and len(loaded) >= TABLE:
                kind = 'code' if executable else 'data'
                found.append('%s, %d bytes of %s with %d of %d powers' % ((member + ' ' + name).strip(), len(loaded), kind, named, len(POWERS)))
    return code, constants, found


def main(paths):
    tables = 0
    for path in paths:
        with open(path, 'rb') as f:
            code, constants, found = look(f.read())
        print('%s: %d bytes of code, %d of constants' % (path, code, constants))
        for what in found:
            print('%s: a table in %s' % (path, what), file=sys.stderr)
        tables += len(found)
    return 1 if tables or not paths else 0


if __name__ == '__main__':
    sys.exit(main(sys.argv[1:]))
