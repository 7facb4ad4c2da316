"""What an archive takes of a controller's memory: sizes.py ARCHIVE prints code, constant tables and data, in bytes.

Objects are ELF or WebAssembly; of the latter the code and the data sections count."""

import struct
import sys

MAGIC = b'!<arch>\n'
WRITE, ALLOCATED, EXECUTED = 1, 2, 4
WASM_CODE, WASM_DATA = 10, 11


def members(archive):
    """The objects of an archive, without its index and its long names."""
    at = len(MAGIC)
    while at < len(archive):
        name, size = archive[at:at + 16].rstrip(), int(archive[at + 48:at + 58])
        if name not in (b'/', b'//', b'/SYM64/'):
            yield archive[at + 60:at + 60 + size]
        at += 60 + size + size % 2


def elf_sizes(data):
    wide = data[4] == 2
    table, = struct.unpack_from('<Q' if wide else '<I', data, 40 if wide else 32)
    entry, count = struct.unpack_from('<HH', data, 58 if wide else 46)
    sizes = {'code': 0, 'tables': 0, 'data': 0}
    for number in range(count):
        at = table + number * entry
        flags, = struct.unpack_from('<Q' if wide else '<I', data, at + 8)
        size, = struct.unpack_from('<Q' if wide else '<I', data, at + (32 if wide else 20))
        if flags & ALLOCATED:
            sizes['data' if flags & WRITE else 'code' if flags & EXECUTED else 'tables'] += size
    return sizes


def number_at(data, at):
    """A number of seven bits a byte, the lowest first, and the place after it."""
    value, shift = 0, 0
    while True:
        value |= (data[at] & 127) << shift
        shift, at = shift + 7, at + 1
        if data[at - 1] < 128:
            return value, at


def wasm_sizes(data):
    sizes, at = {'code': 0, 'tables': 0, 'data': 0}, 8
    while at < len(data):
        kind = data[at]
        size, at = number_at(data, at + 1)
        # what a module keeps between calls could stand among its constants: all of it counts as data
        if kind in (WASM_CODE, WASM_DATA):
            sizes['code' if kind == WASM_CODE else 'data'] += size
        at += size
    return sizes


def main(name):
    with open(name, 'rb') as file:
        archive = file.read()
    if not archive.startswith(MAGIC):
        sys.exit('sizes: %s is no archive' % name)
    total = {}
    for data in members(archive):
        if data[:4] not in (b'\x7fELF', b'\0asm'):
            sys.exit('sizes: %s has an object that is not known' % name)
        for what, size in (elf_sizes(data) if data[:4] == b'\x7fELF' else wasm_sizes(data)).items():
            total[what] = total.get(what, 0) + size
    print('%d bytes of code, %d of constant tables, %d of data' % (total['code'], total['tables'], total['data']))


if __name__ == '__main__':
    if len(sys.argv) != 2:
        sys.exit(__doc__)
    main(sys.argv[1])
