"""Joins the data of a module of WebAssembly into one segment. wasm-opt leaves the zeros out, in thousands of segments.
Once the module is packed, their addresses take more room than zeros, and more time where it is loaded. tools/web uses
it."""

HEAD, DATA, COUNT = 8, 11, 12  # bytes of the head, and the sections of the data and of the number of its segments
CONSTANT, END = 0x41, 0x0B


def number(module, at):
    """The number that stands at a place, by seven bits in a byte, and the place after it."""
    value = shift = 0
    while True:
        byte = module[at]
        value |= (byte & 127) << shift
        at, shift = at + 1, shift + 7
        if byte < 128:
            return value, at


def written(value, *, is_address=False):
    """The bytes of a number. An address is one with a sign, so its last byte has a bit for that."""
    made = bytearray()
    while value > (63 if is_address else 127):
        made.append(value & 127 | 128)
        value >>= 7
    return bytes([*made, value])


def segments(section):
    """The addresses and bytes of the segments, of memory 0 and at a constant."""
    count, at = number(section, 0)
    for _ in range(count):
        if section[at] != 0 or section[at + 1] != CONSTANT:
            raise SystemExit("module_data: a segment isn't at a constant address")
        address, at = number(section, at + 2)
        size, at = number(section, at + 1)
        yield address, section[at:at + size]
        at += size


def joined_section(section):
    found = sorted(segments(section))
    first, end = found[0][0], max(address + len(data) for address, data in found)
    memory, last = bytearray(end - first), first
    for address, data in found:
        if address < last:
            raise SystemExit("module_data: two segments have one address")
        last = address + len(data)
        memory[address - first:last - first] = data
    return bytes([1, 0, CONSTANT]) + written(first, is_address=True) + bytes([END]) + written(len(memory)) + memory


def joined(module):
    """The module with one segment of data, and zeros between those that it had."""
    made, at = bytearray(module[:HEAD]), HEAD
    while at < len(module):
        kind = module[at]
        size, start = number(module, at + 1)
        section, at = module[start:start + size], start + size
        if kind == DATA:
            section = joined_section(section)
        if kind == COUNT:
            section = written(1)
        made += bytes([kind]) + written(len(section)) + section
    return bytes(made)
