"""Modules of WebAssembly as bytes: their exports and imports, and modules with less memory or a shorter stack."""
from dataclasses import dataclass

HEAD = 8  # bytes of a module before its sections
IMPORTS, MEMORIES, GLOBALS, EXPORTS = 2, 5, 6, 7
HAS_MOST, IS_64 = 1, 4  # flags of a memory
CONST_64, END = 0x42, 0x0B


def unsigned(data, at):
    """A number, and where it ends."""
    number, shift = 0, 0
    while True:
        byte = data[at]
        number |= (byte & 127) << shift
        at, shift = at + 1, shift + 7
        if byte < 128:
            return number, at


def signed(data, at):
    number, end = unsigned(data, at)
    bits = 7 * (end - at)
    return number - (1 << bits) if number >> (bits - 1) else number, end


def spelled(number, is_signed=False):
    """The bytes of a number from 0 on."""
    out = []
    while True:
        byte, number = number & 127, number >> 7
        if number == 0 and not (is_signed and byte & 64):
            return bytes([*out, byte])
        out.append(byte | 128)


def parts(data):
    """The sections, each its number and its bytes."""
    at = HEAD
    while at < len(data):
        number = data[at]
        size, start = unsigned(data, at + 1)
        yield number, data[start:start + size]
        at = start + size


def joined(data, changed):
    """The module with the bytes that `changed` returns for those of each section."""
    out = [data[:HEAD]]
    for number, part in parts(data):
        part = changed(number, part)
        out.append(bytes([number]) + spelled(len(part)) + part)
    return b"".join(out)


@dataclass
class Sections:
    exports: set
    imports: list


def names_of(part, of_imports):
    count, at = unsigned(part, 0)
    for _ in range(count):
        size, at = unsigned(part, at)
        name, at = part[at:at + size].decode(), at + size
        yield name
        if of_imports:
            return  # its form isn't read any further
        _, at = unsigned(part, at + 1)


def sections(data):
    found = Sections(set(), [])
    for number, part in parts(data):
        if number == EXPORTS:
            found.exports |= set(names_of(part, False))
        if number == IMPORTS:
            found.imports += list(names_of(part, True))
    return found


def with_memory(data, more):
    """The module with a memory that may grow by this number of pages."""
    def changed(number, part):
        if number != MEMORIES:
            return part
        assert part[:2] == bytes([1, IS_64]), part
        least, _ = unsigned(part, 2)
        return bytes([1, IS_64 | HAS_MOST]) + spelled(least) + spelled(least + more)
    return joined(data, changed)


def with_stack(data, size):
    """The module with a stack of this number of bytes; its top is in the first global, and it ends at address 0."""
    def changed(number, part):
        if number != GLOBALS:
            return part
        count, at = unsigned(part, 0)
        assert part[at:at + 3] == bytes([0x7E, 1, CONST_64]), part
        top, end = signed(part, at + 3)
        assert top > size and part[end] == END
        return part[:at + 3] + spelled(size, is_signed=True) + part[end:]
    return joined(data, changed)
