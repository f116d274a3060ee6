"""Makes of a WebAssembly module with a 64-bit memory one with a 32-bit memory: python3 page/narrow.py WIDE.wasm NARROW.wasm

The kit lays the proved code out for places of 8 bytes, which a 64-bit memory keeps, but not every browser has such memories. Here only the
instructions that use the memory change: each cuts its places to 32 bits just before. Values, calls and what the memory holds stay as they are,
so whoever calls a function still hands it places of 64 bits. Proved code uses no place beyond what it is lent. A stack that grows too deep
still ends the run: it lies at the memory's start, and a place below that becomes one near 4 GB, where there is nothing.

A section or an instruction that is not known here ends the work; what was forgotten would be no valid module, since a place of 64 bits is
no place for an instruction of a 32-bit memory.
"""

import sys
from pathlib import Path

HEAD = b"\0asm\1\0\0\0"
CUSTOM, TYPE, IMPORT, FUNCTION, MEMORY, GLOBAL, EXPORT, DATA_COUNT, CODE, DATA = 0, 1, 2, 3, 5, 6, 7, 12, 10, 11
AS_THEY_ARE = {TYPE, IMPORT, FUNCTION, GLOBAL, EXPORT, DATA_COUNT}
FUNCTION_TYPE, FUNCTION_IMPORT, WIDE_MEMORY, PAGES_MOST, PLACES = 0x60, 0, 4, 65536, 1 << 32
I32, I64, F32, F64 = 0x7F, 0x7E, 0x7D, 0x7C

WRAP, SET, GET, END, CONST_32, CONST_64 = b"\xa7", b"\x21", b"\x20", b"\x0b", b"\x41", b"\x42"
LOADS, STORES = range(0x28, 0x36), {0x36: I32, 0x37: I64, 0x38: F32, 0x39: F64, 0x3A: I32, 0x3B: I32, 0x3C: I64, 0x3D: I64, 0x3E: I64}
COPY, FILL = 10, 11

# Instructions that leave the memory alone, by what follows them: nothing, a number of any length, four or eight bytes.
PLAIN = {0x00, 0x01, 0x05, 0x0B, 0x0F, 0x1A, 0x1B, *range(0x45, 0xC5)}  # ends of blocks, drop, select, all arithmetic
NUMBERED = {0x02, 0x03, 0x04, 0x0C, 0x0D, 0x10, *range(0x20, 0x25), 0x41, 0x42}  # blocks, branches, calls, locals, globals, whole constants
FIXED = {0x43: 4, 0x44: 8}  # other constants
BRANCH_TABLE, LONGER, SATURATING = 0x0E, 0xFC, range(8)


class Unknown(Exception):
    """Something that is not understood here; the message says what."""


class Reader:
    """Takes bytes apart from the first on."""

    def __init__(self, data):
        self.data, self.at = data, 0

    def more(self):
        return self.at < len(self.data)

    def take(self, count):
        if count > len(self.data) - self.at:
            raise Unknown("it ends too early")
        self.at += count
        return self.data[self.at - count : self.at]

    def byte(self):
        return self.take(1)[0]

    def raw(self):
        """The bytes of a number of any length: all but the last have their highest bit."""
        start = self.at
        while self.byte() & 0x80:
            pass
        return self.data[start : self.at]

    def number(self):
        return sum((byte & 0x7F) << 7 * k for k, byte in enumerate(self.raw()))

    def part(self):
        """Some bytes behind their number."""
        return self.take(self.number())

    def expect(self, known, what):
        found = self.take(len(known))
        if found != known:
            raise Unknown("%s is %s" % (what, found.hex()))


def number(value):
    """The bytes of a number that is not negative."""
    made = bytearray()
    while value >= 0x80:
        made.append(value & 0x7F | 0x80)
        value >>= 7
    return bytes([*made, value])


def part(data):
    return number(len(data)) + data


def parameter_counts(types):
    """How many parameters each type of a function has."""
    reader = Reader(types)
    for _ in range(reader.number()):
        reader.expect(bytes([FUNCTION_TYPE]), "a type")
        yield len(reader.part())
        reader.part()


def only_functions(imports):
    """Asks that nothing but functions comes from outside: a memory would have to be narrow there too."""
    reader = Reader(imports)
    for _ in range(reader.number()):
        reader.part(), reader.part()
        reader.expect(bytes([FUNCTION_IMPORT]), "an import's kind")
        reader.number()


def narrow_memory(memory):
    """The one memory, which may grow."""
    reader = Reader(memory)
    reader.expect(bytes([1, WIDE_MEMORY]), "the memories' head")
    pages = reader.number()
    if pages > PAGES_MOST or reader.more():
        raise Unknown("the memory is too large, or there is more of it")
    return bytes([1, 0]) + number(pages)


def narrow_data(data):
    """What the memory holds at the start: each piece stands at a place that is a constant."""
    reader = Reader(data)
    count = reader.number()
    made = number(count)
    for _ in range(count):
        reader.expect(b"\0" + CONST_64, "the head of a piece of data")
        place = reader.raw()
        reader.expect(END, "behind the place of a piece of data")
        made += b"\0" + CONST_32 + place + END + part(reader.part())
        if len(place) > 4:  # 27 bits and the sign
            raise Unknown("a piece of data stands too far up")
    return made


class Body:
    """The code of a function, with variables of its own for what an instruction finds above a place."""

    def __init__(self, data, parameters):
        self.reader = Reader(data)
        self.locals = [(self.reader.number(), self.reader.byte()) for _ in range(self.reader.number())]
        self.count = parameters + sum(count for count, _ in self.locals)
        self.added = {}

    def variable(self, kind, which=0):
        """The number of an added variable of this type; which, where an instruction needs two."""
        return number(self.added.setdefault((kind, which), self.count + len(self.added)))

    def memory_word(self):
        """How an instruction's place is aligned, and what is added to it."""
        align, offset = self.reader.number(), self.reader.number()
        if align > 3 or offset >= PLACES:
            raise Unknown("an instruction of the memory with the words %d and %d" % (align, offset))
        return number(align) + number(offset)

    def longer(self):
        """An instruction of two numbers."""
        which = self.reader.number()
        if which in SATURATING:
            return bytes([LONGER]) + number(which)
        if which == COPY:
            self.reader.expect(b"\0\0", "the memories of a copy")
            count, source = self.variable(I64), self.variable(I64, 1)
            return SET + count + SET + source + WRAP + GET + source + WRAP + GET + count + WRAP + bytes([LONGER, COPY, 0, 0])
        if which == FILL:
            self.reader.expect(b"\0", "the memory of a fill")
            count, byte = self.variable(I64), self.variable(I32)
            return SET + count + SET + byte + WRAP + GET + byte + GET + count + WRAP + bytes([LONGER, FILL, 0])
        raise Unknown("the instruction fc %02x" % which)

    def instruction(self):
        """The next instruction, or what stands for it."""
        reader = self.reader
        code = reader.byte()
        made = bytes([code])
        if code in PLAIN:
            return made
        if code in NUMBERED:
            return made + reader.raw()
        if code in FIXED:
            return made + reader.take(FIXED[code])
        if code in LOADS:
            return WRAP + made + self.memory_word()
        if code in STORES:
            value = self.variable(STORES[code])
            return SET + value + WRAP + GET + value + made + self.memory_word()
        if code == BRANCH_TABLE:
            count = reader.number()
            return made + number(count) + b"".join(reader.raw() for _ in range(count + 1))
        if code == LONGER:
            return self.longer()
        raise Unknown("the instruction %02x" % code)

    def narrow(self):
        code = bytearray()
        while self.reader.more():
            code += self.instruction()
        kinds = [*self.locals, *((1, kind) for kind, _ in self.added)]
        return number(len(kinds)) + b"".join(number(count) + bytes([kind]) for count, kind in kinds) + bytes(code)


def narrow_code(code, parameters):
    """Each function's code, where this many parameters stand before its variables."""
    reader = Reader(code)
    if reader.number() != len(parameters):
        raise Unknown("there are not as many bodies as functions")
    return number(len(parameters)) + b"".join(part(Body(reader.part(), count).narrow()) for count in parameters)


def narrow(module):
    """The module with a 32-bit memory, or Unknown."""
    reader = Reader(module)
    reader.expect(HEAD, "the head")
    made, parameters = HEAD, []
    while reader.more():
        kind, contents = reader.byte(), reader.part()
        if kind == CUSTOM:
            continue  # words about the module, as that its memory is wide
        if kind == TYPE:
            by_type = [*parameter_counts(contents)]
        elif kind == IMPORT:
            only_functions(contents)
        elif kind == FUNCTION:
            types = Reader(contents)
            parameters = [by_type[types.number()] for _ in range(types.number())]
        elif kind == MEMORY:
            contents = narrow_memory(contents)
        elif kind == CODE:
            contents = narrow_code(contents, parameters)
        elif kind == DATA:
            contents = narrow_data(contents)
        elif kind not in AS_THEY_ARE:
            raise Unknown("a section of kind %d" % kind)
        made += bytes([kind]) + part(contents)
    return made


def main(arguments):
    if len(arguments) != 3:
        sys.exit(__doc__)
    wide, made = map(Path, arguments[1:])
    try:
        made.write_bytes(narrow(wide.read_bytes()))
    except Unknown as fault:
        sys.exit("%s: %s" % (wide, fault))


if __name__ == "__main__":
    main(sys.argv)
