#!/usr/bin/env python3
"""Makes a WebAssembly module with a memory of 32 bits out of one with a memory of 64 bits.

    lower.py FROM.wasm TO.wasm

Each address is cut to 32 bits right before it is used, so that the module runs where memory64 is missing. Pointers
stay numbers of 64 bits, in memory and in calls: as the memory has less than 4 GiB, none loses a bit. What this
doesn't know it refuses. (Binaryen from 119 on does the same, by --memory64-lowering --table64-lowering; Debian 12
has 108.)
"""
import sys

I32, I64, F32, F64 = 0x7F, 0x7E, 0x7D, 0x7C
# local.get, local.set, and the changes between the two kinds of numbers
GET, SET, WRAP, EXTEND_SIGNED, EXTEND = b"\x20", b"\x21", b"\xa7", b"\xac", b"\xad"
LOADS = range(0x28, 0x36)
# The kind of the number that each store stores
STORES = {0x36: I32, 0x37: I64, 0x38: F32, 0x39: F64, 0x3A: I32, 0x3B: I32, 0x3C: I64, 0x3D: I64, 0x3E: I64}
MEMORY_SIZE, MEMORY_GROW, CALL_INDIRECT, BR_TABLE, LONG = 0x3F, 0x40, 0x11, 0x0E, 0xFC
MEMORY_COPY, MEMORY_FILL = 10, 11
# unreachable, nop, else, end, return, drop, select, and all that reckons
ALONE = {0x00, 0x01, 0x05, 0x0B, 0x0F, 0x1A, 0x1B, *range(0x45, 0xC5)}
# block, loop, if, br, br_if, call, those of locals and globals, i32.const, i64.const: a number follows
WITH_NUMBER = {0x02, 0x03, 0x04, 0x0C, 0x0D, 0x10, 0x20, 0x21, 0x22, 0x23, 0x24, 0x41, 0x42}
# f32.const and f64.const, with the bytes that follow
WITH_BYTES = {0x43: 4, 0x44: 8}
CUSTOM, TYPE, FUNCTION, TABLE, MEMORY, GLOBAL = 0, 1, 3, 4, 5, 6
EXPORT, ELEMENT, CODE, DATA, DATA_COUNT = 7, 9, 10, 11, 12
FLAG_OF_64_BITS = 4


def stop(what):
    sys.exit(f"lower: {what}")


def expect(holds, what):
    if not holds:
        stop(f"not {what}")


class Reader:
    def __init__(self, data, at=0):
        self.data, self.at = data, at

    def byte(self):
        self.at += 1
        return self.data[self.at - 1]

    def number(self):
        """An unsigned number, in LEB128."""
        value = shift = 0
        while True:
            byte = self.byte()
            value |= (byte & 127) << shift
            shift += 7
            if byte < 128:
                return value

    def kept(self):
        """A number, signed or not, as its bytes."""
        start = self.at
        while self.byte() >= 128:
            pass
        return self.data[start : self.at]

    def take(self, count):
        self.at += count
        return self.data[self.at - count : self.at]

    def rest(self):
        return self.take(len(self.data) - self.at)

    def vector(self, one):
        return [one() for _ in range(self.number())]


def leb(value):
    """An unsigned number, in as few bytes as LEB128 allows."""
    out = bytearray()
    while value >= 128:
        out.append(value & 127 | 128)
        value >>= 7
    return bytes([*out, value])


def signed(value):
    """A signed number, likewise."""
    out = bytearray()
    while not -64 <= value < 64:
        out.append(value & 127 | 128)
        value >>= 7
    return bytes([*out, value & 127])


def vector(parts):
    return leb(len(parts)) + b"".join(parts)


def sized(part):
    return leb(len(part)) + part


class Body:
    """The code of a function. What a store or a copy has to lay aside goes into locals of ours, behind its own."""

    def __init__(self, code, parameters):
        self.read = Reader(code)
        self.groups = self.read.vector(lambda: (self.read.number(), self.read.byte()))
        self.first = parameters + sum(count for count, _ in self.groups)
        self.more, self.out = [], bytearray()

    def lowered(self):
        while self.read.at < len(self.read.data):
            self.step()
        groups = [*self.groups, *((1, kind) for kind in self.more)]
        return vector([leb(count) + bytes([kind]) for count, kind in groups]) + bytes(self.out)

    def local(self, kind, nth=0):
        """The number of the nth local of ours of this kind."""
        while self.more.count(kind) <= nth:
            self.more.append(kind)
        return leb(self.first + [at for at, it in enumerate(self.more) if it == kind][nth])

    def put(self, *parts):
        for part in parts:
            self.out += part if isinstance(part, bytes) else bytes([part])

    def step(self):
        read, op = self.read, self.read.byte()
        if op in ALONE:
            self.put(op)
        elif op in WITH_NUMBER:
            self.put(op, read.kept())
        elif op in WITH_BYTES:
            self.put(op, read.take(WITH_BYTES[op]))
        elif op == BR_TABLE:
            self.put(op, vector(read.vector(read.kept)), read.kept())
        elif op in LOADS:
            self.put(WRAP, op, *self.place())
        elif op in STORES:
            stored = self.local(STORES[op])
            self.put(SET, stored, WRAP, GET, stored, op, *self.place())
        elif op == CALL_INDIRECT:
            self.put(WRAP, op, read.kept(), read.kept())
        elif op == MEMORY_SIZE:
            self.put(op, read.take(1), EXTEND)
        elif op == MEMORY_GROW:  # (it answers -1 where it fails)
            self.put(WRAP, op, read.take(1), EXTEND_SIGNED)
        elif op == LONG:
            self.long(read.number())
        else:
            stop(f"an instruction that it doesn't know: {op:#x}")

    def place(self):
        """The alignment and offset of a load or store. (The linker writes an offset in ten bytes, as for 64 bits.)"""
        align, offset = self.read.kept(), self.read.number()
        expect(offset < 1 << 32, "an offset of 32 bits")
        return align, leb(offset)

    def long(self, op):
        if op == MEMORY_COPY:  # its words are to, from, count
            count, start = self.local(I64), self.local(I64, 1)
            self.put(SET, count, SET, start, WRAP, GET, start, WRAP, GET, count, WRAP, LONG, op, self.read.take(2))
        elif op == MEMORY_FILL:  # its words are to, byte, count
            count, byte = self.local(I64), self.local(I32)
            self.put(SET, count, SET, byte, WRAP, GET, byte, GET, count, WRAP, LONG, op, self.read.take(1))
        else:
            expect(op < 8, "a change of a number with a point into a whole one")
            self.put(LONG, op)


def limits(read):
    flags = read.byte()
    expect(flags in (FLAG_OF_64_BITS, FLAG_OF_64_BITS | 1), "limits of 64 bits")
    return bytes([flags & 1]) + b"".join(leb(read.number()) for _ in range(1 + (flags & 1)))


def place_of(read):
    """i64.const N, end: as i32.const N, end. (N is not negative, and so it reads as an unsigned number, too.)"""
    expect(read.byte() == 0x42, "i64.const")
    value = read.number()
    expect(read.byte() == 0x0B and value < 1 << 31, "a place alone")
    return b"\x41" + signed(value) + b"\x0b"


def table(read):
    return vector(read.vector(lambda: bytes([read.byte()]) + limits(read)))


def memory(read):
    return vector(read.vector(lambda: limits(read)))


def elements(read):
    expect((read.number(), read.number()) == (1, 0), "one table of functions")
    return leb(1) + leb(0) + place_of(read) + read.rest()


def data(read):
    def part():
        expect(read.number() == 0, "data with a place in the memory")
        return leb(0) + place_of(read) + sized(read.take(read.number()))

    return vector(read.vector(part))


def parameters_of(types, functions):
    """How many parameters each function has."""

    def kind():
        expect(types.byte() == 0x60, "the type of a function")
        count = len(types.vector(types.byte))
        types.vector(types.byte)
        return count

    counts = types.vector(kind)
    return [counts[at] for at in functions.vector(functions.number)]


def code(read, parameters):
    codes = read.vector(lambda: read.take(read.number()))
    expect(len(codes) == len(parameters), "as many codes as functions")
    return vector([sized(Body(it, count).lowered()) for it, count in zip(codes, parameters)])


def sections_of(module):
    expect(module[:8] == b"\0asm\1\0\0\0", "a module of WebAssembly")
    read = Reader(module, 8)
    while read.at < len(module):
        kind, section = read.byte(), read.take(read.number())
        if kind != CUSTOM:  # (names, and what a tool says of itself)
            yield kind, section


def lowered(module):
    found = dict(sections_of(module))
    parameters = parameters_of(Reader(found[TYPE]), Reader(found[FUNCTION]))
    change = {TABLE: table, MEMORY: memory, ELEMENT: elements, DATA: data, CODE: lambda it: code(it, parameters)}
    same = (TYPE, FUNCTION, GLOBAL, EXPORT, DATA_COUNT)
    expect(found.keys() <= {*same, *change}, f"a module without imports: {[*found]}")
    sections = ((kind, it if kind in same else change[kind](Reader(it))) for kind, it in found.items())
    return module[:8] + b"".join(bytes([kind]) + sized(it) for kind, it in sections)


def main():
    with open(sys.argv[1], "rb") as file:
        module = file.read()
    with open(sys.argv[2], "wb") as file:
        file.write(lowered(module))


main()
