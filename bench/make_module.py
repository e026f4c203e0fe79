#!/usr/bin/env python3
"""Writes a valid module of a shape and of about the given megabytes to standard output.

    make_module.py SHAPE [MEGABYTES] > big.wasm      8 MB by default
    make_module.py                                   prints the names of the shapes

Equal arguments give equal bytes.
"""
import struct
import sys

I32, I64, F32, F64 = 0x7F, 0x7E, 0x7D, 0x7C


def unsigned(n, width=0):
    """Returns n as unsigned LEB128, in at least `width` bytes."""
    out = bytearray()
    while True:
        byte = n & 0x7F
        n >>= 7
        more = n or len(out) + 1 < width
        out.append(byte | (0x80 if more else 0))
        if not more:
            return bytes(out)


def signed(n):
    out = bytearray()
    while True:
        byte = n & 0x7F
        n >>= 7
        if (n == 0 and not byte & 0x40) or (n == -1 and byte & 0x40):
            out.append(byte)
            return bytes(out)
        out.append(byte | 0x80)


def section(number, contents):
    return bytes([number]) + unsigned(len(contents)) + contents


def vector(items):
    return unsigned(len(items)) + b"".join(items)


def name(text):
    return unsigned(len(text)) + text


def entry(runs, code):
    contents = vector([unsigned(n) + bytes([ty]) for n, ty in runs]) + code + b"\x0b"
    return unsigned(len(contents)) + contents


HEADER = b"\x00asm\x01\x00\x00\x00"
NOTHING = b"\x60\x00\x00"
BINARY = b"\x60\x02\x7f\x7f\x01\x7f"
FLOATING = b"\x60\x02\x7c\x7f\x01\x7c"
MEMORY = section(5, b"\x01\x00\x01")


def module(types, entries, memory=b""):
    """Returns a module with one function of type 0 for each code entry."""
    declared = section(3, unsigned(len(entries)) + b"\x00" * len(entries))
    return HEADER + section(1, vector(types)) + declared + memory + section(10, vector(entries))


class Numbers:
    """A linear congruential generator, so that every machine makes the same bytes."""

    def __init__(self, seed):
        self.state = seed

    def below(self, n):
        self.state = (self.state * 6364136223846793005 + 1442695040888963407) % 2**64
        return (self.state >> 33) % n

    def one_of(self, items):
        return items[self.below(len(items))]


def statement(numbers, functions):
    """Returns instructions that leave the stack unchanged. Locals 0 to 3 are i32, 4 and 5 are i64."""
    kind = numbers.below(6)
    a, b = unsigned(numbers.below(4)), unsigned(numbers.below(4))
    if kind == 0:  # local.get a, i32.const n, i32.add, local.set b
        return b"\x20" + a + b"\x41" + signed(numbers.below(100000) - 50000) + b"\x6a\x21" + b
    if kind == 1:  # local.get a, local.get b, i32.load, i32.store
        offset = unsigned(numbers.below(4096))
        return b"\x20" + a + b"\x20" + b + b"\x28\x02" + offset + b"\x36\x02" + offset
    if kind == 2:  # local.get a, if, local.get b, local.set a, else, nop, end
        return b"\x20" + a + b"\x04\x40\x20" + b + b"\x21" + a + b"\x05\x01\x0b"
    if kind == 3:  # block, local.get a, i32.eqz, br_if 0, local.get b, local.set a, end
        return b"\x02\x40\x20" + a + b"\x45\x0d\x00\x20" + b + b"\x21" + a + b"\x0b"
    if kind == 4:  # local.get 4, i64.const n, i64.mul, local.set 5
        return b"\x20\x04\x42" + signed(numbers.below(2**40)) + b"\x7e\x21\x05"
    # local.get a, local.get b, call f, local.set a
    return b"\x20" + a + b"\x20" + b + b"\x10" + unsigned(numbers.below(functions)) + b"\x21" + a


def float_statement(numbers, functions):
    """Returns the same, mostly on floats. Locals 0 and 3 to 5 are f64, 1 and 2 are i32, 6 and 7 are f32."""
    kind = numbers.below(12)
    a, b, c = (bytes([0x20, numbers.one_of([0, 3, 4, 5])]) for _ in range(3))  # local.get of an f64
    i, s = bytes([0x20, numbers.one_of([1, 2])]), bytes([0x20, numbers.one_of([6, 7])])  # of an i32, and of an f32
    offset = unsigned(8 * numbers.below(512))
    if kind < 2:  # a + b * c, or with - or / for +
        return a + b + c + b"\xa2" + numbers.one_of([b"\xa0", b"\xa1", b"\xa3"]) + b"\x21" + a[1:]
    if kind == 2:  # f64.const, f64.mul, f64.add
        return a + b + b"\x44" + struct.pack("<d", numbers.below(10**6) / 1000) + b"\xa2\xa0\x21" + a[1:]
    if kind == 3:  # a row's address in an i32: i32.const, i32.shl, i32.add, local.tee, f64.load
        return i + i + b"\x41\x03\x74\x6a\x22" + i[1:] + b"\x2b\x03" + offset + b"\x21" + a[1:]
    if kind == 4:  # f64.load, f64.mul, f64.store
        return i + i + b"\x2b\x03" + offset + a + b"\xa2\x39\x03" + offset
    if kind == 5:  # f32.load, f64.promote_f32, f64.add, f32.demote_f64, local.set of an f32
        return i + b"\x2a\x02" + offset + b"\xbb" + a + b"\xa0\xb6\x21" + s[1:]
    if kind == 6:  # f32.const, f32.mul, f32.store
        return i + s + b"\x43" + struct.pack("<f", numbers.below(10**6) / 1024) + b"\x94\x38\x02" + offset
    if kind == 7:  # block, f64.lt, br_if 0, local.set, end
        return b"\x02\x40" + a + b + b"\x63\x0d\x00" + c + b"\x21" + a[1:] + b"\x0b"
    if kind == 8:  # a loop that counts: i32.const, i32.add, local.tee, i32.const, i32.lt_s, br_if 0
        bound = signed(numbers.below(10000))
        return b"\x03\x40" + i + b"\x41\x01\x6a\x22" + i[1:] + b"\x41" + bound + b"\x48\x0d\x00\x0b"
    if kind == 9:  # f64.convert_i32_s, f64.mul
        return i + b"\xb7" + a + b"\xa2\x21" + b[1:]
    if kind == 10:  # f64.abs, f64.sqrt, f64.gt, select
        return a + b"\x99\x9f" + b + a + c + b"\x64\x1b\x21" + a[1:]
    # f64.floor, i32.trunc_f64_s, call f
    return a + a + b"\x9c\xaa\x10" + unsigned(numbers.below(functions)) + b"\x21" + b[1:]


def statements(numbers, functions, size, kind=statement):
    code = bytearray()
    while len(code) < size:
        code += kind(numbers, functions)
    return bytes(code) + b"\x20\x00"


LOCALS = [(2, I32), (2, I64)]
FLOAT_LOCALS = [(1, I32), (3, F64), (2, F32)]


def clang(size):
    """Functions of 200 to 300 bytes, with locals, nested blocks, loads, stores, calls and arithmetic."""
    numbers = Numbers(1)
    functions = max(1, size // 262)
    return module([BINARY], [entry(LOCALS, statements(numbers, functions, 200 + numbers.below(100))) for _ in range(functions)], MEMORY)


def floats(size):
    """Functions as long as those of `clang`, mostly with locals, loads, stores, constants and arithmetic of floats."""
    numbers = Numbers(4)
    functions = max(1, size // 262)
    codes = (statements(numbers, functions, 200 + numbers.below(100), float_statement) for _ in range(functions))
    return module([FLOATING], [entry(FLOAT_LOCALS, code) for code in codes], MEMORY)


def one_long_function(size):
    return module([BINARY], [entry(LOCALS, statements(Numbers(2), 1, size))], MEMORY)


def deep_blocks(size):
    depth = size // 3
    return module([NOTHING], [entry([], b"\x02\x40" * depth + b"\x0b" * depth)])


def wide_br_tables(size):
    labels = 10_000
    table = b"\x41\x00\x0e" + unsigned(labels) + b"\x00" * (labels + 1)
    block = b"\x02\x40" + table + b"\x0b"
    return module([NOTHING], [entry([], block * max(1, size // len(block)))])


def many_short_functions(size):
    one = entry([], b"")
    return module([NOTHING], [one] * (size // (len(one) + 1)))


def many_types(size):
    return HEADER + section(1, vector([BINARY] * (size // len(BINARY))))


def many_imports(size):
    one = name(b"env") + name(b"f") + b"\x00\x00"
    return HEADER + section(1, vector([NOTHING])) + section(2, vector([one] * (size // len(one))))


def many_exports(size):
    count = size // 13
    exports = [name(b"e%08d" % i) + b"\x00\x00" for i in range(count)]
    return HEADER + section(1, vector([NOTHING])) + section(3, b"\x01\x00") + section(7, vector(exports)) + section(10, vector([entry([], b"")]))


def one_data_segment(size):
    data = bytes(range(256)) * (size // 256)
    return HEADER + section(5, b"\x01\x00\x01") + section(11, b"\x01\x00\x41\x00\x0b" + unsigned(len(data)) + data)


def custom_sections(size):
    one = section(0, name(b"custom") + b"\x00" * 100_000)
    return HEADER + one * max(1, size // len(one))


def long_numbers(size):
    """Numbers of full width: an i64 constant of ten bytes, locals and offsets of five."""
    numbers = Numbers(3)
    code = bytearray()
    while len(code) < size:
        a = unsigned(numbers.below(2), 5)
        code += b"\x20" + a + b"\x28\x02" + unsigned(numbers.below(4096), 5) + b"\x21" + a
        code += b"\x42" + signed(-(2**63)) + b"\x1a"
    return module([BINARY], [entry(LOCALS, bytes(code) + b"\x20\x00")], MEMORY)


def many_runs(size):
    """Functions with a thousand runs of one local each, and a local.get and a drop for each local."""
    runs = [(1, I32 if i % 2 else I64) for i in range(1000)]
    code = b"".join(b"\x20" + unsigned(i) + b"\x1a" for i in range(1000))
    one = entry(runs, code)
    return module([NOTHING], [one] * max(1, size // len(one)))


SHAPES = [
    clang,
    one_long_function,
    deep_blocks,
    wide_br_tables,
    many_short_functions,
    many_types,
    many_imports,
    many_exports,
    one_data_segment,
    custom_sections,
    long_numbers,
    many_runs,
    floats,
]
WITH_FLOATS = ["floats"]


def make(shape, megabytes):
    return {f.__name__: f for f in SHAPES}[shape](int(megabytes * 1_000_000))


def main():
    if len(sys.argv) < 2:
        print("\n".join(f.__name__ for f in SHAPES))
        return
    sys.stdout.buffer.write(make(sys.argv[1], float(sys.argv[2]) if len(sys.argv) > 2 else 8))


if __name__ == "__main__":
    main()
