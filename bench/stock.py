#!/usr/bin/env python3
"""Makes the modules of the benchmark.

    stock.py 64 FOLDER > stock.bin      64 small modules, after the modules of FOLDER
    stock.py 4 > small.bin              4 small modules, for the run of the program in CI

It compiles the small modules from small.c with clang. FOLDER has the large modules, as NAME-PROFILE.wasm. After the
modules of small.bin come the numbers 1, 9328, 0, 0 and 0 and the output of `make_module.py clang 0.0095`, so that it
has a large one too.

The large modules of stock.bin were made by clang 14 for wasm32-wasi with -mcpu=mvp, from the sources of Debian 12:

- database-3.wasm: SQLite 3.40.1 (public domain), with -Os, its own file system and some parts left out
- interpreter-3.wasm: Lua 5.4.4 (MIT), with -O2
- compression-1.wasm: zlib 1.2.13 (zlib's licence), with -O0

The first two have parts of wasi-libc (MIT).

Before each module are the numbers that crates/wm_bench/src/stock.rt reads, of four bytes each:

- the profile, the size of the module, and how many entries, constants and letters follow
- for each code entry, ordered by the type of its function: its index in the code section, the offsets of its start and
  end, and the index in this list at which the entries of its type end
- the offsets of constants of one byte that are not negative
- the offsets of the letters of exported names, except each first letter
"""
import pathlib
import random
import re
import struct
import subprocess
import sys
import tempfile

HERE = pathlib.Path(__file__).resolve().parent
CLANG = "clang --target=wasm32 -mcpu=mvp -nostdlib -fno-builtin -Wl,--no-entry -Wl,--strip-all -Wl,--allow-undefined".split()
# the opcodes with one number as immediate
ONE = {0x02, 0x03, 0x04, 0x0c, 0x0d, 0x10, 0x20, 0x21, 0x22, 0x23, 0x24, 0x3f, 0x40, 0x41, 0x42}


class Reader:
    def __init__(self, data, at=0):
        self.data, self.at = data, at

    def byte(self):
        self.at += 1
        return self.data[self.at - 1]

    def number(self):
        value = shift = 0
        while True:
            byte = self.byte()
            value |= (byte & 0x7F) << shift
            shift += 7
            if byte < 0x80:
                return value


def constants_of(data, at, end):
    """Yields the offsets of non-negative one-byte constants in the instructions between two offsets."""
    it = Reader(data, at)
    while it.at < end:
        op = it.byte()
        if op == 0x41 and data[it.at] < 0x40:
            yield it.at
        if op == 0x0E:
            for _ in range(it.number() + 1):
                it.number()
        elif op == 0x11 or 0x28 <= op <= 0x3E:
            it.number(), it.number()
        elif op in ONE:
            it.number()
        elif op in (0x43, 0x44):
            it.at += 4 if op == 0x43 else 8


def template(data, profile, with_letters):
    it = Reader(data, 8)
    kinds, entries, constants, letters = [], [], [], []
    while it.at < len(data):
        section, size = it.byte(), it.number()
        end = it.at + size
        if section == 3:
            kinds = [it.number() for _ in range(it.number())]
        if section == 7 and with_letters:
            for _ in range(it.number()):
                length = it.number()
                letters += range(it.at + 1, it.at + length)
                it.at += length
                it.byte(), it.number()
        if section == 10:
            for place in range(it.number()):
                start = it.at
                stop = it.number() + it.at
                for _ in range(it.number()):
                    it.number(), it.byte()
                constants += constants_of(data, it.at, stop)
                entries.append((kinds[place], place, start, stop))
                it.at = stop
        it.at = end
    # A large module has only a sample of its constants, so that the list stays short.
    constants = constants[:: max(1, len(constants) // 2000)]
    entries.sort()
    ends = [sum(other[0] <= entry[0] for other in entries) for entry in entries]
    numbers = [profile, len(data), len(entries), len(constants), len(letters)]
    for entry, end in zip(entries, ends):
        numbers += [*entry[1:], end]
    return struct.pack(f"<{len(numbers) + len(constants) + len(letters)}I", *numbers, *constants, *letters) + data


def small_modules(count):
    draw = random.Random(1)
    head, *parts = (HERE / "small.c").read_text().split("// ---\n")
    parts = ["".join(line for line in head.splitlines(True) if not line.startswith("//")), *parts]
    with tempfile.TemporaryDirectory() as room:
        for turn in range(count):
            picked = draw.sample(parts, draw.choice([1, 1, 1, 2, 2, 3, 4]))
            source = "".join(picked)
            names = re.findall(r"^(?!static|extern|struct)[a-z].*?\b\*?([a-z]\w+)\((?=.*\) \{)", source, re.M)
            (pathlib.Path(room) / "a.c").write_text(source)
            level = draw.choice(["-O0", "-O2", "-O2", "-Os"])
            exports = [f"-Wl,--export={name}" for name in names]
            subprocess.run([*CLANG, level, *exports, "-w", "-o", "a.wasm", "a.c"], cwd=room, check=True)
            data = (pathlib.Path(room) / "a.wasm").read_bytes()
            profile = 3 if re.search(r"\b(double|float)\b", source) else 1
            yield template(data, profile, True)


def main():
    out = sys.stdout.buffer
    for folder in sys.argv[2:]:
        for path in sorted(pathlib.Path(folder).glob("*.wasm")):
            out.write(template(path.read_bytes(), int(path.stem[-1]), False))
    for one in small_modules(int(sys.argv[1])):
        out.write(one)


main()
