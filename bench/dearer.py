#!/usr/bin/env python3
"""Finds inputs that a change made slower: compares the instructions of wmod of two built checkouts, by callgrind.

    dearer.py OLD NEW              all rows
    dearer.py OLD NEW WORD..       only rows whose name contains one of the words
    dearer.py OLD NEW --shapes     each action on 1 MB of each shape of make_module.py
    dearer.py NEW --later          instructions of later features against instructions of 1.0 of the same shape

It runs crates/wm_cli/out/wm_cli of each checkout; `rt run` in crates/wm_cli builds it. For each row it prints the
instructions of OLD and of NEW in millions, without those of an empty input, and the ratio NEW over OLD. The last column
has the ratio on a second input of another size and order. The script ends with status 1 if the answers differ.

The rows are inputs that once got slower when others got faster: ops without a fast path, pieces of one byte or two,
lists of short indices after a longer one, empty bodies, unreachable code, texts of one kind of token, refused texts.

A row of `--later` has the instructions of wmod for each byte of two inputs, of the later instruction or segment and of
the one of 1.0, and their ratio.
"""
import pathlib
import re
import socket
import subprocess
import sys
import tempfile
import threading
from concurrent.futures import ThreadPoolExecutor

sys.dont_write_bytecode = True
from make_module import HEADER, I32, I64, MEMORY, NOTHING, SHAPES, WITH_FLOATS, Numbers, entry, make, module, section, unsigned, vector

# the empty input of `build`
EMPTY_TEXT = b"(module)"


def code(runs, one, memory=b"", data=b""):
    """Returns a maker of functions that repeat this code: one long function, or many short ones. `data` is a data section."""

    def made(numbers):
        if numbers.state == 1:
            return module([NOTHING], [entry(runs, one * 20_000)], memory) + data
        return module([NOTHING], [entry(runs, one * (1 + numbers.below(40))) for _ in range(900)], memory) + data

    return made


def bodies(one):
    """Returns a maker of many functions with this body."""
    return lambda numbers: module([NOTHING], [entry([], one)] * (20_000 if numbers.state == 1 else 7_000))


def indices(count, long_ones):
    """Returns a maker of numbers below 100, of one byte each, or of two at the indices that `long_ones` picks."""
    return lambda numbers, n=count, wide=long_ones: [unsigned(numbers.below(100), 2 if wide(i) else 1) for i in range(n)]


def first(i):
    return i == 0


def one_in_a_hundred(i):
    return i % 100 == 0


def each(_):
    return True


def elements(count, wide, segments_of_it=0):
    """Returns a maker of element segments of `count` functions each: `segments_of_it` of them, or three or two."""

    def made(numbers):
        functions = section(3, vector([b"\x00"] * 100)) + section(4, vector([b"\x70\x00\x64"]))
        segments = [b"\x00\x41\x00\x0b" + vector(indices(count, wide)(numbers)) for _ in range(segments_of_it or (3 if numbers.state == 1 else 2))]
        codes = section(10, vector([entry([], b"")] * 100))
        return HEADER + section(1, vector([NOTHING])) + functions + section(9, vector(segments)) + codes

    return made


def segments(number, one, front):
    """Returns a maker of a section of many segments that are alike, after these sections."""
    return lambda numbers: HEADER + front + section(number, vector([one] * 20_000))


def labels(count, wide):
    """Returns a maker of br_tables of `count` labels each, inside 100 open blocks."""

    def made(numbers):
        tables = b""
        for _ in range(3 if numbers.state == 1 else 2):
            spelled = indices(count + 1, wide)(numbers)
            tables += b"\x02\x40\x41\x00\x0e" + unsigned(count) + b"".join(spelled) + b"\x0b"
        return module([NOTHING], [entry([], b"\x02\x40" * 100 + tables + b"\x0b" * 100)])

    return made


def customs(numbers):
    one = section(0, b"\x01c")
    return HEADER + one * (3_000 if numbers.state == 1 else 1_700)


def spread(blank):
    """Returns a maker of texts of fields, with many of these bytes between them."""

    def made(numbers):
        parts = (blank * (100 + numbers.below(4_000)) + b"(type (func))" for _ in range(60 if numbers.state == 1 else 41))
        return b"(module" + b"".join(parts) + b")"

    return made


def comments(numbers):
    lines = (b";; " + b"a comment " * (1 + numbers.below(8)) + b"\n" for _ in range(3_000 if numbers.state == 1 else 1_900))
    return b"(module\n" + b"".join(lines) + b")"


def identifiers(numbers):
    count = 1_500 if numbers.state == 1 else 900
    names = [b"$a_name_of_%d_letters_%d" % (numbers.below(10**6), i) for i in range(count)]
    functions = (b"(func %s (type $t) call %s)\n" % (one, numbers.one_of(names)) for one in names)
    return b"(module (type $t (func))\n" + b"".join(functions) + b")"


def imports_and_exports(numbers):
    count = 2_000 if numbers.state == 1 else 1_300
    imports = (b'  (import "env" "name%d" (func $f%d (type $t0)))\n' % (numbers.below(10**6), i) for i in range(count))
    exports = (b'  (export "e%d" (func $f%d))\n' % (i, numbers.below(count)) for i in range(count))
    return b"(module\n  (type $t0 (func))\n" + b"".join(imports) + b"".join(exports) + b")\n"


def repeated(*parts):
    return lambda numbers: b"".join(part * (100_000 if numbers.state == 1 else 61_000) for part in parts)


def refused_late(end):
    """Returns a maker of texts of types, each followed by these bytes, with an unknown identifier at the end."""

    def made(numbers):
        types = (b"(type (func" + b" (param i32)" * (1 + numbers.below(3)) + b"))" + end for _ in range(3_000 if numbers.state == 1 else 1_900))
        return b"(module " + b"".join(types) + b"(start $f))"

    return made


CHECK, CANON, BUILD = ["check"], ["canon"], ["build"]
UNDER_2, UNDER_3, UNDER_4 = (["check", "--profile", it] for it in "234")
LOADED = ["canon", "--profile", "4"]
LOCAL = [(1, I32), (1, I64)]
# the arguments, the maker of the input, and the length of its pieces (0: as wmod reads a file)
ROWS = {
    "f32.reinterpret_i32 and back": (UNDER_3, code(LOCAL, b"\x20\x00\xbe\xbc\x21\x00"), 0),
    "f64.convert_i32_s": (UNDER_3, code(LOCAL, b"\x41\x01\xb7\x1a"), 0),
    "i32.trunc_f64_s": (UNDER_3, code(LOCAL, b"\x44" + bytes(8) + b"\xaa\x1a"), 0),
    "i32.extend8_s": (UNDER_2, code(LOCAL, b"\x41\x01\xc0\x1a"), 0),
    "i64.extend32_s": (UNDER_2, code(LOCAL, b"\x42\x01\xc4\x1a"), 0),
    "f32.reinterpret_i32 and back, profile 4": (UNDER_4, code(LOCAL, b"\x20\x00\xbe\xbc\x21\x00"), 0),
    "i32.extend8_s, profile 4": (UNDER_4, code(LOCAL, b"\x41\x01\xc0\x1a"), 0),
    "f32.reinterpret_i32 and back, written": (LOADED, code(LOCAL, b"\x20\x00\xbe\xbc\x21\x00"), 0),
    "i32.extend8_s, written": (LOADED, code(LOCAL, b"\x41\x01\xc0\x1a"), 0),
    "memory.size": (CHECK, code(LOCAL, b"\x3f\x00\x1a", MEMORY), 0),
    "memory.grow": (CHECK, code(LOCAL, b"\x41\x01\x40\x00\x1a", MEMORY), 0),
    "empty bodies in pieces of one": (CHECK, bodies(b""), 1),
    "short bodies in pieces of one": (CHECK, bodies(b"\x41\x00\x1a"), 1),
    "empty bodies in pieces of two": (CHECK, bodies(b""), 2),
    "short bodies in pieces of two": (CHECK, bodies(b"\x41\x00\x1a"), 2),
    "elements behind a long one": (CHECK, elements(9_000, first), 0),
    "labels behind a long one": (CHECK, labels(9_000, first), 0),
    "elements, one in a hundred long": (CHECK, elements(9_000, one_in_a_hundred), 0),
    "labels, one in a hundred long": (CHECK, labels(9_000, one_in_a_hundred), 0),
    "elements of one segment alone": (CHECK, elements(7_900, first, 1), 0),
    "elements, all long": (CHECK, elements(9_000, each), 0),
    "elements, all long, in pieces of one": (CHECK, elements(3_000, each), 1),
    "elements in pieces of one": (CHECK, elements(3_000, lambda i: False), 1),
    "empty bodies, written": (CANON, bodies(b""), 0),
    "short bodies, written": (CANON, bodies(b"\x41\x00\x1a"), 0),
    "i32.add behind unreachable": (CHECK, code(LOCAL, b"\x00" + b"\x6a" * 30 + b"\x1a"), 0),
    "i32.add alone behind unreachable": (CHECK, lambda numbers: module([NOTHING], [entry([], b"\x00" + b"\x6a" * (30_000 if numbers.state == 1 else 17_000) + b"\x1a")]), 0),
    "custom sections in pieces of one": (CHECK, customs, 1),
    "blanks": (BUILD, spread(b" "), 0),
    "line ends": (BUILD, spread(b"\n"), 0),
    "line comments": (BUILD, comments, 0),
    "identifiers": (BUILD, identifiers, 0),
    "imports and exports": (BUILD, imports_and_exports, 0),
    "parentheses, refused": (BUILD, repeated(b"(", b")"), 0),
    "strings, refused": (BUILD, repeated(b'"a"'), 0),
    "parentheses and letters, refused": (BUILD, repeated(b")a"), 0),
    "digits, refused": (BUILD, repeated(b"1"), 0),
    "one long line, refused at its end": (BUILD, refused_late(b" "), 0),
    "many lines, refused at the last": (BUILD, refused_late(b"\n"), 0),
}


ZERO_64, ZERO_32, THREE, TABLE = b"\x44" + bytes(8), b"\x43" + bytes(4), b"\x41\x00" * 3, section(4, vector([b"\x70\x00\x01"]))
# a passive element segment, and one data segment with its count
ELEMENT = TABLE + section(9, vector([b"\x01\x00\x00"]))
COUNT, DATA = MEMORY + section(12, b"\x01"), section(11, vector([b"\x01\x01a"]))
CHOICE = "select and drop", THREE + b"\x1b\x1a"
CALL = "call", b"\x10\x00"


def of_code(one, older, other, *sections):
    """Returns the makers of a later instruction and of one of 1.0, with the name of the second."""
    return code(LOCAL, one, *sections), older, code(LOCAL, other, *sections)


# for a later instruction or segment: its maker, and the name and the maker of that of 1.0
LATER = {
    "i32.trunc_sat_f64_s": of_code(ZERO_64 + b"\xfc\x02\x1a", "i32.trunc_f64_s", ZERO_64 + b"\xaa\x1a"),
    "i64.trunc_sat_f32_u": of_code(ZERO_32 + b"\xfc\x05\x1a", "i64.trunc_f32_u", ZERO_32 + b"\xaf\x1a"),
    "memory.fill": of_code(THREE + b"\xfc\x0b\x00", *CHOICE, MEMORY),
    "memory.copy": of_code(THREE + b"\xfc\x0a\x00\x00", *CHOICE, MEMORY),
    "memory.init": of_code(THREE + b"\xfc\x08\x00\x00", *CHOICE, COUNT, DATA),
    "data.drop": of_code(b"\xfc\x09\x00", *CALL, COUNT, DATA),
    "table.init": of_code(THREE + b"\xfc\x0c\x00\x00", *CHOICE, ELEMENT),
    "elem.drop": of_code(b"\xfc\x0d\x00", *CALL, ELEMENT),
    "table.copy": of_code(THREE + b"\xfc\x0e\x00\x00", *CHOICE, ELEMENT),
    "call_indirect, long index": of_code(b"\x41\x00\x11\x00" + b"\x80" * 4 + b"\x00", "call_indirect", b"\x41\x00\x11\x00\x00", TABLE),
    "passive element segment": (segments(9, b"\x01\x00\x00", TABLE), "element segment", segments(9, b"\x00\x41\x00\x0b\x00", TABLE)),
    "passive data segment": (segments(11, b"\x01\x01a", MEMORY), "data segment", segments(11, b"\x00\x41\x00\x0b\x01a", MEMORY)),
}
WITH_LATER = ["--features", "compilers"]


def fed(program, words, given, piece):
    """Runs the program below callgrind. Returns the number of instructions, and the status and outputs."""
    with tempfile.TemporaryFile() as file:
        file.write(given)
        file.seek(0)
        here, there = socket.socketpair(socket.AF_UNIX, socket.SOCK_SEQPACKET)
        command = ["valgrind", "--tool=callgrind", "--callgrind-out-file=/dev/null", program, *words]
        streams = {"stdin": there if piece else file, "stdout": subprocess.PIPE, "stderr": subprocess.PIPE}
        with subprocess.Popen(command, env={"PATH": "/usr/bin:/bin"}, **streams) as ran:
            there.close()
            sender = threading.Thread(target=send, args=(here, given, piece))
            sender.start()
            written, told = ran.communicate()
            sender.join()
    counted = re.search(rb"Collected : (\d+)", told)
    if not counted:
        sys.exit(told.decode())
    # Lines of valgrind itself begin with ==NUMBER==. Older programs write no line and column, and no line of detail.
    answer = re.sub(rb"^(text refused at \d+) \(\d+:\d+\)", rb"\1", written)
    messages = b"" if ran.returncode == 1 else re.sub(rb"(?m)^==\d+==.*\n", b"", told)
    return int(counted[1]), (ran.returncode, answer, messages)


def send(here, given, piece):
    """Sends each piece as a packet, so that the program gets it in one read."""
    with here:
        try:
            for at in range(0, len(given), piece) if piece else ():
                here.sendall(given[at : at + piece])
        except ConnectionError:
            # wmod does not read a refused input to its end.
            pass


def counted(programs, name, seed):
    words, made, piece = ROWS[name]
    given, nothing = made(Numbers(seed)), EMPTY_TEXT if words == BUILD else HEADER
    counts, answers = [], []
    for program in programs:
        count, answer = fed(program, words, given, piece)
        counts.append(count - fed(program, words, nothing, piece)[0])
        answers.append(answer)
    if answers[0] != answers[1]:
        sys.exit(f"{name}: the answers differ: {answers[0]!r:.200} and {answers[1]!r:.200}")
    return counts


def shapes():
    """Yields each shape with its profile and a module of 1 MB, and two modules of ops that only some profiles have."""
    for shape in (it.__name__ for it in SHAPES):
        yield shape, "3" if shape in WITH_FLOATS else "1", make(shape, 1)
    yield "sign extensions", "2", module([NOTHING], [entry(LOCAL, b"\x20\x00\xc0\x21\x00\x20\x01\xc4\x21\x01" * 100_000)])
    yield "conversions", "3", module([NOTHING], [entry(LOCAL, b"\x20\x00\xb7\xaa\x21\x00\x20\x01\xb4\xae\x21\x01" * 80_000)])


def ratio(programs, words, given, nothing):
    """Returns the ratio of the instructions of NEW to those of OLD, without those of an empty input."""
    (old, told), (new, tells) = (fed(it, words, given, 0) for it in programs)
    if told != tells:
        sys.exit(f"{words}: the answers differ")
    old, new = (count - fed(it, words, nothing, 0)[0] for it, count in zip(programs, (old, new)))
    return f"{new / old:.2f}"


def print_shapes(programs):
    print("| Shape | `check` | `canon` | `show` | `build` |\n|---|---|---|---|---|", flush=True)
    with ThreadPoolExecutor(4) as pool:
        for shape, profile, given in shapes():
            text = subprocess.run([programs[1], "show", "--profile", profile], input=given, stdout=subprocess.PIPE, check=True).stdout
            inputs = [(it, given, HEADER) for it in ("check", "canon", "show")] + [("build", text, EMPTY_TEXT)]
            found = pool.map(lambda it, profile=profile: ratio(programs, [it[0], "--profile", profile], *it[1:]), inputs)
            print(f"| {shape} | {' | '.join(found)} |", flush=True)


def a_byte(program, made):
    """Returns the instructions of wmod for each byte of a module of this maker."""
    given = made(Numbers(1))
    whole, nothing = (fed(program, ["check", *WITH_LATER], it, 0) for it in (given, HEADER))
    if whole[1][0]:
        sys.exit(f"refused: {whole[1]}")
    return (whole[0] - nothing[0]) / len(given)


def print_later(program):
    print("| Later | A byte | Of 1.0 | A byte | Ratio |\n|---|---|---|---|---|", flush=True)
    for name, (made, older, other) in LATER.items():
        new, old = a_byte(program, made), a_byte(program, other)
        print(f"| {name} | {new:.2f} | {older} | {old:.2f} | {new / old:.2f} |", flush=True)


def main():
    if len(sys.argv) < 3:
        sys.exit(__doc__)
    if sys.argv[2] == "--later":
        print_later(pathlib.Path(sys.argv[1]).resolve() / "crates/wm_cli/out/wm_cli")
        return
    programs = [pathlib.Path(top).resolve() / "crates/wm_cli/out/wm_cli" for top in sys.argv[1:3]]
    if sys.argv[3:] == ["--shapes"]:
        print_shapes(programs)
        return
    names = [name for name in ROWS if not sys.argv[3:] or any(word in name for word in sys.argv[3:])]
    print("| Input | OLD, million | NEW, million | NEW over OLD | NEW over OLD, second input |\n|---|---|---|---|---|", flush=True)
    with ThreadPoolExecutor(2) as pool:
        for name in names:
            one, two = pool.map(lambda seed, name=name: counted(programs, name, seed), (1, 2))
            print(f"| {name} | {one[0] / 1e6:.2f} | {one[1] / 1e6:.2f} | {one[1] / one[0]:.3f} | {two[1] / two[0]:.3f} |", flush=True)


if __name__ == "__main__":
    main()
