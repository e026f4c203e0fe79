#!/usr/bin/env python3
"""Compares `wmod check --profile 3` with node on small modules with floats.

    modules.py [COUNT [SEED]] [--program=PATH] [--features=LIST]      10,000 modules and seed 1 by default

LIST goes to `wmod check --features`. With `call-indirect-overlong` in it, table indices have up to five bytes. With
`sign-ext`, `nontrapping-fptoint` or `bulk-memory-opt` in it, the modules have the instructions of that feature. With
`bulk-memory` in it, they also have passive segments, a data count section, and the instructions that name segments.
`compilers` stands for all of these words.

Equal seeds give equal modules. One third is valid: each instruction fits the types of the operands on the stack, also
in unreachable code. In another third one instruction is dropped, doubled, swapped with the next one or replaced. In the
last third one byte is changed, or the end is cut off.

Node accepts features after 1.0, and refuses a few modules of 1.0. The script prints each difference with the class that
explains it, and the number of modules of each class. It ends with status 1 if no class explains a difference, or if
both programs refuse a valid module, or if wmod gives no answer. The names of these classes are in capital letters, and
their modules are printed in hexadecimal.
"""
import collections
import json
import pathlib
import re
import subprocess
import sys

from make_module import HEADER, Numbers, section, signed, unsigned, vector
from make_module import name as sized

PROGRAM = pathlib.Path(__file__).resolve().parent.parent / "crates/wm_cli/out/wm_cli"
NODE = """
const all = require('fs').readFileSync(0);
const told = [];
for (let at = 0; at < all.length; at += 4 + all.readUInt32LE(at)) {
  const bytes = all.subarray(at + 4, at + 4 + all.readUInt32LE(at));
  let why = '';
  if (!WebAssembly.validate(bytes)) {
    why = 'no reason told';
    try { new WebAssembly.Module(bytes); } catch (error) { why = error.message; }
  }
  told.push(why);
}
console.log(JSON.stringify(told));
"""

FEATURES = [word.removeprefix("--features=") for word in sys.argv if word.startswith("--features=")]
# the words that another word has in it
INSIDE = {"bulk-memory": ["bulk-memory-opt"], "compilers": ["sign-ext", "call-indirect-overlong", "nontrapping-fptoint", "bulk-memory-opt", "bulk-memory"]}
WORDS = {it for word in ",".join(FEATURES).split(",") for it in [word, *INSIDE.get(word, [])]}
# the most bytes of a table index in a call_indirect
LONGEST = 5 if "call-indirect-overlong" in WORDS else 1
# the most bytes of a number behind FC
WIDEST = 3
# whether segments begin with a flag
FLAGGED = "bulk-memory" in WORDS

# Types are letters: i and j are i32 and i64, f and d are f32 and f64.
TYPES = {"i": b"\x7f", "j": b"\x7e", "f": b"\x7d", "d": b"\x7c"}
# Numeric instructions: the first opcode, the number of opcodes, and the types that each pops and pushes.
RUNS = "45 1 i i, 46 10 ii i, 50 1 j i, 51 10 jj i, 5b 6 ff i, 61 6 dd i, 67 3 i i, 6a 15 ii i, 79 3 j j, 7c 15 jj j, 8b 7 f f, "
RUNS += "92 7 ff f, 99 7 d d, a0 7 dd d, a7 1 j i, a8 2 f i, aa 2 d i, ac 2 i j, ae 2 f j, b0 2 d j, b2 2 i f, b4 2 j f, b6 1 d f, "
RUNS += "b7 2 i d, b9 2 j d, bb 1 f d, bc 1 f i, bd 1 d j, be 1 i f, bf 1 j d"
RUNS += ", c0 2 i i, c2 3 j j" if "sign-ext" in WORDS else ""
NUMERICS = [
    (bytes([int(first, 16) + i]), takes, gives)
    for first, count, takes, gives in map(str.split, RUNS.split(", "))
    for i in range(int(count))
]
# The saturating truncations, by the number behind FC: the types that each pops and pushes.
SATURATIONS = "f i, f i, d i, d i, f j, f j, d j, d j".split(", ")
# Loads from opcode 28 on, and stores from 36 on: the type of the value, and the greatest alignment.
LOADS = "i2 j3 f2 d3 i0 i0 i1 i1 j0 j0 j1 j1 j2 j2".split()
STORES = "i2 j3 f2 d3 i0 i1 j0 j1 j2".split()


class Chooser(Numbers):
    def letters(self, most):
        return "".join(self.one_of("ijfd") for _ in range(self.below(most + 1)))

    def constant(self, t):
        if t in "ij":
            return (b"\x41" if t == "i" else b"\x42") + signed(self.below(1 << self.below(31)) - self.below(1 << self.below(31)))
        return (b"\x43" if t == "f" else b"\x44") + bytes(self.below(256) for _ in range(4 if t == "f" else 8))


# pairs of letters; functions are indices of types; the numbers of element segments and data segments
Around = collections.namedtuple("Around", "types functions globals elements segments")


class Frame:
    def __init__(self, word, result, floor):
        self.word, self.result, self.floor, self.dead = word, result, floor, False
        self.label = "" if word == "loop" else result


class Body:
    """A body under construction: its instructions, the types of its operands, and its open blocks."""

    def __init__(self, numbers, around, type_, locals_):
        self.numbers, self.around, self.locals = numbers, around, type_[0] + locals_
        self.code, self.stack, self.frames = [], [], [Frame("block", type_[1], 0)]
        for _ in range(numbers.below(32)):
            numbers.one_of(STEPS)(self)
        while self.frames:
            self.close()

    def above(self):
        return self.stack[self.frames[-1].floor :]

    def there(self, types):
        """Whether operands of these types are on top. In unreachable code, missing operands have any type."""
        have = self.above()[-len(types) :] if types else []
        return (len(have) == len(types) or self.frames[-1].dead) and have == list(types[len(types) - len(have) :])

    def put(self, code, takes="", gives=""):
        """Adds an instruction, after instructions that push the operands that it lacks."""
        found = next(n for n in range(len(takes), -1, -1) if self.there(takes[:n]))
        for t in takes[found:]:
            places = [b"\x20" + unsigned(x) for x, ty in enumerate(self.locals) if ty == t]
            places += [b"\x23" + unsigned(x) for x, (ty, _) in enumerate(self.around.globals) if ty == t]
            self.code.append(self.numbers.one_of([self.numbers.constant(t), *places]))
            self.stack.append(t)
        del self.stack[max(self.frames[-1].floor, len(self.stack) - len(takes)) :]
        self.code.append(code)
        self.stack += gives

    def leave(self, code, takes=""):
        """Adds an instruction after which code is unreachable."""
        self.put(code, takes)
        del self.stack[self.frames[-1].floor :]
        self.frames[-1].dead = True

    def finish(self, code):
        """Adds an `else` or `end`, with only the block's result on the stack."""
        frame = self.frames[-1]
        while self.above() not in ([], list(frame.result)):
            self.put(b"\x1a", self.stack[-1])
        self.put(code, frame.result)

    def other_branch(self):
        if self.frames[-1].word == "if":
            self.finish(b"\x05")
            self.frames[-1].word, self.frames[-1].dead = "else", False

    def close(self):
        if self.frames[-1].result:
            self.other_branch()
        self.finish(b"\x0b")
        self.stack += self.frames.pop().result

    def close_inner(self):
        if len(self.frames) > 1:
            self.close()

    def open(self):
        word, result = self.numbers.one_of(["block", "loop", "if"]), self.numbers.letters(1)
        byte = {"block": b"\x02", "loop": b"\x03", "if": b"\x04"}[word]
        self.put(byte + TYPES.get(result, b"\x40"), "i" if word == "if" else "")
        self.frames.append(Frame(word, result, len(self.stack)))

    def numeric(self):
        fitting = [row for row in NUMERICS if self.there(row[1])]
        self.put(*self.numbers.one_of(self.numbers.one_of([fitting, fitting, NUMERICS]) or NUMERICS))

    def behind(self, number, rest, takes, gives):
        self.put(b"\xfc" + unsigned(number, self.numbers.below(WIDEST) + 1) + rest, takes, gives)

    def saturation(self):
        number = self.numbers.below(len(SATURATIONS))
        self.behind(number, b"", *SATURATIONS[number].split())

    def copy_or_fill(self):
        self.behind(*self.numbers.one_of([(10, bytes(2)), (11, bytes(1))]), "iii", "")

    def segment(self):
        x, y = (unsigned(self.numbers.below(count), self.numbers.below(WIDEST)) for count in (self.around.elements, self.around.segments))
        to, by = (unsigned(0, self.numbers.below(6)) for _ in range(2))
        self.behind(*self.numbers.one_of([(8, y + b"\x00", "iii"), (9, y, ""), (12, x + to, "iii"), (13, x, ""), (14, to + by, "iii")]), "")

    def memory_argument(self, most):
        return unsigned(self.numbers.below(most + 1)) + unsigned(self.numbers.below(1 << self.numbers.below(31)))

    def load(self):
        n = self.numbers.below(len(LOADS))
        self.put(bytes([0x28 + n]) + self.memory_argument(int(LOADS[n][1])), "i", LOADS[n][0])

    def store(self):
        n = self.numbers.below(len(STORES))
        self.put(bytes([0x36 + n]) + self.memory_argument(int(STORES[n][1])), "i" + STORES[n][0])

    def local(self):
        x = self.numbers.below(len(self.locals) + 1) - 1
        if x >= 0:
            t = self.locals[x]
            byte, takes, gives = self.numbers.one_of([(b"\x20", "", t), (b"\x21", t, ""), (b"\x22", t, t)])
            self.put(byte + unsigned(x), takes, gives)

    def global_set(self):
        for x, (t, varies) in enumerate(self.around.globals):
            if varies and self.numbers.below(2):
                self.put(b"\x24" + unsigned(x), t)

    def drop(self):
        self.put(b"\x1a", self.stack[-1] if self.above() else self.numbers.one_of("ijfd"))

    def select(self):
        t = self.stack[-1] if self.above() else self.numbers.one_of("ijfd")
        self.put(b"\x1b", t + t + "i", t)

    def small(self):
        self.put(*self.numbers.one_of([(b"\x01",), (b"\x3f\x00", "", "i"), (b"\x40\x00", "i", "i")]))

    def call(self):
        x = self.numbers.below(len(self.around.functions))
        self.put(b"\x10" + unsigned(x), *self.around.types[self.around.functions[x]])

    def call_indirect(self):
        x = self.numbers.below(len(self.around.types))
        takes, gives = self.around.types[x]
        table = unsigned(0, self.numbers.below(LONGEST + 1)) if LONGEST > 1 else b"\x00"
        self.put(b"\x11" + unsigned(x) + table, takes + "i", gives)

    def branch(self):
        label = self.numbers.one_of(self.frames).label
        fitting = [unsigned(i) for i, frame in enumerate(reversed(self.frames)) if frame.label == label]
        kind = self.numbers.below(4)
        if kind == 0:
            self.leave(b"\x0c" + self.numbers.one_of(fitting), label)
        elif kind == 1:
            labels = [self.numbers.one_of(fitting) for _ in range(self.numbers.below(4))]
            self.leave(b"\x0e" + vector(labels) + self.numbers.one_of(fitting), label + "i")
        else:
            self.put(b"\x0d" + self.numbers.one_of(fitting), label + "i", label)

    def stop(self):
        self.leave(*self.numbers.one_of([(b"\x00",), (b"\x0f", self.frames[0].result)]))


STEPS = [Body.numeric] * 24 + [Body.load, Body.store, Body.local, Body.select, Body.branch] * 2
STEPS += [Body.open] * 3 + [Body.close_inner] * 2 + [Body.other_branch, Body.global_set, Body.drop, Body.small]
STEPS += [Body.call, Body.call_indirect, Body.stop]
STEPS += [Body.saturation] * 4 if "nontrapping-fptoint" in WORDS else []
STEPS += [Body.copy_or_fill] * 2 if "bulk-memory-opt" in WORDS else []
STEPS += [Body.segment] * 4 if FLAGGED else []


def segments(numbers, count, constant, contents, kind):
    """Returns a list of segments of any of the three flags. `kind` is what comes before the contents behind 1 and 2."""
    made = []
    for _ in range(count):
        flag = numbers.below(3) if FLAGGED else 0
        front = unsigned(flag, numbers.below(3) if FLAGGED else 0) + (b"\x00" if flag == 2 else b"")
        made.append(front + (b"" if flag == 1 else constant("i")) + (kind if flag else b"") + contents())
    return vector(made)


def valid(numbers):
    """Returns the sections before the code, the locals and instructions of each code entry, and the data section."""
    types = [(numbers.letters(3), numbers.letters(1)) for _ in range(1 + numbers.below(4))]
    imported = [(numbers.one_of("ijfd"), numbers.below(2)) for _ in range(numbers.below(3))]
    own = [(numbers.one_of("ijfd"), numbers.below(2)) for _ in range(numbers.below(4))]
    host, *functions = (numbers.below(len(types)) for _ in range(2 + numbers.below(3)))

    def constant(t):
        gets = [b"\x23" + unsigned(x) for x, given in enumerate(imported) if given == (t, 0)]
        return numbers.one_of([numbers.constant(t), *gets]) + b"\x0b"

    imports = [b"\x01a\x01" + b"f\x00" + unsigned(host)]
    imports += [b"\x01a\x01" + b"g\x03" + TYPES[t] + bytes([varies]) for t, varies in imported]
    globals_ = [TYPES[t] + bytes([varies]) + constant(t) for t, varies in own]
    # the kinds are function, table, memory and global
    spaces = [(0, 1 + len(functions)), (1, 1), (2, 1), (3, len(imported + own))]
    exports = [b"\x01" + bytes([0x61 + kind, kind]) + unsigned(numbers.below(count)) for kind, count in spaces if count]
    starts = [unsigned(x) for x, ty in enumerate([host, *functions]) if types[ty] == ("", "")]
    indices = [unsigned(numbers.below(1 + len(functions))) for _ in range(numbers.below(3))]
    before = section(1, vector([b"\x60" + b"".join(vector([TYPES[t] for t in part]) for part in ty) for ty in types]))
    before += section(2, vector(imports)) + section(3, vector([unsigned(x) for x in functions]))
    before += section(4, b"\x01\x70" + numbers.one_of([b"\x00\x04", b"\x01\x00\x09"]))
    before += section(5, b"\x01" + numbers.one_of([b"\x00\x01", b"\x01\x01\x02"])) + section(6, vector(globals_))
    before += section(7, vector(exports)) + (section(8, starts[0]) if starts else b"")
    counts = [1 + numbers.below(3) if FLAGGED else 1 for _ in range(2)]
    before += section(9, segments(numbers, counts[0], constant, lambda: vector(indices), b"\x00"))
    before += section(12, unsigned(counts[1])) if FLAGGED else b""
    around = Around(types, [host, *functions], imported + own, *counts)
    bodies = []
    for x in functions:
        runs = [(t, numbers.below(3)) for t in numbers.letters(4)]
        body = Body(numbers, around, types[x], "".join(t * count for t, count in runs))
        bodies.append(([unsigned(count) + TYPES[t] for t, count in runs], body.code))
    return before, bodies, section(11, segments(numbers, counts[1], constant, lambda: sized(b"abc"), b""))


def encoded(before, bodies, after):
    return HEADER + before + section(10, vector([sized(vector(runs) + b"".join(code)) for runs, code in bodies])) + after


def change_instruction(numbers, bodies):
    code = numbers.one_of(bodies)[1]
    at = numbers.below(len(code))
    here = code[at : at + 1]
    other = numbers.one_of(NUMERICS)[0]
    code[at : at + 2] = numbers.one_of(
        [code[at + 1 : at + 2], here + code[at:][:2], code[at + 1 : at + 2] + here]
        + [[new] + code[at + 1 : at + 2] for new in (other, numbers.one_of(code))]
    )


def changed_byte(numbers, whole):
    at = 8 + numbers.below(len(whole) - 8)
    new = numbers.one_of([bytes([numbers.below(256)]), bytes([numbers.below(8)])] * 4 + [*TYPES.values()])
    return numbers.one_of([whole[:at] + new + whole[at + 1 :]] * 9 + [whole[:at]])


def modules(count, seed):
    """Yields modules, each with whether it is certainly valid."""
    numbers = Chooser(seed)
    for n in range(count):
        before, bodies, after = valid(numbers)
        if n % 3 == 1:
            change_instruction(numbers, bodies)
        whole = encoded(before, bodies, after)
        yield n % 3 == 0, changed_byte(numbers, whole) if n % 3 == 2 else whole


# Why node accepts a module that wmod refuses. A pattern matches the section's id, the refusal and the last bytes up to
# its offset.
STRICTER = {
    "sign extension": r"BadOpcode .*c[0-4]$",
    "non-trapping conversion, or bulk memory": r"BadOpcode .*fc( [89a-f]\w)*( \w\w)?$",
    "vectors or atomics": r"BadOpcode .*f[de]$",
    "exceptions or tail calls": r"BadOpcode .*(0[6-9]|1[2389])$|^(2|7) BadByte .*04$|^13 SectionId ",
    "reference types": r"BadOpcode .*(1c|2[56]|d[0-2])$|BadByte .*(6f|70)$|^[24] Second ",
    "type of vectors": r"BadByte .*7b$",
    "several values": r"^1 Arity |^10 BadByte .*0[2-4] \w\w$",
    "shared memory": r"^[25] BadByte .*03$",
    "later form of a segment": r"^(9|11) Index .*0[1-7]$|^9 BadNumber .*[08][3-7]$|^12 SectionId ",
    "index of a call_indirect's table": r"^10 Bad(Byte|Number) .*11 \w\w( 80)* \w\w$",
    "labels of a br_table in unreachable code": r"^10 Type .*br_table$",
}
# Why node refuses a module that wmod accepts, by the message of node.
LAXER = {
    "offset by an own constant global": "non-imported globals cannot be used in constant expressions",
    "limit of node": "larger than implementation limit|exceeds internal limit|local count too large",
}


def section_of(whole, at):
    """Returns the id of the section that contains the byte `at`, if all sizes before it are right."""
    start = end = 8
    while end <= at:
        start, end, shift = end, end + 1, 0
        size = whole[end] & 0x7F
        while whole[end] & 0x80:
            end, shift = end + 1, shift + 7
            size |= (whole[end] & 0x7F) << shift
        end += 1 + size
    return whole[start]


def refusal(whole, line):
    """Returns the text that the patterns of STRICTER match."""
    place, word = re.fullmatch(r"refused at (\d+): (\w+)", line).groups()
    front = whole[: int(place)]
    table = any(front[-n - 3 : -n - 1] == bytes([0x0E, n]) for n in range(16))
    return f"{section_of(whole, len(front) - 1)} {word} {front[-8:].hex(' ')}" + (" br_table" if table else "")


def found(classes, words):
    return next((name for name, pattern in classes.items() if re.search(pattern, words)), "UNEXPLAINED")


def checked(program, whole):
    """Returns the output of wmod, or "" if it accepts."""
    done = subprocess.run([program, "check", "--profile", "3", *(f"--features={it}" for it in FEATURES), "-"], input=whole, stdout=subprocess.PIPE, stderr=subprocess.DEVNULL, check=False)
    line = done.stdout.decode("utf8", "replace").strip()
    return "" if done.returncode == 0 else line or f"status {done.returncode}"


def judged(right, whole, own, other):
    """Returns the class of a module, in capital letters if it is an error."""
    if own and not re.fullmatch(r"refused at \d+: \w+", own):
        return "NO ANSWER"
    if own and other:
        return "BOTH REFUSE WHAT IS VALID" if right else "both refuse"
    if own:
        return "WMOD ALONE REFUSES WHAT IS VALID" if right else f"wmod alone refuses: {found(STRICTER, refusal(whole, own))}"
    return f"node alone refuses: {found(LAXER, other)}" if other else "both accept"


def main():
    given = [word.removeprefix("--program=") for word in sys.argv if word.startswith("--program=")]
    words = [word for word in sys.argv[1:] if not word.startswith("--")]
    count, seed = map(int, words + ["10000", "1"][len(words) :])
    made = list(modules(count, seed))
    told = b"".join(len(whole).to_bytes(4, "little") + whole for _, whole in made)
    others = json.loads(subprocess.run(["node", "-e", NODE], input=told, stdout=subprocess.PIPE, check=True).stdout)
    classes = collections.Counter()
    for n, ((right, whole), other) in enumerate(zip(made, others)):
        own = checked(given[0] if given else str(PROGRAM), whole)
        name = judged(right, whole, own, other)
        classes[name] += 1
        if not name.startswith("both"):
            print(f"module {n}: {name}; wmod: {own or 'valid'}; node: {other or 'valid'}")
        if re.search("[A-Z]{2}", name):
            print(whole.hex(" "))
    for name, members in classes.most_common():
        print(f"{members:6} {name}")
    return 1 if re.search("[A-Z]{2}", " ".join(classes)) else 0


if __name__ == "__main__":
    sys.exit(main())
