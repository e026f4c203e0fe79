"""Tests a built program with memory refused: each allocation fails in turn, once alone and once with all after it.

    .ci/growths.py PROGRAM       the built wmod or wm_rows

It ends with status 1 if a test fails. A growth is a call of malloc, calloc or realloc. With a growth refused,

- wmod ends with status 4, its one line and no output, or with the answer that it gives with ample memory;
- wmod over several files may also end with status 4 and with lines for some of the files;
- wm_rows ends with all answers of ample memory, or with status 1, its one line and some of these answers, each whole.

The growths of wmod are also counted:

- a name takes a growth only if the end of a piece cuts it. Else it is borrowed from the piece;
- a list of ops that a long body grew is freed before the next body, and so is a list of deeply nested blocks;
- an empty body without locals takes no growth.
"""
import collections
import os
import re
import subprocess
import sys
import tempfile

sys.dont_write_bytecode = True
import needs

HERE = os.path.dirname(os.path.abspath(__file__))
OUT_OF_MEMORY = (4, b"", b"wmod: out of memory\n")
ROWS_OUT_OF_MEMORY = 1, b"Error: Kind(OutOfMemory)\n"

HEAD = "00 61 73 6D 01 00 00 00"
NONE = f"{HEAD} 01 04 01 60 00 00 03 02 01 00"
TO_I32 = f"{HEAD} 01 05 01 60 00 01 7F 03 02 01 00"
ADD = "01 60 02 7F 7F 01 7F 03 02 01 00 0A 09 01 07 00 20 00 20 01 6A 0B"
# N*{..} repeats its contents N times
MODULES = {
    "an addition": f"{HEAD} 01 07 {ADD}",
    "a long number": f"{HEAD} 01 87 80 80 80 00 {ADD}",
    "an if": f"{NONE} 0A 0A 01 08 00 41 00 04 40 05 0B 0B",
    "an if without its else": f"{TO_I32} 0A 0B 01 09 00 41 00 04 7F 41 00 0B 0B",
    "an if with a result": f"{TO_I32} 0A 0E 01 0C 00 41 01 04 7F 41 02 05 41 03 0B 0B",
    "data": f"{HEAD} 05 03 01 00 01 0B 0A 01 00 41 00 0B 04 00 C3 A9 22",
    "40 blocks": f"{NONE} 0A 7C 01 7A 00 40*{{02 40}} 41*{{0B}}",
    "65 operands": f"{NONE} 0A C8 01 01 C5 01 00 65*{{41 00}} 65*{{1A}} 0B",
    "100,000 parameters": f"{HEAD} 01 A9 8D 06 02 60 A0 8D 06 100000*{{7F}} 00 60 00 00 02 05 01 00 00 00 00 03 02 01 01 "
    "0A A7 8D 06 01 A3 8D 06 00 00 50000*{10 00} 0B",
}
TEXT = r'(module (memory $mem0 1) (data $mem0 (offset i32.const 0) "\00\u{e9}\""))'
OLDER = "(module (type (func)) (memory 1) (func (type 0) (local i32) current_memory set_local 0))"

# a module for each feature, by its word: a call_indirect whose table index has five bytes, a truncation that saturates,
# memory.fill and memory.copy, passive segments and their instructions, and all features at once
OF_FEATURES = {
    "call-indirect-overlong": f"{NONE} 04 04 01 70 00 01 0A 0D 01 0B 00 41 00 11 00 80 80 80 80 00 0B",
    "nontrapping-fptoint": f"{NONE} 0A 0C 01 0A 00 43 00 00 00 00 FC 00 1A 0B",
    "bulk-memory-opt": f"{NONE} 05 03 01 00 01 0A 18 01 16 00 41 00 41 00 41 00 41 00 41 00 41 00 FC 8B 00 00 FC 0A 00 00 0B",
    "bulk-memory": f"{NONE} 04 04 01 70 00 01 05 03 01 00 01 09 05 01 01 00 01 00 0C 01 01 0A 29 01 27 00 41 00 41 00 41 00 FC 08 00 00 FC 09 00 "
    "41 00 41 00 41 00 FC 0C 00 80 00 FC 0D 00 41 00 41 00 41 00 FC 0E 00 00 0B 0B 04 01 01 01 61",
    "compilers": f"{NONE} 04 04 01 70 00 01 05 03 01 00 01 09 04 01 01 00 00 0C 01 01 0A 26 01 24 00 43 00 00 00 00 FC 00 C0 1A 41 00 11 00 80 80 80 80 00 "
    "41 00 41 00 41 00 FC 0A 00 00 FC 09 00 FC 0D 00 0B 0B 03 01 01 00",
}

# the bytes of one read (PIECE of wm_rules), a custom section with a name, and its offsets at which a piece's end cuts
# the name
PIECE, NAMED, CUTS = 4096, "00 04 03 61 62 63", (4, 5)

# the greatest capacity of a list that is reused, in ops or in open blocks (MOST_KEPT of wm_syntax)
MOST_KEPT = 1024
NOP, BLOCK, END = b"\x01", b"\x02\x40", b"\x0b"

# the rows for wm_rows, which also cuts each input in two at every offset
ROWS = "\n".join(
    [f"{action} {MODULES[name].replace(HEAD, 'H')}" for action, name in (("canon", "a long number"), ("show", "an if with a result"), ("stats", "data"))]
    + [f"canon profile 3+{word} {words.replace(HEAD, 'H')}" for word, words in OF_FEATURES.items()]
    + [f"build {TEXT}\n"]
)


def bytes_of(words):
    spread = re.sub(r"(\d+)\*\{([^}]*)\}", lambda it: f"{it[2]} " * int(it[1]), words)
    return bytes.fromhex(spread)


def runs_of(program):
    """Yields the arguments and the standard input of each run."""
    for words in MODULES.values():
        module = bytes_of(words)
        for action in ("check", "stats", "canon", "show"):
            yield [action], module
        text = subprocess.run([program, "show"], input=module, stdout=subprocess.PIPE, check=False)
        if text.returncode == 0:
            yield ["build"], text.stdout
    yield ["build"], TEXT.encode()
    yield ["build", "--old-words"], OLDER.encode()
    yield ["build"], b"(module (start $f))"
    yield ["build"], b"(module (start 0))"
    module = bytes_of(MODULES["an if"])
    yield ["show", "--max-functions", "9", "--max-locals", "9", "--max-open", "0"], module
    yield ["check", "--profile", "2", "--limit", "20"], module
    for word, words in OF_FEATURES.items():
        for action in ("check", "stats", "canon", "show"):
            yield [action, "--profile", "3", "--features", word], bytes_of(words)
    for words in (["--help"], ["--version"], ["explain", "Index"], ["explain", "Indx"], ["chek"], ["check", "--limit", "x"], ["check", "--features", "help"], ["check", "--features", "sign-ext"], ["check", "--features", "signext"], ["check", "--lmit", "1"], ["check", "--quux"], [], ["help"], ["explain"], ["check", "/none"]):
        yield words, b""


def runs_of_several():
    """Yields runs over several files, and runs that write a file. Fails if one of these leaves another file behind."""
    module = bytes_of(MODULES["an if"])
    with tempfile.TemporaryDirectory(prefix="growths-") as room:
        path, made = f"{room}/in", f"{room}/out"
        with open(path, "wb") as it:
            it.write(module)
        for action in ("check", "stats"):
            yield [action, path, "/none", path, "-"], b""
            yield [action, "--from", "-"], f"{path}\n/none\n{path}\n".encode()
        yield ["canon", "-o", made, path], b""
        yield ["show", "-o", made], module
        yield ["build", "-o", made], TEXT.encode()
        yield ["build", "-o", made], b"(module (start $f))"
        if sorted(os.listdir(room)) != ["in", "out"]:
            raise SystemExit(f"growths: files are left behind: {os.listdir(room)}")


def compiler():
    return needs.found(needs.COMPILER)


class Refuser:
    """The library that refuses growths, and its last report."""

    def __init__(self, room):
        self.library, self.told, self.left = f"{room}/refuse_growths.so", f"{room}/told", 0
        words = [compiler(), "-O1", "-shared", "-fPIC", f"{HERE}/refuse_growths.c", "-o", self.library]
        subprocess.run(words, check=True)

    def run(self, program, words, given, at=None, is_on=False):
        """Runs a program with growth `at` refused, and all after it if `is_on`.

        Returns its status and outputs, the number of growths, and the number refused. Sets `left` to the number of
        blocks that it did not free. A program that a signal ends reports nothing.
        """
        env = {"LD_PRELOAD": self.library, "TELL": self.told}
        if at:
            env["REFUSE"] = str(at)
        if is_on:
            env["REFUSE_ON"] = "1"
        ran = subprocess.run([program, *words], input=given, capture_output=True, env=env, timeout=120, check=False)
        ended = ran.returncode, ran.stdout, ran.stderr
        if not os.path.exists(self.told):
            return ended, 0, 1
        with open(self.told, encoding="ascii") as it:
            count, refused, self.left = map(int, it.read().split())
        os.remove(self.told)
        return ended, count, refused


def kind_of(ended, ample):
    if ended == OUT_OF_MEMORY:
        return "status 4"
    if ended == ample:
        return "as with ample memory"
    # The second line of standard error needs memory itself, so it may be missing.
    lines = ample[2].split(b"\n")
    if ended == (*ample[:2], lines[0] + b"\n"):
        return "as with ample memory, but for a second line of standard error"
    # Without memory to validate a built module again, its line of detail has no byte and no item.
    if ended[:2] == ample[:2] and re.fullmatch(rb"wmod: standard input: in the canonical binary at 0x[0-9a-f]+: [^\n]+\n", ended[2]):
        return "as with ample memory, but for the place of a built module"
    return "wrong"


def kind_of_several(ended, ample):
    kind = kind_of(ended, ample)
    if kind != "wrong":
        return kind
    # a file for which memory was refused has no line of standard output
    if ended[0] == OUT_OF_MEMORY[0] and OUT_OF_MEMORY[2] in ended[2] and are_lines_of(ended[1], ample[1]):
        return "status 4, with lines for other files"
    if ended[:2] == ample[:2] and are_lines_of(ended[2], ample[2]):
        return "as with ample memory, but for lines of standard error"
    return "wrong"


def are_lines_of(some, whole):
    """Whether the lines of a text are lines of another one, in the same order."""
    lines = iter(whole.splitlines())
    return all(line in lines for line in some.splitlines())


def kind_of_rows(ended, ample):
    if ended == ample:
        return "as with ample memory"
    status, written, complaint = ended
    if (status, complaint) == ROWS_OUT_OF_MEMORY and written in beginnings(ample[1]):
        return "status 1"
    return "wrong"


def beginnings(written):
    """Returns each prefix of whole lines of an output."""
    lines = written.splitlines(keepends=True)
    return [b"".join(lines[:count]) for count in range(len(lines) + 1)]


def swept(name, program, runs, kind_of_run, gives_back=False):
    """Refuses each growth of each run in turn. Whether all runs end well; prints how many end in which way.

    With `gives_back`, a run must also free all its blocks.
    """
    if compiler() is None:
        return needs.is_well_untried(f"growths: there is no C compiler here, so no growth of {name} was refused")
    kinds, wrong, asked = collections.Counter(), [], 0
    with tempfile.TemporaryDirectory(prefix="growths-") as room:
        refuser = Refuser(room)
        for words, given in runs:
            ample, count, _ = refuser.run(program, words, given)
            asked += count
            for is_on in (False, True):
                for at in range(1, count + 1):
                    ended, _, refused = refuser.run(program, words, given, at, is_on)
                    is_well = refused and not (gives_back and refuser.left)
                    kind = kind_of_run(ended, ample) if is_well else "wrong"
                    kinds[kind] += 1
                    if kind == "wrong":
                        wrong.append(f"growths: {' '.join([name, *words])}: growth {at} refused: {ended!r:.300}")
    print("\n".join(wrong[:20]), end="\n" if wrong else "")
    print(f"growths of {name}: {asked} asked for; {sum(kinds.values())} runs, " + ", ".join(f"{n} {kind}" for kind, n in kinds.items()), flush=True)
    return not wrong and asked > 0


def behind(place, section):
    """Returns a module with this section, of which the first piece has `place` bytes."""
    size = PIECE - len(bytes_of(HEAD)) - 3 - place
    return bytes_of(HEAD) + b"\0" + number(size) + bytes(size) + bytes_of(section)


def is_name_lent(program):
    """Whether a name takes growths only if the piece ends inside it, for each offset of that end around its section."""
    if compiler() is None:
        return needs.is_well_untried("growths: there is no C compiler here, so no growths of wmod with names were counted")
    with tempfile.TemporaryDirectory(prefix="growths-") as room:
        refuser = Refuser(room)
        without = refuser.run(program, ["check"], behind(0, ""))[1]
        more = [refuser.run(program, ["check"], behind(place, NAMED))[1] - without for place in range(len(bytes_of(NAMED)) + 1)]
    print(f"growths of wmod for a name, by the number of bytes of its section in the first piece: {more}", flush=True)
    return min(more) == 0 and all((it > 0) == (place in CUTS) for place, it in enumerate(more))


def number(value):
    """Returns a number as LEB128 in the fewest bytes (Core spec 5.2.2)."""
    return bytes([value]) if value < 128 else bytes([value % 128 + 128]) + number(value // 128)


def module_of(*bodies):
    """Returns a module whose functions have type [] -> [] and these bodies, given without the last `end`."""
    entries = [b"\x00" + ops + END for ops in bodies]
    contents = number(len(bodies)) + b"".join(number(len(it)) + it for it in entries)
    functions = bytes([len(bodies) + 1, len(bodies)]) + bytes(len(bodies))
    return bytes_of(f"{HEAD} 01 04 01 60 00 00 03") + functions + b"\x0a" + number(len(contents)) + contents


def is_long_list_let_go(program):
    """Whether lists longer than MOST_KEPT are freed after their body, and those of that length are reused.

    A body with an op takes one growth more after a body of MOST_KEPT + 1 ops than after one of MOST_KEPT. The
    function also tests this for a block after nested blocks.
    """
    if compiler() is None:
        return needs.is_well_untried("growths: there is no C compiler here, so no growths of wmod after long bodies were counted")
    longs = [NOP * MOST_KEPT, NOP * (MOST_KEPT + 1)]
    deeps = [BLOCK * depth + END * depth for depth in (MOST_KEPT, MOST_KEPT + 1)]
    with tempfile.TemporaryDirectory(prefix="growths-") as room:
        refuser = Refuser(room)

        def more(first, shorter, longer):
            """Returns how many more growths the longer body takes than the shorter one, each after the first body."""
            counts = [refuser.run(program, ["canon"], module_of(first, it))[1] for it in (shorter, longer)]
            return counts[1] - counts[0]

        ops = [more(first, b"", NOP) for first in longs]
        blocks = [more(first, NOP * 2, BLOCK + END) for first in deeps]
    print(f"growths of wmod for a body after a list that is reused and after one that is freed: ops {ops}, open blocks {blocks}", flush=True)
    return ops[0] + 1 == ops[1] and blocks[0] + 1 == blocks[1]


def is_empty_body_free(program):
    """Whether functions without locals and instructions take no growths: five take as many as eight."""
    if compiler() is None:
        return needs.is_well_untried("growths: there is no C compiler here, so no growths of wmod for empty bodies were counted")
    with tempfile.TemporaryDirectory(prefix="growths-") as room:
        refuser = Refuser(room)
        counts = [refuser.run(program, ["canon"], module_of(*[b""] * many))[1] for many in (5, 8)]
    print(f"growths of wmod for five empty bodies and for eight: {counts}", flush=True)
    return counts[0] == counts[1] > 0


def sweep(program):
    return swept("wmod", program, runs_of(program), kind_of)


def sweep_several(program):
    return swept("wmod over several files", program, runs_of_several(), kind_of_several)


def sweep_rows(program):
    return swept("wm_rows", program, [([], ROWS.encode())], kind_of_rows)


if __name__ == "__main__":
    if len(sys.argv) != 2:
        sys.exit(__doc__)
    is_of_rows = os.path.basename(sys.argv[1]).startswith("wm_rows")
    trials = [sweep_rows] if is_of_rows else [sweep, sweep_several, is_name_lent, is_long_list_let_go, is_empty_body_free]
    sys.exit(0 if all([is_well(sys.argv[1]) for is_well in trials]) else 1)
