"""Compares the calls for C with wmod, and tests the samples.

    .ci/c_calls.py ARCHIVE PROGRAM       the built libwm_c.a and wmod

It ends with status 1 if one of these tests fails:

- the header and the samples compile as C89 and as C++98;
- for 1,000 generated modules, cut into pieces of different lengths, the samples and wmod print the same line,
  canonical binary and text, and build the same module from that text;
- if an allocation of a sample is refused, the sample ends with status 4, or as with ample memory, and frees all;
- the samples read a million nested blocks on a stack of 64 KiB;
- input that cannot be read gets no answer;
- a call takes NULL for no bytes, and for a buffer without room;
- each call of c_rows.txt, made in order, has the answer of its row;
- wmod_explain writes the sentences of `wmod explain` for each number of the header, and nothing for another number;
- wmod_hint writes what the line of detail of `wmod` says, for each such line of the tests of wm_cli.

Without a C compiler it says so and tests nothing. That is a failure if the variable CI is `true`.
"""
import os
import random
import re
import subprocess
import sys
import tempfile

sys.dont_write_bytecode = True
import command
import deep
import growths
import needs
import refusals

HERE = os.path.dirname(os.path.abspath(__file__))
CRATE = os.path.join(HERE, "../crates/wm_c")
SAMPLES = ["check", "convert", "explain"]
STRICT = ["-pedantic", "-Wall", "-Wextra", "-Werror", f"-I{CRATE}/include"]
LANGUAGES = [["cc", "-std=c89", *STRICT], ["c++", "-x", "c++", "-std=c++98", "-Wno-long-long", *STRICT]]
MODULES = 1000
# KiB: the stack size that the header promises
STACK = 64
# the rows of calls, and their least number, so that no row is lost by accident
ROWS = os.path.join(HERE, "c_rows.txt")
LEAST = 370
# the inputs that c_rows.txt names: a function that adds two numbers, one that extends a byte, a text with a keyword of
# older tools, and a text whose module is not valid
INPUTS = {
    "ADD": "0061736D0100000001070160027F7F017F030201000A09010700200020016A0B",
    "EXTEND": "0061736D010000000105016000017F030201000A070105004100C00B",
    "OLDER": "(module (type (func)) (func (type 0) (local i32) get_local 0 drop))",
    "START": "(module (start 0))",
}
# a module that begins something of a later version
REFUSED = bytes.fromhex(INPUTS["EXTEND"])
# the output of null_bytes.c: the refusals of no bytes and of an empty text, and the lengths of outputs without room
NULL_LINES = """validate 1 11 0
validate_with 1 11 0
begin 0 0 0
feed 0 0 0
feed a module 0 0 0
feed 0 0 0
finish 0 0 0
feed 2 0 0
canon 1 11 0
show 1 11 0
build 1 106 0
canon a module 5 0 8
show a module 5 0 9
build a text 5 0 8
why_name 5
explain 201
hint 54
"""
# the numbers that wmod_explain is asked for, and the capacity that the header promises to suffice
NUMBERS = range(300)
CAPACITY = 1024


def made(number):
    """Returns a module of growths.py with up to three bytes changed, sometimes cut short, and a piece length."""
    chance = random.Random(number)
    data = bytearray(growths.bytes_of(chance.choice(list(growths.MODULES.values())[:6])))
    for _ in range(chance.randrange(4)):
        data[chance.randrange(len(data))] = chance.randrange(256)
    return bytes(data[: chance.randrange(len(data) + 1)] if number % 5 == 0 else data), chance.randrange(1, 40)


def line(words, given):
    ran = subprocess.run(words, input=given, stdout=subprocess.PIPE, timeout=60, check=False)
    return ran.returncode, ran.stdout


def without_position(line):
    """Returns a line of wmod without the line and column of a refused text: the calls for C give the offset alone."""
    return re.sub(rb"^(text refused at \d+) \(\d+:\d+\)", rb"\1", line)


def line_unread(words):
    """Returns the same if standard input is a folder, which cannot be read."""
    folder = os.open(HERE, os.O_RDONLY)
    ran = subprocess.run(words, stdin=folder, stdout=subprocess.PIPE, stderr=subprocess.DEVNULL, timeout=60, check=False)
    os.close(folder)
    return ran.returncode, ran.stdout


def heap():
    """Returns the path of the kit's allocation functions, which call malloc, realloc and free."""
    page = subprocess.run(["rt", "doc"], capture_output=True, text=True, check=True).stdout.strip()
    return os.path.join(os.path.dirname(page), "c/liblibc_c.a")


def compiled(archive, room):
    """Compiles the programs into the folder `room`. Returns the message of a compiler that failed, else ""."""
    files = {name: f"{CRATE}/samples/{name}.c" for name in SAMPLES} | {name: f"{HERE}/{name}.c" for name in ("null_bytes", "c_rows")}
    allocation = heap()
    for name, sample in files.items():
        strict = [[*words, "-c", sample, "-o", f"{room}/{name}.o"] for words in LANGUAGES]
        linked = ["cc", "-O2", sample, f"-I{CRATE}/include", archive, allocation, "-o", f"{room}/{name}"]
        for words in [*strict, linked]:
            ran = subprocess.run(words, capture_output=True, text=True, check=False)
            if ran.returncode:
                return f"not compiled by {words[0]}: {ran.stderr[:600]}"
    return ""


def differences(room, program, number):
    """Yields the differences between C and wmod on the module of this number.

    Its text is built too. For odd numbers one byte of the text is changed.
    """
    module, length = made(number)
    pairs = [([f"{room}/check", str(length)], "check", module)]
    pairs += [([f"{room}/convert", action], action, module) for action in ("canon", "show")]
    status, text = line([program, "show", "-"], module)
    if not status:
        text = bytearray(text)
        if number % 2:
            text[number % len(text)] = 33 + number % 90
        pairs.append(([f"{room}/convert", "build"], "build", bytes(text)))
    for words, action, given in pairs:
        found, (status, answer) = line(words, given), line([program, action, "-"], given)
        wanted = status, without_position(answer)
        if found != wanted:
            yield f"module {number}: {action} by C: {found!r:.200}, and wmod answers {wanted!r:.200}"


def kind_of(ended, ample):
    return "status 4" if ended == (4, b"", b"") else "as with ample memory" if ended == ample else "wrong"


def sweep(room):
    """Refuses each allocation of the samples in turn. Whether each run ends well and frees all."""
    modules = [growths.bytes_of(it) for it in growths.MODULES.values()]
    runs = [(["7"], it) for it in modules[:-1]]
    is_well = growths.swept("the sample check.c", f"{room}/check", runs, kind_of, gives_back=True)
    texts = [growths.TEXT.encode(), b"(module (start 0))"]
    runs = [([action], it) for action in ("canon", "show") for it in modules] + [(["build"], it) for it in texts]
    return growths.swept("the sample convert.c", f"{room}/convert", runs, kind_of, gives_back=True) and is_well


def is_flat(room):
    """Whether the samples read a million nested blocks, in a binary and in a text, on the header's stack."""
    convert, text = f"{room}/convert", deep.run(f"{room}/convert", "show", deep.DEEP, STACK)
    answers = {
        "check": deep.run(f"{room}/check", "4096", deep.DEEP, STACK) == (0, b"valid\n"),
        "canon": deep.run(convert, "canon", deep.DEEP, STACK) == (0, deep.DEEP),
        "show, then build": text[0] == 0 and deep.run(convert, "build", text[1], STACK) == (0, deep.DEEP),
        "open comments": deep.run(convert, "build", deep.OPEN, STACK) == (1, without_position(deep.OPEN_ANSWER)),
    }
    wrong = [name for name, well in answers.items() if not well]
    print(f"C: {deep.DEPTH} blocks on a stack of {STACK} KiB: " + (f"wrong: {', '.join(wrong)}" if wrong else "ok"), flush=True)
    return not wrong


def is_bare(room):
    """Whether each call takes NULL for no bytes and for no room."""
    found = line([f"{room}/null_bytes"], b"")
    is_right = found == (0, NULL_LINES.encode())
    print("C: NULL for no bytes and for no room: " + ("ok" if is_right else f"wrong: {found!r:.600}"), flush=True)
    return is_right


def rows():
    """Returns the rows of c_rows.txt, each a call with its answer."""
    with open(ROWS, encoding="ascii") as it:
        lines = [row.rstrip("\n") for row in it if row.strip() and not row.startswith("#")]
    return [re.sub(rf" ({'|'.join(INPUTS)}) = ", lambda found: f" {INPUTS[found[1]]} = ", row) for row in lines]


def are_all_explained(room):
    """Whether wmod_explain has the sentences of each refusal of the header, and none for another number."""
    texts = dict(refusals.explanations(refusals.TOP))
    given = [f"explain {number} {CAPACITY}" for number in NUMBERS]
    status, written = line([f"{room}/c_rows"], "".join(f"{row}\n" for row in given).encode())
    said = [texts.get(number, "") for number in NUMBERS]
    # c_rows prints `|` for a line feed, `0` for the end, and `?` for each byte that was not written
    buffers = [(text.replace("\n", "|") + "0").ljust(CAPACITY, "?") for text in said]
    wanted = [f"{row} = {len(text)} {buffer}" for row, text, buffer in zip(given, said, buffers)]
    found = written.decode("ascii", "replace").splitlines()
    wrong = [f"{answer:.200}" for answer, row in zip(found, wanted) if answer != row]
    if status or len(found) != len(wanted):
        wrong.append(f"status {status} after {len(found)} numbers")
    print(f"C: {len(texts)} refusals explained: " + (f"wrong: {'; '.join(wrong[:3])}" if wrong else "ok"), flush=True)
    return not wrong


def hints():
    """Yields the end of the line of detail that each line of the table makes, and its three parts."""
    (lines,) = refusals.lines_of_tables(refusals.TOP, refusals.HINTS)
    for begins, feature, remedy in (line.split(" | ")[4:] for line in lines):
        yield f": {begins} ({feature}); {remedy}", (begins, feature, remedy)


def hinted():
    """Yields the calls for each binary of the rows of detail, and the text that `hint` writes last."""
    ends = dict(hints())
    numbers = dict(refusals.features_of_header(refusals.TOP))
    for words, given, line in command.details():
        options = dict(re.findall(r"--(\S+) (\S+)", words))
        if words.startswith("wmod check"):
            profile = int(options.get("profile", 1))
            for word in filter(None, options.get("features", "").split(",")):
                profile |= numbers[word]
            calls = [f"begin {profile} {options.get('limit', 1000)}", f"feed {given.hex().upper() or '.'}", f"hint {CAPACITY}"]
            yield calls, "\n".join(next((it for end, it in ends.items() if line.endswith(end)), ()))


def are_all_hinted(room):
    """Whether wmod_hint writes what the lines of detail say."""
    wanted = list(hinted())
    status, written = line([f"{room}/c_rows"], "".join(f"{call}\n" for calls, _ in wanted for call in calls).encode())
    found = written.decode("ascii", "replace").splitlines()
    said = [f"hint {CAPACITY} = {len(text)} {(text.replace(chr(10), '|') + '0').ljust(CAPACITY, '?')}" for _, text in wanted]
    wrong = [f"{answer:.200}" for answer, row in zip(found[2::3], said) if answer != row]
    if status or len(found) != 3 * len(said):
        wrong.append(f"status {status} after {len(found)} calls")
    print(f"C: {sum(bool(text) for _, text in wanted)} hints: " + (f"wrong: {'; '.join(wrong[:3])}" if wrong else "ok"), flush=True)
    return not wrong


def are_rows_right(room):
    """Whether each call has the answer of its row."""
    wanted = rows()
    given = "".join(row.partition(" = ")[0] + "\n" for row in wanted).encode()
    status, written = line([f"{room}/c_rows"], given)
    found = written.decode("ascii", "replace").splitlines()
    wrong = [f"{row}: {answer}" for row, answer in zip(wanted, found) if row != answer]
    if status or len(found) != len(wanted):
        wrong.append(f"status {status} after {len(found)} rows")
    if len(wanted) < LEAST:
        wrong.append(f"at least {LEAST} rows are required")
    print(f"C: {len(wanted)} rows of calls: " + (f"wrong: {'; '.join(wrong[:3])}" if wrong else "ok"), flush=True)
    return not wrong


def is_unanswered(room, program):
    """Whether the samples and wmod give no answer and status 3 if the input cannot be read."""
    runs = [([f"{room}/check"], "check")] + [([f"{room}/convert", action], action) for action in ("canon", "show", "build")]
    wrong = [action for words, action in runs for it in (words, [program, action, "-"]) if line_unread(it) != (3, b"")]
    print("C: input that cannot be read: " + (f"wrong: {', '.join(wrong)}" if wrong else "ok"), flush=True)
    return not wrong


def is_well(archive, program):
    """Whether all tests pass. Prints a line for each test."""
    if needs.missing("calls for C"):
        return needs.is_well_untried("C: no compiler here, so the header, the samples and the rows of calls were not tested")
    with tempfile.TemporaryDirectory(prefix="c-calls-") as room:
        fault = compiled(archive, room)
        wrong = [fault] if fault else [it for number in range(MODULES) for it in differences(room, program, number)]
        print(f"C: {MODULES} modules by C and by wmod: " + (f"wrong: {'; '.join(wrong[:3])}" if wrong else "ok"), flush=True)
        return not wrong and all([is_bare(room), are_rows_right(room), are_all_explained(room), are_all_hinted(room), is_unanswered(room, program), sweep(room), is_flat(room)])


if __name__ == "__main__":
    if len(sys.argv) != 3:
        sys.exit(__doc__)
    sys.exit(0 if is_well(*map(os.path.abspath, sys.argv[1:])) else 1)
