"""Runs the built program once for each row of command_rows.txt, and compares its status and outputs with the row.

    .ci/command.py PROGRAM       the built wmod

It also plays the lines of detail that the tests of wm_cli have, and explains each NAME of a refusal, in any case of its
letters. It ends with status 1 if a run differs from what is wanted, or if rows are missing.
"""
import os
import pathlib
import re
import resource
import shlex
import signal
import subprocess
import sys
import tempfile

sys.dont_write_bytecode = True
import refusals

# the rows, and their least number, so that no row is lost by accident
ROWS = pathlib.Path(__file__).resolve().parent / "command_rows.txt"
LEAST = 416
TYPED = b"(module)"
HEADER = bytes.fromhex("0061736D01000000")
SIGN = HEADER + bytes.fromhex("01050160 00017F 03020100 0A08010600 41FF01 C0 0B")
# 13 functions, and a table. The last function has a call_indirect whose table index has five bytes, from 0x160.
PLUGIN = HEADER + bytes.fromhex(f"010401600000 030E0D{'00' * 13} 040401700001 0ABF020D {'02000B' * 12} 980200{'01' * 269} 41001100 8080808000 0B")
# the same behind a custom section of 10,003 bytes, so that the program reads it in several pieces
FAR = HEADER + bytes.fromhex("00904E") + bytes(10_000) + PLUGIN[len(HEADER) :]
# the bytes of a name that takes more memory than a run with `memory` has
LONG = 1 << 26
# what each run finds in its folder
FILES = {
    b"sign.wasm": SIGN,
    b"plugin.wasm": PLUGIN,
    b"far.wasm": FAR,
    b"old.wat": b"(module (table 1 anyfunc))",
    b"bare.wat": b"(module)",
    b"kept.wasm": b"kept",
    b"a\nb.wasm": SIGN,
    b"many.txt": b"sign.wasm\n" * 10_000,
    b"names.txt": b"sign.wasm\n\nnone.wasm\nold.wat",
    b"zero.txt": b"sign.wasm\0a\nb.wasm\0",
    b"returns.txt": b"sign.wasm\r\n",
    b"bytes.txt": b"\xff.wasm\nsign.wasm\n",
    b"empty.txt": b"",
    b"input.txt": b"sign.wasm\n-\n",
    b"folder/there": b"",
}


def long(front):
    """Returns what makes a file of these bytes and LONG zeros, which take no room on the disk."""

    def made(path):
        path.write_bytes(front)
        os.truncate(path, len(front) + LONG)

    return made


def taken(count):
    """Returns what makes the first files that `--output` would make beside a file of this name."""

    def made(path):
        for n in range(count):
            pathlib.Path(f"{path}.wmod-tmp-{n}").write_bytes(b"taken")

    return made


# what makes a file that only the runs which name it find: two more names of kept.wasm, a pipe, names of --output that are
# taken, a module with a long name, and a list with a long name
MADE = {
    b"link.wasm": lambda path: path.symlink_to("kept.wasm"),
    b"other.wasm": lambda path: os.link(path.with_name("kept.wasm"), path),
    b"pipe": os.mkfifo,
    b"second.wasm": taken(1),
    b"none.left": taken(100),
    b"long.wasm": long(HEADER + bytes.fromhex("00 84808020 80808020")),
    b"long.txt": long(b"sign.wasm\n"),
}
# the most files that a run may have open at once
HANDLES = 16
NAMED = {ord("\t"): r"\t", ord("\n"): r"\n", ord("\r"): r"\r", ord('"'): r"\"", ord("'"): r"\'", ord("\\"): r"\\"}


def rows():
    """Returns the arguments and the answer of each row."""
    lines = ROWS.read_text(encoding="ascii").splitlines()
    return [line.split(" = ", 1) for line in lines if not line.startswith("#")]


def spelled(word):
    """The bytes of a word of a row, in which \\n, \\x1b and the like stand for one byte."""
    return word.encode("ascii").decode("unicode_escape").encode("latin-1")


def words_of(command):
    """The words of a row. WORD*N is N words that are alike."""
    for word in shlex.split(command):
        again = re.fullmatch(r"(.+)\*(\d+)", word)
        yield from [spelled(again[1])] * int(again[2]) if again else [spelled(word)]


def parts(command):
    """The words of a row, and what standard input gives."""
    words = list(words_of(command))
    return (words[:-2], words[-1]) if b"<" in words else (words, TYPED)


def escaped(text):
    """Returns the bytes in quotation marks, escaped as in a row. More than 99 lines that are all alike are one line, `*`
    and their number."""
    lines = text.splitlines(keepends=True)
    if len(lines) > 99 and len(set(lines)) == 1:
        return f"{escaped(lines[0])}*{len(lines)}"
    return '"' + "".join(NAMED.get(byte, chr(byte) if 32 <= byte < 127 else f"\\x{byte:02x}") for byte in text) + '"'


def closed_pipe():
    """Returns the writing end of a pipe whose reading end is closed."""
    read, write = os.pipe()
    os.close(read)
    return write


# what opens the standard output of a run, by the word before its words
FAILING = {b"shut": closed_pipe, b"full": lambda: os.open("/dev/full", os.O_WRONLY)}


# what a number before the words of a run limits: the bytes of each file that it writes, and its memory in MiB
LIMITED = {b"within": (resource.RLIMIT_FSIZE, 1), b"memory": (resource.RLIMIT_AS, 1 << 20)}


def limited(words):
    """Limits the open files of this process, and what the first two words of a row limit."""
    resource.setrlimit(resource.RLIMIT_NOFILE, (HANDLES, HANDLES))
    if words[0] in LIMITED:
        # a write past the limit is then an error and no signal
        signal.signal(signal.SIGXFSZ, signal.SIG_IGN)
        kind, unit = LIMITED[words[0]]
        resource.setrlimit(kind, (int(words[1]) * unit,) * 2)


def fill(folder, words):
    """Makes the files that the run of these words finds."""
    for name, bytes_of in FILES.items():
        path = pathlib.Path(folder, os.fsdecode(name))
        path.parent.mkdir(exist_ok=True)
        path.write_bytes(bytes_of)
    for name, make in MADE.items():
        if name in words:
            make(pathlib.Path(folder, os.fsdecode(name)))


def held(folder):
    """Returns the bytes of each file below a folder, by its name."""
    files = [path for path in pathlib.Path(folder).rglob("*") if path.is_file()]
    return {os.fsencode(path.relative_to(folder)): path.read_bytes() for path in files}


def changes(before, after):
    """Returns the files that a run made or changed, with their bytes, and those that it removed, as a row has them."""
    made = [f" {escaped(name)}={escaped(after[name])}" for name in sorted(after) if after[name] != before.get(name)]
    gone = [f" {escaped(name)} removed" for name in sorted(before.keys() - after.keys())]
    return "".join(made + gone)


def played(program, words, given, folder):
    """Runs the words of a row in a folder. Returns the status and outputs in the form of a row."""
    failing = FAILING.get(words[0])
    out = failing() if failing else subprocess.PIPE
    # (the usage in a complaint has the name by which the program is called)
    named = [b"wmod", *words[words.index(b"wmod") + 1 :]]
    ran = subprocess.run(named, executable=program, input=given, stdout=out, stderr=subprocess.PIPE, cwd=folder, timeout=60, check=False, preexec_fn=lambda: limited(words))
    if failing:
        os.close(out)
    return f"{ran.returncode} {escaped(ran.stdout or b'')} {escaped(ran.stderr)}"


def answer(program, command):
    """Runs the command of a row in a folder that has `FILES`, and those of `MADE` that it names. Returns its answer in the
    form of a row."""
    words, given = parts(command)
    with tempfile.TemporaryDirectory(prefix="command-") as folder:
        fill(folder, words)
        before = held(folder)
        said = played(program, words, given, folder)
        return said + changes(before, held(folder))


def details():
    """Yields the words, the input and the line of detail of each row of the tests of wm_cli."""
    text = (refusals.TOP / refusals.DETAILS).read_text(encoding="utf8")
    for words, given, line in re.findall(r'(?m)^(?:    r#")?detail (wmod .*?) <(?: (.*?))? = (.*?)(?:"#;)?$', text):
        is_text = words.startswith("wmod build")
        yield words, given.encode() if is_text else bytes.fromhex(given.replace("H", "0061736D 01000000")), line


def has_details(program):
    """Whether each line of detail is that of its row. Prints the others."""
    count = wrong = 0
    for words, given, line in details():
        wanted = "" if line == "none" else f"wmod: standard input: {line}\n"
        said = subprocess.run(words.split(), executable=program, input=given, stdout=subprocess.DEVNULL, stderr=subprocess.PIPE, timeout=60, check=False).stderr.decode()
        count += 1
        if said != wanted:
            wrong += 1
            print(f"command: {words} with {given}: {said}", flush=True)
    print(f"command: {count} lines of detail, {wrong} wrong", flush=True)
    return count > 0 and not wrong


def sentences():
    """Returns the output of `wmod explain` for each NAME: the rows that have it, in order."""
    found = {}
    for name, means, section, smallest, advice in (line.split(" | ", 4) for lines in refusals.lines_of_tables(refusals.TOP) for line in lines):
        found[name] = found.get(name, "") + f"{name}\n  {means}\n  Standard: {section}\n  Smallest input: {smallest}\n  What to do: {advice}\n"
    return found


def explains_all(program):
    """Whether `explain` prints the rows of each NAME, in any case of its letters. Prints the names for which it does not."""
    wanted = sentences()
    wrong = [form for name in wanted for form in (name, name.lower(), name.upper()) if answer(program, f"wmod explain {form}") != f'0 {escaped(wanted[name].encode())} ""']
    print(f"command: {len(wanted)} names explained; wrong: {wrong or 'none'}", flush=True)
    return bool(wanted) and not wrong


def is_well(program):
    """Whether all runs of the program are right."""
    return all([has_rows(program), has_details(program), explains_all(program)])


def has_rows(program):
    """Whether each run has the answer of its row. Prints the runs that differ."""
    wrong = 0
    asked = rows()
    for command, wanted in asked:
        found = answer(program, command)
        if wanted.startswith("as "):
            wanted = answer(program, wanted.removeprefix("as "))
        if found != wanted:
            wrong += 1
            print(f"command: {command}: {found}", flush=True)
    few = "" if len(asked) >= LEAST else f"; at least {LEAST} are required"
    print(f"command: {len(asked)} rows, {wrong} wrong{few}", flush=True)
    return not wrong and not few


if __name__ == "__main__":
    if len(sys.argv) != 2:
        sys.exit(__doc__)
    sys.exit(0 if is_well(os.path.abspath(sys.argv[1])) else 1)
