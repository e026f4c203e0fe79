"""Plays the console samples of the pages on the built program, and compares each output with that of the page.

    .ci/console.py PROGRAM       the built wmod

A sample is a block of a page that begins with `$ `. Such a line is a command, and the lines after it are all that a
terminal shows: standard output and standard error. It ends with status 1 if an output differs, or if samples are
missing.
"""
import os
import pathlib
import re
import shutil
import subprocess
import sys
import tempfile

sys.dont_write_bytecode = True
import command

TOP = pathlib.Path(__file__).resolve().parent.parent
PAGES = ["README.md", "docs/COMMAND.md"]
# the least number of commands, so that no sample is lost by accident
LEAST = 23
BLOCK = re.compile(r"^```\n(\$ .*?)^```$", re.M | re.S)
COMMAND = re.compile(r"^\$ (.*)\n((?:(?!\$ ).*\n)*)", re.M)


def samples(text):
    """Returns the commands of a page with their outputs."""
    return [sample for block in BLOCK.findall(text) for sample in COMMAND.findall(block)]


def fill(room, program):
    """Makes the files that the samples name."""
    shutil.copytree(TOP / "examples", room / "examples")
    shutil.copy(TOP / "examples/add.wasm", room / "stranger.wasm")
    (room / "plugin.wasm").write_bytes(command.PLUGIN)
    (room / "wmod").symlink_to(program)


def wrong(program, text):
    """Yields each command of a page with its output, if that is another than on the page."""
    with tempfile.TemporaryDirectory(prefix="console-") as folder:
        fill(pathlib.Path(folder), program)
        for does, wanted in samples(text):
            ran = subprocess.run(["sh", "-c", f"exec 2>&1\n{does}"], stdout=subprocess.PIPE, cwd=folder, timeout=60, check=False)
            said = ran.stdout.decode(errors="replace")
            if said != wanted:
                yield does, said


def is_well(program):
    """Whether each sample has the output of its page. Prints the others."""
    texts = {page: (TOP / page).read_text(encoding="utf-8") for page in PAGES}
    count = sum(len(samples(text)) for text in texts.values())
    faults = [f"console: {page}: {does}\n{said}" for page, text in texts.items() for does, said in wrong(program, text)]
    few = "" if count >= LEAST else f"; at least {LEAST} are required"
    print(*faults, f"console: {count} commands of pages, {len(faults)} wrong{few}", sep="\n", flush=True)
    return not faults and not few


if __name__ == "__main__":
    if len(sys.argv) != 2:
        sys.exit(__doc__)
    sys.exit(0 if is_well(os.path.abspath(sys.argv[1])) else 1)
