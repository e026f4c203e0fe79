"""Tests the built programs, after `rt ci` has proved and built them.

    .ci/built.py       at the top, after `rt ci`

It ends with status 1 if a test fails. The programs of both compilers are tested:

- growths.py refuses each allocation of wmod and of wm_rows in turn;
- deep.py reads a million nested blocks;
- command.py runs wmod with rows of arguments, files and outputs;
- console.py plays the console samples of the pages.

Then `rt lib` builds the library for C, which `rt ci` proves but does not write. It proves again all that no check on
this machine has kept. c_calls.py compares the library with wmod, and packages.py tests the installed files.
"""
import os
import pathlib
import re
import subprocess
import sys

sys.dont_write_bytecode = True
import c_calls
import command
import console
import deep
import growths
import packages

CRATES = pathlib.Path(__file__).resolve().parent.parent / "crates"


def programs(name):
    """Returns the program that LLVM built, and the one of Rattle's own compiler if there is one."""
    found = CRATES / name / "out" / name
    return [str(it) for it in (found, found.with_name(f"{name}.by-rattle")) if it.exists()] or [str(found)]


def is_library_built():
    """Whether the library for C is proved and built. Prints the end of the output if not."""
    print("proving and building the library for C, which takes some minutes", flush=True)
    built = subprocess.run(["rt", "lib"], cwd=CRATES / "wm_c", stdout=subprocess.PIPE, stderr=subprocess.STDOUT, text=True, check=False)
    if built.returncode:
        print(f"the library for C could not be built:\n{built.stdout[-4000:]}", flush=True)
    return built.returncode == 0


def print_tally():
    """Prints the counts of the tests: the last line of wm_rows/stdout, and the constant FAILED of the tests of wm_cli.

    FAILED says how many readers and writers failed on purpose.
    """
    rows = (CRATES / "wm_rows/stdout").read_text(encoding="utf-8").rstrip("\n").rpartition("\n")[2].lstrip("# ")
    failed = re.search(r'const FAILED: &str = "(.*)";', (CRATES / "wm_cli/src/tests.rt").read_text(encoding="utf-8"))[1]
    print(f"rows: {rows}, {failed}", flush=True)


def main():
    is_well = [does(it) for it in programs("wm_cli") for does in (growths.sweep, growths.sweep_several, growths.is_name_lent, growths.is_long_list_let_go, growths.is_empty_body_free, deep.is_well, command.is_well, console.is_well)]
    is_well += [growths.sweep_rows(it) for it in programs("wm_rows")]
    print_tally()
    wmod = programs("wm_cli")[0]
    if is_library_built():
        library = str(CRATES / "wm_c/out/libwm_c.a")
        is_well += [c_calls.is_well(library, wmod), packages.is_well(library, wmod)]
    else:
        is_well.append(False)
    return 0 if all(is_well) else 1


if __name__ == "__main__":
    sys.exit(main())
