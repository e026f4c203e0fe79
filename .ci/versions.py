#!/usr/bin/env python3
"""Checks that all files have the same release number.

    .ci/versions.py

It prints each fault, and ends with status 1 if there is one. The source is the number that `wmod --version` prints.
packaging/stage.py asks the built program, and fills the manual page and the pkg-config file from its answer. The
header repeats the number. The crate for cargo has the same first two parts, and a third that cargo requires.
"""
import pathlib
import re
import sys

TOP = pathlib.Path(__file__).resolve().parent.parent
COMMAND, HEADER = "crates/wm_command/src/line.rt", "crates/wm_c/include/wmod.h"
CRATE, PKG_CONFIG = "rust/Cargo.toml", "packaging/wmod.pc.in"
# the text around the number in each file; for the crate, around its first two parts
FORMS = {
    COMMAND: r'\.version\("(.*?)"\)',
    HEADER: r'(?m)^#define WMOD_RELEASE "(.*)"$',
    CRATE: r'(?m)^version = "(\d+\.\d+)\.\d+"$',
    PKG_CONFIG: r"(?m)^Version: (.*)$",
}


def faults_of(top):
    """Yields the files without exactly one number, or else those whose number differs from the source."""
    found = {file: re.findall(form, (top / file).read_text(encoding="utf-8")) for file, form in FORMS.items()}
    wrong = [file for file, numbers in found.items() if len(numbers) != 1]
    yield from (f"{file}: {len(found[file])} places have the form {FORMS[file]}" for file in wrong)
    if wrong:
        return
    release = found[COMMAND][0]
    if not re.fullmatch(r"\d+\.\d+", release):
        yield f"{COMMAND}: {release} is no number of two parts"
    for file, wanted in ((HEADER, release), (CRATE, release), (PKG_CONFIG, "@VERSION@")):
        if found[file] != [wanted]:
            yield f"{file}: {found[file][0]}, wanted {wanted}"


def main():
    faults = list(faults_of(TOP))
    for fault in faults:
        print(f"versions: {fault}", file=sys.stderr)
    return 1 if faults else 0


if __name__ == "__main__":
    sys.exit(main())
