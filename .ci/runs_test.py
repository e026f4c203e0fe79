#!/usr/bin/env python3
"""Tests that the scripts of CI can fail.

    .ci/runs_test.py             all trials, a quarter of an hour
    .ci/runs_test.py --scripts   only the trials of script_trials.py, half a minute

It prints each trial that went wrong, and ends with status 1 if there is one. Each script runs on correct input, and
then on input with one fault, which it has to find:

- the scripts that read the tree get changed copies of their files (script_trials.py);
- growths.py, deep.py, command.py and console.py get stand-ins for wmod and wm_rows, and c_calls.py one for c_rows;
- wm_rows and the tests of wm_cli get libraries with a must-fail edit.
"""
import contextlib
import io
import os
import pathlib
import re
import shutil
import subprocess
import sys
import tempfile

sys.dont_write_bytecode = True
import c_calls
import command
import console
import deep
import edits
import growths
import script_trials

# answers `valid` to every input, and allocates once
STAND_IN = """
#include <stdio.h>
#include <stdlib.h>
#include <string.h>
#include <unistd.h>

static char given[8000000];

static long nested(long n) { volatile char part[64]; part[0] = (char)n; return n ? nested(n - 1) + part[0] : 0; }

static int out_of_memory(void) { return write(2, "wmod: out of memory\\n", 20) == 20 ? 4 : 3; }

int main(int count, char **words) {
    long size = 0, n;
    while ((n = read(0, given + size, sizeof given - size)) > 0) size += n;
    char *part = malloc(size + 1);
    if (!part) { REFUSED }
    DEEPER
    memcpy(part, given, size);
    write(1, "valid\\n", 6);
    return 0;
}
"""

RIGHT = "return out_of_memory();"
# if its second growth is refused, it leaks the first (KEEPS) or frees it (GIVES_BACK)
KEEPS = "char *more = malloc(1); if (!more) return out_of_memory();"
GIVES_BACK = KEEPS.replace("return", "return free(part),") + ' free(more); free(part); write(1, "valid\\n", 6); return 0;'
# the code for a refused growth, the code for each input, and whether growths.py accepts the stand-in
TRIALS = {
    "nothing wrong": (RIGHT, "", True),
    "the refusal is forgotten": ("part = given;", "write(1, part == given ? \"in\" : \"\", part == given ? 2 : 0);", False),
    "the growth is used though it was refused": ("", "", False),
    "something is written": ("write(1, \"no\\n\", 3); return out_of_memory();", "", False),
    "another status": ("out_of_memory(); return 3;", "", False),
    "the refusal ends it by a signal": ("abort();", "", False),
}

RIGHT_IN_ROWS = 'write(2, "Error: Kind(OutOfMemory)\\n", 25); return 1;'
# the code of a stand-in for wm_rows if its growth is refused, and whether growths.py accepts it
TRIALS_OF_ROWS = {
    "nothing wrong": (RIGHT_IN_ROWS, True),
    "the refusal ends in another answer": (f'write(1, "no\\n", 3); {RIGHT_IN_ROWS}', False),
    "a part of an answer": (f'write(1, "val", 3); {RIGHT_IN_ROWS}', False),
    "it ends well with no answer": ("return 0;", False),
    "it ends by another fault": ('write(2, "Error: other\\n", 13); return 1;', False),
    "the refusal ends it by a signal": ("abort();", False),
}

# rows for wm_rows; SEEDS has its answers to them under each edit
ROWS = ["check H 01 01 00 01 01", "show H"]

# the sizes of the modules with a body after a list that is freed: of ops, and of open blocks
PAST = growths.MOST_KEPT + 1
BEHIND_OPS = len(growths.module_of(growths.NOP * PAST, growths.NOP))
BEHIND_BLOCKS = len(growths.module_of(growths.BLOCK * PAST + growths.END * PAST, growths.BLOCK + growths.END))
# the modules that take one growth more, and whether growths.py finds that long lists are freed
LISTS = {
    "both are freed": (f"size == {BEHIND_OPS} || size == {BEHIND_BLOCKS}", True),
    "the list of ops stays": (f"size == {BEHIND_BLOCKS}", False),
    "the list of open blocks stays": (f"size == {BEHIND_OPS}", False),
    "each body takes one": ("size > 1000", False),
}

# the sizes of the modules whose name is cut, and of the one without a name
CUT_NAMES = [len(growths.behind(place, growths.NAMED)) for place in growths.CUTS]
NO_NAME = len(growths.behind(0, ""))
IS_CUT = " || ".join(f"size == {it}" for it in CUT_NAMES)
# the modules that take one growth more, and whether growths.py finds that only cut names are copied
NAMES = {
    "all that are cut are copied": (IS_CUT, True),
    "none is copied": ("0", False),
    "one that is cut is lent": (f"size == {CUT_NAMES[0]}", False),
    "each is copied": (f"size > {NO_NAME}", False),
    "each is copied, and what is cut twice": (f"size > {NO_NAME} && malloc(1) && ({IS_CUT})", False),
    "one beside a cut is copied": (f"{IS_CUT} || size == {max(CUT_NAMES) + 1}", False),
}
# the modules that take one growth more, and whether growths.py finds that empty bodies take none
EMPTY = {
    "they take no growth": ("0", True),
    "each takes one": (f"size > {len(growths.module_of(*[b''] * 5))}", False),
}

# the shell command by which a stand-in for c_rows writes the file of all rows, and whether c_calls.py accepts it
TRIALS_OF_CALLS = {
    "nothing wrong": ("cat", True),
    "another answer": ("sed s/TooLarge/TooSmall/", False),
    "a row is missing": ("sed 3d", False),
    "it ends by a fault": ("(cat; false) <", False),
}
# an edit that the prover refuses, and the answers of wm_rows to ROWS if it is made
SEEDS = {
    None: ["refused at 12: SectionOrder", "text:\n(module)\n"],
    # forgets a refusal
    "wm_rules/loader_forgets_a_refusal": ["differs in small pieces", "text:\n(module)\n"],
    # loses bytes at a cut
    "wm_rules/validator_forgets_a_piece": ["the validator and the loader differ"] * 2,
}

# a row's arguments and answer, the commands of a stand-in for wmod, and whether command.py accepts them
TRIALS_OF_COMMANDS = {
    "nothing wrong": ("wmod check", '1 "valid\\n" ""', "echo valid; exit 1", True),
    "another status": ("wmod check", '0 "valid\\n" ""', "echo valid; exit 1", False),
    "something is written": ("wmod check", '0 "" ""', "echo valid", False),
    "a complaint": ("wmod check", '0 "valid\\n" ""', "echo valid; echo no >&2", False),
    "a fault of standard output": ("shut wmod check", '3 "" ""', "echo valid 2>/dev/null || exit 3", True),
    "a fault of standard output that is forgotten": ("shut wmod check", '3 "" ""', "echo valid 2>/dev/null; exit 0", False),
    "standard output on a full device": ("full wmod check", '3 "" ""', "echo valid 2>/dev/null || exit 3", True),
    "a full device that is forgotten": ("full wmod check", '3 "" ""', "echo valid 2>/dev/null; exit 0", False),
    "words that are alike": ("wmod check a*3", '0 "4\\n" ""', "echo $#", True),
    "a limit of memory": ("memory 100 wmod check", '0 "102400\\n" ""', "ulimit -v", True),
    "a link": ("wmod check link.wasm", '0 "kept" ""', "cat link.wasm", True),
    "a link in another row": ("wmod check", '1 "" ""', "cat link.wasm 2>/dev/null", True),
    "a link that is written through": ("wmod canon link.wasm", '0 "" "" "link.wasm"="new"', "printf new > link.wasm", False),
}

# a page with a console sample, the commands of a stand-in for wmod, and whether console.py accepts them
TRIALS_OF_CONSOLE = {
    "nothing wrong": ("```\n$ ./wmod check\nvalid\n$ ./wmod stats\nvalid\n```\n", "echo valid", True),
    "another line": ("```\n$ ./wmod check\nvalid\n```\n", "echo no", False),
    "a line on standard error that the page lacks": ("```\n$ ./wmod check\nvalid\n```\n", "echo valid; echo no >&2", False),
    "the second of two": ("```\n$ ./wmod check a\na\n$ ./wmod check b\na\n```\n", "echo $2", False),
    "no sample": ("```\nvalid\n```\n", "echo no", True),
}

# the commands of a stand-in for wmod that gets one row of detail and the NAME `Kind`, and whether command.py accepts it
LINE, SENTENCE = "a line", "Kind\n"
TRIALS_OF_DETAILS = {
    "the line of detail": (f'echo "wmod: standard input: {LINE}" >&2', True),
    "another line of detail": ('echo "wmod: standard input: no line" >&2', False),
    "no line of detail": ("", False),
}
TRIALS_OF_SENTENCES = {
    "the sentences": ("echo Kind", True),
    "other sentences": ("echo kind", False),
    "a NAME in small letters that is not known": ('[ "$2" != kind ] && echo Kind', False),
    "a NAME in capitals that is not known": ('[ "$2" != KIND ] && echo Kind', False),
}

# an edit that the prover refuses, and whether the test in NAMED then fails and names a row
NAMED = re.compile(r"test tests::readers_and_writers_that_fail \.\.\. FAILED\n    (?:\w+ \d+ )?wmod ")
ENDS = {
    None: False,
    # reads on after a refusal
    "wm_rules/read_after_a_refusal": True,
    # swallows a writer's error, or reports it with a wrong count
    "wm_write/failed_print_ends_well": True,
    "wm_write/fault_counts_nothing": True,
}


def built(room, refused, deeper):
    source, program = f"{room}/stand_in.c", f"{room}/stand_in"
    with open(source, "w", encoding="ascii") as it:
        it.write(STAND_IN.replace("REFUSED", refused).replace("DEEPER", deeper))
    subprocess.run([growths.compiler(), "-O0", "-w", source, "-o", program], check=True)
    return program


def standing_in(room, does):
    """Puts a stand-in for c_rows that writes all rows by this command into a folder. Returns the folder."""
    rows, program = pathlib.Path(room, "rows"), pathlib.Path(room, "c_rows")
    rows.write_text("".join(f"{row}\n" for row in c_calls.rows()), encoding="ascii")
    program.write_text(f"#!/bin/sh\n{does} {rows}\n", encoding="ascii")
    program.chmod(0o755)
    return room


def commanded(room, does):
    """Returns a stand-in for wmod that runs these commands."""
    program = pathlib.Path(room, "commanded")
    program.write_text(f"#!/bin/sh\ntrap '' PIPE\n{does}\n", encoding="ascii")
    program.chmod(0o755)
    return str(program)


def tried_with(room, edit, crate, *words, given=""):
    """Returns the output of `rt try` on a crate with this edit. `rt try` does not prove."""
    copy = f"{room}/copy"
    shutil.copytree("..", copy, ignore=shutil.ignore_patterns("out", ".git"))
    if edit:
        make(f"{copy}/crates", edit)
    ran = subprocess.run(["rt", "try", *words], cwd=f"{copy}/crates/{crate}", input=given, stdout=subprocess.PIPE, text=True, check=False)
    shutil.rmtree(copy)
    return ran.stdout


def answers_with(room, edit):
    """Returns the output of wm_rows for ROWS, without its last line."""
    return tried_with(room, edit, "wm_rows", given="".join(f"{row}\n" for row in ROWS)).rpartition("# ")[0]


def make(crates, edit):
    """Makes an edit of one pair in a copy of the crates."""
    crate, name = edit.split("/")
    folder = pathlib.Path(crates, crate)
    [(path, old, new)] = edits.pairs_of(edits.edits_of(folder)[name])
    text = (folder / path).read_text(encoding="utf-8")
    (folder / path).write_text(text.replace(old, new), encoding="utf-8")


def trials_of_growths(room):
    for name, (refused, deeper, wanted) in TRIALS.items():
        if growths.sweep(built(room, refused, deeper)) != wanted:
            yield f"growths.py and a stand-in: {name}"
    for name, (refused, wanted) in TRIALS_OF_ROWS.items():
        if growths.sweep_rows(built(room, refused, "")) != wanted:
            yield f"growths.py and a stand-in for wm_rows: {name}"
    for name, deeper, wanted in (("a block is leaked", KEEPS, False), ("all is freed", GIVES_BACK, True)):
        if growths.swept("a stand-in", built(room, RIGHT, deeper), [(["check"], b"")], growths.kind_of, gives_back=True) != wanted:
            yield f"growths.py and a stand-in that must free all: {name}"


def trials_of_counted_growths(room):
    for name, (which, wanted) in NAMES.items():
        if growths.is_name_lent(built(room, RIGHT, f"if ({which}) malloc(1);")) != wanted:
            yield f"growths.py and a stand-in for names: {name}"
    for name, (which, wanted) in EMPTY.items():
        if growths.is_empty_body_free(built(room, RIGHT, f"if ({which}) malloc(1);")) != wanted:
            yield f"growths.py and a stand-in for empty bodies: {name}"
    for name, (which, wanted) in LISTS.items():
        if growths.is_long_list_let_go(built(room, RIGHT, f"if ({which}) malloc(1);")) != wanted:
            yield f"growths.py and a stand-in for long lists: {name}"


def trials_of_calls(room):
    for name, (does, wanted) in TRIALS_OF_CALLS.items():
        if c_calls.are_rows_right(standing_in(room, does)) != wanted:
            yield f"c_calls.py and a stand-in for c_rows: {name}"
    c_calls.hinted = lambda: [(["begin", "feed", "hint"], "one\ntwo")]
    row = f"hint {c_calls.CAPACITY} = 7 " + "one|two0".ljust(c_calls.CAPACITY, "?")
    for name, said, wanted in (("the hint", row, True), ("another hint", row.replace("two", "too"), False), ("no hint", row[:5], False)):
        if c_calls.are_all_hinted(standing_in(room, f"printf '1\\n2\\n{said}\\n' #")) != wanted:
            yield f"c_calls.py and a stand-in for c_rows: {name}"


def trials_of_commands(room):
    for name, (words, answer, does, wanted) in TRIALS_OF_COMMANDS.items():
        if (command.answer(commanded(room, does), words) == answer) != wanted:
            yield f"command.py and a stand-in: {name}"
    for name, (page, does, wanted) in TRIALS_OF_CONSOLE.items():
        if (not list(console.wrong(commanded(room, does), page))) != wanted:
            yield f"console.py and a stand-in: {name}"
    command.details = lambda: [("wmod check", b"", LINE)]
    command.sentences = lambda: {"Kind": SENTENCE}
    for tried, trials in ((command.has_details, TRIALS_OF_DETAILS), (command.explains_all, TRIALS_OF_SENTENCES)):
        for name, (does, wanted) in trials.items():
            if tried(commanded(room, does)) != wanted:
                yield f"command.py and a stand-in: {name}"
    command.details, command.sentences = list, dict
    if command.has_details(commanded(room, "")) or command.explains_all(commanded(room, "")):
        yield "command.py: there is no line of detail, or no NAME"


def trials_of_depth(room):
    # A stand-in cannot give all answers that deep.py wants, so only the end of one run is compared.
    for name, deeper, wanted in (("nothing wrong", "", (0, b"valid\n")), ("it recurses", "nested(1000000);", (-11, b""))):
        if deep.run(built(room, RIGHT, deeper), "check", deep.DEEP) != wanted:
            yield f"deep.py and a stand-in: {name}"


def trials_of_libraries(room):
    for edit, wanted in SEEDS.items():
        if answers_with(room, edit) != "".join(f"{row} = {answer}\n" for row, answer in zip(ROWS, wanted)):
            yield f"wm_rows, where {edit or 'nothing'} is edited"
    for edit, wanted in ENDS.items():
        if bool(NAMED.search(tried_with(room, edit, "wm_cli", "--test"))) != wanted:
            yield f"readers and writers that fail, where {edit or 'nothing'} is edited"


# each function yields the trials that went wrong
OF_SCRIPTS = [
    script_trials.trials_of_believed,
    script_trials.trials_of_definitions,
    script_trials.trials_of_refusals,
    script_trials.trials_of_samples,
    script_trials.trials_of_versions,
    script_trials.trials_of_edits,
    script_trials.trials_of_run,
    script_trials.trials_of_build,
    script_trials.trials_of_rows,
    script_trials.trials_of_tools,
]
OF_RUNS = [trials_of_growths, trials_of_counted_growths, trials_of_calls, trials_of_commands, trials_of_depth, trials_of_libraries]


def main():
    if sys.argv[1:] not in ([], ["--scripts"]):
        sys.exit(__doc__)
    faults = []
    for trials in OF_SCRIPTS if sys.argv[1:] else [*OF_SCRIPTS, *OF_RUNS]:
        # The faults in these trials are deliberate, so the output of the scripts is dropped.
        quiet = contextlib.redirect_stdout(io.StringIO() if trials in OF_SCRIPTS else sys.stdout)
        with tempfile.TemporaryDirectory(prefix="runs-test-") as room, quiet:
            faults += trials(room)
    for fault in faults:
        print(f"runs_test: {fault}", file=sys.stderr)
    return 1 if faults else 0


if __name__ == "__main__":
    os.chdir(os.path.dirname(os.path.abspath(__file__)))
    sys.exit(main())
