"""Tests that the scripts that read the tree can fail. runs_test.py calls it.

Each script gets a copy of its files, unchanged and then with one fault, and has to find that fault. There are also
trials of .ci/run and packaging/build.py with a stand-in for `rt`, of the scripts that count rows, and of those that
need tools. Each function `trials_of_..` yields the trials that went wrong.
"""
import contextlib
import functools
import os
import pathlib
import re
import shutil
import subprocess
import sys
import tempfile

sys.dont_write_bytecode = True
import believed
import c_calls
import command
import console
import definitions
import edits
import growths
import needs
import packages
import readme
import refusals
import versions

TOP = pathlib.Path(__file__).resolve().parent.parent

RULES = "crates/wm_rules/specs"
# the start of a file's `use` lines, and two messages of believed.py
FIRST = r"(?m)^use "
EXACT, WORD = "names an exact answer", "names a word that names the exact answer"
# for each fault: the file, the pattern that is replaced in it ("" for a new file), the replacement, and a part of the
# message that the script must print
TRIALS_OF_DEFINITIONS_READ = {
    "an exact answer": (f"{RULES}/Policies.antt", FIRST, "use Rattle.wm_rules.specs.exact.Checking.{after}\nuse ", EXACT),
    "the folder of exact answers, in braces": (f"{RULES}/Policies.antt", FIRST, "use Rattle.wm_rules.specs.{exact}\nuse ", EXACT),
    "an exact answer in nested braces, by another name": (f"{RULES}/Policies.antt", FIRST, "use Rattle.wm_rules.{\n    specs.{Kept, exact.Checking.{after as on}}}\nuse ", EXACT),
    "a module that is re-exported": (f"{RULES}/Policies.antt", FIRST, "pub use Rattle.wm_rules.specs.exact.Checking as on\nuse ", EXACT),
    "an exact answer by the name of another import": (f"{RULES}/Policies.antt", FIRST, "use s.exact.Checking.{after}\nuse Rattle.wm_rules.specs as s\nuse ", EXACT),
    "an escaped name": (f"{RULES}/Policies.antt", FIRST, "use package.Rattle.wm_rules.specs.«exact».Checking.{after}\nuse ", EXACT),
    "a path in a definition": (f"{RULES}/Policies.antt", r"\Z", "\non = Rattle.wm_rules.specs.exact.Checking.after\n", EXACT),
    "a path from another import": (f"{RULES}/Policies.antt", FIRST + r"([\s\S]*)", r"use Rattle.wm_rules.specs as s\nuse \1\non = (s.exact.Checking.after)\n", EXACT),
    "an inner word": (f"{RULES}/Policies.antt", FIRST, "use Rattle.wm_rules.specs.inner.Validators.{StateRead}\nuse ", WORD),
    "an inner word over another": (f"{RULES}/Policies.antt", FIRST, "use Rattle.wm_rules.specs.inner.Loaders.{HasLoaded}\nuse ", WORD),
    "an inner word of a module": (f"{RULES}/Policies.antt", FIRST + r"([\s\S]*)", r"use Rattle.wm_rules.specs.inner.Validators as v\nuse \1\non = (v.StateRead)\n", WORD),
    "an inner word that names more than before": (f"{RULES}/inner/Loaders.antt", r"module_in c = ", "module_in c = loader_after ", WORD),
    "an inner word that re-exports an exact answer": (f"{RULES}/inner/Loaders.antt", FIRST + r"([\s\S]*)abbrev pub module_in.*\nmodule_in.*", r"pub use Rattle.wm_rules.specs.exact.Checking.{after as module_in}\nuse \1", WORD),
    "a word of OPAQUE where it does not list it": (f"{RULES}/Policies.antt", FIRST, "use Rattle.wm_rules.specs.inner.Validators.{verdict}\nuse ", WORD),
    "all of a crate": (f"{RULES}/Policies.antt", FIRST, "use Rattle.wm_rules.specs as s\nuse ", "names a whole folder"),
    "a name of a proof": (f"{RULES}/Policies.antt", FIRST, "use Rattle.wm_rules.proofs.Names.{x}\nuse ", "names what is no definition"),
    "a file that does not exist": (f"{RULES}/Policies.antt", FIRST, "use Rattle.wm_rules.specs.Nowhere.{x}\nuse ", "names no file of specs/"),
    "a comment in braces": (f"{RULES}/Policies.antt", r"\Z", "{- no -}\n", "has a comment in braces"),
    "a folder of another name": (f"{RULES}/other/New.antt", "", "one = 1\n", "lies in a folder of specs/"),
    "a word of OPAQUE that is named no more": ("crates/wm_c/specs/Sessions.antt", r"\{HasRead, ", "{", "OPAQUE lets it name wm_rules.specs.inner.Validators.HasRead"),
    "a word of OPAQUE that names no exact answer": (f"{RULES}/inner/Validators.antt", r"TellsChecker p bytes held = .*", "TellsChecker p bytes held = held", "OPAQUE lets it name wm_rules.specs.inner.Validators.TellsChecker"),
}
LOCALS, KNOWN = "crates/wm_syntax/src/modules/locals.rt", "crates/wm_typing/src/known_locals.rt"
NAMES = "crates/wm_rules/src/export_names.rt"
COPY = r"#\[derive\(Clone, Copy, (.*\n.*struct {})\b"
TRIALS_OF_FIELDS = {
    "a list more": (NAMES, r"( +)name: Vec<u8>,\n\}", r"\1name: Vec<u8>,\n\1more: Vec<u8>,\n}", "HashedName has other fields"),
    "a field less": (NAMES, r" +hash: u64,\n( +name: Vec<u8>,\n\})", r"\1", "HashedName has other fields"),
    "a struct that is gone": (NAMES, r"struct HashedName\b", "struct Hashed", "0 structs HashedName"),
    "a type that is no longer Copy": (KNOWN, COPY.format("KnownLocals"), r"#[derive(Clone, \1", "known is not counted, and KnownLocals is not copied"),
    "a type in a list that is no longer Copy": (LOCALS, COPY.format("Run"), r"#[derive(Clone, \1", "runs holds a Run, of which wm_syntax Run has no row"),
}

DEFINED, READ, INNER, OF_EXACT, OF_LAWS = definitions.PAGE, definitions.READ, definitions.INNER, definitions.EXACT, definitions.LAWS
BOTH_ROWS = r"(.*`wm_syntax: Spelling\.antt`.*\n)(.*`wm_syntax: Leb128\.antt`.*\n)"
TRIALS_OF_DEFINED = {
    "a row to be read is missing": (DEFINED, BOTH_ROWS, r"\1", f"{READ}: 0 rows have wm_syntax.specs.Leb128"),
    "it is there twice": (DEFINED, BOTH_ROWS, r"\1\2\2", f"{READ}: 2 rows have wm_syntax.specs.Leb128"),
    "a row comes before one that it uses": (DEFINED, BOTH_ROWS, r"\2\1", f"{READ}: wm_syntax.specs.Leb128 comes before wm_syntax.specs.Spelling"),
    "a row has no file": (DEFINED, r"`wm_write: Canon\.antt`", "Canon", f"{READ}: no file is in the row of Defines the canonical binary"),
    "a file is gone": (DEFINED, r"`wm_write: Canon\.antt`", "`wm_write: Canons.antt`", f"{READ}: wm_write.specs.Canons is no file"),
    "a word to be read is gone": (DEFINED, "`IsIndex`", "`IsPlace`", f"{READ}: `IsPlace` is no word of wm_tokens.specs.Identifiers"),
    "an inner word is missing": (DEFINED, "`ops_at`, ", "", f"{INNER}: no row has `ops_at` of wm_syntax.specs.inner.Building"),
    "an inner word is gone": (DEFINED, "`ops_at`", "`ops_here`", f"{INNER}: `ops_here` is no word of wm_syntax.specs.inner.Building"),
    "an inner word is not reached": (DEFINED, "`id_of`", "`id_of`, `defined`", f"{INNER}: no public clause reaches `defined` of wm_bodies.specs.inner.Ids"),
    "an exact fact is missing": (DEFINED, "`PushesKind`, ", "", f"{OF_EXACT}: no row has `PushesKind` of wm_stacks.specs.exact.Words"),
    "an exact word of a law is missing": (DEFINED, "`Built`, `after`", "`Built`", f"{OF_EXACT}: no row has `after` of wm_rules.specs.exact.Built"),
    "a file of exact functions is missing": (DEFINED, r".*`wm_tokens: Scan\.antt`.*\n", "", f"{OF_EXACT}: no row without words has wm_tokens.specs.exact.Scan"),
    "no function is left for a file": (DEFINED, r"`wm_tokens: Scan\.antt`", "`wm_tokens: Scan.antt`; `wm_stacks: FastPaths.antt`", f"{OF_EXACT}: all words of wm_stacks.specs.exact.FastPaths"),
    "a word of a section is gone": (DEFINED, r"`Valid\.types`", "`Valid.kinds`", f"{definitions.SECTIONS}: `kinds` is no word of wm_rules.specs.Validation"),
    "a section has a word and no file": (DEFINED, r"always valid", "`Valid`", f"{definitions.SECTIONS}: `Valid` stands behind no file"),
    "a law is missing": (DEFINED, "`one_reading`, ", "", f"{OF_LAWS}: no row has `one_reading` of wm_machine"),
    "a law is gone": (DEFINED, "`one_reading`", "`one_writing`", f"{OF_LAWS}: `one_writing` is no law of wm_machine"),
    "another name is gone": (DEFINED, "`HasOps`", "`HasOpcodes`", f"{DEFINED}: `HasOpcodes` is nothing"),
}
# the same, with text added at the end of a file or written to a new one
TRIALS_OF_WORDS = {
    "a clause with a word more": (
        "crates/wm_rules/src/policy.rt",
        r"\Z",
        "\nghost use Rattle.wm_rules.{specs.inner.Builders.{code_at as code}};\n\npub fn more()\n    ensures { code ≡ code }\n{ f() }\n",
        f"{INNER}: no row has `code_at` of wm_rules.specs.inner.Builders",
    ),
    "a definition that is reached, with a word more": (
        "crates/wm_syntax/specs/Spelling.antt",
        r"\Z",
        "\nuse Rattle.wm_syntax.specs.inner.Runs.{last_end}\n\nabbrev pub Exactly : Type 0\nExactly = last_end\n",
        f"{INNER}: no row has `last_end` of wm_syntax.specs.inner.Runs",
    ),
    "a file of definitions": ("crates/wm_rules/specs/More.antt", "", "abbrev pub More : Type 0\n", f"{READ}: 0 rows have wm_rules.specs.More"),
    "an import of a later file": ("crates/wm_rules/specs/Kept.antt", r"\Z", "\nuse Rattle.wm_rules.specs.Validating.{HasRoom}\n", f"{READ}: wm_rules.specs.Kept comes before"),
    "an import of no word": ("crates/wm_rules/specs/Kept.antt", r"\Z", "\nuse Rattle.wm_rules.specs.Holding.{more}\n", "Kept.antt imports wm_rules.specs.Holding.more"),
    "a law": ("crates/wm_rules/src/laws.rt", r"\Z", "\npub fn more_laws()\n    ensures { ℕ }\n{}\n", f"{OF_LAWS}: no row has `more_laws` of wm_rules"),
}

PAGE, TABLE, ROWS = refusals.PAGE, refusals.TABLE, refusals.ROWS
TRIALS_OF_REFUSALS = {
    "an input that is not run": (PAGE, r"`01`: refused at 1 \|", "`02`: refused at 1 |", f"only in {PAGE}: check 02 = refused at 1: Magic"),
    "a feature with which it is not run": (PAGE, r"with `--features bulk-memory` `0C", "with `--features compilers` `0C", f"only in {PAGE}: check profile 1+compilers H 0C 01 01"),
    "an offset that is not answered": (PAGE, r"`01`: refused at 1 \|", "`01`: refused at 2 |", f"only in {PAGE}: check 01 = refused at 2: Magic"),
    "an input that is on no page": (ROWS, rf"({re.escape(refusals.INPUTS)})\n", r"\1\ncheck 03 = refused at 1: Magic\n", f"only in {ROWS}: check 03"),
    "a word without a row": (PAGE, r"(?m)^\| `Magic` \|.*\n", "", f"0 rows in {PAGE} for the word Magic"),
    "a word with two": (PAGE, r"(?m)^(\| `Magic` \|.*\n)", r"\1\1", f"2 rows in {PAGE} for the word Magic"),
    "a row without a word": (refusals.WORDS, r'Why::Magic => "Magic",', "", f"1 rows in {PAGE} for the word Magic"),
    "a text that is not run": (PAGE, r'`"\\x`: at 0 \|', r'`"\\y`: at 0 |', f"only in {PAGE}: build \"\\y"),
    "a text that is on no page": (ROWS, rf"({re.escape(refusals.TEXTS)})\n", r"\1\nbuild x = text refused at 0: Expected\n", f"only in {ROWS}: build x"),
    "a word of a text without a row": (PAGE, r"(?m)^\| `BadEscape` \|.*\n", "", f"0 rows in {PAGE} for the word BadEscape"),
    "a row with no text": (PAGE, r"(\| `BadEscape` \|[^|]*\|[^|]*\|)[^|]*\|", r"\1 none |", "without a smallest input"),
    "another sentence": (TABLE, r"One of the first", "None of the first", f"not in both {PAGE} and {TABLE}"),
    "another order": (TABLE, r'(OF_MODULES: &str = "\\\n)((?:.*\n)*?.*\\n\\\n)((?:.*\n)*?.*\\n\\\n)', r"\1\3\2", f"not in both {PAGE} and {TABLE}, or in another order"),
    "another line of a later feature": (refusals.HINTS, r"a tail call", "no tail call", f"not in both {refusals.LIMITS} and {refusals.HINTS}"),
    "a later feature that is not tested": (refusals.DETAILS, r": a tail call \(", ": a call (", f"fewer than 1 rows in {refusals.DETAILS}: a tail call (tail-call)"),
    "another word of --features": (refusals.COMMAND, r"\| `sign-ext` \|", "| `sign` |", f"other words of --features in {refusals.COMMAND} than in"),
    "another sentence of a feature": (refusals.HEADER, r"sign-ext: the five", "sign-ext: the six", f"other words of --features in {refusals.HEADER} than in"),
    "a feature under another name": (refusals.HEADER, r"WMOD_SIGN_EXT 0x", "WMOD_SIGN 0x", f"other words of --features in {refusals.HEADER} than in"),
    "several bits under another name": (refusals.HEADER, r"WMOD_COMPILERS 0x", "WMOD_COMPILER 0x", f"other words of --features in {refusals.HEADER} than in"),
    "a feature that the crate lacks": (refusals.OPTIONS, r"/// `sign-ext`: ", "/// ", f"other words of --features in {refusals.OPTIONS} than in"),
    "no row of features": (refusals.FEATURES, r"[\s\S]+", "", f"{refusals.FEATURES} has no row"),
    "another sentence of the crate": (refusals.CRATE, r"/// One of the first", "/// None of the first", f"another sentence in {refusals.CRATE} than in {TABLE}: Magic"),
    "another number of the crate": (refusals.CRATE, r'1 "Magic"', '7 "Magic"', f"not in both {refusals.HEADER} and {refusals.CRATE}: 7 Magic Magic"),
    "a sentence of the crate for no input": (refusals.CRATE, r"/// Memory was refused", "/// Memory was there", f"another sentence in {refusals.CRATE} than in {TABLE}: Memory"),
    "a name of the header without a line": (TABLE, r"    TooLarge \| ", "    TooSmall | ", f"no line of {TABLE} has the name TooLarge of {refusals.HEADER}"),
    "a refusal that the crate does not know": (
        refusals.HEADER,
        r"  WMOD_WHY_TOO_LARGE",
        "  WMOD_WHY_LATER = 32, /* Later */\n  WMOD_WHY_TOO_LARGE",
        f"not in both {refusals.HEADER} and {refusals.CRATE}: 32 Later Later",
    ),
}
LIBRARY = "docs/LIBRARY.md"
TRIALS_OF_SAMPLES = {
    "another line in Rattle": (LIBRARY, r"(```rust\n(?:.*\n)*?.*fn \w+.*\n)", r"\1    other();\n", "is not that of"),
    "no function": (LIBRARY, r"```rust\n", "```rust\nother();\n```\n\n```rust\n", "a sample without a function"),
    "no file": (LIBRARY, r"```rust\n", "```rust\nfn other() {}\n```\n\n```rust\n", "no file for the sample other"),
    "a file on no page": (f"{readme.USES}/other.rt", "", "fn other() {}\n", "on no page"),
    **{f"another line in {mark}": (LIBRARY, rf"```{mark}\n", f"```{mark}\nother\n", f"the sample in {mark} with the line `other`") for mark in readme.WHOLE},
}

OF_HEADER, OF_CRATE, OF_COMMAND = (f"{file}: " for file in (versions.HEADER, versions.CRATE, versions.COMMAND))
TRIALS_OF_VERSIONS = {
    "another release of the command": (versions.COMMAND, r'\.version\("\d+', '.version("7', "wanted 7."),
    "three parts of the command": (versions.COMMAND, r'\.version\("(.*)"\)', r'.version("\1.0")', "is no number of two parts"),
    "none of the command": (versions.COMMAND, r'\.version\(".*"\)', "", f"{OF_COMMAND}0 places"),
    "another one of the header": (versions.HEADER, r'(WMOD_RELEASE) ".*"', r'\1 "7.1"', f"{OF_HEADER}7.1"),
    "three parts of the header": (versions.HEADER, r'(WMOD_RELEASE) "(.*)"', r'\1 "\2.0"', OF_HEADER),
    "none of the header": (versions.HEADER, r"#define WMOD_RELEASE .*\n", "", f"{OF_HEADER}0 places"),
    "another one of the crate": (versions.CRATE, r'(?m)^version = "\d+', 'version = "7', f"{OF_CRATE}7."),
    "another second part of the crate": (versions.CRATE, r'(?m)^(version = "\d+)\.\d+', r"\1.77", OF_CRATE),
    "two parts of the crate": (versions.CRATE, r'(?m)^(version = "\d+\.\d+)\.\d+', r"\1", f"{OF_CRATE}0 places"),
    "a number in the pkg-config file": (versions.PKG_CONFIG, "@VERSION@", "0.1", f"{versions.PKG_CONFIG}: 0.1"),
}

EDIT = "crates/wm_floats/must-fail/ties_rounded_up.edit"
NEW = r"new: .*"
PARSE = "src/binary.rt does not parse: "
TRIALS_OF_EDITS = {
    "the old text is not there": (EDIT, r"old: .*", "old: kept.other()", "'kept.other()' stands 0 times"),
    "it is there twice": (EDIT, r"old: .*", "old: kept", "'kept' stands "),
    "no such file": (EDIT, r"binary", "unary", "stands 0 times in src/unary.rt"),
    "no pair": (EDIT, r"[\s\S]+", "", "no pair"),
    "no line of an edit": (EDIT, NEW, "now: kept", "is no line of an edit"),
    "new and old are the same": (EDIT, r"(old: )(.*)\nnew: .*", r"\1\2\nnew: \2", "is both the old text and the new one"),
    "a comment alone": (EDIT, r"(old: )(.*)\nnew: .*", r"\1\2\nnew: \2 // down", "it changes nothing but comments and layout"),
    "the second pair takes back the first": (EDIT, r"old: (.*)\nnew: (.*)", r"old: \1\nnew: \2\nold: \2\nnew: \1", "it changes nothing but comments and layout"),
    "a bracket left open": (EDIT, NEW, "new: Ordering::Equal => (kept + 1,", f"{PARSE}a "),
    "a bracket that closes nothing": (EDIT, NEW, "new: Ordering::Equal => kept + 1),", f"{PARSE}a ) that closes nothing"),
    "a text that does not end": (EDIT, NEW, 'new: Ordering::Equal => kept + "1,', f"{PARSE}a text that does not end"),
    "an operator too many": (EDIT, NEW, "new: Ordering::Equal => kept + ,", f"{PARSE}an operator without an operand"),
    "two operators": (EDIT, NEW, "new: Ordering::Equal => kept + + 1,", f"{PARSE}an operator without an operand"),
    "two commas": (EDIT, NEW, "new: Ordering::Equal => kept + 1,,", f"{PARSE}two commas"),
    "a keyword at the end": (EDIT, NEW, "new: Ordering::Equal => { kept + 1; let }", f"{PARSE}a keyword at the end"),
    "two operands": (EDIT, NEW, "new: Ordering::Equal => kept 1,", f"{PARSE}two operands, kept 1"),
    "two edits of one name": ("crates/wm_floats/edits/ties_rounded_up.edit", "", "", "two edits have the name ties_rounded_up"),
    "an edit that has no row": ("crates/wm_floats/must-fail/other.edit", "", "file: src/binary.rt\nold: kept % 2\nnew: kept\n", "other edits in must-fail/ than rows"),
    "a row without an edit": (edits.PAGE, r"`ties_rounded_up`", "`ties_rounded_down`", "other edits in must-fail/ than rows"),
}

# the output and the status of a stand-in for rt, and the status that .ci/run must have
SHOWS_NOTHING = ("BAD EDIT: it does not compile", "refused, but only because a proof file names what it takes away", "refused only by a limit", "NOT REFUSED")
SAID_BY_RT = {
    "nothing wrong": ("must-fail wm_a/b.edit: refused, as it must be", 0, 0),
    "a failure": ("1 passed, 2 failed", 3, 3),
    "a failure with an edit that shows nothing": ("must-fail wm_a/b.edit: BAD EDIT", 3, 3),
    **{said: (f"must-fail wm_a/b.edit: {said}", 0, 1) for said in SHOWS_NOTHING},
}


def copied(room, name, *patterns):
    """Copies the files of the tree that match the patterns into a folder. Returns the folder."""
    top = pathlib.Path(room, name)
    for pattern in patterns:
        for found in sorted(TOP.glob(pattern)):
            to = top / found.relative_to(TOP)
            to.parent.mkdir(parents=True, exist_ok=True)
            if found.is_dir():
                shutil.copytree(found, to)
            else:
                shutil.copy(found, to)
    return top


@contextlib.contextmanager
def changed(file, old, new):
    """Runs the block with one replacement made in a file, or with a new file. Yields the number of replacements."""
    stood = file.read_text(encoding="utf-8") if file.is_file() else None
    text, count = re.subn(old, new, stood or "", count=1)
    file.parent.mkdir(parents=True, exist_ok=True)
    file.write_text(text, encoding="utf-8")
    yield count
    if stood is not None:
        file.write_text(stood, encoding="utf-8")
        return
    file.unlink()
    if not any(file.parent.iterdir()):
        file.parent.rmdir()


def said_by(finds, top):
    """Returns the faults that a script finds in a tree. If the script exits, its message is the only fault."""
    try:
        return list(finds(top))
    except SystemExit as ended:
        return [str(ended)]


def played(script, finds, top, trials):
    """Yields the trials in which a script does not find just the fault."""
    found = said_by(finds, top)
    if found:
        yield f"{script}: nothing wrong: {found[0]}"
    for name, (file, old, new, wanted) in trials.items():
        with changed(top / file, old, new) as count:
            found = said_by(finds, top)
        if not count or not any(wanted in fault for fault in found):
            yield f"{script}: {name}: {f'{file} has no such place' if not count else found}"


def trials_of_believed(room):
    top = copied(room, "definitions", *(f"crates/{name}/specs" for name in ("wm_decode", "wm_rules", "wm_c", "wm_command")))
    yield from played("believed.py", believed.unbelieved, top, TRIALS_OF_DEFINITIONS_READ)
    top = copied(room, "fields", "crates/*/src")
    yield from played("believed.py", believed.uncounted, top, TRIALS_OF_FIELDS)
    with_box = functools.partial(believed.uncounted, kept=believed.KEPT.replace("Vec<Run>", "Box<Run>"))
    with changed(top / LOCALS, "Vec<Run>", "Box<Run>"):
        if not any("runs holds a Box, a type that" in fault for fault in with_box(top)):
            yield "believed.py: a type of the kit that it does not know"


def trials_of_definitions(room):
    top = copied(room, "defined", DEFINED, "crates/*/src", "crates/*/specs")
    as_it_is = functools.partial(definitions.faults_of, project=definitions.project_of(top))
    yield from played("definitions.py", as_it_is, top, TRIALS_OF_DEFINED)
    yield from played("definitions.py", definitions.faults_of, top, TRIALS_OF_WORDS)


def trials_of_refusals(room):
    top = copied(room, "refusals", PAGE, ROWS, TABLE, refusals.LIMITS, refusals.HINTS, refusals.DETAILS, refusals.WORDS, refusals.TEXT_WORDS, refusals.HEADER, refusals.CRATE, refusals.FEATURES, refusals.COMMAND, refusals.OPTIONS)
    yield from played("refusals.py", refusals.faults_of, top, TRIALS_OF_REFUSALS)


def trials_of_samples(room):
    top = copied(room, "readme", "README.md", "docs", readme.USES, *readme.WHOLE.values())
    yield from played("readme.py", readme.faults_of, top, TRIALS_OF_SAMPLES)


def trials_of_versions(room):
    top = copied(room, "versions", *versions.FORMS)
    yield from played("versions.py", versions.faults_of, top, TRIALS_OF_VERSIONS)


def trials_of_edits(room):
    top = copied(room, "edits", "crates/wm_floats/*", edits.PAGE)
    yield from played("edits.py", lambda it: edits.names_of(it)[1], top, TRIALS_OF_EDITS)


def trials_of_run(room):
    """Runs .ci/run with empty scripts, except edits.py, parses.py and needs.py, and with a stand-in for `rt`."""
    top = copied(room, "run", ".ci/run", ".ci/edits.py", ".ci/parses.py", ".ci/needs.py", edits.PAGE)
    (top / "crates").mkdir()
    for name in ("believed", "definitions", "refusals", "readme", "versions"):
        (top / f".ci/{name}.py").write_text("", encoding="utf-8")
    (top / ".ci/built.py").write_text("print('built')\n", encoding="utf-8")
    env = {**os.environ, "PATH": f"{top}:{os.environ['PATH']}", "CI": ""}
    for name, (said, status, wanted) in SAID_BY_RT.items():
        (top / "rt").write_text(f'#!/bin/sh\n[ "$*" = ci ] && [ -d .ci ] || exit 9\necho "{said}"\nexit {status}\n', encoding="utf-8")
        (top / "rt").chmod(0o755)
        ran = subprocess.run([top / ".ci/run"], cwd=room, env=env, capture_output=True, text=True, check=False)
        lines = ran.stdout.splitlines()
        if ran.returncode != wanted or said not in ran.stdout or ("built" in lines) != (not wanted):
            yield f".ci/run: {name}: {ran.returncode}: {ran.stdout}{ran.stderr}"


def trials_of_rows(room):
    """Tries empty files of rows, and one that lacks a row."""
    empty, program = pathlib.Path(room, "no_rows.txt"), pathlib.Path(room, "c_rows")
    empty.write_text("", encoding="ascii")
    program.write_text('#!/bin/sh\nhead -n "$(wc -l)" "$0.txt"\n', encoding="ascii")
    program.chmod(0o755)
    program.with_name("c_rows.txt").write_text("".join(f"{row}\n" for row in c_calls.rows()), encoding="ascii")
    rows = c_calls.ROWS, command.ROWS
    if not c_calls.are_rows_right(room):
        yield "c_calls.py: all rows are there"
    c_calls.ROWS = command.ROWS = empty
    if c_calls.are_rows_right(room) or command.has_rows(str(program)):
        yield "c_calls.py or command.py: a file of rows is empty"
    pages, console.PAGES = console.PAGES, []
    if console.is_well(str(program)):
        yield "console.py: there are no samples"
    console.PAGES = pages
    lines = pathlib.Path(rows[0]).read_text(encoding="ascii").splitlines(keepends=True)
    empty.write_text("".join(lines[:-1]), encoding="ascii")
    if c_calls.are_rows_right(room):
        yield "c_calls.py: a row is gone"
    c_calls.ROWS, command.ROWS = rows


# a stand-in for `rt` in a first build: it writes down each crate that it is called for and how many others run, and
# fails for one crate
NOTING_RT = """#!/bin/sh
if [ "$1" = version ]; then echo "$KIT logic 0"; exit; fi
mkdir -p "$NOTED.running"
echo "$PWD" > "$NOTED.running/$$"
sleep 0.2
ls "$NOTED.running" | wc -l >> "$NOTED.beside"
rm "$NOTED.running/$$"
crate=$(basename "$PWD")
echo "$crate" >> "$NOTED"
[ "$crate" != "$FAILING" ]
"""


def first_build(room, lines, failing="", kit="another-kit"):
    """Runs packaging/build.py with these lines in crates.txt. Returns its status, the crates given to `rt`, and the most at once."""
    top = pathlib.Path(tempfile.mkdtemp(dir=room))
    shutil.copytree(TOP / "packaging", top / "packaging", ignore=shutil.ignore_patterns("__pycache__"))
    (top / "crates.txt").write_text("".join(f"{line}\n" for line in lines), encoding="utf-8")
    for name, text in (("HANDLES", ""), ("noted", ""), ("rt", NOTING_RT)):
        (top / name).write_text(text, encoding="utf-8")
    (top / "rt").chmod(0o755)
    for line in lines:
        (top / "crates" / line.partition(":")[0] / "src").mkdir(parents=True)
    env = {**os.environ, "PATH": f"{top}:{os.environ['PATH']}", "NOTED": str(top / "noted"), "FAILING": failing, "KIT": kit}
    ran = subprocess.run([sys.executable, "-B", top / "packaging/build.py", "top"], env=env, capture_output=True, check=False)
    beside = top / "noted.beside"
    most = max(map(int, beside.read_text(encoding="utf-8").split())) if beside.exists() else 0
    return ran.returncode, (top / "noted").read_text(encoding="utf-8").split(), most


def trials_of_build(room):
    """Tests that a first build builds each crate once, after its dependencies, and fails for a bad crate or a cycle.

    With a kit whose copies share nothing, one crate is built at a time.
    """
    lines = ["low:", "left: low", "right: low std", "top: left right", "beside: low"]
    for kit, at_once in (("another-kit", {1, 2}), ("rattle-kit-13b", {1})):
        status, called, most = first_build(room, lines, kit=kit)
        if status or sorted(called) != ["left", "low", "right", "top"] or called[0] != "low" or called[-1] != "top" or most not in at_once:
            yield f"build.py: nothing is wrong, {kit}: {status}, {called}, {most} at once"
        status, called, _ = first_build(room, lines, "left", kit)
        if status != 70 or "top" in called:
            yield f"build.py: a crate fails, {kit}: {status}, {called}"
    status, called, _ = first_build(room, ["low: top", *lines[1:]])
    if status != 70 or called:
        yield f"build.py: crates stand on one another: {status}, {called}"


@contextlib.contextmanager
def machine(folder, ci):
    """Runs the block with only the tools of a folder on the path, and with the variable CI set to `ci`."""
    stood = {name: os.environ.get(name) for name in ("PATH", "CI")}
    os.environ.update({"PATH": str(folder), "CI": ci})
    yield
    for name, value in stood.items():
        os.environ.pop(name)
        if value is not None:
            os.environ[name] = value


def trials_of_tools(room):
    """Tests that missing tools are a failure only in CI, and that a missing `rt` always is."""
    folder = pathlib.Path(room, "tools")
    folder.mkdir()
    parts = {
        "growths of wmod": lambda: growths.sweep("none"),
        "growths with names": lambda: growths.is_name_lent("none"),
        "growths behind long bodies": lambda: growths.is_long_list_let_go("none"),
        "growths of empty bodies": lambda: growths.is_empty_body_free("none"),
        "c_calls.py": lambda: c_calls.is_well("none", "none"),
        "packages.py": lambda: packages.is_well("none", "none"),
        "needs.py": lambda: needs.main() == 0,
    }
    with machine(folder, ""):
        if needs.main() == 0:
            yield "needs.py: rt is missing"
    (folder / "rt").write_text("", encoding="utf-8")
    (folder / "rt").chmod(0o755)
    for ci in ("", "true"):
        for name, is_well in parts.items():
            with machine(folder, ci):
                found = is_well()
            if found == (ci == "true"):
                yield f"{name}: there are no tools, and CI is `{ci}`"
