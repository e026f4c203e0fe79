#!/usr/bin/env python3
"""Checks that docs/REFUSALS.md, wm_rows, `wmod explain`, the header and the crate for cargo agree on refusals.
Also checks that docs/LIMITS.md has the table of later features, and that the tests have each of its lines. And that
docs/COMMAND.md, the header and the crate for cargo have the words of `--features`.

    .ci/refusals.py

It prints each fault, and ends with status 1 if there is one. Two tables of the page must have the rows that wm_rows
runs, with a row for each printed name. The tables of the page must also have the lines that `wmod explain` prints.
Each name of the header must have such a line. The crate for cargo must have the numbers and NAMEs of the header, and
the sentences of these lines. c_calls.py compares the lines with the answers of `wmod_explain` and `wmod_hint`.
"""
import collections
import pathlib
import re
import sys

TOP = pathlib.Path(__file__).resolve().parent.parent
PAGE = "docs/REFUSALS.md"
ROWS = "crates/wm_rows/stdout"
WORDS = "crates/wm_syntax/src/why.rt"
TEXT_WORDS = "crates/wm_tokens/src/faults.rt"
TABLE = "crates/wm_refusals/src/tables.rt"
LIMITS = "docs/LIMITS.md"
HINTS = "crates/wm_refusals/src/hints.rt"
FEATURES = "crates/wm_command/src/features.rt"
COMMAND = "docs/COMMAND.md"
DETAILS = "crates/wm_cli/src/tests/details.rt"
HEADER = "crates/wm_c/include/wmod.h"
CRATE = "rust/src/why.rs"
OPTIONS = "rust/src/options.rs"

# the headings in wm_rows of the rows of each table
INPUTS = "# The smallest inputs of the refusals"
TEXTS = "# The smallest texts of the refusals"

# the names without a smallest input: the first needs gigabytes of text, the second gigabytes of module, and the last is
# never printed
WITHOUT_INPUT = ["TooManyLocals", "TooLarge", "Memory"]


def rows_of_page(page):
    """Yields the name in each row of the first table, and the line that wm_rows must write for it."""
    row = re.compile(r"^\| `(\w+)` \|.*\| (with no header |with `--(?:limit|max-functions|max-locals|max-open) \d+` |with `--features [\w-]+` |)`((?:[0-9A-F]{2} ?)+)`: (refused at \d+) \|", re.M)
    for word, kind, digits, place in row.findall(page):
        header = "" if kind == "with no header " else "H "
        option = re.sub(r"with `--(.*)` ", r"\1 ", kind).replace("features ", "profile 1+") if header else ""
        yield word, f"check {option}{header}{digits} = {place}: {word}"


def text_of(cell):
    if cell == "the empty text":
        return ""
    byte = re.fullmatch(r"the byte `([0-9A-F]{2})`", cell)
    return f" bytes {byte[1]}" if byte else " " + cell.strip("`")


def text_rows_of_page(page):
    """Yields the same for the table of texts."""
    row = re.compile(r"^\| `(\w+)` \|.*\| (?:with `--(profile \d)` |)(the empty text|the byte `[0-9A-F]{2}`|`[^`|]+`): at (\d+) \|", re.M)
    for word, option, cell, place in row.findall(page):
        yield word, f"build{option and ' ' + option}{text_of(cell)} = text refused at {place}: {word}"


def rows_of_group(top, heading):
    """Returns the rows of wm_rows between a heading and the next empty line."""
    lines = (top / ROWS).read_text(encoding="utf8").split("\n")
    first = lines.index(heading) + 1
    return lines[first : lines.index("", first)]


def words_without_input(page):
    return re.findall(r"^\| `(\w+)` \|.*\| none[^|]* \|[^|]*\|$", page, re.M)


def printed_words(file, kind):
    return set(re.findall(kind + r'::\w+ => "(\w+)",', file.read_text(encoding="utf8")))


def lines_of_tables(top, file=TABLE):
    """Yields the lines of each constant of a file of tables, with escapes replaced."""
    text = re.sub(r"\\\n\s*", "", (top / file).read_text(encoding="utf8"))
    for lines in re.findall(r'(?m)^pub const \w+: &str = "(.*)";$', text):
        yield re.sub(r"\\(.)", lambda it: "\n" if it[1] == "n" else it[1], lines).split("\n")


def explained(top, page):
    """Returns a fault for each row that only one of the page and the table has, or if their order differs."""
    # `wmod explain` does not print the column that says whether the name is proved.
    row = re.compile(r"^\| `(\w+)` \| ((?:[^|]+ \| ){3}[^|]+) \|(?: (?:proved|in part proved|tested) \|)?$", re.M)
    rows = [f"{name} | {rest}" for name, rest in row.findall(page)]
    lines = [line for lines in lines_of_tables(top) for line in lines]
    return [] if rows == lines else [f"not in both {PAGE} and {TABLE}, or in another order: {it}" for it in {*rows} ^ {*lines} or rows]


def hinted(top):
    """Returns a fault for each line of the table of later features that the page or the tests lack, and the other way."""
    (lines,) = lines_of_tables(top, HINTS)
    row = re.compile(r"^\| ((?:[^|]+ \| ){6}[^|]+) \|$", re.M)
    rows = [it.replace("`", "") for it in row.findall((top / LIMITS).read_text(encoding="utf8")) if it[0] == "`"]
    said = (top / DETAILS).read_text(encoding="utf8")
    cells = [line.split(" | ") for line in lines]
    # lines that say the same have a test each
    needed = collections.Counter(f": {begins} ({feature}); " for *_, begins, feature, _ in cells)
    faults = [f"fewer than {count} rows in {DETAILS}{it}" for it, count in needed.items() if said.count(it) < count]
    return faults + ([] if rows == lines else [f"not in both {LIMITS} and {HINTS}, or in another order: {it}" for it in {*rows} ^ {*lines} or rows])


def unlike_features(top):
    """Returns a fault for each file that has other words of `--features` than the table, other sentences, or another order."""
    text = {file: (top / file).read_text(encoding="utf8").replace("`", "") for file in (FEATURES, COMMAND, HEADER, OPTIONS)}
    rows = re.findall(r'^ +"([\w-]+)" => \[[\w, ]+\], "(.+)";$', text[FEATURES], re.M)
    table = re.search(r"^\| --features \| Adds \|\n\|---\|---\|\n((?:\|.*\n)*)", text[COMMAND], re.M)
    found = {
        COMMAND: re.findall(r"^\| ([\w-]+) \| (.+) \|$", table[1], re.M) if table else [],
        HEADER: [it for name, *it in re.findall(r"^#define (WMOD_\w+) 0x[\dA-F]+u /\* ([\w-]+): (.+) \*/$", text[HEADER], re.M) if name == constant_of(it[0])],
        OPTIONS: re.findall(r"^ +/// ([\w-]+): (.+)\.\n +\w+,$", text[OPTIONS], re.M),
    }
    lost = [] if rows else [f"{FEATURES} has no row"]
    return lost + [f"other words of --features in {file} than in {FEATURES}" for file, these in found.items() if [*map(tuple, these)] != rows]


def constant_of(word):
    """Returns the name of a word of `--features` in the header."""
    return "WMOD_" + word.upper().replace("-", "_")


def features_of_header(top):
    """Yields each word of `--features` with its bits in the header."""
    for name, bits, word in re.findall(r"^#define (WMOD_\w+) (0x[\dA-F]+)u /\* ([\w-]+): ", (top / HEADER).read_text(encoding="utf8"), re.M):
        if name == constant_of(word):
            yield word, int(bits, 16)


def rows_of_crate(top):
    """Yields the number, NAME and variant of each refusal of the crate for cargo, and its sentence."""
    row = re.compile(r'((?:^ +/// .*\n)+) +(\d+) "(\w+)" (\w+),$', re.M)
    for comment, *refusal in row.findall((top / CRATE).read_text(encoding="utf8")):
        yield tuple(refusal), " ".join(line.strip().removeprefix("/// ") for line in comment.splitlines())


def numbers_of_header(top):
    """Yields the number and the NAME of each refusal of the header, its line in the tables, and whether it is one of a text.

    The line has five parts. It is empty if the tables have no such NAME.
    """
    modules, texts, others = [{line.split(" | ")[0]: line.split(" | ") for line in lines} for lines in lines_of_tables(top)]
    row = re.compile(r"^  WMOD_(WHY|TEXT)_\w+ = (\d+),? /\* (\w+)", re.M)
    for kind, number, name in row.findall((top / HEADER).read_text(encoding="utf8")):
        is_text = kind == "TEXT"
        yield number, name, (others | (texts if is_text else modules)).get(name, []), is_text


def unexplained(top):
    return [f"no line of {TABLE} has the name {name} of {HEADER}" for _, name, line, _ in numbers_of_header(top) if len(line) != 5]


def explanations(top):
    """Yields the number of each refusal of the header, and the text that `wmod_explain` must write for it."""
    for number, _, (_, means, _, _, advice), _ in numbers_of_header(top):
        yield int(number), f"{means}\n{advice}"


def rows_of_header(top):
    """Yields what `rows_of_crate` yields, by the header and the tables."""
    for number, name, line, is_text in numbers_of_header(top):
        # the crate has one variant for both numbers of Memory
        if not is_text or name != "Memory":
            yield (number, name, f"Text{name}" if is_text else name), line[1] if line else None


def unlike_crate(top):
    """Returns the differences between the crate for cargo, the header and the table."""
    crate, header = dict(rows_of_crate(top)), dict(rows_of_header(top))
    faults = [f"not in both {HEADER} and {CRATE}: {' '.join(it)}" for it in sorted({*crate} ^ {*header})]
    others = [name for (_, name, _), sentence in {*header.items()} - {*crate.items()} if sentence]
    return faults + [f"another sentence in {CRATE} than in {TABLE}: {name}" for name in sorted(others)]


def faults_of_rows(page, group, words):
    rows = [row for _, row in page]
    faults = [f"only in {PAGE}: {row}" for row in rows if row not in group]
    faults += [f"only in {ROWS}: {row}" for row in group if row not in rows]
    named = [word for word, _ in page]
    for word in sorted(words | set(named)):
        if named.count(word) != (word in words):
            faults.append(f"{named.count(word)} rows in {PAGE} for the word {word}")
    return faults


def faults_of(top):
    page = (top / PAGE).read_text(encoding="utf8")
    words = printed_words(top / WORDS, "Why") - {"Memory"}
    faults = faults_of_rows(list(rows_of_page(page)), rows_of_group(top, INPUTS), words)
    text_words = printed_words(top / TEXT_WORDS, "TextWhy") - set(WITHOUT_INPUT)
    faults += faults_of_rows(list(text_rows_of_page(page)), rows_of_group(top, TEXTS), text_words)
    if words_without_input(page) != WITHOUT_INPUT:
        faults.append(f"rows in {PAGE} without a smallest input: {words_without_input(page)}")
    return faults + explained(top, page) + unexplained(top) + hinted(top) + unlike_crate(top) + unlike_features(top)


def main():
    faults = faults_of(TOP)
    for fault in faults:
        print(f"refusals: {fault}", file=sys.stderr)
    return 1 if faults else 0


if __name__ == "__main__":
    sys.exit(main())
