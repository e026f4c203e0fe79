"""Finds simple syntax errors in a file that a must-fail edit changed. edits.py calls it.

It has no parser, so it finds fewer errors than the prover, and none in a file that parses. In the whole file, each
bracket must close the open one, and each string must end. In the paragraphs of a .rt file that the edit changed,

- no operator lacks an operand;
- no two commas or semicolons follow one another;
- no keyword that begins something is at the end;
- outside of clauses, no two operands follow one another.
"""
import functools
import re

# comments, strings, characters and brackets; a quotation mark alone begins a string that does not end
RUST = re.compile(
    r"""//[^\n]*|/\*.*?\*/|\bb?r(?P<marks>#*)".*?"(?P=marks)|"(?:\\.|[^"\\])*"|'(?:\\(?:x[0-9a-fA-F]{2}|u\{[^}]*\}|.)|[^'\\\n])'|[()\[\]{}"]""", re.S
)
ANTT = re.compile(r"""(?:^|(?<=[\s(){}\[\],;]))--[^\n]*|"(?:\\.|[^"\\\n])*"|[()\[\]{}«»"]""", re.M)
CLOSES = {")": "(", "]": "[", "}": "{", "»": "«"}

# not in BEHIND: `<<`, which may begin a type, and `&&`, which may begin a value
BEHIND = r"(?:\+|/|%|\^|==|!=|<=|>=|=>|[-+*/%^&|]=)"
BINARY = rf"(?:{BEHIND}|&&|<<)"
NEVER = {
    "an operator without an operand": rf"(?:{BINARY}|\|\||(?<![=<>!])=)\s*[)\]}};,]|[(\[{{,;]\s*{BEHIND}|{BINARY}\s+{BEHIND}",
    "two commas or semicolons": r"[,;]\s*[,;]",
    "a keyword at the end": r"\b(?:let|if|match|while|for|in|as|else|fn|mut|use|struct|enum|impl|ref)\b\s*[)\]};,]",
}
# the starts of a ghost item, which ends at its semicolon, and of a clause
GHOST = re.compile(r"\bghost\b")
CLAUSE = re.compile(r"\b(?:requires|ensures|invariant|decreases)\b[^{};]*\{")
# two words, or a word after a closing bracket: `struct Name`, `pub fn`, `) as u8`
TWO = re.compile(r"(?<!['\w])(?=(\w+|\)|\])\s+(\w+))")
KEYWORDS = set(
    "as break const continue crate dyn else enum extern fn for ghost if impl in let loop match mod move mut pub ref return self Self static "
    "struct super trait type unsafe use where while".split()
)


@functools.cache
def taken_apart(text, suffix):
    """Returns the text without comments, the same with each string replaced by 0, and its brackets.

    A quotation mark among the brackets is a string that does not end.
    """
    said, bare, marks, at = [], [], [], 0
    for found in (ANTT if suffix == ".antt" else RUST).finditer(text):
        part, between = found[0], text[at : found.start()]
        at = found.end()
        is_comment = part[:2] in ("//", "/*", "--")
        said += between, " " if is_comment else part
        bare += between, " " if is_comment else part if len(part) == 1 else "0"
        if len(part) == 1:
            marks.append(part)
    return "".join([*said, text[at:]]), "".join([*bare, text[at:]]), marks


def fault_of_brackets(marks):
    """Returns the first unmatched bracket or open string, or "" if there is none."""
    opened = []
    for mark in marks:
        if mark in "([{«":
            opened.append(mark)
        elif mark in CLOSES and (not opened or opened.pop() != CLOSES[mark]):
            return f"a {mark} that closes nothing"
        elif mark == '"':
            return "a text that does not end"
    return f"a {opened[-1]} that is left open" if opened else ""


def end_of(text, at, wanted):
    """Returns the end of the first of these marks outside of brackets, from an offset on."""
    depth = 0
    for place in range(at, len(text)):
        depth += (text[place] in "({[") - (text[place] in ")}]")
        if depth <= 0 and text[place] in wanted:
            return place + 1
    return len(text)


def without_clauses(text):
    for pattern, wanted, back in ((GHOST, ";", 0), (CLAUSE, "}", 1)):
        kept, at = [], 0
        for found in pattern.finditer(text):
            if found.start() >= at:
                kept.append(text[at : found.start()])
                at = end_of(text, found.end() - back, wanted)
        text = " ; ".join([*kept, text[at:]])
    return text


def faults_of_paragraph(text):
    for what, pattern in NEVER.items():
        if re.search(pattern, text):
            yield what
    for first, second in TWO.findall(without_clauses(text)):
        if first not in KEYWORDS and second not in KEYWORDS:
            yield f"two operands, {first} {second}"


def is_same(before, after, suffix):
    """Whether two files differ only in comments and layout."""
    return taken_apart(before, suffix)[0].split() == taken_apart(after, suffix)[0].split()


def paragraphs(text, suffix):
    """Returns the parts between empty lines, without comments, attributes, visibilities and the contents of strings."""
    return re.sub(r"#!?\[[^\]]*\]|\bpub\([^)]*\)", "", taken_apart(text, suffix)[1]).split("\n\n")


def faults_of(before, after, suffix):
    """Returns the syntax errors of an edited file, given the file without the edit."""
    fault = fault_of_brackets(taken_apart(after, suffix)[2])
    if fault:
        return [fault]
    if suffix != ".rt":
        return []
    known = set(paragraphs(before, suffix))
    return [fault for part in paragraphs(after, suffix) if part not in known for fault in faults_of_paragraph(part)]
