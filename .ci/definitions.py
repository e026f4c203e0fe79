#!/usr/bin/env python3
"""Compares docs/DEFINITIONS.md with the words that the public clauses and the laws reach.

    .ci/definitions.py [TOP]       TOP is the folder of a checkout; by default this one

It prints each fault, and ends with status 1 if there is one.

A public clause is a `requires` or an `ensures` of a `pub fn`, or of a function of a `pub trait`. A ghost member
counts as one, because clauses use its value. Invariants do not count, nor do the ghost members that the kit's traits
need (UNSAID). A law is a `pub fn` with an empty body. Crates of tests and of measurements do not count (OTHERS).

The imports of a file give the words that its clauses name. From there the script follows the definitions directly in
specs/, which a reader has to believe. It does not follow definitions of specs/inner/ or specs/exact/. The page must
have

- one row for each file directly in a specs/, below the rows of all such files that it imports;
- a row for each word of specs/inner/ that is reached, and for no other;
- a row for each word of specs/exact/ that is reached and is a fact or a type, so its name has a capital;
- a row for each word of specs/exact/ that a law names;
- a row without words for each file of specs/exact/ that has other words that are reached. They are functions, and a
  clause says that the code returns their value;
- a row for each law, with its crate.

In the first three tables and in the table of the standard's sections, a name in backquotes is a word of the files of
its row. Anywhere else on the page it is a name of the code or of a definition.
"""
import collections
import pathlib
import re
import sys

sys.dont_write_bytecode = True
import uses

TOP = pathlib.Path(__file__).resolve().parent.parent
PAGE = "docs/DEFINITIONS.md"
OTHERS = {"wm_base_tests", "wm_tests", "wm_rows", "wm_bench"}
UNSAID = {"invariant", "coded", "eq", "laws"}

READ = "What to read, in this order"
INNER = "Words of which the contracts say enough"
EXACT = "Exact answers"
SECTIONS = "From the standard's sections"
LAWS = "The laws that tie them together"

GHOST_USE = re.compile(r"^\s*ghost use ([^;]*);", re.M)
COMMENT = re.compile(r"(?:^|(?<=\s))//.*$", re.M)
# the first line of a definition, or of one of its fields or constructors
HEAD = re.compile(r"(?:abbrev |unfoldable )?(?:pub )?(?:(record|data) ([^\s:]+)|([^\s:(){}]+) :(?: |$))")
BLOCK = re.compile(r"(?:abbrev )?mutual$|module _ .*where$")
FUNCTION = re.compile(r"^ *(pub(?:\([^)]*\))? )?(?:const |unsafe )*(?:extern \"C\" )?fn (\w+)", re.M)
CLAUSE = re.compile(r"\b(?:requires|ensures)\*?(?: \w+)? \{")
GHOST = re.compile(r"^ *(?:pub(?:\([^)]*\))? )?ghost (\w+)(?: =|:) \{", re.M)
TABLE = re.compile(r"^\|.*\|\n\|[-|]+\|\n((?:\|.*\|\n)+)", re.M)
FILE = re.compile(r"(?:(\w+): )?(\w+)\.antt")

# a file of specs/: its crate; "believed", "inner" or "exact"; the text of each word; the names of its fields; the paths
# of its imports
Module = collections.namedtuple("Module", "crate kind words fields imports")
# the files of specs/; the words that public clauses name, each with the laws that name it; all words that are reached;
# the laws; all names of the code and the definitions; and the imports that lead nowhere
Project = collections.namedtuple("Project", "modules said reached laws names wrong")


def core(word):
    """Returns an operator without the marks of its arguments, and any other word unchanged."""
    return next(filter(None, word.split("◌")), word)


def read(path):
    """Returns a file without comments, and the paths that its imports give to each name."""
    text = path.read_text(encoding="utf8")
    if path.suffix == ".antt":
        leaves, text = uses.read(text)
    else:
        text = COMMENT.sub("", text)
        leaves = [leaf for line in GHOST_USE.findall(text) for leaf in uses.Tree(line, 0).leaves]
    imports = {}
    for name, whole in leaves:
        imports.setdefault(core(name), set()).add(whole.removeprefix("Rattle."))
    return text, imports


def words_of(text):
    """Returns the words that a file defines, each with its text, and the names of its fields."""
    words, fields, depth, now, kind = {}, set(), 0, None, None
    for line in text.splitlines():
        indent = len(line) - len(line.lstrip())
        if line and indent == 0:
            depth = 2 if BLOCK.match(line) else 0
        head = HEAD.match(line.lstrip())
        if head and indent == depth:
            kind, now = head[1], core(head[2] or head[3])
        elif head and indent == depth + 2 and kind == "record":
            fields.add(head[3])
        elif head and indent == depth + 2 and kind == "data":
            words[core(head[3])] = line
        if now:
            words[now] = words.get(now, "") + line + "\n"
    return words, fields


def modules_of(top):
    """Returns the files of specs/ that define words, by the paths that imports use for them."""
    modules = {}
    for path in sorted(top.glob("crates/*/specs/**/*.antt")):
        crate, _, *folders = path.relative_to(top / "crates").with_suffix("").parts
        text, imports = read(path)
        words, fields = words_of(text)
        if words:
            kind = folders[0] if len(folders) > 1 else "believed"
            modules[".".join([crate, "specs", *folders])] = Module(crate, kind, words, fields, imports)
    return modules


def split(path, modules):
    """Returns the module of a path and the word after it, each "" if there is none."""
    names = path.rstrip(".").split(".")
    for count in range(len(names), 2, -1):
        if ".".join(names[:count]) in modules:
            return ".".join(names[:count]), core("".join(names[count : count + 1]))
    return "", ""


def word_at(path, modules):
    """Yields the module that defines the word of a path, and the word, following re-exports."""
    name, word = split(path, modules)
    if name and word in modules[name].words:
        yield name, word
    elif name and word:
        for passed in modules[name].imports.get(word, ()):
            yield from word_at(passed, modules)


def named(text, imports, modules, home=""):
    """Yields the words that a text names, each with its module."""
    for token in set(re.split(r"[\s(){}\[\],;]+", text)):
        first, _, rest = token.partition(".")
        for path in {rest} if first == "Rattle" else imports.get(first, {f"{home}.{first}"}):
            yield from word_at(path if first == "Rattle" else f"{path}.{rest}", modules)


def braced(text, start):
    """Returns the text between a brace and the one that closes it."""
    depth = 0
    for found in re.compile(r"[{}]").finditer(text, start):
        depth += 1 if found[0] == "{" else -1
        if depth == 0:
            return text[start + 1 : found.start()]
    raise SystemExit(f"no brace closes {text[start : start + 40]!r}")


def clauses_of(text):
    """Yields the public clauses of a file of code, each with the name of its function if that is a law."""
    traits = [range(it.start(), text.index("\n}", it.end())) for it in re.finditer(r"^pub trait ", text, re.M)]
    starts = [*FUNCTION.finditer(text)]
    for function, end in zip(starts, [it.start() for it in starts[1:]] + [len(text)]):
        if function[1] == "pub " or any(function.start() in trait for trait in traits):
            is_law = re.search(r"^\{\}$", text[function.end() : end], re.M)
            for clause in CLAUSE.finditer(text, function.end(), end):
                yield is_law and function[2], braced(text, clause.end() - 1)
    for member in GHOST.finditer(text):
        if member[1] not in UNSAID:
            yield None, braced(text, member.end() - 1)


def reached(modules, said):
    """Returns the words that clauses name, and those that they reach through definitions directly in specs/."""
    found, left = set(said), list(said)
    while left:
        name, word = left.pop()
        module = modules[name]
        if module.kind == "believed":
            more = set(named(module.words[word], module.imports, modules, name)) - found
            found |= more
            left += more
    return found


def lost(imports, modules):
    """Yields the imports that lead to no file or word of specs/, except those of modules that the kit generates."""
    crates = {module.crate for module in modules.values()}
    for path in sorted(set().union(*imports.values())):
        own = re.match(r"(\w+)\.specs\b(?!\.(?:declared|contracts)\b)", path)
        if own and own[1] in crates and split(path, modules)[0] != path and not [*word_at(path, modules)]:
            yield path


def project_of(top):
    """Returns the facts that the page is compared with (Project)."""
    modules, said, laws, names, wrong = modules_of(top), {}, set(), set(), []
    for path in sorted([*top.glob("crates/*/src/**/*.rt"), *top.glob("crates/*/specs/**/*.antt")]):
        crate, *folders = path.relative_to(top / "crates").parts
        if crate not in OTHERS and "tests" not in folders:
            text, imports = read(path)
            names |= {crate, *re.findall(r"\w+", text)}
            wrong += [f"{path.relative_to(top)} imports {it}, which is no word of a definition" for it in lost(imports, modules)]
            for law, clause in clauses_of(text) if path.suffix == ".rt" else ():
                laws |= {(crate, law)} if law else set()
                for word in named(clause, imports, modules):
                    said.setdefault(word, set()).update({law} - {None})
    return Project(modules, said, reached(modules, said), laws, names, wrong)


def section(page, title):
    """Returns the text under a heading of the page."""
    found = re.search(rf"^## {re.escape(title)}\n(.*?)(?=^## |\Z)", page, re.M | re.S)
    return found[1] if found else ""


def rows(page, title):
    """Yields the rows of the tables under a heading, each as a list of cells."""
    for table in TABLE.findall(section(page, title)):
        yield from (row.strip("| ").split(" | ") for row in table.splitlines())


def quoted(cell):
    """Returns the texts in backquotes."""
    return re.findall(r"`([^`]+)`", cell)


def words_in(cell):
    """Returns the words that a cell names: the first word of each text in backquotes, without its arguments."""
    return [core(it.split()[0]) for it in quoted(cell)]


def files_in(cell, folder=""):
    """Yields the files that a cell names, as modules. A crate also holds for the files after it."""
    crate = ""
    for found in filter(None, map(FILE.fullmatch, quoted(cell))):
        crate = found[1] or crate
        yield f"{crate}.specs.{folder}{found[2]}"


def wrong_rows(project, page, title, folder=""):
    """Yields rows without a file, files that don't exist, and words in first cells that no file of the row has."""
    for first, second, *_ in rows(page, title):
        files = [*files_in(second, folder)]
        if not files:
            yield f"no file is in the row of {first}"
        yield from (f"{it} is no file of definitions" for it in files if it not in project.modules)
        known = [project.modules[it] for it in files if it in project.modules]
        for word in words_in(first):
            if not any(word in module.words or word in module.fields for module in known):
                yield f"`{word}` is no word of {' or '.join(files)}"


def wrong_order(project, page):
    """Yields files directly in specs/ that have not just one row, or whose row is above that of a file they import."""
    place, count = {}, collections.Counter()
    for at, (_, second, *_) in enumerate(rows(page, READ)):
        for file in files_in(second):
            place[file] = at
            count[file] += 1
    for file, module in project.modules.items():
        if module.kind == "believed":
            if count[file] != 1:
                yield f"{count[file]} rows have {file}"
            used = {split(path, project.modules)[0] for paths in module.imports.values() for path in paths}
            yield from (f"{file} comes before {it}, which it uses" for it in sorted(used & {*place}) if place.get(file, -1) < place[it])


def wrong_words(project, page, title, kind):
    """Yields words of specs/KIND/ that are reached and have no row, and rows of words that are not reached."""
    wanted = {it for it in project.reached if project.modules[it[0]].kind == kind}
    by_name = {it for it in wanted if kind == "inner" or it[1][0].isupper() or project.said.get(it)}
    named_there, whole = set(), set()
    for first, second, *_ in rows(page, title):
        for file in files_in(second, f"{kind}."):
            named_there |= {(file, it) for it in words_in(first) if file in project.modules and it in project.modules[file].words}
            whole |= set() if words_in(first) else {file}
    left = {file for file, _ in wanted - by_name - named_there}
    yield from (f"no row has `{word}` of {file}" for file, word in sorted(by_name - named_there))
    yield from (f"no public clause reaches `{word}` of {file}" for file, word in sorted(named_there - wanted))
    yield from (f"no row without words has {file}" for file in sorted(left - whole))
    yield from (f"all words of {file} that are reached have rows, and it has one without words" for file in sorted(whole - left))


def wrong_sections(project, page):
    """Yields names in the table of the standard's sections that are no file, or no word of the file before them."""
    for _, second, *_ in rows(page, SECTIONS):
        files, file = files_in(second), ""
        for quote in quoted(second):
            if FILE.fullmatch(quote):
                file = next(files)
                if file not in project.modules:
                    yield f"{file} is no file of definitions"
            elif not file:
                yield f"`{quote}` stands behind no file"
            elif file in project.modules:
                module = project.modules[file]
                yield from (f"`{it}` is no word of {file}" for it in quote.split(".") if it not in {*module.words, *module.fields})


def wrong_laws(project, page):
    """Yields laws that have no row with their crate, and rows of names that are no law."""
    there = {(crate, law) for first, second, *_ in rows(page, LAWS) for crate in quoted(first) for law in quoted(second)}
    yield from (f"no row has `{law}` of {crate}" for crate, law in sorted(project.laws - there))
    yield from (f"`{law}` is no law of {crate}" for crate, law in sorted(there - project.laws))


def wrong_names(project, page):
    """Yields names on the page that neither the code nor a definition has, and files that don't exist."""
    stems = {name.rpartition(".")[2] for name in project.modules}
    for quote in sorted(set(quoted(page))):
        file, word = FILE.fullmatch(quote), quote.split()[0]
        if file and file[2] not in stems or re.fullmatch(r"[A-Za-z_]\w*", word) and word not in project.names:
            yield f"`{quote}` is nothing that the code or a definition has"


def faults_of(top, project=None):
    """Yields the faults of the page of a tree, compared with that tree or with a given project."""
    project, page = project or project_of(top), (top / PAGE).read_text(encoding="utf8")
    for title, faults in (
        (READ, [*wrong_rows(project, page, READ), *wrong_order(project, page)]),
        (INNER, [*wrong_rows(project, page, INNER, "inner."), *wrong_words(project, page, INNER, "inner")]),
        (EXACT, [*wrong_rows(project, page, EXACT, "exact."), *wrong_words(project, page, EXACT, "exact")]),
        (SECTIONS, wrong_sections(project, page)),
        (LAWS, wrong_laws(project, page)),
        (PAGE, wrong_names(project, page)),
        ("imports", project.wrong),
    ):
        yield from (f"{title}: {fault}" for fault in faults)


def main(words):
    faults = [*faults_of(pathlib.Path(words[0]) if words else TOP)]
    for fault in faults:
        print(f"definitions: {fault}", file=sys.stderr)
    return 1 if faults else 0


if __name__ == "__main__":
    sys.exit(main(sys.argv[1:]))
