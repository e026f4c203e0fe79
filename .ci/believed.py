#!/usr/bin/env python3
"""Checks that no definition depends on an exact answer, and that KEPT names every field of retained state.

    .ci/believed.py

It prints each fault, and ends with status 1 if there is one.

A reader has to believe the files directly in a crate's specs/. They may import one another, the types of the
sources, and words of specs/inner/. They may reach nothing of specs/exact/, which follows the code: not by an import,
not by a path in a definition, and not by a word of specs/inner/ whose definition reaches it. OPAQUE lists the
exceptions among the words of specs/inner/. The model of a type is in the sources, and is not followed.

A definition for each type (`kept` and the like) counts its retained state, over the lists that the type holds. KEPT
names each field of these types. A field marked `*` is counted: it is a list or holds one. Any other field has a
`Copy` type, so it holds no list. A new, removed or retyped field must be changed in KEPT, and counted in its
definition. KEPT also has a row for each struct that is the type of a counted field, or of an entry of such a list,
unless the struct is `Copy`.
"""
import functools
import pathlib
import re
import sys

sys.dont_write_bytecode = True
import uses

TOP = pathlib.Path(__file__).resolve().parent.parent

# The words of specs/inner/ that reach exact answers and that definitions may still name. Each has the reason why a
# reader need not look into it, and the files that name it.
OPAQUE = {
    # These files only set `verdict` equal to an answer, so equal bytes have equal answers. Accepted, SummaryOf and
    # Meaning, beside it, give the meaning of an answer.
    "wm_rules.specs.inner.Validators.verdict": [
        "wm_c/specs/Answers.antt",
        "wm_c/specs/Conversions.antt",
        "wm_command/specs/Building.antt",
        "wm_command/specs/Outcome.antt",
        "wm_rules/specs/Reading.antt",
        "wm_rules/specs/Validating.antt",
    ],
    # It relates a validator to the bytes that it has read. Clauses of `new` and `feed` say when it holds, and those of
    # `finish` what follows from it.
    "wm_rules.specs.inner.Validators.HasRead": ["wm_c/specs/Sessions.antt"],
    # It gives the place of the byte after some bytes. What its section and its item mean is proved, by the laws
    # `places_are_in_their_sections` and `items_are_members` of wm_decode. The profile and the bytes alone determine the
    # part of the format in it, and the meaning of the part is tested.
    "wm_decode.specs.inner.Places.place_after": ["wm_c/specs/Places.antt"],
    # It relates the state of a checker to the bytes, which alone determine it. The bounds beside it (at_most, heights,
    # moves) are functions of the bytes alone.
    "wm_rules.specs.inner.Validators.TellsChecker": ["wm_rules/specs/Validating.antt"],
}

KEPT = """
wm_syntax Module: *types: Vec<FuncType>, *imports: Vec<Import>, *functions: Vec<Function>, *tables: Vec<Limits>, *memories: Vec<Limits>, *globals: Vec<GlobalDef>, *exports: Vec<Export>, start: Option<u32>, *elements: Vec<Element>, *segments: Vec<Segment>
wm_syntax FuncType: *params: Vec<ValType>, *results: Vec<ValType>
wm_syntax Import: *module_name: String, *item_name: String, desc: ImportDesc
wm_syntax Function: type_index: u32, *locals: Locals, *body: Body
wm_syntax GlobalDef: ty: GlobalType, init: Const
wm_syntax Export: *name: String, kind: ExportKind, index: u32
wm_syntax Element: mode: SegmentMode, *functions: Vec<u32>
wm_syntax Segment: mode: SegmentMode, *bytes: Vec<u8>
wm_syntax Locals: *runs: Vec<Run>
wm_syntax SizedOps: *ops: Vec<Op>, len: u64, names_segment: bool
wm_syntax Body: *ops: SizedOps
wm_syntax BodyBuilder: *ops: SizedOps, *begun: Vec<Opened>, left: u64
wm_stacks Packed: *words: SmallVec<u64, 2>, current: u64, height: usize, full: usize, floor: usize, low: usize
wm_stacks Widths: first: u64, *rest: Vec<u64>
wm_stacks Operands: *packed: Packed, *widths: Widths
wm_stacks Stacks: *operands: Operands, *frames: SmallVec<Frame, 32>, depth: usize, unreachable: bool, moves: u64
wm_stacks RunTable: *locals: Locals
wm_typing FuncTypes: *params: Vec<ValType>, *entries: Vec<TypeEntry>
wm_typing TypeEntry: start: usize, count: usize, result: Option<ValType>
wm_typing DeclaredLocals: *table: RunTable, known: KnownLocals, probes: u64
wm_typing BodyChecker: function: Function, *declared: DeclaredLocals, *stacks: Stacks, table: Option<BrTable>, most: Most, refused: Option<Why>, apart: bool
wm_decode Decoder: *sink: S, machine: Machine, *name: Vec<u8>, at: u64, max_bytes: u64, profile: Profile
wm_rules Spaces: *types: FuncTypes, *functions: Vec<u32>, *globals: Vec<GlobalType>, imported_functions: usize, imported_globals: usize, bodies: usize, table: bool, memory: bool, elements: u32, segments: u32
wm_rules ExportNames: alloc: Global, *names: BTreeSet<HashedName>, kept: u64
wm_rules HashedName: hash: u64, *name: Vec<u8>
wm_rules Rules: *spaces: Spaces, *names: ExportNames, constant: Option<Constant>, *body: BodyChecker, in_body: bool, most: BodyStats
wm_rules Checker: *rules: Rules, counts: Option<Counts>
wm_rules Builder: alloc: Global, *module_value: Module, *indices: Vec<u32>, *module_name: String, *item_name: String, *exported: String, constant: Option<Pending>, *locals: Option<Locals>, *body: BodyBuilder
wm_rules Both: *first: A, *second: B
wm_rules Validator: *state: Result<Decoder<Checker>, Refusal>, imported: Imported
wm_rules Loader: *state: Result<Decoder<Both<Checker, Builder>>, Refusal>, imported: Imported
"""

# A line of a struct that has a field, in rustfmt's layout, and a line that has none.
VISIBLE = r"(?:pub(?:\([^)]*\))? )?"
FIELD = re.compile(rf"    {VISIBLE}(\w+): (.+),")
NO_FIELD = re.compile(r"\s*|    //.*|    #\[.*\]|    ghost .*")
STRUCT = re.compile(rf"^{VISIBLE}struct (\w+)(?:<([^>]*)>)?[^{{;]*{{\n(.*?)^}}", re.M | re.S)
NAMED = re.compile(rf"^{VISIBLE}(?:struct|enum|type) (\w+)", re.M)
COPIED = re.compile(rf"#\[derive\([^)]*\bCopy\b[^)]*\)\]\n(?:#\[.*\]\n)*{VISIBLE}(?:struct|enum) (\w+)")
PLAIN = {"bool", "u8", "u32", "u64", "usize", "i32", "i64", "Option", "Global"}
# The kit's types that hold only values of their type arguments.
HOLDERS = {"Vec", "SmallVec", "BTreeSet", "String", "Result"}

# The separators between words of an .antt file, and the keywords that may precede a declared name.
BREAK = re.compile(r"[\s(){}\[\],;]+")
MARKS = {"pattern", "unfoldable", "abbrev", "axiom", "pub", "data", "record", "ruleset", "mutual"}


def declarations(text):
    """Returns the text of each declaration of an .antt file, by its name."""
    found, name = {}, ""
    for line in text.splitlines(keepends=True):
        words = line.split()
        if words and not line[0].isspace():
            bare = [word for word in words if word not in MARKS]
            is_signature = len(bare) < len(words) or bare[1:2] == [":"]
            if bare and (is_signature or bare[0] in found):
                name = bare[0]
        found[name] = found.get(name, "") + line
    return found


class Specs:
    """The files of specs/ of all crates. Finds the exact answers that a path reaches."""

    def __init__(self, top):
        self.top = top
        self.crates = {folder.name for folder in (top / "crates").iterdir()}

    @functools.cache
    def read(self, file):
        """Returns the names that a file's `use` lines import, each with its path, and its declarations."""
        leaves, text = uses.read(file.read_text(encoding="utf8"))
        return leaves, declarations(text)

    def split(self, path):
        """Returns the file of the longest module that is a prefix of a path, and the remaining names.

        The file is None for a path of the kit or of a source.
        """
        head, *names = path.split(".")
        if head != "Rattle" or not names or names[0] not in self.crates:
            return None, []
        at, file, rest = self.top / "crates" / names[0], None, names[1:]
        for count, name in enumerate(names[1:], 1):
            at = at / name
            below = at.with_name(f"{name}.antt")
            if below.is_file():
                file, rest = below, names[count + 1 :]
        return file, rest

    def named(self, file, text):
        """Yields the paths that a part of this file names."""
        leaves, _ = self.read(file)
        for word in set(BREAK.split(text)):
            head, _, rest = word.removeprefix("package.").partition(".")
            if head == "Rattle":
                yield word.removeprefix("package.")
            for name, path in leaves:
                # An operator is infix, so it is not searched: each import of one counts as named.
                if name == head or "◌" in name:
                    yield f"{path}.{rest}".rstrip(".") if name == head else path

    def exact_of(self, path, seen):
        """Returns an exact answer that a path reaches, or "" if it reaches none."""
        if is_exact(path):
            return path
        file, names = self.split(path)
        if file is None or not names or (file, names[0]) in seen:
            return ""
        seen.add((file, names[0]))
        leaves, _ = self.read(file)
        passed = [".".join([it, *names[1:]]) for name, it in leaves if name == names[0]]
        # A file directly in specs/ is checked on its own.
        if not passed and file.parent.name != "inner":
            return ""
        for it in passed or self.named_by(file, names[0]):
            exact = self.exact_of(it, seen)
            if exact:
                return exact
        return ""

    def named_by(self, file, name):
        """Returns the paths that a declaration of an inner file names.

        A name without a declaration of its own, such as a field, gets the paths of all declarations.
        """
        _, declared = self.read(file)
        text = declared.get(name) or "".join(declared.values())
        module = ".".join(["Rattle", *file.relative_to(self.top / "crates").with_suffix("").parts])
        own = {word.partition(".")[0] for word in BREAK.split(text)} & set(declared)
        return sorted([*self.named(file, text), *(f"{module}.{it}" for it in own - {name})])


def is_exact(path):
    return path.split(".")[2:4] == ["specs", "exact"]


def definitions(top):
    """Returns the files that a reader has to believe, and files that only list others, such as inner.antt."""
    return [file for file in sorted(top.glob("crates/*/specs/*.antt")) if file.name != "exact.antt"]


def fault_of(specs, place, path):
    """Returns why the definitions of a file may not name this path, or "" if they may."""
    names = path.split(".")
    if names[0] != "Rattle" or names[1:] and names[1] not in specs.crates:
        return ""
    if is_exact(path):
        return "names an exact answer"
    if not names[3:] or "*" in names:
        return "names a whole folder, and exact answers with it"
    if names[2] != "specs":
        return "names what is no definition"
    if names[3] != "declared" and specs.split(path)[0] is None:
        return "names no file of specs/"
    exact = specs.exact_of(path, set())
    if exact and place not in OPAQUE.get(".".join(names[1:]), []):
        return f"names a word that names the exact answer {exact}"
    return ""


def unbelieved(top):
    """Yields the definitions that reach an exact answer or can't be followed, and useless entries of OPAQUE."""
    specs, used = Specs(top), {}
    for file in definitions(top):
        place = file.relative_to(top / "crates").as_posix()
        leaves, declared = specs.read(file)
        used[place] = {path for _, path in leaves} | {path for text in declared.values() for path in specs.named(file, text)}
        if "{-" in file.read_text(encoding="utf8"):
            yield f"{place}: has a comment in braces, which this script does not read"
        for path in sorted(used[place]):
            fault = fault_of(specs, place, path)
            if fault:
                yield f"{place}: a definition {fault}: {path}"
    for word, places in OPAQUE.items():
        is_exact_reached = specs.exact_of(f"Rattle.{word}", set())
        for place in places:
            if not is_exact_reached or f"Rattle.{word}" not in used.get(place, ()):
                yield f"{place}: OPAQUE lets it name {word}, which it does not, or which names no exact answer"
    for file in sorted(top.glob("crates/*/specs/*/**/*.antt")):
        if file.relative_to(top).parts[3] not in ("exact", "inner"):
            yield f"{file.relative_to(top)}: lies in a folder of specs/ other than exact/ and inner/"


class Sources:
    """The types of all crates, by crate and file of src/."""

    def __init__(self, top):
        self.files = {crate.name: list(self.read(crate)) for crate in sorted((top / "crates").iterdir())}

    @staticmethod
    def read(crate):
        """Yields the text, the imports and the defined types of each file."""
        for path in sorted(crate.glob("src/**/*.rt")):
            text = path.read_text(encoding="utf8")
            yield text, uses.read_source(text), NAMED.findall(text)

    def structs(self, crate, name):
        """Yields the file, the type parameters and the body of each struct of this name."""
        for file in self.files[crate]:
            yield from ((file, found[2] or "", found[3]) for found in STRUCT.finditer(file[0]) if found[1] == name)

    def is_copied(self, crate, name):
        """Whether the crate has types of this name and all of them are `Copy`."""
        count = sum(named.count(name) for _, _, named in self.files[crate])
        return 0 < count == sum(COPIED.findall(text).count(name) for text, _, _ in self.files[crate])

    def home(self, crate, file, word):
        """Returns the crate and the name of the type that a word of a file names, or None for a type of the kit."""
        _, leaves, named = file
        if word in named:
            return crate, word
        for name, path in leaves:
            head, last = path.split(".")[0], path.split(".")[-1]
            at = crate if head in ("crate", "self", "super") else head
            if name == word and at in self.files:
                return self.passed_on(at, last)
        return None

    def passed_on(self, crate, name):
        """Returns the crate and name of a type that a crate exports, following `pub use` lines."""
        for _, leaves, named in self.files[crate]:
            for other, path in [] if name in named else leaves:
                head = path.split(".")[0]
                if other == name and head in self.files and head != crate:
                    return self.passed_on(head, path.split(".")[-1])
        return crate, name


def fields_of(body):
    """Yields each field of a struct with its type. Any other line is yielded whole, with the type ""."""
    for line in body.splitlines():
        field = FIELD.fullmatch(line)
        if field:
            yield field.groups()
        elif not NO_FIELD.fullmatch(line):
            yield line, ""


def fault_of_type(sources, rows, crate, struct, field):
    """Yields the faults of a field. A type that is not `Copy` must be counted, and have a row or be the kit's."""
    file, parameters, name, kind, is_counted = field
    for word in sorted(set(re.findall(r"\w+", kind)) - PLAIN):
        home = sources.home(crate, file, word)
        if word.isdigit() or home and sources.is_copied(*home):
            continue
        if not is_counted:
            yield f"{crate}: {struct}: {name} is not counted, and {kind} is not copied"
        elif home and home not in rows:
            yield f"{crate}: {struct}: {name} holds a {word}, of which {home[0]} {home[1]} has no row in .ci/believed.py"
        elif not home and word not in HOLDERS and word not in re.findall(r"\w+", parameters):
            yield f"{crate}: {struct}: {name} holds a {word}, a type that .ci/believed.py does not know"


def uncounted(top, kept=KEPT):
    """Yields the structs whose fields differ from KEPT, and the faults of their fields."""
    sources = Sources(top)
    rows = {tuple(head.split()): named for head, _, named in (row.partition(": ") for row in kept.strip().splitlines())}
    for (crate, struct), named in rows.items():
        found = list(sources.structs(crate, struct))
        if len(found) != 1:
            yield f"{crate}: {len(found)} structs {struct}, where .ci/believed.py names one"
            continue
        [(file, parameters, body)] = found
        fields = list(fields_of(body))
        if ", ".join(f"{field}: {kind}" for field, kind in fields) != named.replace("*", ""):
            yield f"{crate}: {struct} has other fields than .ci/believed.py names: {fields}"
        for name, kind in fields:
            field = file, parameters, name, kind, f"*{name}: " in named
            yield from fault_of_type(sources, rows, crate, struct, field)


def faults_of(top):
    return [*unbelieved(top), *uncounted(top)]


def main():
    faults = faults_of(TOP)
    print("\n".join(faults), end="\n" if faults else "")
    return 1 if faults else 0


if __name__ == "__main__":
    sys.exit(main())
