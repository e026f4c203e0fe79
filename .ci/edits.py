#!/usr/bin/env python3
"""Runs and checks must-fail edits (mutation tests). The prover has to refuse each edit.

    .ci/edits.py CRATE..           runs all edits of these crates
    .ci/edits.py CRATE/NAME..      runs these edits
    .ci/edits.py --names           runs none: checks that each edit can be made and that no crate has a name twice, and
                                   that the rows of docs/EDITS.md are the edits in the must-fail/ of each crate
    .ci/edits.py --judge           reads the output of `rt ci`: fails if a line says that an edit shows nothing, which
                                   `rt ci` passes

It ends with status 1 if an edit fails, and with the status of `rt must-fail` if that is not 0. An edit shows nothing
if the prover accepts it, or refuses it only by a limit, or only because a proof names something that it removes.

Each edit changes one meaning, and its file is named for the mistake. CI runs the edits of a crate's must-fail/. Those
of its edits/ are run only by this script: it puts them into must-fail/ in a copy of the tree, and calls
`rt must-fail` there.

An edit can be made if each old text is in its file exactly once, each new text differs from the old one, the edit
changes more than comments and layout, and parses.py finds no fault in the result.
"""
import pathlib
import re
import shutil
import subprocess
import sys
import tempfile

sys.dont_write_bytecode = True
import parses

TOP = pathlib.Path(__file__).resolve().parent.parent
PAGE = "docs/EDITS.md"
# the lines of `rt must-fail` and `rt ci` for an edit that shows nothing
IS_FAULT = re.compile(r"NOT REFUSED|NOT TRIED|BAD EDIT|only because a proof file names|only by a limit|^(rt: )?must-fail .*only because")


def edits_of(crate):
    """Returns the files of a crate's edits, by name. Ends the script if two edits have one name."""
    files = {}
    for file in [*sorted(crate.glob("must-fail/*.edit")), *sorted(crate.glob("edits/*.edit"))]:
        if file.stem in files:
            raise SystemExit(f"{crate.name}: two edits have the name {file.stem}")
        files[file.stem] = file
    return files


def pairs_of(file):
    """Returns the path, the old and the new text of each pair of an edit. A path also holds for the pairs after it."""
    path, old, pairs = "", "", []
    for line in file.read_text(encoding="utf-8").split("\n"):
        if line.startswith("file: "):
            path = line[6:].strip()
        elif line.startswith("old: "):
            old = line[5:]
        elif line.startswith("new:"):
            pairs.append((path, old, line[4:].removeprefix(" ")))
        elif line:
            raise SystemExit(f"{file}: `{line}` is no line of an edit")
    return pairs


def faults_of(crate, file):
    """Yields why an edit can't be made or changes nothing. Each pair applies to the result of the pairs before it."""
    pairs, stood, made = pairs_of(file), {}, {}
    if not pairs:
        yield "no pair"
    for path, old, new in pairs:
        if path not in made:
            made[path] = stood[path] = (crate / path).read_text(encoding="utf-8") if (crate / path).is_file() else ""
        if made[path].count(old) != 1:
            yield f"{old!r} stands {made[path].count(old)} times in {path}"
        if new == old:
            yield f"{old!r} is both the old text and the new one"
        made[path] = made[path].replace(old, new)
    suffixes = {path: pathlib.Path(path).suffix for path in made}
    if pairs and all(parses.is_same(stood[path], made[path], suffix) for path, suffix in suffixes.items()):
        yield "it changes nothing but comments and layout"
    for path, suffix in suffixes.items():
        yield from (f"{path} does not parse: {fault}" for fault in parses.faults_of(stood[path], made[path], suffix))


def faults_of_page(top, crate, names):
    """Yields a fault if the rows of the page are not the edits in the must-fail/ of a crate."""
    rows = dict(re.findall(r"(?ms)^## `(\w+)`$(.*?)(?=^## |\Z)", (top / PAGE).read_text(encoding="utf-8")))
    if sorted(names) != sorted(re.findall(r"(?m)^\| `(\w+)` \|", rows.get(crate, ""))):
        yield f"{crate}: other edits in must-fail/ than rows in {PAGE}"


def names_of(top):
    """Returns the number of edits, and the faults of those that can't be made or differ from the page."""
    faults, count = [], 0
    for crate in sorted((top / "crates").iterdir()):
        files = edits_of(crate)
        count += len(files)
        faults += [f"{crate.name}/{name}: {fault}" for name, file in files.items() for fault in faults_of(crate, file)]
        faults += faults_of_page(top, crate.name, [name for name, file in files.items() if file.parent.name == "must-fail"])
    return count, faults


def can_be_tried():
    """Whether all edits can be made, and those of must-fail/ are the rows of the page. Prints the faults."""
    count, faults = names_of(TOP)
    print(*faults, f"edits: {count}, faults: {len(faults)}", sep="\n")
    return not faults


def judged(lines):
    """Returns the lines that report an edit that shows nothing."""
    return [line.rstrip() for line in lines if IS_FAULT.search(line)]


def is_judged_well(lines):
    """Whether no line reports such an edit. Prints those that do."""
    faults = judged(lines)
    print(*(f"edits: an edit shows nothing: {line}" for line in faults), sep="\n", end="\n" if faults else "")
    return not faults


def asked(words):
    """Returns the files of the named edits, by crate. Ends the script if there is no such edit."""
    files = {}
    for word in words:
        crate, _, name = word.partition("/")
        found = [file for at, file in edits_of(TOP / "crates" / crate).items() if name in ("", at)]
        if not found:
            raise SystemExit(f"there is no edit {word}")
        files.setdefault(crate, set()).update(found)
    return files


def tried(files, room):
    """Runs `rt must-fail` on these edits in a copy of the tree. Returns its output and status."""
    shutil.copytree(TOP / "crates", f"{room}/crates", ignore=shutil.ignore_patterns("out"))
    for name in ("crates.txt", "HANDLES"):
        shutil.copy(TOP / name, room)
    for crate, edits in files.items():
        folder = f"{room}/crates/{crate}/must-fail"
        shutil.rmtree(folder, ignore_errors=True)
        pathlib.Path(folder).mkdir()
        for file in edits:
            shutil.copy(file, folder)
    ran = subprocess.Popen(["rt", "must-fail", *files], cwd=room, stdout=subprocess.PIPE, stderr=subprocess.STDOUT, text=True)
    said = []
    for line in ran.stdout:
        print(line, end="", flush=True)
        said.append(line)
    return said, ran.wait()


def main():
    if len(sys.argv) < 2:
        sys.exit(__doc__)
    if sys.argv[1:] == ["--names"]:
        return 0 if can_be_tried() else 1
    if sys.argv[1:] == ["--judge"]:
        return 0 if is_judged_well(sys.stdin) else 1
    files = asked(sys.argv[1:])
    with tempfile.TemporaryDirectory(prefix="edits-") as room:
        said, status = tried(files, room)
    faults = judged(said)
    count = sum(map(len, files.values()))
    print(f"{count} edits, {len(faults)} that show nothing", *(f"\n  {line}" for line in faults), sep="")
    return status or (1 if faults else 0)


if __name__ == "__main__":
    sys.exit(main())
