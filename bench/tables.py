#!/usr/bin/env python3
"""Checks or writes the two tables that follow from the names of instructions, and their number.

    bench/tables.py            names the tables that are wrong; status 1 if there are any
    bench/tables.py --write    writes the tables that are wrong; run `rt fmt` in the two crates after it

All follow from the rows of table.rt. `BY_NAME` of wm_syntax has the codes in the order of their names; a proof
also covers that order. `COUNT` is the number of names in this proof. `GUESSES` of wm_bodies has each code of one byte
at the index that `long_guess` gives its name; a wrong guess only costs time.
"""
import pathlib
import re
import sys

CRATES = pathlib.Path(__file__).resolve().parent.parent / "crates"
ROWS = CRATES / "wm_syntax/src/instructions/table.rt"
SORTED = CRATES / "wm_syntax/src/instructions/op_names.rt"
GUESSED = CRATES / "wm_bodies/src/op_keywords.rt"
# the proof of the search, which states the number of names
ORDER = CRATES / "wm_syntax/proofs/NameSearch.antt"
SEARCH = CRATES / "wm_syntax/proofs/instructions/op_names/op_named/Invariants.antt"
# the name that is guessed if two names have one index
PREFERRED = b"memory.size"


def names():
    """Returns the names of instructions, by code."""
    rows = re.findall(r'0x([0-9A-F]+) => b"([^"]+)",', ROWS.read_text(encoding="utf-8"))
    return {int(code, 16): name.encode() for code, name in rows}


def by_name(named):
    return sorted(named, key=named.get)


def weights(source):
    """Returns the weights of `long_guess` for the characters of a word, those for its length, and the table's size."""
    parts = re.findall(r"usize::from\(word\[([^]]+)\]\) \* (\d+)", source)
    size = int(re.search(r"static GUESSES: \[u8; (\d+)\]", source)[1])
    length = re.search(r"\(length % (\d+)\) \* (\d+)", source)
    return [(place.replace("length ", "").replace(" ", ""), int(by)) for place, by in parts], (int(length[1]), int(length[2])), size


def guesses(named, source):
    parts, (modulus, by), size = weights(source)
    table = [0] * size
    for code, name in sorted(named.items(), key=lambda it: it[1] == PREFERRED):
        if code < 0x100 and len(name) >= 5:
            total = sum(name[int(place)] * weight for place, weight in parts) + len(name) % modulus * by
            table[total % size] = code
    return table


def stated(source, name):
    return [int(it, 16) for it in re.findall(r"0x([0-9A-F]+)", re.search(rf"{name}: \[u(?:8|16); \d+\] = \[(.*?)\];", source, re.S)[1])]


def with_table(source, name, table):
    rows = ", ".join(f"0x{code:02X}" for code in table)
    return re.sub(rf"({name}: \[u(?:8|16); )\d+(\] = \[).*?\];", lambda it: f"{it[1]}{len(table)}{it[2]}{rows}];", source, flags=re.S)


def check_count(count, write):
    """Returns the wrong tables: `COUNT`, if the proof states another number of names. Writes the number there."""
    proved = re.search(r"length ordered ≡ (\d+)", ORDER.read_text(encoding="utf-8"))[1]
    if int(proved) == count:
        return []
    for path in (ORDER, SEARCH) if write else ():
        source = path.read_text(encoding="utf-8")
        path.write_text(re.sub(rf"\b{proved}\b", str(count), source), encoding="utf-8")
    return ["COUNT"]


def main():
    named = names()
    wrong = check_count(len(named), "--write" in sys.argv[1:])
    for path, name in ((SORTED, "BY_NAME"), (GUESSED, "GUESSES")):
        source = path.read_text(encoding="utf-8")
        table = by_name(named) if name == "BY_NAME" else guesses(named, source)
        if stated(source, name) != table:
            wrong.append(name)
            if "--write" in sys.argv[1:]:
                path.write_text(with_table(source, name, table), encoding="utf-8")
    print(f"tables of {len(named)} names: " + (f"wrong: {', '.join(wrong)}" if wrong else "ok"))
    return 1 if wrong and "--write" not in sys.argv[1:] else 0


if __name__ == "__main__":
    sys.exit(main())
