#!/usr/bin/env python3
"""Compares wmod with node on the modules that this machine's compilers make.

    real.py [--features LIST] [--profile N] [--program PATH] [WORD..]
    real.py --make FOLDER [WORD..]    only writes the modules, and prints their paths

The programs are those of bench/defaults/ and bench/floats/. Each clang compiles those in C and C++, and each rustc with
a library for wasm32 those in Rust, in two ways:

    by default     no option about features, with -O0 and -O2; wmod gets --features compilers, or the options of this
                   script
    for 1.0        -mcpu=mvp, or -C target-cpu=mvp, with -O0, -O2 and -Os; wmod gets --profile 3

WORDs choose the modules whose names contain one of them, such as `mvp` or `clang-22 -O2`.

A module passes if node and `wmod check` accept it, node accepts the output of `wmod canon`, and `wmod build` makes the
same bytes from the output of `wmod show`. For a refused module the script prints the two lines of `wmod check`. It ends
with status 1 if a module fails or none passes, and prints the counts at the end. Two kinds of modules fail no test:

    not compiled   the compiler has an error, such as for hello.c and sorted.c without the C library (wasi-libc)
    left out       compiled for 1.0, but wasm-validate finds later features in it: a library that was compiled before
                   keeps its features. wasm-validate is in Debian's package wabt; without it no module is left out.

Debian's packages bring the compilers: clang-19 lld-19 libclang-rt-19-dev-wasm32, the same three for 22, wasi-libc, rustc
and libstd-rust-dev-wasm32. `rustup target add wasm32-unknown-unknown` or `wasm32v1-none` adds a target to another rustc.
The second target is 1.0 alone, and has no std. A compiler that is not installed has no line.

To compile a file of your own for 1.0:

    clang --target=wasm32 -mcpu=mvp -O2 -nostdlib -Wl,--no-entry -Wl,--export-all -o a.wasm a.c
    rustc --target wasm32v1-none --edition 2021 -O --crate-type cdylib -o a.wasm a.rs
    rustc --target wasm32-unknown-unknown -C target-cpu=mvp --edition 2021 -O --crate-type cdylib -o a.wasm a.rs

With `-c` clang writes an object file, which is no module to run. For wasm32v1-none, a.rs must begin with `#![no_std]`
and have a panic handler. In Debian's rustc 1.63 std is within 1.0; in later versions it may not be.
"""
import argparse
import pathlib
import re
import shutil
import subprocess
import sys
import tempfile

HERE = pathlib.Path(__file__).resolve().parent
PROGRAM = HERE.parent / "crates/wm_cli/out/wm_cli"
FOLDERS = ["defaults", "floats"]
FEATURES = "compilers"
OF_LIBRARY = {"hello.c", "sorted.c"}
FREE = ["--target=wasm32", "-nostdlib", "-Wl,--no-entry", "-Wl,--export-all", "-Wl,--allow-undefined"]
LIBRARY = ["--target=wasm32-wasi"]
RUST = ["--edition", "2021", "--crate-type", "cdylib"]
TARGETS = ["wasm32-unknown-unknown", "wasm32v1-none"]
LEVELS = {"": "02", "mvp": "02s"}
LATER = ["sign-extension", "saturating-float-to-int", "simd", "multi-value", "bulk-memory", "reference-types"]
FIRST = ["wasm-validate", *(f"--disable-{feature}" for feature in LATER)]
NODE = "process.exit(WebAssembly.validate(require('fs').readFileSync(process.argv[1])) ? 0 : 1)"


def run(words):
    return subprocess.run([str(word) for word in words], stdout=subprocess.PIPE, stderr=subprocess.PIPE, check=False)


def clangs():
    """Returns the names of the installed clangs and their options for a linker of wasm, the oldest first."""
    found = {}
    for folder in map(pathlib.Path, ("/usr/bin", "/usr/local/bin")):
        for it in folder.glob("clang-*"):
            number = re.fullmatch(r"clang-(\d+)", it.name)
            linker = number and shutil.which(f"wasm-ld-{number[1]}")
            if linker:
                found[int(number[1])] = it.name, [f"-fuse-ld={linker}"]
    if not found and shutil.which("clang") and shutil.which("wasm-ld"):
        return [("clang", [])]
    return [found[number] for number in sorted(found)]


def rustcs():
    """Yields the path, the name and the target of each rustc that has the library of a target."""
    for path in dict.fromkeys(filter(None, (shutil.which("rustc"), shutil.which("rustc", path="/usr/bin")))):
        root = pathlib.Path(run([path, "--print", "sysroot"]).stdout.decode().strip())
        name = " ".join(run([path, "--version"]).stdout.decode().split()[:2])
        yield from ((path, name, target) for target in TARGETS if (root / "lib/rustlib" / target / "lib").is_dir())


def programs(suffixes):
    """Returns the programs in the languages with these suffixes."""
    return sorted(it for folder in FOLDERS for it in (HERE / folder).iterdir() if it.suffix in suffixes)


def takes(target, way, source):
    """Whether a program in Rust is compiled for a target in this way."""
    return target == TARGETS[0] or (way and "#![no_std]" in source.read_text(encoding="utf8"))


def compilations():
    """Yields the name of each compilation, whether it is for 1.0, and its words without the output."""
    for way, levels in LEVELS.items():
        for clang, linker in clangs():
            for level in levels:
                options = [f"-mcpu={way}"] * bool(way) + [f"-O{level}"]
                for source in programs({".c", ".cpp"}):
                    target = LIBRARY if source.name in OF_LIBRARY else FREE
                    yield " ".join([clang, *options, source.name]), way, [clang, *target, *linker, *options, source]
        for rustc, name, target in rustcs():
            for level in levels:
                options = [f"-Ctarget-cpu={way}"] * bool(way) + [f"-Copt-level={level}"]
                named = [name, *[target] * (target != TARGETS[0]), *options]
                for source in (it for it in programs({".rs"}) if takes(target, way, it)):
                    yield " ".join([*named, source.name]), way, [rustc, "--target", target, *RUST, *options, source]


def compiled(folder, words):
    """Compiles what the WORDs choose. Yields the name, whether it is for 1.0, the path, and the first error."""
    for name, way, compilation in compilations():
        if words and not any(word in name for word in words):
            continue
        module = folder / (re.sub(r"[ =-]+", "_", name) + ".wasm")
        done = run([*compilation, "-o", module])
        errors = [line for line in done.stderr.decode(errors="replace").splitlines() if "error" in line]
        yield name, way, module, (errors or ["the compiler fails"])[0] if done.returncode else ""


def accepts(path):
    """Whether node accepts a module."""
    return run(["node", "-e", NODE, path]).returncode == 0


def is_later(path):
    """Whether wasm-validate is installed, and accepts a module only with later features."""
    words = [FIRST[:1], FIRST] if shutil.which(FIRST[0]) else []
    return [run([*it, path]).returncode for it in words] == [0, 1]


def fault(program, options, module):
    """Returns the first test that a module fails, or an empty text."""
    node = "accepts" if accepts(module) else "refuses"
    answer = run([program, "check", *options, module])
    if answer.returncode:
        detail = answer.stderr.decode(errors="replace").strip().partition(".wasm: ")[2]
        return f"{answer.stdout.decode().strip()}: {detail or answer.returncode}; node {node} it"
    if node == "refuses":
        return "node refuses it, and wmod accepts it"
    canonical, text = module.with_suffix(".canon"), module.with_suffix(".wat")
    for action, path in (("canon", canonical), ("show", text)):
        done = run([program, action, *options, module])
        path.write_bytes(done.stdout)
        if done.returncode:
            return f"{action} ends with {done.returncode}"
    if not accepts(canonical):
        return "node refuses its canonical binary"
    is_same = run([program, "build", *options, text]).stdout == canonical.read_bytes()
    return "" if is_same else "its text is not built into its canonical binary"


def compare(program, profile, features, words):
    """Compares the modules. Returns how many there are of each answer."""
    options = {"": ["--profile", profile, *(["--features", features] if features else [])], "mvp": ["--profile", "3"]}
    tally = {"equal": 0, "wrong": 0, "left out": 0, "not compiled": 0}
    with tempfile.TemporaryDirectory() as folder:
        for name, way, module, error in compiled(pathlib.Path(folder), words):
            wrong = "" if error else fault(program, options[way], module)
            if error:
                kind, line = "not compiled", f"not compiled: {error}"
            elif wrong and way and is_later(module):
                kind, line = "left out", "beyond 1.0, so left out"
            else:
                kind, line = ("wrong", wrong) if wrong else ("equal", "equal")
            tally[kind] += 1
            size = f"{module.stat().st_size} bytes: " if module.exists() else ""
            print(f"{name}: {size}{line}", flush=True)
            for path in pathlib.Path(folder).iterdir():
                path.unlink()
    return tally


def main():
    parser = argparse.ArgumentParser(usage=__doc__.split("\n\n")[1].strip(), add_help=False)
    parser.add_argument("--features", default=FEATURES)
    parser.add_argument("--profile", default="1")
    parser.add_argument("--program", default=str(PROGRAM))
    parser.add_argument("--make", type=pathlib.Path)
    parser.add_argument("words", nargs="*")
    asked = parser.parse_args()
    if asked.make:
        asked.make.mkdir(parents=True, exist_ok=True)
        for name, _, module, error in compiled(asked.make, asked.words):
            print(f"{name}: not compiled: {error}" if error else module, flush=True)
        return 0
    for missing in (it for it in ("node", asked.program) if not shutil.which(it)):
        sys.exit(f"real.py: {missing} is missing")
    tally = compare(asked.program, asked.profile, asked.features, asked.words)
    print(", ".join(f"{count} {word}" for word, count in tally.items()))
    return 1 if tally["wrong"] or not tally["equal"] else 0


if __name__ == "__main__":
    sys.exit(main())
