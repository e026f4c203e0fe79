"""Installs wmod into a temporary folder, and tests the installed files.

    .ci/packages.py ARCHIVE PROGRAM       the built libwm_c.a and wmod

It ends with status 1 at the first test that fails. It tests the links of the pages, the exported names of the
libraries, the samples in each language and linked in each way, the manual page and its example for a folder, the
completions, the crate for cargo, and that `uninstall` leaves nothing. If a tool is missing, the output says so and
the tests that need it are skipped. Without the tools of needs.py nothing is tested, which is a failure in CI.
"""
import os
import pathlib
import re
import shutil
import subprocess
import sys
import tempfile

sys.dont_write_bytecode = True
import c_calls
import needs
import refusals

TOP = pathlib.Path(__file__).resolve().parent.parent
# the files that are installed beside the pages, by their folder there
BESIDE = {"examples": TOP / "examples", "samples": TOP / "crates/wm_c/samples"}
PREFIX = "/opt/x"
STRICT = ["-pedantic", "-Wall", "-Wextra", "-Werror", "-pthread"]
LANGUAGES = {"C89": ["cc", "-std=c89"], "C++98": ["c++", "-x", "c++", "-std=c++98", "-Wno-long-long"]}
# the policy that each sample sets, as options of the program
POLICIES = {"upload": "--limit 1000000 --max-functions 10000 --max-locals 1000 --max-open 500", "threads": "", "check": ""}
# the sample that explains a refusal, under the policy of `wmod check`
EXPLAINS = "explain"
MODULES = 40
# where Debian's rustc and cargo are
DEBIAN = pathlib.Path("/usr/bin")
# the completions that bash must offer for the last of these words, and no others
COMPLETED = {
    ("",): "check stats canon show build explain",
    ("c",): "check canon",
    ("check", "--l"): "--limit",
    ("build", "--o"): "--old-words --output",
    ("canon", "--o"): "--output",
    ("check", "--o"): "",
    ("check", "--f"): "--features --from",
    ("stats", "--n"): "--null",
    ("show", "--n"): "",
    ("check", "--from", ""): "",
    ("canon", "-o", ""): "",
    ("check", "--profile", ""): "1 2 3 4",
    ("check", "--profile", "=", ""): "1 2 3 4",
    ("check", "--features", ""): "sign-ext call-indirect-overlong nontrapping-fptoint bulk-memory-opt bulk-memory compilers help",
    ("check", "--features", "=", "s"): "sign-ext",
    ("check", "--features", "sign-ext,"): "",
    ("build", "--f"): "--features",
    ("check", "--limit", ""): "",
    ("explain", "Sta"): "StartType",
    ("--profile", "3", "explain", "F"): "Float",
    ("check", "Sta"): "",
    ("check", ""): "",
}


class Fault(Exception):
    """A test that failed, and why."""


def run(*words, given=b"", wanted=0, seconds=120, **how):
    """Returns the output of a command, or its status and output if `wanted` is None. Another status raises `Fault`."""
    words = [str(it) for it in words]
    ran = subprocess.run(words, input=given, stdout=subprocess.PIPE, stderr=subprocess.PIPE, timeout=seconds, check=False, **how)
    said = ran.stdout.decode(errors="replace")
    if wanted is None:
        return ran.returncode, said
    if ran.returncode != wanted:
        raise Fault(f"{' '.join(words)[:300]}: {ran.returncode}: {(said + ran.stderr.decode(errors='replace'))[-900:]}")
    return said


def same(what, found, wanted):
    if found != wanted:
        raise Fault(f"{what}: {found!r}, wanted {wanted!r}"[:900])


class Package:
    """An installation in a temporary folder."""

    def __init__(self, room, archive, program):
        self.room = pathlib.Path(room)
        self.to = self.room / f"dest{PREFIX}"
        self.pages = self.to / "share/doc/wmod"
        self.words = [sys.executable, "-B", TOP / "packaging/package.py", archive, program]
        self.program = program
        self.said = []

    def call(self, *words):
        return run(*self.words, *words, env={**os.environ, "DESTDIR": str(self.room / "dest")})

    def with_program(self):
        """The environment with the installed program on the path."""
        return {**os.environ, "PATH": f"{self.to / 'bin'}:{os.environ['PATH']}"}

    def has(self, tool, *trial):
        """Whether the machine has a tool that runs with these arguments. If not, the last line of output says so."""
        is_there = shutil.which(tool) and (not trial or run(tool, *trial, wanted=None)[0] == 0)
        if not is_there:
            self.said.append(f"no {tool}")
        return is_there

    def flags(self, *words):
        """Returns the answer of pkg-config, called as a packager does with DESTDIR."""
        folder = self.to / "lib/pkgconfig"
        env = {**os.environ, "PKG_CONFIG_PATH": "", "PKG_CONFIG_LIBDIR": str(folder), "PKG_CONFIG_SYSROOT_DIR": str(self.room / "dest")}
        return run("pkg-config", *words, "wmod", env=env).split()


def declared():
    """Returns the names of the header's functions."""
    text = (TOP / "crates/wm_c/include/wmod.h").read_text(encoding="utf-8")
    return sorted(re.findall(r"^\w+ (wmod_\w+)\(", text, re.M))


def check_names(it):
    """Checks that the libraries export the header's functions and no other name."""
    for words in (["nm", "-g", "--defined-only", it.to / "lib/libwmod.a"], ["nm", "-D", "--defined-only", it.to / "lib/libwmod.so"]):
        names = re.findall(r"^[0-9a-f]+ \w (\S+)$", run(*words), re.M)
        same(f"exported names of {words[-1].name}", sorted(names), declared())


def check_threads(it):
    """Checks that no library has thread-local data, since a handle may move between threads."""
    for name in ("libwmod.a", "libwmod.so"):
        same(f"thread-local data of {name}", re.findall(r"(?m)^.*\bTLS\b.*$", run("nm", "--format=sysv", it.to / "lib" / name)), [])


def check_version(it):
    version = run(it.to / "bin/wmod", "--version").split()[1]
    same("the version of wmod.pc", it.flags("--modversion"), [version])
    expanded = run("cc", "-E", "-P", "-include", "wmod.h", *it.flags("--cflags"), "-x", "c", "-", given=b"WMOD_RELEASE")
    same("the release of wmod.h", expanded.split()[-1], f'"{version}"')
    same("the prefix of wmod.pc", run("grep", "^prefix=", it.to / "lib/pkgconfig/wmod.pc"), f"prefix={PREFIX}\n")


def has_static():
    """Whether the machine has the C library that `cc -static` links."""
    return os.path.isabs(run("cc", "-print-file-name=libc.a").strip())


def compiled(it):
    """Compiles each sample. Returns the programs by name, language and kind of link. None needs LD_LIBRARY_PATH."""
    ways = {"shared": [*it.flags("--libs"), f"-Wl,-rpath,{it.to / 'lib'}"], "archive": [it.to / "lib/libwmod.a"]}
    if has_static():
        ways["static"] = ["-static", *it.flags("--static", "--libs")]
    else:
        it.said.append("no libc.a")
    flags, made = it.flags("--cflags"), {}
    for language, words in LANGUAGES.items():
        for name in [*POLICIES, EXPLAINS]:
            whole = [*words, *STRICT, *flags, it.pages / f"samples/{name}.c", "-x", "none"]
            for way, linked in ways.items():
                made[name, language, way] = it.room / f"{name}-{language}-{way}"
                run(*whole, *linked, "-o", made[name, language, way])
    return made


def check_samples(it, made):
    """Checks that a sample prints the line of wmod with the sample's policy, and none if its input cannot be read."""
    for number in range(MODULES):
        module, _ = c_calls.made(number)
        for name, policy in POLICIES.items():
            wanted = run(it.program, "check", *policy.split(), "-", given=module, wanted=None)
            for key, sample in made.items():
                if key[0] == name:
                    same(f"{key} of module {number}", run(sample, given=module, wanted=None), wanted)
    for key, sample in made.items():
        same(f"{key} on input that cannot be read", c_calls.line_unread([sample]), (3, b""))
        if key[0] == "upload":
            check_stops(sample)


def sentences(it, module):
    """Returns the status of `wmod check`, its line, and the lines of `wmod explain` and of `wmod_hint` on the refusal."""
    status, line = run(it.program, "check", "-", given=module, wanted=None)
    if not status:
        return status, line, [], []
    # a NAME of a module and of a text has the sentences for modules first
    _, means, _, _, advice, *_ = run(it.program, "explain", line.split()[-1]).splitlines(True)
    detail = run("sh", "-c", 'exec "$0" check - 2>&1 > /dev/null', it.program, given=module, wanted=None)[1]
    hint = next((list(parts) for end, parts in c_calls.hints() if detail.endswith(f"{end}\n")), [])
    return status, line, [means.strip(), advice.replace("What to do: ", "").strip()], hint


def check_explained(it, made):
    """Checks that the sample explain.c prints the line of wmod, a place, a hint, and the sentences of `wmod explain`."""
    for number, module in enumerate([*(c_calls.made(number)[0] for number in range(MODULES)), c_calls.REFUSED]):
        status, line, explained, hint = sentences(it, module)
        for key, sample in made.items():
            if key[0] == EXPLAINS:
                found, said = run(sample, given=module, wanted=None)
                place = r"(in section \d+(, member \d+)?\n)?" if status else ""
                wanted = re.escape(line) + place + re.escape("".join(f"{it}\n" for it in hint + explained))
                same(f"{key} of module {number}: {said!r}", (found, bool(re.fullmatch(wanted, said))), (status, True))


def check_stops(sample):
    """Checks that the sample refuses a bad upload before its end, and an upload that is too long."""
    with subprocess.Popen([sample], stdin=subprocess.PIPE, stdout=subprocess.PIPE) as process:
        process.stdin.write(b"\0asn and so on")
        process.stdin.flush()
        try:
            process.wait(20)
        except subprocess.TimeoutExpired as fault:
            process.kill()
            raise Fault(f"{sample.name} waits for the end of what is refused") from fault
        same("an upload that does not end", process.stdout.read(), b"refused at 4: Magic\n")
    same("an upload that is too long", run(sample, 9, given=b"\0asm\1\0\0\0\0\0", wanted=1), "refused at 10: TooLong\n")


def check_memory(it, made):
    """Checks with valgrind that no sample reads bad memory or leaks."""
    words = ["valgrind", "-q", "--leak-check=full", "--show-leak-kinds=all", "--errors-for-leak-kinds=all", "--error-exitcode=99"]
    for name in [*POLICIES, EXPLAINS] if it.has("valgrind", "-q", "true") else ():
        sample = made[name, "C89", "archive"]
        for number in range(3):
            module, _ = c_calls.made(number)
            same(f"{name} below valgrind", run(*words, sample, given=module, wanted=None), run(sample, given=module, wanted=None))


def folder_of_modules(it):
    """Makes a folder of modules whose names have spaces and quotes. Returns it, and the answer of wmod to each file."""
    folder, answers = it.room / "what 'strangers' sent/modules", {}
    folder.mkdir(parents=True)
    for number in range(MODULES):
        file = folder / f"no {number}.wasm"
        file.write_bytes(c_calls.made(number)[0])
        answers[file] = run(it.program, "check", file, wanted=None)
    return folder, answers


def check_folder(it, folder, answers):
    """Checks that check_all.sh prints the answers of wmod for the refused files."""
    script, env = it.pages / "examples/check_all.sh", it.with_program()
    same("whether check_all.sh is a program", os.access(script, os.X_OK), True)
    wanted = [f"{file}: {said}" for file, (status, said) in answers.items() if status]
    status, said = run(script, folder, wanted=None, env=env)
    same("the lines for a folder", sorted(said.splitlines(True)), sorted(wanted))
    same("the status for a folder", status, 123 if wanted else 0)
    run(script, folder / "missing", wanted=2, env=env)


def check_layout(it):
    """Checks that the header's sizes, offsets and numbers are those that the crate for cargo uses."""
    lines = (TOP / "rust/layout.txt").read_text(encoding="utf-8")
    prints = "".join(f'  printf("{name} %lu\\n", (unsigned long)({name}));\n' for name in re.findall(r"(?m)^(.*) \d+$", lines))
    file = it.room / "layout.c"
    file.write_text(f"#include <stdio.h>\n#include <wmod.h>\nint main(void) {{\n{prints}  return 0;\n}}\n", encoding="utf-8")
    run("cc", file, *it.flags("--cflags"), "-o", it.room / "layout")
    same("the layout of wmod.h", run(it.room / "layout"), lines)


def check_man(it, folder, answers):
    if it.has("man"):
        page = it.to / "share/man/man1/wmod.1"
        env = {**os.environ, "LC_ALL": "C.UTF-8", "MANWIDTH": "80", "MANROFFOPT": "-c"}
        said = run("sh", "-c", 'man --warnings -l "$1" 2>&1', "sh", page, env=env)
        check_example(it, said, folder, answers)
        for word in [*re.findall(r"--[a-z-]+", run(it.program, "--help").split("Options:")[1].split("\n\n")[0]), "EXIT STATUS"]:
            same(f"{word} in the manual page", word in said, True)
        same("warnings of man", re.findall(r"warning.*", said), [])


def check_example(it, page, folder, answers):
    """Checks that the manual page's example for a folder prints the name and the answer of each file."""
    examples = re.findall(r"(?m)^ +find .*(?:\n.+)*", page)
    same("how many examples begin with find", len(examples), 1)
    status, said = run("sh", "-c", examples[0], wanted=None, cwd=folder.parent, env=it.with_program())
    wanted = [f"{folder.name}/{file.name}: {answer}" for file, (_, answer) in answers.items()]
    same("the lines of the example for a folder", sorted(said.splitlines(True)), sorted(wanted))
    same("the status of the example for a folder", status, max(status for status, _ in answers.values()))


def check_pages(it):
    """Checks that each link of an installed page leads to an installed file, and each example and sample has a link."""
    texts = [page.read_text(encoding="utf-8") for page in it.pages.glob("*.md")]
    links = {link for text in texts for link in re.findall(r"\]\(([^)]+)\)", text)}
    same("links that lead nowhere", sorted(link for link in links if not (it.pages / link).is_file()), [])
    beside = {f"{name}/{file.name}" for name, folder in BESIDE.items() for file in folder.iterdir()}
    same("files without a link", sorted(beside - links), [])


def check_completions(it):
    file = it.to / "share/bash-completion/completions/wmod"
    run("bash", "-n", file)
    names = [line.split(" | ")[0] for lines in refusals.lines_of_tables(TOP) for line in lines]
    for words, wanted in {**COMPLETED, ("explain", ""): " ".join(dict.fromkeys(names))}.items():
        script = f'compopt() {{ :; }}; . "{file}"; COMP_WORDS=(wmod "$@"); COMP_CWORD=$#; _wmod; echo "${{COMPREPLY[*]}}"'
        same(f"bash completes {words}", run("bash", "-c", script, "bash", *words), f"{wanted}\n")
    if it.has("zsh"):
        check_zsh(it, names)
    if it.has("fish"):
        check_fish(it, names)


def check_zsh(it, names):
    """Checks that the completion for zsh offers each NAME after `explain`, and files after another action."""
    file = it.to / "share/zsh/site-functions/_wmod"
    run("zsh", "-n", file)
    # zsh calls the file as a function, which gives what it offers to a function of zsh
    script = '_arguments() { print -rl -- "$@" }; fpath=("$1"); autoload -U _wmod; words=("${@:2}"); _wmod'
    for action, wanted in (("explain", f"2:NAME:({' '.join(dict.fromkeys(names))})"), ("check", "*:file:_files")):
        offered = run("zsh", "-f", "-c", script, "zsh", file.parent, "wmod", action, "").splitlines()
        same(f"zsh completes {action}", offered[-2:], ["1:action:_wmod_actions", wanted])


def check_fish(it, names):
    """Checks that the completion for fish offers each action, and each NAME after `explain`."""
    for line, wanted in (("wmod c", ["canon", "check"]), ("wmod explain ", sorted(set(names)))):
        ask = f"source {it.to}/share/fish/vendor_completions.d/wmod.fish; complete -C '{line}'"
        same(f"fish completes {line}", sorted(it.split()[0] for it in run("fish", "-N", "-c", ask).splitlines()), wanted)


def cargo(crate, env, *words, wanted=0):
    """Returns the output of cargo on the crate."""
    return run("sh", "-c", 'exec cargo --offline "$@" 2>&1', "sh", *words, wanted=wanted, seconds=900, cwd=crate, env=env)


def check_crate(it):
    """Runs the tests of the crate, and compares its example with wmod."""
    if not it.has("cargo", "--version"):
        return
    crate = it.room / "rust"
    shutil.copytree(TOP / "rust", crate, ignore=shutil.ignore_patterns("target", "Cargo.lock"))
    folders = {"WMOD_LIB_DIR": it.to / "lib", "CARGO_HOME": it.room / "cargo", "CARGO_TARGET_DIR": it.room / "target"}
    env = {**os.environ, **{name: str(folder) for name, folder in folders.items()}}
    cargo(crate, env, "test")
    cargo(crate, env, "build", "--example", "handler")
    for number in range(MODULES):
        module, _ = c_calls.made(number)
        status, said = run(it.program, "check", *POLICIES["upload"].split(), "-", given=module, wanted=None)
        found = run(it.room / "target/debug/examples/handler", given=module)
        wanted = f"422 {said}" if status else f"200 {len(module)} bytes, "
        same(f"the handler's answer to module {number}", found[: len(wanted)], wanted)
    check_manifest(it, crate, env)
    check_unfound(it, crate, env)
    check_oldest(it, env)


def check_manifest(it, crate, env):
    """Checks that `cargo package` warns of the missing licence only, and that the code fits its `rust-version`."""
    unlicensed = "manifest has no license or license-file"
    warnings = re.findall(r"(?m)^warning: (.*)", cargo(crate, env, "package"))
    same("other warnings of cargo package", [line for line in warnings if not line.startswith(unlicensed)], [])
    if it.has("cargo-clippy", "--version"):
        cargo(crate, env, "clippy", "--all-targets", "--", "-D", "clippy::incompatible_msrv")


def check_unfound(it, crate, env):
    """Checks that a build without the library says what to set, and that the documentation needs no library."""
    said = cargo(crate, {**env, "WMOD_LIB_DIR": str(it.room)}, "build", wanted=101)
    same("a folder without the library", f'WMOD_LIB_DIR is "{it.room}"' in said, True)
    # With --target the flags don't apply to the build script, which needs a linker.
    host = re.search(r"host: (\S+)", run("rustc", "-vV"))[1]
    env = {**env, "PKG_CONFIG_PATH": "", "PKG_CONFIG_LIBDIR": str(it.room), "RUSTFLAGS": "-Clinker=false"}
    del env["WMOD_LIB_DIR"]
    same("no library", "set WMOD_LIB_DIR to" in cargo(crate, env, "build", "--target", host, wanted=101), True)
    cargo(crate, {**env, "DOCS_RS": "1"}, "doc", "--target", host)


def check_oldest(it, env):
    """Runs the tests of the crate by the oldest rustc that its manifest names, if /usr/bin/rustc is of that version."""
    oldest = re.search(r'(?m)^rust-version = "(.*)"', (TOP / "rust/Cargo.toml").read_text(encoding="utf-8"))[1]
    if not all(os.access(DEBIAN / it, os.X_OK) for it in ("cargo", "rustc")) or f"rustc {oldest}." not in run(DEBIAN / "rustc", "--version", wanted=None)[1]:
        it.said.append(f"no rustc {oldest}")
        return
    # a copy of its own, since it cannot read the lock file of a later cargo
    crate = it.room / "oldest"
    shutil.copytree(TOP / "rust", crate, ignore=shutil.ignore_patterns("target", "Cargo.lock"))
    folders = {"PATH": f"{DEBIAN}:{env['PATH']}", "CARGO_TARGET_DIR": it.room / "target-oldest"}
    cargo(crate, {**env, **{name: str(folder) for name, folder in folders.items()}}, "test")


def check_dist(it):
    """Checks that two distributions have equal bytes, and that pkg-config finds an unpacked one."""
    files = [it.call("dist", it.room / name).strip() for name in ("one", "two")]
    run("cmp", *files)
    run("sha256sum", "-c", f"{os.path.basename(files[0])}.sha256", cwd=it.room / "one")
    run("tar", "-xzf", files[0], "-C", it.room)
    folder = it.room / os.path.basename(files[0]).removesuffix(".tar.gz")
    check_linking(folder)


def check_linking(folder):
    """Checks that each link command of LIBRARY.md makes a program that runs."""
    pages, env = folder / "share/doc/wmod", {**os.environ, "PKG_CONFIG_PATH": str(folder / "lib/pkgconfig")}
    page = (pages / "LIBRARY.md").read_text(encoding="utf-8")
    for mark in ["-Wl,-rpath", "/libwmod.a", *(["--static"] if has_static() else [])]:
        commands = re.findall(rf"(?m)^cc .*check\.c .*{re.escape(mark)}.*$", page)
        same(f"how many commands of the page have {mark}", len(commands), 1)
        said = run("sh", "-ec", f"{commands[0]}\n./check < ../examples/add.wasm", cwd=pages / "samples", env=env)
        same(f"the answer of `{commands[0]}`", said, "valid\n")


def check_removed(it):
    """Checks that a second install changes nothing, and that uninstall leaves only foreign files."""
    def listed():
        return sorted(f"{os.path.relpath(p, it.room)} {p.lstat().st_mode:o}" for p in (it.room / "dest").rglob("*"))

    before = listed()
    it.call("install", PREFIX)
    same("a second install", listed(), before)
    other = it.to / "share/man/man1/other.1"
    other.write_text("", encoding="utf-8")
    it.call("uninstall", PREFIX)
    same("files left by uninstall", [p for p in (it.room / "dest").rglob("*") if not p.is_dir()], [other])
    shutil.rmtree(it.room / "dest")
    it.call("install", PREFIX)
    it.call("uninstall", PREFIX)
    same("a folder left by the last uninstall", os.path.exists(it.room / "dest"), False)


def check_all(it):
    """Runs all tests. Skips them if a tool of needs.py is missing, which is a fault in CI."""
    missing = needs.missing("what is installed")
    if missing and needs.is_ci():
        raise Fault(f"CI must have {', '.join(missing)}")
    if missing:
        it.said += [f"no {tool}" for tool in missing]
        return
    it.call("install", PREFIX)
    check_pages(it)
    check_names(it)
    check_threads(it)
    check_version(it)
    made = compiled(it)
    check_samples(it, made)
    check_explained(it, made)
    check_memory(it, made)
    folder, answers = folder_of_modules(it)
    check_folder(it, folder, answers)
    check_layout(it)
    check_man(it, folder, answers)
    check_completions(it)
    check_crate(it)
    check_dist(it)
    check_removed(it)


def is_well(archive, program):
    """Whether all tests pass. Prints a line."""
    with tempfile.TemporaryDirectory(prefix="packages-") as room:
        it = Package(room, os.path.abspath(archive), os.path.abspath(program))
        try:
            check_all(it)
            fault = ""
        except (Fault, subprocess.TimeoutExpired) as wrong:
            fault = f"wrong: {wrong}"
    left = f" ({', '.join(it.said)} here, so that part was not tried)" if it.said else ""
    print(f"packages: installed files: {fault or 'ok'}{left}", flush=True)
    return not fault


if __name__ == "__main__":
    if len(sys.argv) != 3:
        sys.exit(__doc__)
    sys.exit(0 if is_well(*sys.argv[1:]) else 1)
