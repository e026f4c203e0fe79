"""Makes the stage: a folder with all files of an installed wmod, below bin/, lib/, include/ and share/.

    packaging/stage.py FOLDER PREFIX ARCHIVE PROGRAM       ARCHIVE is the built libwm_c.a, and PROGRAM the built wmod

PREFIX is the prefix in wmod.pc. It may be ${pcfiledir}/../.., for a folder that may be anywhere.
"""
import pathlib
import re
import shutil
import subprocess
import sys
import tempfile

import texts

TOP = pathlib.Path(__file__).resolve().parent.parent
HEADER = TOP / "crates/wm_c/include/wmod.h"
# the lines that `wmod explain` prints, each with its NAME in front
REFUSALS = TOP / "crates/wm_refusals/src/tables.rt"
PAGES = "share/doc/wmod"
# the files beside the pages, by their folder there
BESIDE = {"examples": "examples/*", "samples": "crates/wm_c/samples/*.c"}
# the start of a link to one of them, in docs/ and in the installed folder
LINKS = {"](../examples/": "](examples/", "](../crates/wm_c/samples/": "](samples/"}
# the symbols that the shared library exports
EXPORTS = "{ global: wmod_*; local: *; };\n"
COMPLETIONS = {
    "share/bash-completion/completions/wmod": texts.bash,
    "share/zsh/site-functions/_wmod": texts.zsh,
    "share/fish/vendor_completions.d/wmod.fish": texts.fish,
}


def run(*words, **how):
    """Runs a command and returns its output. Ends this script if the command fails."""
    if not shutil.which(words[0]):
        sys.exit(f"wmod: the command '{words[0]}' is missing here")
    ran = subprocess.run([str(it) for it in words], stdout=subprocess.PIPE, text=True, check=False, **how)
    if ran.returncode:
        sys.exit(f"wmod: {words[0]} failed")
    return ran.stdout


def version_of(program):
    return run(program, "--version").split()[1]


def interface():
    """Returns the major and the minor version of the header."""
    return [re.search(rf"#define WMOD_VERSION_{it} (\d+)", HEADER.read_text(encoding="utf-8"))[1] for it in ("MAJOR", "MINOR")]


def names():
    """Returns the NAMEs that `wmod explain` knows, each once. Ends this script if there are none."""
    found = list(dict.fromkeys(re.findall(r"(?m)^    (\w+) \| ", REFUSALS.read_text(encoding="utf-8"))))
    if not found:
        sys.exit(f"wmod: {REFUSALS} has no NAME of a refusal")
    return found


def one_object(archive, room):
    """Links the library and the kit's allocation functions into one object. It exports only wmod_*, so no name clashes with the host's."""
    heap = pathlib.Path(run("rt", "doc").strip()).parent / "c/liblibc_c.a"
    for it in (archive, heap):
        (room / it.stem).mkdir()
        run("ar", "x", it, cwd=room / it.stem)
    whole = room / "wmod.o"
    run("ld", "-r", "-o", whole, *sorted(room.glob("*/*.o")))
    run("objcopy", "--wildcard", "--keep-global-symbol=wmod_*", whole)
    return whole


def libraries(folder, archive):
    """Makes libwmod.a, and libwmod.so with its two links."""
    major, minor = interface()
    shared = folder / f"libwmod.so.{major}.{minor}"
    with tempfile.TemporaryDirectory(prefix="wmod-") as name:
        room = pathlib.Path(name)
        whole = one_object(archive, room)
        run("ar", "rcsD", folder / "libwmod.a", whole)
        (room / "exports").write_text(EXPORTS, encoding="utf-8")
        name = f"libwmod.so.{major}"
        run("cc", "-shared", "-o", shared, whole, f"-Wl,-soname,{name},--version-script={room}/exports,-z,defs,-z,now")
    (folder / name).symlink_to(shared.name)
    (folder / "libwmod.so").symlink_to(name)


def written(program, prefix):
    """Returns the generated files: their texts by their paths."""
    here, version = TOP / "packaging", version_of(program)
    said = texts.read_help(run(program, "--help"), names(), run(program, "check", "--features", "help"))
    man, described = [(here / it).read_text(encoding="utf-8") for it in ("wmod.1.in", "wmod.pc.in")]
    made = {it: make(said) for it, make in COMPLETIONS.items()}
    made["share/man/man1/wmod.1"] = texts.man(man, said, version)
    made["lib/pkgconfig/wmod.pc"] = texts.filled(described, {"PREFIX": prefix, "VERSION": version})
    return made


def pages(folder):
    """Copies the pages, their pictures, the examples and the samples for C."""
    for it in [TOP / "README.md", *(TOP / "docs").glob("*.md")]:
        text = it.read_text(encoding="utf-8")
        for here, installed in LINKS.items():
            text = text.replace(here, installed)
        (folder / it.name).write_text(text, encoding="utf-8")
    for it in (TOP / "docs").glob("*.svg"):
        shutil.copyfile(it, folder / it.name)
    for name, pattern in BESIDE.items():
        (folder / name).mkdir()
        for it in TOP.glob(pattern):
            shutil.copyfile(it, folder / name / it.name)


def is_program(file):
    return file.parent.name == "bin" or ".so." in file.name or file.suffix == ".sh"


def make(folder, prefix, archive, program):
    folder, archive, program = [pathlib.Path(it).resolve() for it in (folder, archive, program)]
    for it in ("bin", "lib", "include", PAGES):
        (folder / it).mkdir(parents=True)
    libraries(folder / "lib", archive)
    for it, text in written(program, prefix).items():
        (folder / it).parent.mkdir(parents=True, exist_ok=True)
        (folder / it).write_text(text, encoding="utf-8")
    shutil.copyfile(program, folder / "bin/wmod")
    shutil.copyfile(HEADER, folder / "include/wmod.h")
    pages(folder / PAGES)
    # the modes do not depend on the umask
    for it in [folder, *folder.rglob("*")]:
        if not it.is_symlink():
            it.chmod(0o755 if it.is_dir() or is_program(it) else 0o644)


if __name__ == "__main__":
    if len(sys.argv) != 5:
        sys.exit(__doc__)
    make(*sys.argv[1:])
