"""Installs, removes and archives the built files. `./wmod` calls it for:

    ./wmod install PREFIX     puts all files below PREFIX, an absolute path without blanks, such as /usr/local
    ./wmod uninstall PREFIX   removes the files that install put there, and the folders that it made if they are empty
    ./wmod dist [FOLDER]      makes wmod-VERSION-x86_64-linux.tar.gz there, and its checksum

The first two work below DESTDIR if it is set. This script takes two more arguments before these words: libwm_c.a and the program.
"""
import hashlib
import os
import pathlib
import subprocess
import sys
import tempfile

import stage

# The record of an install: a line for each file, and a line with a slash at its end for each folder that it made.
RECORD = f"{stage.PAGES}/installed.txt"
# the prefix in wmod.pc if the folder may be anywhere
ANYWHERE = "${pcfiledir}/../.."


def misused():
    print(__doc__, file=sys.stderr)
    sys.exit(2)


def target(prefix):
    if not os.path.isabs(prefix) or any(it.isspace() for it in prefix):
        misused()
    return pathlib.Path(os.environ.get("DESTDIR", "") + os.path.normpath(prefix))


def recorded(to):
    """Returns the lines that an earlier install recorded."""
    record = to / RECORD
    return record.read_text(encoding="utf-8").splitlines() if record.is_file() else []


def make_folder(folder, to, made):
    """Makes a folder and its missing parents, and adds them to `made` by their paths from PREFIX."""
    if not folder.is_dir():
        make_folder(folder.parent, to, made)
        folder.mkdir()
        folder.chmod(0o755)
        made.append(f"{os.path.relpath(folder, to)}/")


def put(source, place):
    """Replaces a file in one step, since the old one may be a running program."""
    beside = place.with_name(f".{place.name}.new")
    beside.unlink(missing_ok=True)
    if source.is_symlink():
        beside.symlink_to(os.readlink(source))
    else:
        beside.write_bytes(source.read_bytes())
        beside.chmod(source.stat().st_mode)
    beside.replace(place)


def install(archive, program, prefix):
    to = target(prefix)
    before = recorded(to)
    made = [it for it in before if it.endswith("/")]
    with tempfile.TemporaryDirectory(prefix="wmod-") as room:
        folder = pathlib.Path(room, "stage")
        stage.make(folder, os.path.normpath(prefix), archive, program)
        files = sorted(str(it.relative_to(folder)) for it in folder.rglob("*") if it.is_symlink() or it.is_file())
        for it in files:
            make_folder((to / it).parent, to, made)
        # before the files, so that an install that fails can be removed
        record(to, [*made, *files, *before])
        for it in files:
            put(folder / it, to / it)
    # files of an older version that this one does not have
    remove(to, [it for it in before if it not in {*made, *files, RECORD}])
    record(to, [*made, *files])
    print(*told(to, files), sep="\n")


def told(to, files):
    """Yields the report of an install: a line, and one for each of the folders bin, include, lib and share."""
    yield f"wmod: installed below {to}"
    parts = [it.partition("/") for it in files]
    for folder in sorted({it[0] for it in parts}):
        names = [name for at, _, name in parts if at == folder]
        yield f"  {folder}: {', '.join(names) if len(names) < 6 else f'{len(names)} files: the manual page, pages and examples in doc/wmod, completions'}"


def record(to, names):
    (to / RECORD).write_text("".join(f"{it}\n" for it in dict.fromkeys([*names, RECORD])), encoding="utf-8")


def remove(to, names):
    """Removes files, and then the empty folders, the deepest first."""
    folders = sorted((os.path.normpath(to / it) for it in names if it.endswith("/")), key=lambda it: -len(it))
    for it in names:
        if not it.endswith("/"):
            (to / it).unlink(missing_ok=True)
    for it in folders:
        if os.path.isdir(it) and not os.listdir(it):
            os.rmdir(it)


def uninstall(_archive, _program, prefix):
    to = target(prefix)
    names = recorded(to)
    if not names:
        sys.exit(f"wmod: nothing to remove: {to / RECORD} is missing")
    remove(to, names)


def dist(archive, program, folder="."):
    """Makes the archive. Equal files give equal bytes: names are sorted, and no time, user or group is kept."""
    name = f"wmod-{stage.version_of(program)}-x86_64-linux"
    file = pathlib.Path(folder, f"{name}.tar.gz")
    file.parent.mkdir(parents=True, exist_ok=True)
    with tempfile.TemporaryDirectory(prefix="wmod-") as room:
        stage.make(pathlib.Path(room, name), ANYWHERE, archive, program)
        plain = ["--sort=name", "--mtime=@0", "--owner=0", "--group=0", "--numeric-owner", "--format=gnu"]
        stage.run("tar", *plain, "-C", room, "-cf", f"{room}/it.tar", name)
        with open(file, "wb") as out:
            subprocess.run(["gzip", "-9nc", f"{room}/it.tar"], stdout=out, check=True)
    total = hashlib.sha256(file.read_bytes()).hexdigest()
    pathlib.Path(f"{file}.sha256").write_text(f"{total}  {file.name}\n", encoding="utf-8")
    print(file)


ACTIONS = {"install": (install, 1, 1), "uninstall": (uninstall, 1, 1), "dist": (dist, 0, 1)}


def main():
    archive, program, action, *words = sys.argv[1:]
    call, least, most = ACTIONS[action]
    if not least <= len(words) <= most:
        misused()
    os.umask(0o022)
    call(os.path.abspath(archive), os.path.abspath(program), *words)


if __name__ == "__main__":
    main()
