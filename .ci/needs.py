#!/usr/bin/env python3
"""Lists the tools that CI needs and this machine lacks, and the tests that are skipped without them.

    .ci/needs.py

It ends with status 1 if `rt` is missing. It also does so if a tool of PARTS is missing and the variable CI is `true`;
otherwise that tool's tests are skipped. A missing tool of MORE is never a failure.
"""
import os
import shutil
import sys

# one of these names is enough
COMPILER = "cc|gcc|clang"
PARTS = {
    "growths of the built programs": [COMPILER],
    "calls for C": ["cc", "c++"],
    "what is installed": ["cc", "c++", "pkg-config", "ar", "ld", "nm", "objcopy", "tar", "gzip"],
}
MORE = {
    "samples below valgrind": ["valgrind"],
    "the manual page": ["man"],
    "completions of zsh": ["zsh"],
    "completions of fish": ["fish"],
    "the crate for cargo": ["cargo"],
    "its calls of std beside rustc 1.63": ["cargo-clippy"],
    "its tests by rustc 1.63": ["/usr/bin/rustc", "/usr/bin/cargo"],
}


def is_ci():
    return os.environ.get("CI") == "true"


def found(tool):
    """Returns the first of a tool's names that is on the path, or None."""
    return next((it for it in tool.split("|") if shutil.which(it)), None)


def missing(part):
    return [tool for tool in PARTS.get(part) or MORE[part] if not found(tool)]


def is_well_untried(line):
    """Prints that a test is skipped because a tool of PARTS is missing. False if the variable CI is `true`."""
    print(line + (": CI must have it" if is_ci() else ""), flush=True)
    return not is_ci()


def main():
    if not found("rt"):
        print("needs: no command rt, which is in Rattle's kit", flush=True)
        return 1
    is_well = True
    for part in [*PARTS, *MORE]:
        tools = missing(part)
        line = f"needs: no {', '.join(tools)} here, so not tried: {part}"
        if tools and part in PARTS:
            is_well = is_well_untried(line) and is_well
        elif tools:
            print(line, flush=True)
    return 0 if is_well else 1


if __name__ == "__main__":
    sys.exit(main())
