"""Runs wmod on a million nested blocks, in a binary and in a text, on a stack of 128 KiB, so recursion would fail.

    .ci/deep.py PROGRAM       the built wmod

It ends with status 1 if an answer is wrong.
"""
import subprocess
import sys

# KiB
STACK = 128
DEPTH = 1_000_000
# a function of type [] -> [] whose body opens and closes DEPTH blocks
DEEP = bytes.fromhex("0061736D01000000 010401600000 03020100 0AC78DB701 01 C28DB701 00") + b"\x02\x40" * DEPTH + b"\x0b" * (DEPTH + 1)
FIGURES = f"functions 1\nmoves {2 * DEPTH + 2}\noperands 0\ncontrols {DEPTH + 1}\nprobes 0\n".encode()
OPEN = b"(module (;" + b"(;" * DEPTH
OPEN_ANSWER = f"text refused at {len(OPEN)} (1:{len(OPEN) + 1}): OpenComment\n".encode()


def run(program, action, given, stack=STACK):
    """Returns the exit status and the output."""
    words = ["sh", "-c", f'ulimit -s {stack}; exec "$@"', "", program, action]
    # The environment uses the stack too, so it is empty.
    ran = subprocess.run(words, input=given, stdout=subprocess.PIPE, env={}, timeout=300, check=False)
    return ran.returncode, ran.stdout


def is_well(program):
    """Whether all answers are right. Prints a line."""
    text = run(program, "show", DEEP)
    answers = {
        "check": run(program, "check", DEEP) == (0, b"valid\n"),
        "stats": run(program, "stats", DEEP) == (0, FIGURES),
        "canon": run(program, "canon", DEEP) == (0, DEEP),
        "show, then build": text[0] == 0 and run(program, "build", text[1]) == (0, DEEP),
        "a front": run(program, "check", DEEP[: 30 + DEPTH]) == (1, f"refused at {30 + DEPTH}: Truncated\n".encode()),
        "open comments": run(program, "build", OPEN) == (1, OPEN_ANSWER),
    }
    wrong = [name for name, well in answers.items() if not well]
    print(f"deep: {DEPTH} blocks on a stack of {STACK} KiB: " + (f"wrong: {', '.join(wrong)}" if wrong else "ok"), flush=True)
    return not wrong


if __name__ == "__main__":
    if len(sys.argv) != 2:
        sys.exit(__doc__)
    sys.exit(0 if is_well(sys.argv[1]) else 1)
