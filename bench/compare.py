#!/usr/bin/env python3
"""Measures wmod on modules of each shape of make_module.py, and compares it with other programs if they are installed.

    compare.py [OPTION] [SHAPE..]      all shapes by default

    (no option)      `wmod check` on 7 MB, beside node and wasm-validate: MB/s of processor time, instructions per byte
                     if valgrind is installed, and the peak memory of wmod. MB/s are medians of five runs
    --growth         `wmod check` on 2, 4 and 8 MB: the time per byte, and its ratio of 8 MB to 2 MB. Times are the
                     least of fifteen runs, without the start of the program
    --ratios         each of the five actions on 2 MB: how many times as fast it is as node or a program of wabt
    --canon, --show  that action: MB/s on 8 MB, the ratio of its time per byte on 8 MB to 2 MB, peak memory, and
                     bytes of memory per byte of the module
    --build          `wmod build` on texts that `wmod show` prints of 0.5 and 2 MB, beside wat2wasm. It fails if the
                     result is not the output of `wmod canon`
    --assemble       no measurement: whether wat2wasm makes the bytes of `wmod canon` from such texts of 0.1 and 2 MB.
                     It ends with status 1 if not
    --program=PATH   uses this built program, and not the one of this checkout

All programs run in turn. A shape with floats is measured with `--profile 3`.
"""
import json
import os
import pathlib
import resource
import shutil
import signal
import statistics
import subprocess
import sys
import tempfile

import make_module

HERE = pathlib.Path(__file__).resolve().parent
GIVEN = [word.removeprefix("--program=") for word in sys.argv if word.startswith("--program=")]
PROGRAM = pathlib.Path(GIVEN[0]) if GIVEN else HERE.parent / "crates/wm_cli/out/wm_cli"
RUNS = 5
NODE = """
const bytes = require('fs').readFileSync(process.argv[1]);
const times = [];
let valid = true;
for (let i = 0; i < 8; i++) {
  const before = process.cpuUsage();
  valid = WebAssembly.validate(bytes) && valid;
  const used = process.cpuUsage(before);
  if (i) times.push((used.user + used.system) / 1e6);
}
times.sort((a, b) => a - b);
console.log(JSON.stringify({ valid, seconds: times[times.length >> 1] }));
"""


def wmod(action, shape, path):
    """Returns a command line of wmod, with `--profile 3` for a shape with floats."""
    profile = ["--profile", "3"] if shape in make_module.WITH_FLOATS else []
    return [str(PROGRAM), action, *profile, path]


def spent(command):
    """Runs a command. Returns its processor seconds, its peak memory in KiB, and whether its status was 0."""
    # `time` starts the program, because a child of Python would count Python's memory as its own.
    with tempfile.NamedTemporaryFile("r") as out, open(os.devnull, "wb") as nothing:
        before = resource.getrusage(resource.RUSAGE_CHILDREN)
        ended = subprocess.run(
            ["/usr/bin/time", "-q", "-f", "%M", "-o", out.name, *command], stdout=nothing, stderr=nothing, check=False
        )
        after = resource.getrusage(resource.RUSAGE_CHILDREN)
        memory = int(out.read().split()[-1])
    used = after.ru_utime + after.ru_stime - before.ru_utime - before.ru_stime
    return used, memory, ended.returncode == 0


def medians(commands):
    """Returns the median seconds and the peak memory of each command. The commands run in turn."""
    times = [[] for _ in commands]
    peaks = [0 for _ in commands]
    for _ in range(RUNS):
        for i, command in enumerate(commands):
            seconds, memory, well = spent(command)
            if not well:
                times[i].append(float("nan"))
                continue
            times[i].append(seconds)
            peaks[i] = max(peaks[i], memory)
    return [statistics.median(t) for t in times], peaks


def instructions(command, empty):
    """Returns the number of instructions of a run, without those of a run on an empty input."""

    def count(words):
        with tempfile.TemporaryDirectory() as folder:
            out = os.path.join(folder, "out")
            subprocess.run(
                ["valgrind", "--tool=callgrind", f"--callgrind-out-file={out}", *words],
                stdout=subprocess.DEVNULL,
                stderr=subprocess.DEVNULL,
                check=False,
            )
            for line in open(out, encoding="utf8"):
                if line.startswith(("summary:", "totals:")):
                    return int(line.split()[1])
        return 0

    return count(command) - count(empty)


def speed(size, seconds):
    return f"{size / seconds / 1e6:.0f}" if size < seconds * 1e10 else "> 10000"


def node_seconds(path):
    """Returns the seconds that node takes to validate a module; None if node is missing or refuses it."""
    if not shutil.which("node"):
        return None
    words = ["node", "--single-threaded", "-e", NODE, path]
    answer = subprocess.run(words, capture_output=True, text=True, check=False)
    told = json.loads(answer.stdout) if answer.returncode == 0 else {"valid": False}
    return told["seconds"] if told["valid"] else None


def ratios_row(shape, folder):
    """Returns how many times as fast each action is as another program.

    The cell is `refused` if that program is missing or refuses the module.
    """
    path, text, shown_by_wabt = (os.path.join(folder, f"{shape}.{kind}") for kind in ("wasm", "wat", "wabt.wat"))
    with open(path, "wb") as file:
        file.write(make_module.make(shape, 2))
    with open(text, "wb") as file:
        file.write(output("show", shape, path))
    ours = [wmod(action, shape, path) for action in ("check", "stats", "canon", "show")]
    ours.append(wmod("build", shape, text))
    others = [["wasm-validate", path], ["wasm-opcodecnt", path], ["wasm2wat", path, f"--output={shown_by_wabt}"]]
    others += [["wat2wasm", shown_by_wabt, "--output=/dev/null"], ["wat2wasm", text, "--output=/dev/null"]]
    (check, stats, canon, show, build, validate, count, to_text, again, to_binary), _ = medians(ours + others)
    pairs = [(check, node_seconds(path)), (check, validate), (stats, count), (canon, to_text + again), (show, to_text)]
    pairs.append((build, to_binary))
    cells = [f"{other / mine:.2f}" if other and other == other else "refused" for mine, other in pairs]
    return [shape.replace("_", " "), *cells]


def row(shape, folder, others):
    path = os.path.join(folder, f"{shape}.wasm")
    header = os.path.join(folder, "header.wasm")
    with open(path, "wb") as file:
        file.write(make_module.make(shape, 7))
    with open(header, "wb") as file:
        file.write(make_module.HEADER)
    size = os.path.getsize(path)
    commands = [wmod("check", shape, path)] + [[*words, path] for words in others]
    (mine, *rest), (peak, *_) = medians(commands)
    cells = [shape.replace("_", " "), f"{size / 1e6:.1f}", speed(size, mine)]
    if shutil.which("node"):
        seconds = node_seconds(path)
        cells.append(speed(size, seconds) if seconds else "refused")
    cells += [speed(size, seconds) if seconds == seconds else "refused" for seconds in rest]
    if shutil.which("valgrind"):
        small = os.path.join(folder, f"{shape}.small.wasm")
        with open(small, "wb") as file:
            file.write(make_module.make(shape, 1))
        used = instructions(wmod("check", shape, small), wmod("check", shape, header))
        cells.append(f"{used / os.path.getsize(small):.1f}")
    cells.append(f"{peak / 1024:.1f}")
    return cells


def quickest(commands):
    """Returns the least seconds of each command in fifteen runs, and its peak memory. The commands run in turn."""
    times = [[] for _ in commands]
    peaks = [0 for _ in commands]
    for _ in range(3 * RUNS):
        for i, command in enumerate(commands):
            seconds, memory, _ = spent(command)
            times[i].append(seconds)
            peaks[i] = max(peaks[i], memory)
    return [min(t) for t in times], peaks


def growth(shape, folder, action, sizes=(2, 8)):
    """Measures an action on modules of these sizes in MB.

    Returns the seconds per byte of each without the start of the program, and the size, seconds and peak memory of the
    last. It takes the least time of all runs, because other programs can only slow a run down.
    """
    paths = [os.path.join(folder, f"{shape}.{megabytes}.wasm") for megabytes in (0, *sizes)]
    for path, megabytes in zip(paths, (0, *sizes)):
        with open(path, "wb") as file:
            file.write(make_module.make(shape, megabytes) if megabytes else make_module.HEADER)
    (start, *seconds), (*_, peak) = quickest([wmod(action, shape, path) for path in paths])
    lengths = [os.path.getsize(path) for path in paths[1:]]
    per_byte = [(used - start) / length for used, length in zip(seconds, lengths)]
    return per_byte, lengths[-1], seconds[-1], peak


def growing_row(shape, folder):
    per_byte, *_ = growth(shape, folder, "check", (2, 4, 8))
    cells = [f"{seconds * 1e9:.2f}" for seconds in per_byte]
    return [shape.replace("_", " "), *cells, f"{per_byte[-1] / per_byte[0]:.2f}"]


def writing_row(shape, folder, action):
    (small, large), size, seconds, peak = growth(shape, folder, action)
    header = os.path.join(folder, "header.wasm")
    with open(header, "wb") as file:
        file.write(make_module.HEADER)
    _, (least,) = medians([wmod(action, shape, header)])
    taken = (peak - least) * 1024 / size
    return [shape.replace("_", " "), speed(size, seconds), f"{large / small:.2f}", f"{peak / 1024:.0f}", f"{taken:.1f}"]


def output(action, shape, path):
    return subprocess.run(wmod(action, shape, path), stdout=subprocess.PIPE, check=True).stdout


def shown(shape, folder, megabytes):
    """Writes the text of a module, and ends the script if `wmod build` does not make the canonical binary of it.

    Returns the path of the text and the size of the canonical binary.
    """
    module, text = (os.path.join(folder, f"{shape}.{megabytes}.{kind}") for kind in ("wasm", "wat"))
    with open(module, "wb") as file:
        file.write(make_module.make(shape, megabytes))
    with open(text, "wb") as file:
        file.write(output("show", shape, module))
    canonical = output("canon", shape, module)
    if output("build", shape, text) != canonical:
        sys.exit(f"wmod build does not make the canonical binary of {text}")
    return text, len(canonical)


def building_row(shape, folder):
    """Returns the figures of the larger text, with the ratio of its time per byte to that of the smaller one."""
    others = [["wat2wasm", "--output=/dev/null"]] if shutil.which("wat2wasm") else []
    empty, _ = shown("custom_sections", folder, 0)
    _, (least,) = medians([wmod("build", shape, empty)])
    per_byte = []
    for megabytes in (0.5, 2):
        path, binary = shown(shape, folder, megabytes)
        size = os.path.getsize(path)
        (mine, *rest), (peak, *peaks) = medians([wmod("build", shape, path)] + [[*words, path] for words in others])
        per_byte.append(mine / size)
    cells = [shape.replace("_", " "), f"{size / 1e6:.1f}", speed(size, mine), speed(binary, mine)]
    cells += [f"{per_byte[1] / per_byte[0]:.2f}", f"{peak / 1024:.0f}", f"{(peak - least) * 1024 / size:.1f}"]
    for seconds, memory in zip(rest, peaks):
        cells += [speed(size, seconds), f"{memory / 1024:.0f}"] if seconds == seconds else ["refused", ""]
    return cells


def assembled(text, binary, wide=False):
    """Runs wat2wasm without flags on a text. Returns why it made no binary, or None if it did.

    With `wide`, its stack has the greatest size that the system allows.
    """

    def widen():
        most = resource.getrlimit(resource.RLIMIT_STACK)[1]
        resource.setrlimit(resource.RLIMIT_STACK, (most, most))

    words = ["wat2wasm", text, f"--output={binary}"]
    done = subprocess.run(words, capture_output=True, text=True, check=False, preexec_fn=widen if wide else None)
    if done.returncode < 0:
        return f"ended by {signal.Signals(-done.returncode).name}"
    return None if done.returncode == 0 else (done.stderr.splitlines() or ["without an error message"])[0]


def difference(mine, other):
    """Returns how the bytes of wat2wasm differ from those of `wmod canon`, or None if they are equal."""
    if mine == other:
        return None
    same = next((i for i, (a, b) in enumerate(zip(mine, other)) if a != b), min(len(mine), len(other)))
    return f"differs from byte {same} on, with {len(other)} bytes for {len(mine)}"


def assembling(shape, folder, megabytes):
    """Returns a line on the binary that wat2wasm makes of a module's text, and whether it is the canonical one."""
    module, text, binary = (os.path.join(folder, f"{shape}.{kind}") for kind in ("wasm", "wat", "out"))
    with open(module, "wb") as file:
        file.write(make_module.make(shape, megabytes))
    with open(text, "wb") as file:
        file.write(output("show", shape, module))
    sizes = f"{os.path.getsize(module) / 1e6:.1f} MB, {os.path.getsize(text) / 1e6:.1f} MB of text"
    usual = assembled(text, binary)
    refusal = usual and assembled(text, binary, wide=True)
    if refusal:
        return f"{shape}, {sizes}: refused, {refusal}", False
    stack = f", with a larger stack; with the usual one {usual}" if usual else ""
    with open(binary, "rb") as file:
        differs = difference(output("canon", shape, module), file.read())
    return f"{shape}, {sizes}: {differs or 'equal'}{stack}", differs is None


def assemble(shapes, folder):
    """Prints a line for each text. Returns 0 if all binaries are equal, else 1."""
    answers = []
    for shape in shapes:
        for megabytes in (0.1, 2):
            line, equal = assembling(shape, folder, megabytes)
            print(line, flush=True)
            answers.append(equal)
    print(f"{sum(answers)} of {len(answers)} equal")
    return 0 if all(answers) else 1


def print_table(heads, rows):
    print("| " + " | ".join(heads) + " |")
    print("|" + "---|" * len(heads))
    for cells in rows:
        print("| " + " | ".join(cells) + " |", flush=True)


def main():
    words = [w for w in sys.argv[1:] if not w.startswith("--")]
    shapes = words or [f.__name__ for f in make_module.SHAPES]
    if not GIVEN:
        subprocess.run([str(HERE.parent / "wmod"), "--help"], stdout=subprocess.DEVNULL, check=True)
    texts = [shape for shape in shapes if shape != "custom_sections"]  # a text has no custom sections
    with tempfile.TemporaryDirectory() as folder:
        if "--assemble" in sys.argv:
            sys.exit(assemble(texts, folder))
        if "--growth" in sys.argv:
            heads = ["Shape", "2 MB, ns a byte", "4 MB", "8 MB", "8 MB to 2 MB"]
            print_table(heads, (growing_row(shape, folder) for shape in shapes))
            return
        if "--ratios" in sys.argv:
            heads = ["Shape", "check to node", "check to wasm-validate", "stats to wasm-opcodecnt"]
            heads += ["canon to wasm2wat and wat2wasm", "show to wasm2wat", "build to wat2wasm"]
            shallow = [shape for shape in texts if shape != "deep_blocks"]  # a signal ends programs of wabt on it
            print_table(heads, (ratios_row(shape, folder) for shape in shallow))
            return
        for action in ("canon", "show"):
            if f"--{action}" in sys.argv:
                heads = ["Shape", "MB/s", "time a byte, 8 MB to 2 MB", "peak MiB", "bytes of memory a byte"]
                print_table(heads, (writing_row(shape, folder, action) for shape in shapes))
                return
        if "--build" in sys.argv:
            heads = ["Shape", "MB of text", "MB/s of text", "MB/s of binary", "time a byte, 2 MB to 0.5 MB of binary"]
            heads += ["peak MiB", "bytes of memory a byte of text"]
            heads += ["wat2wasm MB/s of text", "wat2wasm peak MiB"] if shutil.which("wat2wasm") else []
            print_table(heads, (building_row(shape, folder) for shape in texts))
            return
        others = [["wasm-validate"]] if shutil.which("wasm-validate") else []
        heads = ["Shape", "MB", "wmod MB/s"]
        heads += ["node MB/s"] if shutil.which("node") else []
        heads += ["wasm-validate MB/s"] if others else []
        heads += ["instructions a byte"] if shutil.which("valgrind") else []
        heads += ["peak MiB"]
        print_table(heads, (row(shape, folder, others) for shape in shapes))


if __name__ == "__main__":
    main()
