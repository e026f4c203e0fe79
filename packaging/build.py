"""Proves and builds crates side by side, as far as `crates.txt` allows, and reports its progress.

    packaging/build.py CRATE..     builds the crates below these first, then these

A crate starts once all crates below it are built. If several can start, the one at the bottom of the longest chain comes first. Each
gets one process. It gets more while processors are free and each process saves time, since every process first loads the statements
of all that its crate reaches. There are never more processes than processors, nor more than fit into the free memory. The first crate
that fails stops the others.

`rt` runs one command at a time on a crate and those below it, in one copy of the sources. But with most kits the copies on a machine
share what is proved and built. This script therefore builds each crate in a copy of its own, below out/. Only the requested crates are
built here. With a kit of OWN_COPIES, each copy would prove all crates below anew: then all crates are built here, in turn.
"""
import os
import pathlib
import shutil
import signal
import subprocess
import sys
import tempfile
import time

TOP = pathlib.Path(__file__).resolve().parent.parent
# the memory that a process needs, in bytes
MEMORY = 2_000_000_000
# an additional process has to save this many minutes
LEAST_GAIN = 0.25
# the exit status for a crate that cannot be built
FAILED = 70
# the kits with which copies of the sources share nothing
OWN_COPIES = ("rattle-kit-13b",)

# For each crate, the minutes that several processes share, and the minutes that each process needs anyway: to load the crates below,
# and to build. Only the proportions matter: they order the crates and give the time left.
MINUTES = {
    "wm_syntax": (4.0, 1.1),
    "wm_floats": (0.4, 0.4),
    "wm_stacks": (1.0, 0.8),
    "wm_tokens": (1.0, 0.8),
    "wm_typing": (2.0, 1.0),
    "wm_machine": (1.1, 0.9),
    "wm_shortcuts": (6.0, 0.7),
    "wm_decode": (1.0, 1.4),
    "wm_rules": (3.0, 2.6),
    "wm_bodies": (4.5, 1.6),
    "wm_read": (2.5, 3.5),
    "wm_write": (3.5, 2.6),
    "wm_refusals": (0.1, 1.4),
    "wm_command": (0.4, 4.0),
    "wm_cli": (0.4, 2.5),
    "wm_c": (0.4, 2.5),
}
# the minutes of a crate without a line above
UNKNOWN = (3.0, 0.5)


def say(text):
    print(f"wmod: {text}", file=sys.stderr, flush=True)


def crate_of(line):
    """Returns the crate that a line of crates.txt lists; an empty string for another line."""
    head, colon, _ = line.partition("#")[0].partition(":")
    return head.split()[0] if colon else ""


def crates_below(lines):
    """Maps each crate of crates.txt to the crates of that file on its line."""
    named = {crate_of(line): line.partition("#")[0].partition(":")[2].split() for line in lines if crate_of(line)}
    return {crate: [it for it in below if it in named] for crate, below in named.items()}


def wanted_of(below, crates):
    """Maps these crates, and all below them, to the crates on their lines."""
    found, left = {}, list(crates)
    while left:
        crate = left.pop()
        if crate not in found:
            found[crate] = below[crate]
            left += below[crate]
    return found


def processes_at_once():
    """Returns the most processes: one for each processor, as far as the memory suffices."""
    try:
        text = pathlib.Path("/proc/meminfo").read_text(encoding="ascii")
        free = int(text.split("MemAvailable:")[1].split()[0]) * 1024
    except (OSError, IndexError):
        free = MEMORY
    return max(1, min(len(os.sched_getaffinity(0)), free // MEMORY))


def copies_share():
    """Whether copies of the sources on this machine share what is proved and built."""
    said = subprocess.run(["rt", "version"], stdin=subprocess.DEVNULL, capture_output=True, text=True, check=False)
    return said.stdout.split(" ")[0] not in OWN_COPIES


def planned(crate, processes):
    """Returns the minutes that a crate is expected to take with so many processes."""
    shared, fixed = MINUTES.get(crate, UNKNOWN)
    return fixed + shared / processes


def gain(crate, processes):
    """Returns the minutes that one more process saves."""
    return planned(crate, processes) - planned(crate, processes + 1)


class Plan:
    """The crates that wait, run and are done, and the choice of those that start next."""

    def __init__(self, below, most, in_turn):
        self.below = below
        self.most = most
        # whether no crate starts while another one runs
        self.in_turn = in_turn
        self.waiting = set(below)
        self.running = {}
        self.done = set()
        self.chains = {}

    def copy(self):
        plan = Plan(self.below, self.most, self.in_turn)
        plan.waiting, plan.running, plan.done = set(self.waiting), dict(self.running), set(self.done)
        return plan

    def chain(self, crate):
        """Returns the minutes of the longest chain of crates that starts with this one."""
        if crate not in self.chains:
            self.chains[crate] = 0
            above = [self.chain(it) for it, below in self.below.items() if crate in below]
            self.chains[crate] = planned(crate, 1) + max(above, default=0)
        return self.chains[crate]

    def begin(self):
        """Starts the crates that can start now. Returns the number of processes of each."""
        ready = [it for it in self.waiting if self.done.issuperset(self.below[it])]
        ready.sort(key=lambda it: (-self.chain(it), it))
        free = self.most - sum(self.running.values())
        begun = {it: 1 for it in ready[: self.may_start(free)]}
        for crate in begun:
            while sum(begun.values()) < free and gain(crate, begun[crate]) >= LEAST_GAIN:
                begun[crate] += 1
        self.waiting -= set(begun)
        self.running |= begun
        return begun

    def may_start(self, free):
        """Returns how many crates may start now, given the free processors."""
        if self.in_turn:
            return 0 if self.running else 1
        return free

    def end(self, crate):
        del self.running[crate]
        self.done.add(crate)

    def minutes_left(self, gone, pace):
        """Returns the minutes to the end if crates take `pace` times their planned minutes. `gone` has the minutes of each that runs."""
        plan, at = self.copy(), 0
        ends = {it: max(0, pace * planned(it, count) - gone[it]) for it, count in plan.running.items()}
        while plan.waiting or ends:
            ends |= {it: at + pace * planned(it, count) for it, count in plan.begin().items()}
            crate = min(ends, key=ends.get)
            at = ends.pop(crate)
            plan.end(crate)
        return at


class Copies:
    """Copies of the sources: one for each crate that is being built. Requested crates use the checkout itself."""

    def __init__(self, below, asked, room):
        self.below = below
        self.asked = asked
        self.room = pathlib.Path(room)
        self.free = []
        self.taken = {}

    def take(self, crate):
        """Returns the folder to build a crate in."""
        if crate in self.asked:
            return TOP / "crates" / crate
        self.taken[crate] = self.free.pop() if self.free else self.make(self.room / f"copy{len(self.taken)}")
        return self.taken[crate] / "crates" / crate

    def make(self, copy):
        for crate in self.below:
            for part in ("src", "specs", "proofs"):
                if (TOP / "crates" / crate / part).is_dir():
                    shutil.copytree(TOP / "crates" / crate / part, copy / "crates" / crate / part)
        lines = (TOP / "crates.txt").read_text(encoding="utf-8").splitlines(keepends=True)
        (copy / "crates.txt").write_text("".join(it for it in lines if crate_of(it) in self.below), encoding="utf-8")
        shutil.copy(TOP / "HANDLES", copy)
        return copy

    def give_back(self, crate):
        if crate not in self.asked:
            self.free.append(self.taken[crate])


class Build:
    """The running build: each crate by `rt`, in a process session of its own and with a log of its own."""

    def __init__(self, below, asked, room):
        in_turn = not copies_share()
        self.plan = Plan(below, processes_at_once(), in_turn)
        self.copies = Copies(below, below if in_turn else asked, room)
        self.room = pathlib.Path(room)
        self.began = {}
        self.children = {}
        # the minutes that the proved crates took so far, and the minutes that were planned for them
        self.took = 0
        self.expected = 0

    def log(self, crate):
        return self.room / f"{crate}.log"

    def begin(self):
        for crate, count in self.plan.begin().items():
            folder = self.copies.take(crate)
            words = ["rt", "run", "--jobs", str(count), "--", "--version"] if (folder / "src/main.rt").exists() else ["rt", "lib", "--jobs", str(count)]
            with open(self.log(crate), "wb") as out:
                child = subprocess.Popen(words, cwd=folder, stdin=subprocess.DEVNULL, stdout=out, stderr=out, start_new_session=True)
            self.children[child.pid] = crate, child
            self.began[crate] = time.monotonic()
            say(f"{crate}: begun, {count} {'process' if count == 1 else 'processes'}")

    def minutes_of(self, crate):
        return (time.monotonic() - self.began[crate]) / 60

    def left(self):
        """Returns the words on the time left; empty until a crate had to be proved."""
        if not self.expected or len(self.plan.done) == len(self.plan.below):
            return ""
        gone = {it: self.minutes_of(it) for it in self.plan.running}
        return f", about {max(1, round(self.plan.minutes_left(gone, self.took / self.expected)))} min left"

    def end(self, pid, status):
        crate, child = self.children.pop(pid)
        child.returncode = os.waitstatus_to_exitcode(status)
        if child.returncode:
            self.stop()
            print(*self.log(crate).read_text(encoding="utf-8", errors="replace").splitlines()[-20:], sep="\n", file=sys.stderr)
            say(f"the crate {crate} could not be built")
            sys.exit(FAILED)
        minutes, expected = self.minutes_of(crate), planned(crate, self.plan.running[crate])
        # an earlier run may have proved the crate: its minutes say nothing about the pace
        if minutes > expected / 4:
            self.took += minutes
            self.expected += expected
        self.plan.end(crate)
        self.copies.give_back(crate)
        return f"{crate}: built in {int(minutes)} min {int(minutes * 60) % 60} s; {len(self.plan.done)} of {len(self.plan.below)}"

    def stop(self):
        while self.children:
            pid, (_, child) = self.children.popitem()
            os.killpg(pid, signal.SIGTERM)
            child.wait()

    def run(self):
        self.begin()
        while self.children:
            say(f"{self.end(*os.wait())}{self.left()}")
            self.begin()
        if self.plan.waiting:
            say(f"these crates stand on one another: {' '.join(sorted(self.plan.waiting))}")
            sys.exit(FAILED)


def main():
    below = crates_below((TOP / "crates.txt").read_text(encoding="utf-8").splitlines())
    unknown = [it for it in sys.argv[1:] if it not in below]
    if unknown or len(sys.argv) < 2:
        sys.exit(__doc__)
    for it in (signal.SIGTERM, signal.SIGHUP):
        signal.signal(it, lambda number, _: sys.exit(128 + number))
    (TOP / "out").mkdir(exist_ok=True)
    with tempfile.TemporaryDirectory(prefix="build-", dir=TOP / "out", ignore_cleanup_errors=True) as room:
        build = Build(wanted_of(below, sys.argv[1:]), sys.argv[1:], room)
        try:
            build.run()
        except KeyboardInterrupt:
            sys.exit(128 + signal.SIGINT)
        finally:
            build.stop()


if __name__ == "__main__":
    main()
