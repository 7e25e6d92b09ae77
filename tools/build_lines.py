#!/usr/bin/env python3
"""Runs `rt ci` in COPY, a folder with the crates of one program, and prints one line a crate as it is proved, and the log of each that isn't. Paths in a
log are shown as those of TOP, which was copied. It ends with 0 where the program was proved and built.
The lowest crates, beside which next to nothing else can be proved, come first, in FIRST, a folder that isn't there yet: rt gives a check two jobs there,
and one after that.
It ends when the program is `linked` by LLVM, or when rt has built it a second time and `kept` it.
usage: build_lines.py COPY FIRST TOP PROGRAM linked|kept"""
import contextlib
import os
import queue
import re
import shutil
import signal
import subprocess
import sys
import threading
import time

# The memory that a check takes at most.
EACH = 3_000_000_000


def number_in(file, pattern, default):
    try:
        with open(file, encoding="utf-8") as it:
            found = re.search(pattern, it.read())
        return int(found[1]) if found else default
    except OSError:
        return default


def lanes():
    """Returns how many checks run side by side, each with one job: as many as there are processors, and memory."""
    found = len(os.sched_getaffinity(0))
    period = number_in("/sys/fs/cgroup/cpu.max", r"^\d+ (\d+)", 1)
    found = min(found, number_in("/sys/fs/cgroup/cpu.max", r"^(\d+) ", found * period) // period)
    free = 1024 * number_in("/proc/meminfo", r"MemAvailable:\s+(\d+)", 0)
    return max(1, min(found, free // EACH))


def say(text):
    print(text, file=sys.stderr, flush=True)


def crates_in(folder):
    """Returns the crates that crates.txt names, with those that each stands on, directly or not."""
    with open(f"{folder}/crates.txt", encoding="utf-8") as it:
        named = {head.split()[0]: words.split() for head, _, words in (line.partition(":") for line in it if line.strip())}
    below = {}

    def all_below(name):
        if name not in below:
            below[name] = set()
            for it in named[name]:
                if it in named:
                    below[name] |= {it, *all_below(it)}
        return below[name]

    return {name: all_below(name) for name in named}


def first_of(below, side_by_side):
    """Returns the crates that are next to alone at the start, and those that they stand on: more stand on each than it stands on, and all but fewer
    than SIDE_BY_SIDE wait for it or are waited for."""
    found = set()
    for name in below:
        above = sum(name in it for it in below.values())
        if above > len(below[name]) and len(below) - 1 - above - len(below[name]) < side_by_side:
            found |= {name, *below[name]}
    return found


def take_first(copy, first, names):
    """Makes FIRST, a folder with these crates of COPY alone."""
    os.makedirs(f"{first}/.git")
    os.mkdir(f"{first}/crates")
    for name in names:
        shutil.copytree(f"{copy}/crates/{name}", f"{first}/crates/{name}")
    with open(f"{copy}/crates.txt", encoding="utf-8") as it, open(f"{first}/crates.txt", "w", encoding="utf-8") as to:
        to.writelines(line for line in it if line.strip() and line.partition(":")[0].split()[0] in names)
    if os.path.exists(f"{copy}/HANDLES"):
        shutil.copy(f"{copy}/HANDLES", first)


class Build:
    def __init__(self, names, top, program, is_kept):
        self.names, self.top, self.program, self.is_kept = names, top, program, is_kept
        # when each crate was begun, and which are proved, refused, or stand on one that is refused
        self.begun, self.proved, self.refused, self.above = {}, [], [], []
        # the crate whose log is read and the log, and what rt prints besides logs
        self.of, self.log, self.rest = None, [], []

    def begin(self, copy):
        """Takes what rt prints from here on as that of a run in COPY."""
        self.copy, self.log, self.rest = copy, [], []

    def look(self):
        """Notes which crates were begun: rt makes the folder out/ of each then."""
        for name in self.names:
            if name not in self.begun and os.path.isdir(f"{self.copy}/crates/{name}/out"):
                self.begun[name] = time.monotonic()

    def is_proved(self, name, how):
        if name in self.proved:
            return
        self.proved.append(name)
        ended = {*self.proved, *self.refused, *self.above}
        left = len(self.names) - len(ended)
        at_work = [it for it in self.names if it in self.begun and it not in ended]
        rest = f"; {left} left" if left else ""
        rest += f", at work: {', '.join(at_work)}" if at_work else ""
        say(f"{len(self.proved)} of {len(self.names)}: {name}, {how}{rest}")

    def is_refused(self, name):
        if name not in self.refused:
            self.refused.append(name)
        for line in self.log:
            say(line)

    def take(self, line):
        """Takes a line of what rt prints. It prints a crate's log as a whole, when its check has ended."""
        line = line.replace(self.copy, self.top)
        if self.of is not None:
            what, _, name = self.of, self.log.append(line), self.of.removesuffix(": its tests")
            is_of_tests = what != name
            if line in (f"rt: {name} proved", f"rt: {what} are proved"):
                if not is_of_tests:
                    self.is_proved(name, f"{time.monotonic() - self.begun.get(name, time.monotonic()):.0f} s")
                self.of, self.log = None, []
            elif line in (f"rt: {name} NOT PROVED", f"rt: {what} are NOT PROVED"):
                self.is_refused(name)
                self.of, self.log = None, []
            return
        if line.startswith("== "):
            self.of, self.log = line[3:], [line]
            return
        found = re.match(r"rt: (\w+) (is kept: |NOT PROVED)(: its library)?", line)
        if found and found[2] == "is kept: ":
            self.is_proved(found[1], "kept")
        elif found and found[3]:
            self.above.append(found[1])
        else:
            self.rest.append(line)
            if found:
                self.log, self.rest = self.rest, []
                self.is_refused(found[1])
                self.log = []
            elif line.startswith("rt: note: "):
                say(line)

    def tell(self):
        """Says why the program isn't built."""
        if self.refused:
            more = f"; not tried, since they stand on these: {', '.join(self.above)}" if self.above else ""
            say(f"not proved: {', '.join(self.refused)}{more}")
            return
        for line in [*self.log, *self.rest]:
            say(line)


def compiles_again(rt):
    """Whether rt compiles the program a second time, by Rattle's own compiler: it was proved then, and LLVM's program is linked."""
    for name in os.listdir("/proc"):
        with contextlib.suppress(OSError):
            if name.isdigit():
                with open(f"/proc/{name}/stat", encoding="utf-8", errors="replace") as it:
                    parent = it.read().rpartition(")")[2].split()[1]
                with open(f"/proc/{name}/cmdline", encoding="utf-8", errors="replace") as it:
                    if int(parent) == rt.pid and "\0--backend\0rattle\0" in it.read():
                        return True
    return False


class Stopped(Exception):
    """A signal came, or what started this has ended."""


def started(copy, jobs):
    """Starts `rt ci` in COPY, and returns it with a queue of the lines that it prints, and None behind them."""
    how = {"cwd": copy, "stdin": subprocess.DEVNULL, "stdout": subprocess.PIPE, "stderr": subprocess.STDOUT, "text": True, "errors": "replace"}
    # (a shell has what it starts beside itself ignore the signal)
    heeds = lambda: signal.signal(signal.SIGINT, signal.SIG_DFL)
    # (what rt leaves where it is stopped goes with the copy)
    env = {**os.environ, "RT_JOBS": jobs or "", "TMPDIR": os.path.dirname(copy)}
    rt, lines = subprocess.Popen(["rt", "ci"], preexec_fn=heeds, env=env, **how), queue.Queue()

    def read():
        for line in rt.stdout:
            lines.put(line.rstrip("\n"))
        lines.put(None)

    threading.Thread(target=read, daemon=True).start()
    return rt, lines


def run(build, copy, jobs, is_stopped):
    """Runs `rt ci` in COPY, by so many checks side by side with one job each, or where JOBS is None, as rt itself decides. Returns whether the program
    was built, or in a folder without that, whether all was proved."""
    build.begin(copy)
    rt, lines = started(copy, jobs)
    line, has_program, is_built = "", os.path.isdir(f"{copy}/crates/{build.program}"), False
    while line is not None and not is_built:
        try:
            line = lines.get(timeout=0.5)
        except queue.Empty:
            line = ""
        build.look()
        if line:
            build.take(line)
        is_linked = not build.is_kept and build.program in build.begun and compiles_again(rt)
        is_built = build.program in build.proved or is_linked
        if is_stopped():
            # (rt's checks end with it)
            rt.terminate()
            rt.wait()
            raise Stopped
    if is_built:
        build.is_proved(build.program, f"{time.monotonic() - build.begun.get(build.program, time.monotonic()):.0f} s")
        rt.terminate()
    try:
        rt.wait(10 if is_built else None)
    except subprocess.TimeoutExpired:
        rt.kill()
        rt.wait()
    return is_built or not has_program and not rt.returncode


def main(copy, first, top, program, until):
    below, side_by_side, parent, signals = crates_in(copy), lanes(), os.getppid(), []
    build, lowest = Build([*below], top, program, until == "kept"), first_of(below, side_by_side)
    for it in (signal.SIGINT, signal.SIGTERM, signal.SIGHUP):
        if signal.getsignal(it) is not signal.SIG_IGN:
            signal.signal(it, lambda number, _: signals.append(number))
    is_stopped = lambda: signals or os.getppid() != parent
    jobs = os.environ.get("RT_JOBS") or str(side_by_side)
    try:
        if lowest and not os.environ.get("RT_JOBS"):
            take_first(copy, first, lowest)
            if not run(build, first, None, is_stopped):
                build.tell()
                return 1
        if run(build, copy, jobs, is_stopped):
            return 0
    except Stopped:
        say("stopped; what was proved is kept, and the next build goes on from there")
        return 128 + (signals or [signal.SIGTERM])[0]
    except OSError as error:
        say(f"rt, the toolchain's command, can't be started: {error.strerror}")
        return 1
    build.tell()
    return 1


if __name__ == "__main__":
    sys.exit(main(*sys.argv[1:]))
