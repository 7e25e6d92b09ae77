#!/usr/bin/env python3
"""Where the time of .ci/run goes: `watch` looks once a second at the processes of `rt ci` below the shell PARENT, until the shell ends or ends it, and writes a
table to a file outside the repository; `print` shows that of the last run on this machine, or of FILE.
usage: gate_time.py watch PARENT
       gate_time.py print [FILE]"""
import contextlib
import json
import os
import re
import signal
import stat
import sys
import tempfile
import time

FOLDER = f"{os.environ.get('TMPDIR') or '/tmp'}/ratelimit-gate"
# (a seed is the check that a crate's edits begin with, and the one that looks at their end whether it still holds)
PARTS = ("proof", "seed", "edits", "tests", "program")
TICK = os.sysconf("SC_CLK_TCK")


class Ended(Exception):
    """The shell ended the watch, or ended itself."""


def process(pid):
    """Returns a process's parent, when it began, its own time and that of its children that have ended, in seconds."""
    with open(f"/proc/{pid}/stat", encoding="utf-8", errors="replace") as it:
        words = it.read().rpartition(")")[2].split()
    return int(words[1]), int(words[19]), (int(words[11]) + int(words[12])) / TICK, (int(words[13]) + int(words[14])) / TICK


def processes():
    """Returns what process tells of each process, by its id."""
    found = {}
    for name in os.listdir("/proc"):
        if name.isdigit():
            with contextlib.suppress(OSError, ValueError, IndexError):
                found[int(name)] = process(name)
    return found


def words_of(pid):
    with contextlib.suppress(OSError):
        with open(f"/proc/{pid}/cmdline", encoding="utf-8", errors="replace") as it:
            return it.read().split("\0")[:-1]
    return []


def folder_of(pid):
    with contextlib.suppress(OSError):
        return os.readlink(f"/proc/{pid}/cwd")
    return ""


def busy():
    """Returns the seconds that the machine's processors have worked, for whomever."""
    with open("/proc/stat", encoding="utf-8") as it:
        user, nice, system, _, _, *rest = [int(word) for word in it.readline().split()[1:9]]
    return (user + nice + system + sum(rest)) / TICK


def work_of(words, folder):
    """Returns the crate and the part that a process of rt works for, or None where it doesn't tell."""
    after = lambda flag: words[words.index(flag) + 1] if flag in words[:-1] else ""
    ran = [it[1] for it in (re.search(r"/rt-run-\d+-[^/]*/bin/(\w+?)(?:\.\S*)?$", word) for word in words) if it]
    if ran:
        name = ran[0].removesuffix("_tests")
        return name, "program" if name == ran[0] else "tests"
    command, crate = os.path.basename(words[0]) if words else "", after("--crate-name")
    if command == "rattle-link":
        made = os.path.basename(after("-o"))
        return os.path.basename(folder), "tests" if made == f"{os.path.basename(folder)}_tests" else "program"
    if command != "rattle" or not crate:
        return None
    if "--test" in words:
        return crate, "tests"
    if "--incremental" in words:
        return crate, "seed" if after("--incremental").endswith("/seed") else "edits"
    if os.path.basename(folder).startswith("rt-edit-"):
        return crate, "edits"
    return crate, "program" if "--crate-checked" in words else "proof"


def script_of(words, _):
    """Returns the script that a process of .ci/run itself is, as a crate of its own, or None where it is none."""
    return (os.path.basename(words[1]), "program") if len(words) == 2 and words[1].endswith(".sh") else None


class Watch:
    def __init__(self, parent):
        self.parent, self.rt, self.began, self.busy, self.loads = parent, None, time.time(), busy(), []
        # what runs now, by process: its crate and part, when it was first and last seen, and its time so far
        self.at_work = {}
        # what has ended, by crate and part: the number of processes, their time, how long they ran, and from when to when
        self.rows = {}
        self.itself = self.ended = 0

    def look(self):
        if os.getppid() != self.parent:
            raise Ended
        now, every = time.time() - self.began, processes()
        with contextlib.suppress(OSError):
            self.loads.append(os.getloadavg()[0])
        below = {}
        for pid, it in every.items():
            below.setdefault(it[0], []).append(pid)
        if self.rt not in below.get(self.parent, []):
            is_rt = lambda words: any(os.path.basename(a) == "rt" and b == "ci" for a, b in zip(words, words[1:]))
            self.rt = next((it for it in below.get(self.parent, []) if is_rt(words_of(it))), None)
        time_of = lambda pid: every[pid][2] + every[pid][3] + sum(time_of(it) for it in below.get(pid, []))
        seen = set()
        for pid in below.get(self.rt, []):
            seen.add(self.note(pid, every[pid], now, time_of(pid), work_of))
        for pid in below.get(self.parent, []):
            if pid not in (self.rt, os.getpid()):
                seen.add(self.note(pid, every[pid], now, time_of(pid), script_of))
        gone = [it for it in self.at_work if it not in seen]
        if self.rt in every:
            # (read after its children: what isn't seen above had ended by then)
            with contextlib.suppress(OSError, ValueError, IndexError):
                every[self.rt] = process(self.rt)
            self.itself, ended = every[self.rt][2:]
            # what a process took after it was last seen, and what ran too short to be seen, is its share of the rest
            rest = ended - self.ended - sum(self.at_work[it][3] for it in gone if it[2] == self.rt)
            last = [it for it in gone if it[2] == self.rt and self.at_work[it][0]]
            for it in last:
                self.at_work[it][3] += max(rest, 0) / len(last)
            self.ended += sum(self.at_work[it][3] for it in gone if it[2] == self.rt)
        for it in gone:
            self.end(it)

    def note(self, pid, found, now, much, tells):
        key = pid, found[1], found[0]
        known = self.at_work.setdefault(key, [None, now, now, 0])
        if not known[0]:
            known[0] = tells(words_of(pid), folder_of(pid))
        known[2], known[3] = now, max(known[3], much)
        return key

    def end(self, key):
        work, first, last, much = self.at_work.pop(key)
        if work or much:
            row = self.rows.setdefault(work or ("", "other"), [0, 0, 0, first, last])
            self.rows[work or ("", "other")] = [row[0] + 1, row[1] + much, row[2] + last - first, min(row[3], first), max(row[4], last)]

    def write(self, file, is_whole):
        rows = {it: [*row] for it, row in self.rows.items()}
        told = {"top": os.getcwd(), "begun": time.strftime("%Y-%m-%d %H:%M", time.localtime(self.began)), "whole": is_whole}
        told |= {"seconds": time.time() - self.began, "processors": len(os.sched_getaffinity(0)), "busy": busy() - self.busy}
        told |= {"load": sum(self.loads) / max(len(self.loads), 1), "rt": self.itself, "rows": [[*it, *row] for it, row in rows.items()]}
        with tempfile.NamedTemporaryFile("w", dir=FOLDER, prefix="new-", delete=False, encoding="utf-8") as it:
            json.dump(told, it)
        os.replace(it.name, file)


def watch(parent):
    def end(*_):
        # (whatever it does then, it ends)
        signal.alarm(3)
        raise Ended

    signal.signal(signal.SIGTERM, end)
    os.makedirs(FOLDER, 0o700, exist_ok=True)
    found = os.lstat(FOLDER)
    if not stat.S_ISDIR(found.st_mode) or found.st_uid != os.geteuid():
        return
    file, it = f"{FOLDER}/{time.strftime('%Y%m%d-%H%M%S')}-{os.getpid()}.json", Watch(parent)
    try:
        for number in range(24 * 3600):
            it.look()
            if number % 60 == 59:
                it.write(file, False)
            time.sleep(1)
    except Ended:
        pass
    for key in [*it.at_work]:
        it.end(key)
    it.write(file, True)


def show(file=None):
    files = [] if file or not os.path.isdir(FOLDER) else sorted(it for it in os.listdir(FOLDER) if re.fullmatch(r"\d+-\d+-\d+\.json", it))
    if not file and not files:
        print(f"no run of .ci/run has left a table in {FOLDER}", file=sys.stderr)
        return 1
    with open(file or f"{FOLDER}/{files[-1]}", encoding="utf-8") as it:
        told = json.load(it)
    rows, crates = {(crate, part): row for crate, part, *row in told["rows"]}, {}
    for (crate, part), row in rows.items():
        if part != "other":
            crates[crate] = crates.get(crate, 0) + row[1]
    ours = sum(row[1] for row in rows.values()) + told["rt"]
    most = told["processors"] * told["seconds"]
    print(f".ci/run in {told['top']}, begun {told['begun']}{'' if told['whole'] else ', not at its end'}: {told['seconds'] / 60:.1f} minutes on {told['processors']} processors")
    print(f"processors: {100 * ours / most:.0f} % at the gate's work, {100 * max(told['busy'] - ours, 0) / most:.0f} % at other work; load {told['load']:.1f} on average")
    print("processor seconds, and minutes by the clock summed over processes that ran beside one another:\n")
    print(f"{'':22}" + "".join(f"{it:>16}" for it in (*PARTS[:2], "edits (number)", *PARTS[3:], "all")))
    cell = lambda row, count="": f"{'':>16}" if not row else f"{row[1]:>8.0f} {f'{row[2] / 60:.1f}{count}':>7}"
    total = lambda found: [sum(it[at] for it in found) for at in range(3)] if found else None
    for crate in sorted(crates, key=lambda it: -crates[it]):
        own = [rows.get((crate, it)) for it in PARTS]
        cells = [cell(it, f" ({it[0]})" if it and part == "edits" else "") for part, it in zip(PARTS, own)]
        print(f"{crate:22}" + "".join(cells) + cell(total([it for it in own if it])))
    print()
    for part in PARTS:
        found = [row for (_, it), row in rows.items() if it == part]
        if found:
            sums = total(found)
            print(f"{part:12}{sums[1]:>8.0f} s {100 * sums[1] / ours:>3.0f} % {sums[2] / 60:>8.1f} min, from minute {min(it[3] for it in found) / 60:.1f} to {max(it[4] for it in found) / 60:.1f}")
    other = sum(row[1] for (_, it), row in rows.items() if it == "other")
    print(f"{'rt itself':12}{told['rt']:>8.0f} s {100 * told['rt'] / ours if ours else 0:>3.0f} %" + (f"\n{'other':12}{other:>8.0f} s" if other >= 0.5 else ""))
    return 0


if __name__ == "__main__":
    if sys.argv[1:2] == ["watch"] and len(sys.argv) == 3:
        sys.exit(watch(int(sys.argv[2])))
    if sys.argv[1:2] == ["print"] and len(sys.argv) <= 3:
        sys.exit(show(*sys.argv[2:]))
    sys.exit(__doc__)
