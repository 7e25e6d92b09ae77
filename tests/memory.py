#!/usr/bin/env python3
"""Runs the program with one allocation refused, for each of its allocations in turn; tests/memory.sh runs it.

Usage: memory.py PROGRAM LIBRARY [COMMAND..]    LIBRARY is tests/fail_alloc.c, built

A run ends with status 7 after a prefix of its output in whole lines, or it did without that allocation and its output is whole. A server
goes on: in the place of one answer stands 500, and the same check is then answered with the counts that it would have had; a cell that it
had pinned is free once its window is over. Where the system has no random bytes, a command isn't begun.
"""
import json
import os
import re
import socket
import subprocess
import sys
import tempfile
import time

import run_check

HERE = os.path.dirname(os.path.abspath(__file__))
# After so many seconds without an answer there is none.
WAITS = 3
EXAMPLES = os.path.join(HERE, "..", "examples")


class Fault(Exception):
    pass


def want(holds, text):
    if not holds:
        raise Fault(text)


def config(limit, unit="MINUTE"):
    return json.dumps({"domain": "d", "descriptors": [{"key": "k", "rateLimit": {"unit": unit, "requestsPerUnit": limit}}]})


def request(value):
    return json.dumps({"domain": "d", "descriptors": [{"entries": [{"key": "k", "value": value}]}]})


def check(value):
    return f'{{"check":{request(value)}}}\n'


RELOADED = check("a") * 2 + f'{{"reload":[{config(5)}]}}\n' + check("a")
ONE_CELL = check("a") + check("b") + '{"tick":60}\n' + check("b")
MIXED = RELOADED + "".join(map(check, "abcabc")) + '{"tick":65}\n{"tick":1.5}\n' + "".join(map(check, "abcd"))


class Program:
    def __init__(self, path, library, folder):
        self.path, self.library, self.folder = path, library, folder

    def file(self, name, text):
        path = os.path.join(self.folder, name)
        with open(path, "w", encoding="utf-8") as file:
            file.write(text)
        return path

    def start(self, words, failing, given=subprocess.DEVNULL, more=()):
        names = {"LD_PRELOAD": self.library, "FAIL_ALLOC": str(failing), "ALLOCATIONS": os.path.join(self.folder, "allocations"), **dict(more)}
        return subprocess.Popen([self.path, *words], stdin=given, stdout=subprocess.PIPE, stderr=subprocess.PIPE, env={**os.environ, **names})

    def run(self, words, failing, given, more=()):
        child = self.start(words, failing, subprocess.PIPE, more)
        out, err = child.communicate(given.encode(), 60)
        return child.returncode, out, err

    def allocations(self):
        with open(os.path.join(self.folder, "allocations"), "rb") as file:
            return int.from_bytes(file.read(), sys.byteorder)

    def runs(self, words, given=""):
        """The whole output, and how each run ends that lacks one allocation."""
        status, whole, err = self.run(words, 0, given)
        want((status, err) == (0, b""), f"status {status} with all memory: {err!r}")
        count = self.allocations()
        want(count > 0, "no allocation was seen")
        return whole, (self.run(words, number, given) for number in range(1, count + 1))


def swept(program, words, given="", is_whole=None):
    """How many allocations there are, and how many of them the run can't do without."""
    whole, runs = program.runs(words, given)
    count = needed = 0
    for status, out, err in runs:
        count += 1
        if status == 7:
            needed += 1
            want(err == b"ratelimit: out of memory\n", f"allocation {count}: the text {err!r}")
            want(out == b"" or out.endswith(b"\n"), f"allocation {count}: a line is cut")
            want(is_whole is not None or whole.startswith(out), f"allocation {count}: {out!r} is no prefix of the output")
        else:
            want((status, err) == (0, b""), f"allocation {count}: status {status}, {err!r}")
            want(out == whole if is_whole is None else is_whole(out), f"allocation {count}: done with {out!r}")
    want(needed > 0, "no run lacked any allocation")
    return f"{count} allocations, {needed} of them needed"


def unseeded(program, commands):
    """Words that are a command end with 7 and a line of their own, others as ever."""
    for words in commands:
        found = program.run(words, 0, check("a"), {"NO_RANDOM": "1"})
        want(found == (7, b"", b"ratelimit: no random bytes\n"), f"{words} without random bytes: {found}")
    for words in [], ["drive"], ["drive", "--cells", "0", "a.json"], ["serve", "a.json"]:
        found = program.run(words, 0, "", {"NO_RANDOM": "1"})
        want(found == (1, b"", b"ratelimit: usage\n"), f"{words} without random bytes: {found}")
    return f"{len(commands)} commands not begun"


def is_lawful(first, script, workers):
    """Whether an output is a lawful run of a script whose configuration is given, and its totals."""

    class Options:
        cells, start, global_shadow = 262144, 0, False

    Options.workers = workers

    def judge(out):
        lines = [json.loads(line) for line in out.splitlines()]
        read = run_check.Script(script)
        count = len(read.lines)
        try:
            run_check.Run(run_check.Config([json.loads(first)]), read, lines[:count], Options).check(lines[count:])
        except run_check.Fault as fault:
            raise Fault(str(fault)) from None
        return True

    return judge


# The server.


def asked(port, value):
    """The status of a check, and how many hits remain; None where the connection gave no answer."""
    body = request(value)
    head = f"POST /json HTTP/1.1\r\nConnection: close\r\nContent-Length: {len(body)}\r\n\r\n"
    out = b""
    try:
        with socket.create_connection(("127.0.0.1", port), WAITS) as link:
            link.sendall((head + body).encode())
            while piece := link.recv(65536):
                out += piece
    except OSError:
        pass
    found = re.match(rb"HTTP/1\.1 (\d+) ", out)
    if not found:
        return None
    remaining = re.search(rb'"limitRemaining":(\d+)', out)
    return int(found[1]), int(remaining[1]) if remaining else 0


def port_of(child):
    found = re.match(rb'\{"listening":(\d+)\}\n', child.stdout.readline())
    return int(found[1]) if found else None


class Served:
    """Three checks of a limit of 10 on a server that lacks an allocation, each asked until it is answered, and how the server ends."""

    def __init__(self, program, words, failing, unit):
        self.statuses, self.remaining, self.other = [], [], None
        child = program.start(["serve", "--port", "0", *words, program.file("config.json", config(10, unit))], failing)
        try:
            self.port = port_of(child)
            if self.port is not None:
                self.ask(child, unit)
            self.status = child.wait(60)
        finally:
            child.kill()
            child.wait()

    def ask(self, child, unit):
        while len(self.remaining) < 3 and child.poll() is None and len(self.statuses) < 8:
            found = asked(self.port, "a")
            self.statuses.append(found[0] if found else None)
            if found and found[0] == 200:
                self.remaining.append(found[1])
        if unit == "SECOND" and 500 in self.statuses:
            time.sleep(1.05)
            self.other = asked(self.port, "b")
        # The connections that are left are ended without a byte, until the server has had all of them.
        while child.poll() is None:
            try:
                socket.create_connection(("127.0.0.1", self.port), 10).close()
            except OSError:
                pass
            time.sleep(0.005)


def judge_served(served, unit):
    """Whether 500 stood in the place of an answer."""
    statuses = [it for it in served.statuses if it is not None]
    if served.status == 7:
        want(500 not in statuses, f"the server ended after it had answered 500: {served.statuses}")
        return False
    want(served.status == 0, f"the server ends with {served.status}")
    want(set(statuses) <= {200, 500} and statuses.count(500) <= 1, f"answered {served.statuses}")
    want(len(served.remaining) == 3, f"three checks are answered {served.statuses}")
    if unit == "DAY":
        # An answer that found no memory to be printed was charged as well.
        first, second, third = served.remaining
        gaps = sorted((10 - first, first - second, second - third))
        want(gaps == [1, 1, 1] or (gaps == [1, 1, 2] and 500 in statuses), f"{served.remaining} remain")
    if served.other is not None:
        want(served.other[0] == 200, f"once the window is over another counter is answered {served.other}")
    return 500 in statuses


def serving(program, unit, words):
    whole = Served(program, words, 0, unit)
    want(whole.status == 0 and whole.statuses == [200] * 3, f"with all memory {whole.statuses}, status {whole.status}")
    count = program.allocations()
    replaced, ended, faults = 0, 0, []
    for failing in range(1, count + 1):
        try:
            served = Served(program, words, failing, unit)
            replaced += judge_served(served, unit)
            ended += served.status == 7
        except Fault as fault:
            faults.append(f"allocation {failing}: {fault}")
    want(not faults, "; ".join(faults))
    want(replaced > 0, "500 stood nowhere")
    return f"{count} allocations, {replaced} answered 500, {ended} ended the server before its first answer"


def scenarios(program):
    one, two = program.file("one.json", config(1)), program.file("two.json", config(2))
    quota = ["quota", "--settings", os.path.join(EXAMPLES, "quota.json"), "--workers", "1", os.path.join(EXAMPLES, "quota.jsonl")]
    pool = ["pool", "--pools", os.path.join(EXAMPLES, "pool.json"), os.path.join(EXAMPLES, "reports.jsonl")]
    printed = program.file("run", program.run(["drive", one], 0, RELOADED)[1].decode())
    with open(os.path.join(EXAMPLES, "requests.jsonl"), encoding="utf-8") as file:
        requests = file.read()
    yield "drive, with a reload", lambda: swept(program, ["drive", "--cells", "16", one], RELOADED)
    yield "drive, over one cell", lambda: swept(program, ["drive", "--cells", "1", two], ONE_CELL)
    yield (
        "drive, on two workers",
        lambda: swept(program, ["drive", "--workers", "2", two], MIXED, is_lawful(config(2), MIXED, 2)),
    )
    yield "quota", lambda: swept(program, quota)
    yield "quota, two streams on two workers", lambda: swept(program, [*quota[:3], "--workers", "2", quota[-1], quota[-1]])
    yield "pool", lambda: swept(program, pool)
    yield "lookup", lambda: swept(program, ["lookup", os.path.join(EXAMPLES, "gateway.json")], requests)
    yield "audit", lambda: swept(program, ["audit", "--run", printed, one], RELOADED)
    yield "gen", lambda: swept(program, ["gen", "1", "100"])
    begun = [quota, pool, ["drive", one], ["lookup", one], ["audit", "--run", printed, one], ["gen", "1", "100"], ["--version"]]
    begun.append(["serve", "--port", "0", "--connections", "1", one])
    yield "random, none", lambda: unseeded(program, begun)
    yield "serve", lambda: serving(program, "DAY", ["--connections", "9", "--workers", "1", "--cells", "16"])
    yield "serve, two workers", lambda: serving(program, "DAY", ["--connections", "9", "--workers", "2", "--cells", "16"])
    yield "serve, over one cell", lambda: serving(program, "SECOND", ["--connections", "10", "--workers", "1", "--cells", "1"])


def main():
    failed = 0
    words = sys.argv[3:]
    with tempfile.TemporaryDirectory() as folder:
        program = Program(os.path.abspath(sys.argv[1]), os.path.abspath(sys.argv[2]), folder)
        for name, run in scenarios(program):
            if words and name.split(",")[0] not in words:
                continue
            try:
                print(f"ok {name}: {run()}", flush=True)
            except Fault as fault:
                failed = 1
                print(f"FAILED {name}: {fault}", flush=True)
    return failed


if __name__ == "__main__":
    sys.exit(main())
