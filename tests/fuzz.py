#!/usr/bin/env python3
"""Made-up and mutated input for the program, and what the formats say of it; tests/fuzz.sh runs it.

Usage: fuzz.py PROGRAM CASES SEED [KIND..]

A case is a line of a script, of a stream or of reports, a file, a connection, or a printed run. Each is read by tests/fuzz_model.py too,
so that each refusal is compared with its number and its place; runs are judged by tests/run_check.py as well. Of each process
it is asked that it ends by itself with a status that docs/COMMANDS.md lists, with no output where a refusal leaves none, after at most 2
seconds of the processor's time, and with at most 20 times the bytes of its input in memory above what it has with a small one.

It prints a line for each kind, and for each fault the folder in which the input stands, and ends with 1 if there was any.
"""
import json
import os
import random
import re
import shutil
import signal
import socket
import subprocess
import sys
import tempfile
import threading
import time

import fuzz_model as model
import fuzz_mutate as mutate
import run_check

MOST_SECONDS = 2.0
HANGS = 60
MOST_FAULTS = 10
MOST_TIMES = 20
# What the allocator, the pages of the program and the measure itself vary by.
SLACK = 1 << 20
TIME = "/usr/bin/time"


class Fault(Exception):
    pass


def want(holds, text):
    if not holds:
        raise Fault(text)


class Ran:
    def __init__(self, status, usage, memory, out, err):
        self.status, self.out, self.err = status, out, err
        self.seconds, self.memory = usage.ru_utime + usage.ru_stime, memory


class Program:
    """The program in a folder of its own, into which each input is written."""

    def __init__(self, path, folder):
        self.folder, self.floors, self.runs, self.slowest = folder, {}, 0, 0.0
        # A process begins with what its parent has in memory, so a small one stands between.
        self.words = [TIME, "-q", "-f", "%M", "-o", "memory", path]

    def file(self, name, data=None):
        path = os.path.join(self.folder, name)
        if data is None:
            with open(path, "rb") as file:
                return file.read()
        with open(path, "wb") as file:
            file.write(data)
        return path

    def start(self, words):
        streams = [open(os.path.join(self.folder, name), mode) for name, mode in (("in", "rb"), ("out", "wb"), ("err", "wb"))]
        child = subprocess.Popen(
            [*self.words, *words], stdin=streams[0], stdout=streams[1], stderr=streams[2], cwd=self.folder, start_new_session=True
        )
        for stream in streams:
            stream.close()
        child.timer = threading.Timer(HANGS, os.killpg, (child.pid, signal.SIGKILL))
        child.timer.start()
        return child

    def end(self, child):
        _, status, usage = os.wait4(child.pid, 0)
        child.timer.cancel()
        child.returncode = os.waitstatus_to_exitcode(status)
        self.runs += 1
        status = child.returncode if child.returncode < 128 else 128 - child.returncode
        ran = Ran(status, usage, int(self.file("memory") or 0) * 1024, self.file("out"), self.file("err"))
        self.slowest = max(self.slowest, ran.seconds)
        return ran

    def run(self, words, files, given=b""):
        """Runs these words over these files by name, and asks for the bounds that hold of every input."""
        for name, data in files.items():
            self.file(name, data)
        self.file("in", given)
        ran = self.end(self.start(words))
        self.bounds(ran, words, sum(map(len, files.values())) + len(given))
        return ran

    def bounds(self, ran, words, size):
        want(ran.status != -signal.SIGKILL, f"killed, or not ended after {HANGS} seconds")
        want(ran.status >= 0, f"stopped by signal {-ran.status}")
        want(ran.seconds <= MOST_SECONDS, f"{ran.seconds:.1f} seconds of the processor's time")
        command = words[0]
        floor = self.floors.setdefault(command, ran.memory)
        most = floor + MOST_TIMES * size + SLACK
        want(ran.memory <= most, f"{ran.memory} bytes of memory for {size} of input, where a small one takes {floor}")


def compact(value):
    return json.dumps(value, sort_keys=True, separators=(",", ":"), ensure_ascii=False).encode()


def printed(data):
    """The printed lines: compact JSON, names in order, each ended by a line feed."""
    lines = data.split(b"\n")
    want(lines.pop() == b"", "the output doesn't end with a line feed")
    values = [json.loads(line) for line in lines]
    for line, value in zip(lines, values):
        want(compact(value) == line, f"a printed line isn't compact: {line!r}")
    return values


def error_text(text):
    return "".join(c if not is_control(c) else f"\\u{ord(c):04x}" for c in f"ratelimit: {text}") + "\n"


def is_control(c):
    return ord(c) < 32 or 127 <= ord(c) < 160


def ends_refused(ran, status, text):
    want(ran.status == status, f"status {ran.status}, not {status}")
    want(ran.out == b"", "output beside a refusal")
    want(ran.err.decode() == error_text(text), f"the text {ran.err!r}, not {error_text(text)!r}")


def ends_done(ran):
    want(ran.status == 0, f"status {ran.status}, not 0: {ran.err!r}")
    want(ran.err == b"", f"an error text: {ran.err!r}")


CONFIG = {
    "domain": "d",
    "descriptors": [
        {"key": "k", "rateLimit": {"unit": "MINUTE", "requestsPerUnit": 2}},
        {"key": "k", "value": "a*", "rateLimit": {"unit": "SECOND", "requestsPerUnit": 1, "name": "base"}},
        {"key": "k", "value": "b", "shadowMode": True, "rateLimit": {"unit": "HOUR", "requestsPerUnit": 1}},
        {"key": "u", "rateLimit": {"unlimited": True, "name": "free", "replaces": [{"name": "base"}]}},
        {"key": "l", "descriptors": [{"key": "m", "rateLimit": {"unit": "DAY", "requestsPerUnit": 4294967295}}]},
    ],
}


class Script:
    """What the lines of a script are, in the form in which run_check.py takes them."""

    def __init__(self, data):
        self.lines, self.configs = [], []
        for text in model.lines_in(data):
            try:
                kind, value = model.line_of(text)
            except model.Refused as refused:
                self.lines.append(("bad", refused.shown()))
                continue
            if kind == "check":
                value = run_check.Check(value)
            elif kind == "reload":
                self.configs.append(run_check.Config(value))
                value = len(self.configs)
            self.lines.append((kind, value))


class Options:
    def __init__(self, workers, cells, start):
        self.workers, self.cells, self.start, self.global_shadow, self.stats = workers, cells, start, False, False

    def words(self):
        return ["--workers", str(self.workers), "--cells", str(self.cells), "--start", str(self.start)]


def lawful(script, config, lines, options):
    """Asks of printed lines whether they are a lawful run of the script and its totals."""
    records = [line for line in lines if "charged" not in line]
    first = run_check.Config(config)
    try:
        run_check.Run(first, script, records, options).check(lines[len(records) :], [])
    except run_check.Fault as fault:
        raise Fault(str(fault)) from None


def judge_script(program, data, config, options):
    """Runs a script, and judges the run by run_check.py and by `audit`."""
    files = {"config.json": compact(config)}
    ran = program.run(["drive", *options.words(), "config.json"], files, data)
    ends_done(ran)
    script, lines = Script(data), printed(ran.out)
    lawful(script, [config], lines, options)
    verdict = program.run(["audit", "--run", "run", *options.words(), "config.json"], {**files, "run": ran.out}, data)
    ends_done(verdict)
    want(verdict.out == compact({"lawful": True, "records": len(script.lines)}) + b"\n", f"audit says {verdict.out!r}")


def requests(program, rng, count):
    """Lines of scripts, mostly checks, and the same requests to `lookup`."""
    lines = [mutate.line(rng, mutate.LINES) for _ in range(count)]
    options = Options(rng.choice((1, 1, 2, 4)), rng.choice((1, 4, 64)), rng.choice((0, 59, 10**12)))
    judge_script(program, b"\n".join(lines) + rng.choice((b"", b"\n")), CONFIG, options)
    asked = [mutate.line(rng, mutate.REQUESTS) for _ in range(count // 4)]
    judge_lookup(program, b"\n".join(asked))
    return len(lines) + len(asked)


def judge_lookup(program, data):
    ran = program.run(["lookup", "config.json"], {"config.json": compact(CONFIG)}, data)
    ends_done(ran)
    config, found = run_check.Config([CONFIG]), printed(ran.out)
    texts = model.lines_in(data)
    want(len(found) == len(texts), f"{len(found)} lines for {len(texts)} requests")
    for number, (text, line) in enumerate(zip(texts, found), 1):
        try:
            request = model.request_of(text)
        except model.Refused as refused:
            want(line == {"line": number, "refused": refused.shown()}, f"{line}, not {refused.shown()}, for {text!r}")
            continue
        check = run_check.Check(request)
        rules = [config.rule(check.domain, entries, own) for entries, own, _ in check.descriptors]
        shown = [None if item is None else (item.get("limit"), item.get("unit"), item.get("shadow", False)) for item in line["found"]]
        want(shown == [None if rule is None else rule[:3] for rule in rules], f"{line} for {text!r}")


def configs(program, rng, count):
    """Configurations, as reloads of one run and some of them as files."""
    texts = [mutate.line(rng, mutate.RELOADS) for _ in range(count - 3)]
    judge_script(program, b"\n".join(texts), CONFIG, Options(1, 64, 0))
    datas = [mutate.document(rng, mutate.CONFIGS) for _ in range(3)]
    for some in (datas[:1], datas[1:]):
        names = [f"{index}.json" for index in range(len(some))]
        ran = program.run(["drive", "--cells", "1", *names], dict(zip(names, some)))
        config, refused = model.config_of(some)
        if refused is None:
            ends_done(ran)
            want(ran.out == b"", "output of an empty script")
        else:
            ends_refused(ran, 2, f"config {refused[0]}: refused {refused[1].number} at {refused[1].at}")
    return count


SETTINGS = mutate.SETTINGS[0]
POOLS = mutate.POOLS[0]


def judge_settings(program, words, files, read):
    """A refused file has exit 9 and no output; else the run is done. Answers what was read."""
    ran = program.run(words, files)
    try:
        found = read(files["settings"])
    except model.Refused as refused:
        ends_refused(ran, 9, f"settings: refused {refused.number} at {refused.at}")
        return None, None
    ends_done(ran)
    return found, ran.out


def streams(program, rng, count):
    """Lines of quota streams, and settings."""
    for settings in (compact(SETTINGS), mutate.document(rng, mutate.SETTINGS)):
        lines = mutate.timed(rng, mutate.STREAM, count // 2)
        files = {"settings": settings, "stream": b"\n".join(lines)}
        words = ["quota", "--settings", "settings", "--workers", rng.choice("14"), "stream"]
        _, out = judge_settings(program, words, files, model.settings_of)
        if out is not None:
            judge_stream(files["stream"], printed(out))
    return count


def judge_stream(data, found):
    rows = [row for row in found if "report" not in row]
    for row in found:
        want(row.get("stream") == 0, f"no line of the stream: {row}")
    texts, last = model.lines_in(data), 0
    want([row.get("line") for row in rows] == list(range(1, len(texts) + 1)), "not one output line a line")
    for text, row in zip(texts, rows):
        try:
            at, event, actions = model.stream_line_of(text)
            if at < last:
                raise model.Refused(39, "/at")
        except model.Refused as refused:
            shown = refused.shown()
            if refused.number == 39:
                shown["last"] = model.shown_duration(last)
            want(row.get("refused") == shown, f"{row}, not {shown}, for {text!r}")
            continue
        last = at
        names = {"request": ["bucket", "decision"], "response": ["actions"], "connection": ["connection"], None: []}[event]
        want(sorted(row) == sorted(["at", "line", "stream", *names]), f"{row} for {text!r}")
        want(row["at"] == model.shown_duration(at), f"the moment of {row} for {text!r}")
        want(len(row.get("actions", [])) == actions, f"the actions of {row} for {text!r}")


def reports(program, rng, count):
    """Usage reports, and pools."""
    for pools in (compact(POOLS), mutate.document(rng, mutate.POOLS)):
        lines = mutate.timed(rng, mutate.REPORTS, count // 2)
        files = {"settings": pools, "events": b"\n".join(lines)}
        found, out = judge_settings(program, ["pool", "--pools", "settings", "events"], files, model.pools_of)
        if out is not None:
            judge_reports(files["events"], found, printed(out))
    return count


def judge_reports(data, pools, rows):
    texts, last = model.lines_in(data), 0
    want([row.get("line") for row in rows] == list(range(1, len(texts) + 1)), "not one output line a line")
    for text, row in zip(texts, rows):
        try:
            at, client, usages = model.report_of(text, pools[0], last)
        except model.Refused as refused:
            want(row == {"line": row["line"], "refused": refused.shown()}, f"{row}, not {refused.shown()}, for {text!r}")
            continue
        last = at
        want(sorted(row) == ["at", "client", "line", "response"], f"{row} for {text!r}")
        want((row["at"], row["client"]) == (model.shown_duration(at), client), f"{row} for {text!r}")
        actions = row["response"]["bucketAction"]
        want([it["bucketId"]["bucket"] for it in actions] == usages, f"the buckets of {row} for {text!r}")
        want([("abandonAction" in it) for it in actions] == [it not in pools[1] for it in usages], f"the pools of {row} for {text!r}")


def runs(program, rng, count):
    """Printed runs with changes: whatever `audit` calls lawful is lawful to run_check.py too, and what isn't changed is lawful."""
    data = b"\n".join(mutate.line(rng, mutate.LINES) for _ in range(12)) + b"\n"
    options, script, files = Options(rng.choice((1, 3)), rng.choice((2, 64)), 0), Script(data), {"config.json": compact(CONFIG)}
    ran = program.run(["drive", *options.words(), "config.json"], files, data)
    ends_done(ran)
    for number in range(count):
        changed = ran.out if number == 0 else mutate.changed_run(rng, ran.out)
        files["run"] = changed
        verdict = program.run(["audit", "--run", "run", *options.words(), "config.json"], files, data)
        ends_done(verdict)
        said = printed(verdict.out)
        want(len(said) == 1, f"{len(said)} verdicts")
        judge_verdict(said[0], changed, script, options, changed == ran.out)
    return count


def judge_verdict(said, run, script, options, is_same):
    want(said.get("lawful") is True or not is_same, f"{said} of a run that isn't changed")
    if said == {"lawful": True, "records": len(script.lines)}:
        if not is_same:
            lawful(script, [CONFIG], printed(run), options)
    elif "clause" in said:
        want(said in [{"clause": n, "lawful": False} for n in (1, 2, 3, 4, 5, 6, 7, 8, 14)], f"no clause: {said}")
    else:
        lines = run.count(b"\n") + (not run.endswith(b"\n"))
        want(said in [{"lawful": False, "line": n} for n in range(1, lines + 1)], f"no line of {lines}: {said}")


# Connections.

PHRASES = {
    200: "OK",
    400: "Bad Request",
    404: "Not Found",
    405: "Method Not Allowed",
    411: "Length Required",
    413: "Payload Too Large",
    429: "Too Many Requests",
    431: "Request Header Fields Too Large",
    503: "Service Unavailable",
}
TOKEN = rb"[!#$%&'*+.^_`|~0-9A-Za-z-]+"
SURE = re.compile(rb"(?:GET|POST|PUT|HEAD) [!-~]+ HTTP/1\.[01]\r?\n(?:[A-Za-z-]+:[ -~]*\r?\n)*\r?\n")
HEAD = re.compile(rb"(" + TOKEN + rb") ([!-~\x80-\xff]+) HTTP/1\.([01])\r?\n((?:" + TOKEN + rb":[\t -~\x80-\xff]*\r?\n)*)\r?\n")


def answer(status, closes, sends_body=True, body=None, allow=None):
    """The bytes of an answer."""
    kind = "text/plain" if body is None or body == b"OK" else "application/json"
    body = PHRASES[status].encode() if body is None else body
    head = f"HTTP/1.1 {status} {PHRASES[status]}\r\nContent-Type: {kind}\r\nContent-Length: {len(body)}\r\n"
    head += f"Allow: {allow}\r\n" if allow else ""
    head += "Connection: close\r\n" if closes else ""
    return head.encode() + b"\r\n" + (body if sends_body else b"")


class Front:
    """The first request of bytes: how the connection ends there, or its answer, and what stands behind it."""

    def __init__(self, data):
        self.end, self.answer, self.check, self.closes, self.rest, self.is_sure = None, None, None, False, b"", True
        blank = re.match(rb"(?:\r?\n)*", data).end()
        found = re.compile(rb"\n\r?\n").search(data, blank)
        if found is None or found.end() > 16384:
            if len(data) >= 16384:
                self.fixed(431, True)
            else:
                self.end = "ENDED" if blank == len(data) else "CUT_SHORT"
            return
        head, behind = data[blank : found.end()], data[found.end() :]
        if head.count(b"\n") > 66:
            self.fixed(431, True)
            return
        read = HEAD.fullmatch(head)
        # What is a head is httparse's to say: of one that isn't of this simple form, 400 may be the answer too.
        self.is_sure = SURE.fullmatch(head) is not None
        if read is None:
            self.fixed(400, True)
        else:
            self.asked(read, behind)

    def fixed(self, status, closes, **more):
        self.answer, self.closes = answer(status, closes, **more), closes

    def asked(self, head, behind):
        method, target, minor = head[1], head[2].split(b"?")[0], head[3]
        fields = [line.split(b":", 1) for line in re.split(rb"\r?\n", head[4])[:-1]]
        fields = [(name.lower(), value.strip(b" \t")) for name, value in fields]
        lengths = [value for name, value in fields if name == b"content-length"]
        words = [word.strip(b" \t").lower() for name, value in fields if name == b"connection" for word in value.split(b",")]
        more = {"sends_body": method != b"HEAD"}
        if any(name == b"transfer-encoding" for name, _ in fields) or (method == b"POST" and not lengths):
            return self.fixed(411, True, **more)
        if len(lengths) > 1 or any(not re.fullmatch(rb"[0-9]{1,10}", value) for value in lengths):
            return self.fixed(400, True, **more)
        length = int(lengths[0]) if lengths else 0
        if length > 1048576:
            return self.fixed(413, True, **more)
        if len(behind) < length:
            self.end = "CUT_SHORT"
            return None
        self.rest, closes = behind[length:], minor == b"0" or b"close" in words
        allowed = {b"/json": b"POST", b"/healthcheck": b"GET"}.get(target)
        if allowed is None:
            return self.fixed(404, closes, **more)
        if method != allowed:
            return self.fixed(405, closes, allow=allowed.decode(), **more)
        if method == b"GET":
            return self.fixed(200, closes, body=b"OK")
        try:
            self.check, self.closes = model.request_of(behind[:length]), closes
        except model.Refused as refused:
            self.fixed(400, closes, body=compact({"refused": refused.shown()}))
        return None

    def takes(self, out):
        """How many of these bytes are the answer."""
        if self.check is None:
            if out.startswith(self.answer):
                return len(self.answer)
            other = answer(400, True)
            if not self.is_sure and out.startswith(other):
                self.closes = True
                return len(other)
            raise Fault(f"answered {out[:200]!r}, not {self.answer!r}")
        found = re.match(rb"HTTP/1\.1 (\d+) .*\r\n(?:.*\r\n)*?Content-Length: (\d+)\r\n(?:.*\r\n)*?\r\n", out)
        want(found and int(found[1]) in (200, 429, 503), f"a check is answered {out[:200]!r}")
        status, body = int(found[1]), out[found.end() : found.end() + int(found[2])]
        shown = answer(status, self.closes, body=None if status == 503 else body)
        want(out.startswith(shown), f"a check is answered {out[:300]!r}, not {shown!r}")
        if status != 503:
            (reply,) = printed(body + b"\n")
            want(len(reply["statuses"]) == len(self.check["descriptors"]), f"the statuses of {reply} for {self.check}")
            want(reply["overallCode"] == {200: "OK", 429: "OVER_LIMIT"}[status], f"the status {status} of {reply}")
        return len(shown)


def judge_answers(data, out):
    """How many answers there are, and how the connection has to end."""
    count = 0
    while True:
        front = Front(data)
        if front.end and not front.is_sure and out == answer(400, True):
            return count + 1, "CLOSED"
        if front.end:
            want(out == b"", f"bytes behind the last answer: {out[:200]!r}")
            return count, front.end
        out = out[front.takes(out) :]
        count += 1
        if front.closes:
            want(out == b"", f"bytes behind the answer that closes: {out[:200]!r}")
            return count, "CLOSED"
        data = front.rest


def exchanged(port, pieces):
    """What comes back for these bytes, and whether the connection was reset."""
    out, was_reset = b"", False
    with socket.create_connection(("127.0.0.1", port), 30) as link:
        link.setsockopt(socket.IPPROTO_TCP, socket.TCP_NODELAY, 1)
        try:
            for piece in pieces:
                link.sendall(piece)
            link.shutdown(socket.SHUT_WR)
        except OSError:
            was_reset = True
        try:
            while piece := link.recv(65536):
                out += piece
        except TimeoutError:
            raise Fault("no answer within 30 seconds") from None
        except OSError:
            was_reset = True
    return out, was_reset


def heads(program, rng, count):
    """Requests on connections, one after the other."""
    datas = [mutate.connection(rng) for _ in range(count)]
    program.file("config.json", compact(CONFIG))
    # Where all comes in one piece, nothing is left unread when the connection closes, so that no answer is lost by a reset.
    cut = lambda data: [data] if len(data) <= 4096 and rng.random() < 0.7 else mutate.pieces(rng, data)
    serve(program, datas, ["--workers", rng.choice("12"), "--cells", rng.choice(("2", "64")), "config.json"], cut)
    return count


def serve(program, datas, words, cut):
    """Serves these connections, of which each sends its bytes in pieces, and judges what each gets."""
    words = ["serve", "--port", "0", "--connections", str(len(datas)), *words]
    program.file("in", b"")
    child, found = program.start(words), []
    try:
        port = port_of(program, child)
        for data in datas:
            program.file("connection", data)
            pieces = cut(data)
            out, was_reset = exchanged(port, pieces)
            is_small = len(pieces) == 1 and len(data) <= 4096
            found.append(None if was_reset and not is_small else judge_answers(data, out))
        ran = program.end(child)
    finally:
        if child.returncode is None:
            os.killpg(child.pid, signal.SIGKILL)
            program.end(child)
    ends_done(ran)
    program.bounds(ran, words, sum(map(len, datas)))
    lines = printed(ran.out)
    want(lines[0] == {"listening": port} and len(lines) == len(datas) + 1, "not one line a connection")
    for index, (line, said) in enumerate(zip(lines[1:], found)):
        if said is not None:
            want(line == {"answers": said[0], "connection": index, "end": said[1]}, f"{line}, not {said}, for {datas[index]!r}")


def port_of(program, child):
    for _ in range(3000):
        found = re.match(rb'\{"listening":(\d+)\}\n', program.file("out"))
        if found:
            return int(found[1])
        want(child.poll() is None, "the server ended before its port was told")
        time.sleep(0.01)
    raise Fault("no port within 30 seconds")


# Each kind with its share of all cases and how many of them a batch has.
KINDS = {
    "requests": (requests, 40, 125),
    "configs": (configs, 18, 60),
    "heads": (heads, 18, 30),
    "streams": (streams, 12, 120),
    "reports": (reports, 8, 120),
    "runs": (runs, 4, 15),
}


def measure_floors(program):
    """What each command has in memory with a small input of each kind, so that the code that it runs is among it."""
    script = b"\n".join(map(compact, [*mutate.LINES, *mutate.RELOADS, {}, *mutate.REPORTS]))
    files = {"config.json": compact(CONFIG), "settings": compact(SETTINGS), "pools": compact(POOLS)}
    files.update(stream=b"\n".join(map(compact, mutate.STREAM)), events=b"\n".join(map(compact, [*mutate.REPORTS, {}])))
    drive = ["--cells", "64", "--workers", "4", "config.json"]
    files["run"] = program.run(["drive", *drive], files, script).out
    program.run(["audit", "--run", "run", *drive], files, script)
    program.run(["lookup", "config.json"], files, b"\n".join(map(compact, [*mutate.REQUESTS, {}])))
    program.run(["quota", "--settings", "settings", "stream", "stream"], files)
    program.run(["pool", "--pools", "pools", "events"], files)
    serve(program, [mutate.ORDINARY] * 8, ["--workers", "2", "--cells", "64", "config.json"], lambda data: [data])


def main():
    path, cases, seed, kinds = os.path.abspath(sys.argv[1]), int(sys.argv[2]), sys.argv[3], sys.argv[4:] or list(KINDS)
    folder, faults = tempfile.mkdtemp(), 0
    program = Program(path, folder)
    try:
        measure_floors(program)
    except Fault as fault:
        print(f"FAILED a small input: {fault}")
        return 1
    shares = sum(KINDS[kind][1] for kind in kinds)
    for kind in kinds:
        judge, share, size = KINDS[kind]
        done = batch = 0
        begun, before = time.monotonic(), faults
        while done * shares < cases * share and faults < MOST_FAULTS:
            try:
                done += judge(program, random.Random(f"{seed} {kind} {batch}"), size)
            # What is printed out of form can fault the judge too.
            except (Fault, ValueError, LookupError, TypeError, AttributeError) as fault:
                faults += 1
                done += size
                kept = tempfile.mkdtemp(prefix="fuzz-fault-")
                shutil.copytree(folder, kept, dirs_exist_ok=True)
                print(f"FAILED {kind}, batch {batch} of seed {seed}: {type(fault).__name__}: {fault}\n  its files: {kept}", flush=True)
            batch += 1
        print(f"{'ok' if faults == before else 'FAULTS'} {kind}: {done} cases in {time.monotonic() - begun:.0f} seconds", flush=True)
    print(f"{program.runs} processes, the slowest {program.slowest:.2f} seconds; {faults} faults")
    shutil.rmtree(folder)
    return 1 if faults else 0


if __name__ == "__main__":
    sys.exit(main())
