#!/usr/bin/env python3
"""Runs the commands of README.md and docs/COMMANDS.md with the program, and compares what they print with what the pages show.
usage: tests/docs.py PROGRAM
A page's blocks run one after the other in a folder that has nothing but the program, as `ratelimit`, and the examples, each by `bash -e`:
  ```sh      commands
  ```text    what the commands before it print, output and error output together
  ```usage   the words of a command, which `--help` has to tell so as well
An indented block holds commands too, of which those that begin with `rt ` or `(cd ` want the toolchain and aren't run. Any other block is
a fault, and so is a link of a page to a file or a heading that isn't there. Port 8081 is a free one here, and how long a window of `serve`
still lasts isn't compared. Prints `ok PAGE: ..` or `FAILED PAGE: ..`, and ends with 1 if any failed."""
import difflib
import glob
import os
import re
import shutil
import signal
import socket
import subprocess
import sys
import tempfile
import time

PAGES = ["README.md", "docs/COMMANDS.md"]
PORT = "8081"
LINK = re.compile(r"\]\(([^)\s]+)\)")


def blocks_of(text):
    """The blocks of a page: the line of each, its kind and its lines. The kind of an indented block is that of commands."""
    blocks, kind = [], None
    before = ""
    for number, line in enumerate(text.split("\n"), 1):
        if line.startswith("```"):
            if kind is None:
                kind = line[3:].strip()
                blocks.append((number, kind, []))
            else:
                kind = None
        elif kind is not None:
            blocks[-1][2].append(line)
        elif line.startswith("    ") and (not before.strip() or before.startswith("    ")):
            if not before.startswith("    "):
                blocks.append((number, "indented", []))
            blocks[-1][2].append(line[4:])
        before = line
    return blocks


def free_port():
    with socket.socket() as it:
        it.bind(("127.0.0.1", 0))
        return str(it.getsockname()[1])


def run(lines, folder):
    """Runs the lines, and returns the status, and what they print."""
    words = ["bash", "-e", "-c", "\n".join(lines)]
    pipes = {"stdin": subprocess.DEVNULL, "stdout": subprocess.PIPE, "stderr": subprocess.STDOUT}
    with subprocess.Popen(words, cwd=folder, start_new_session=True, **pipes) as it:
        try:
            printed = it.communicate(timeout=60)[0]
        except subprocess.TimeoutExpired:
            os.killpg(it.pid, signal.SIGKILL)
            return "none after a minute", it.communicate()[0].decode("utf-8", "replace")
    return it.returncode, printed.decode("utf-8", "replace")


def still_lasting(text):
    return re.sub(r'"durationUntilReset":"\d+s"', '"durationUntilReset":"..s"', text)


def faults_of_commands(blocks, folder, port):
    """Runs each block of commands, and yields what differs from the page."""
    for place, (number, kind, lines) in enumerate(blocks):
        if kind == "indented":
            lines = [line for line in lines if not line.startswith(("rt ", "(cd "))]
        elif kind != "sh":
            continue
        if not any(line.strip() for line in lines):
            continue
        serves = any(PORT in line for line in lines)
        if serves and time.time() % 60 > 54:
            # The answers of one window are shown: none is to end meanwhile.
            time.sleep(60.1 - time.time() % 60)
        status, printed = run([line.replace(PORT, port) for line in lines], folder)
        if status != 0:
            yield f"line {number}: status {status}: {printed.strip()}"
        if place + 1 == len(blocks) or blocks[place + 1][1] != "text":
            continue
        shown = "".join(line.replace(PORT, port) + "\n" for line in blocks[place + 1][2])
        if serves:
            shown, printed = still_lasting(shown), still_lasting(printed)
        if shown != printed:
            yield f"line {number}: the output differs from what line {blocks[place + 1][0]} shows"
            yield from difflib.unified_diff(shown.split("\n"), printed.split("\n"), "shown", "printed", lineterm="", n=0)


def faults_of_blocks(blocks, helped):
    """Each block is of a known kind, an output stands behind its commands, and `--help` tells the words of a command."""
    for place, (number, kind, lines) in enumerate(blocks):
        if kind not in ("sh", "text", "usage", "indented"):
            yield f"line {number}: a block of no known kind: {kind or 'none'}"
        if kind == "text" and (place == 0 or blocks[place - 1][1] not in ("sh", "indented")):
            yield f"line {number}: an output without commands before it"
        if kind == "usage":
            for line in lines:
                if line.removeprefix("ratelimit ") not in helped:
                    yield f"line {number}: --help doesn't tell: {line}"


def anchor_of(heading):
    """How a page's heading is named in links."""
    return re.sub(r"[^\w\- ]", "", heading.lower()).replace(" ", "-")


def faults_of_links(page, text, top):
    """Each link to a file of the repository, and to a heading of a page, leads there."""
    for link in LINK.findall(re.sub(r"`[^`]*`", "", re.sub(r"(?ms)^```.*?^```", "", text))):
        if re.match(r"[a-z]+:", link):
            continue
        name, _, anchor = link.partition("#")
        aim = os.path.join(top, os.path.dirname(page), name) if name else os.path.join(top, page)
        if not os.path.exists(aim):
            yield f"a link to a file that isn't there: {link}"
        elif anchor:
            with open(aim, encoding="utf-8") as it:
                headings = re.findall(r"(?m)^#+ (.*)$", it.read())
            if anchor not in map(anchor_of, headings):
                yield f"a link to a heading that isn't there: {link}"


def report(name, faults, ok):
    for fault in faults:
        print(f"FAILED {name}: {fault}" if not fault.startswith(("+", "-", "@")) else f"    {fault}")
    if not faults:
        print(f"ok {name}: {ok}")
    return bool(faults)


def main():
    top = os.path.dirname(os.path.dirname(os.path.abspath(__file__)))
    program = os.path.abspath(sys.argv[1])
    told = subprocess.run([program, "--help"], capture_output=True, text=True, check=True).stdout
    helped = {line.strip() for line in told.split("\n")}
    failed = False
    for page in PAGES:
        with open(os.path.join(top, page), encoding="utf-8") as it:
            blocks = blocks_of(it.read())
        with tempfile.TemporaryDirectory() as folder:
            os.symlink(program, os.path.join(folder, "ratelimit"))
            shutil.copytree(os.path.join(top, "examples"), os.path.join(folder, "examples"))
            faults = [*faults_of_blocks(blocks, helped), *faults_of_commands(blocks, folder, free_port())]
        failed |= report(page, faults, "the commands print what it shows")
    for path in sorted([*glob.glob(f"{top}/*.md"), *glob.glob(f"{top}/docs/*.md")]):
        page = os.path.relpath(path, top)
        with open(path, encoding="utf-8") as it:
            failed |= report(page, list(faults_of_links(page, it.read(), top)), "its links lead somewhere")
    sys.exit(failed)


if __name__ == "__main__":
    main()
