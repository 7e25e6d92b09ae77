#!/usr/bin/env python3
"""Writes a made-up script for tests/stress.sh, and beside it its configuration.

Usage: stress_script.py SEED LINES CONFIG SCRIPT [short]

Checks of 10,000 names, a few of them hot, by one or two descriptors, with hits of 0 to 3 and now and then a limit of their own; a tick
about every hundred lines, some of them back; a reload about every five thousand; and some lines that are refused. A script ends
before 67,108,864 bytes.

With `short` so many checks of the fewest bytes, each of one of 92 keys of one character, so that 1,000,000 of them fit into a script;
before every thousandth a tick, and before every hundred thousandth a reload.
"""
import json
import random
import string
import sys

MOST_BYTES = 67108864
NAMES = 10000
KEYS = [it for it in string.ascii_letters + string.digits + string.punctuation if it not in '"\\']


def config(limit):
    """The domain `s`: names by the second, those that begin with `h` with another limit, `m` by the minute, `w` in shadow, `u` unlimited."""

    def policy(requests, unit):
        return {"requestsPerUnit": requests, "unit": unit}

    return {
        "domain": "s",
        "descriptors": [
            {"key": "k", "rateLimit": policy(limit, "SECOND")},
            {"key": "k", "value": "h*", "rateLimit": policy(limit * 3, "SECOND")},
            {"key": "m", "rateLimit": policy(limit * 40, "MINUTE")},
            {"key": "w", "shadowMode": True, "rateLimit": policy(1, "SECOND")},
            {"key": "u", "rateLimit": {"unlimited": True}},
        ],
    }


def short_config(limit):
    """The domain `s` with a limit for each key, by the second for letters, else by the minute."""
    units = {it: "SECOND" if it.isalpha() else "MINUTE" for it in KEYS}
    return {
        "domain": "s",
        "descriptors": [{"key": it, "rateLimit": {"requestsPerUnit": limit, "unit": units[it]}} for it in KEYS],
    }


def descriptor(rng):
    kind = rng.random()
    if kind < 0.75:
        entry = {"key": "k", "value": f"h{rng.randrange(12)}"}
    elif kind < 0.93:
        entry = {"key": "k", "value": f"v{rng.randrange(NAMES)}"}
    else:
        entry = {"key": rng.choice("mwux"), "value": str(rng.randrange(3))}
    shown = {"entries": [entry]}
    special = rng.random()
    if special < 0.02:
        shown["limit"] = {"requestsPerUnit": rng.randrange(4), "unit": "SECOND"}
    elif special < 0.06:
        shown["hitsAddend"] = str(rng.randrange(4))
    return shown


def check(rng):
    request = {"domain": "s" if rng.random() < 0.99 else "t", "descriptors": [descriptor(rng)]}
    if rng.random() < 0.1:
        request["descriptors"].append(descriptor(rng))
    if rng.random() < 0.05:
        request["hitsAddend"] = rng.randrange(4)
    return {"check": request}


def text_of(value):
    return json.dumps(value, separators=(",", ":"))


def usual_lines(rng, lines):
    now = 0
    for _ in range(lines):
        kind = rng.random()
        if kind < 0.01:
            now += rng.choice((1, 1, 1, 2))
            yield text_of({"tick": now if rng.random() < 0.95 else max(now - 3, 0)})
        elif kind < 0.0102:
            yield text_of({"reload": [config(rng.choice((3, 10, 30)))]})
        elif kind < 0.0112:
            yield rng.choice(("", "{}", '{"tick":1.5}'))
        else:
            yield text_of(check(rng))


def short_lines(rng, checks):
    for number in range(checks):
        if number % 100000 == 99999:
            yield text_of({"reload": [short_config(rng.choice((3, 10, 30)))]})
        if number % 1000 == 999:
            yield text_of({"tick": number // 1000})
        yield text_of({"check": {"domain": "s", "descriptors": [{"entries": [{"key": rng.choice(KEYS)}]}]}})


def main():
    seed, count, config_path, script_path = int(sys.argv[1]), int(sys.argv[2]), sys.argv[3], sys.argv[4]
    is_short = sys.argv[5:] == ["short"]
    rng = random.Random(seed)
    with open(config_path, "w", encoding="utf-8") as file:
        json.dump(short_config(10) if is_short else config(10), file)
    size = 0
    with open(script_path, "w", encoding="utf-8") as file:
        for text in (short_lines if is_short else usual_lines)(rng, count):
            size += len(text) + 1
            if size > MOST_BYTES:
                break
            file.write(text + "\n")


main()
