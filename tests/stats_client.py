#!/usr/bin/env python3
"""Checks on connections to `serve --stats`, for tests/stats.sh.

config               prints a configuration of 20 rules: two shadow ones, one without a limit, and limits of 50 to 1,000 a day
counted PORT N M     N connections make M checks each of these rules, while one more asks for the statistics; then it asks once more. Prints
                     `as the replies`, or what differs: each number is that of all replies, none fell, and none was greater before
"""
import json
import random
import socket
import sys
import threading

RULES = 20
UNLIMITED = 11
SHADOW = (3, 17)
NUMBERS = ("near", "over", "seen", "shadow", "total", "within")
GET = b"GET /stats HTTP/1.1\r\n\r\n"


def limit_of(rule):
    return 50 * (rule + 1)


def config():
    rules = []
    for rule in range(RULES):
        limit = {"unlimited": True} if rule == UNLIMITED else {"unit": "DAY", "requestsPerUnit": limit_of(rule)}
        rules.append({"key": f"r{rule}", "rateLimit": limit, **({"shadowMode": True} if rule in SHADOW else {})})
    print(json.dumps({"domain": "d", "descriptors": rules}))


def connected(port):
    return socket.create_connection(("127.0.0.1", port), 60)


def check_of(rule, value):
    body = json.dumps({"domain": "d", "descriptors": [{"entries": [{"key": f"r{rule}", "value": value}]}]}).encode()
    return b"POST /json HTTP/1.1\r\nContent-Length: %d\r\n\r\n" % len(body) + body


def body_of(file):
    """The body of the next answer."""
    if not file.readline().startswith((b"HTTP/1.1 200 ", b"HTTP/1.1 429 ")):
        raise ValueError("neither 200 nor 429")
    length = 0
    while (line := file.readline()) not in (b"\r\n", b""):
        name, _, value = line.partition(b":")
        if name.lower() == b"content-length":
            length = int(value)
    return json.loads(file.read(length))


def statistics(link, file):
    link.sendall(GET)
    return {it["rule"]: it for it in body_of(file)["rules"]}


def asked(port, number, count, replies):
    """Makes checks in pieces of 100 and notes the counter and the status of each."""
    choice = random.Random(number)
    with connected(port) as link, link.makefile("rb") as file:
        for _ in range(count // 100):
            counters = [(choice.randrange(RULES), choice.choice("ab")) for _ in range(100)]
            link.sendall(b"".join(check_of(*it) for it in counters))
            replies += [(it, body_of(file)["statuses"][0]) for it in counters]


def counted_from(replies):
    """What replies of one hit each say of the numbers of their rules, but for what was seen only."""
    found = {}
    # Of a counter of a shadow rule, of which all are admitted, the hits from the first that leaves nothing on are those with nothing left.
    ended = set()
    for (rule, value), status in sorted(replies, key=lambda it: -it[1].get("limitRemaining", 0)):
        if rule == UNLIMITED:
            continue
        it = found.setdefault(rule, dict.fromkeys(NUMBERS, 0))
        limit, left = limit_of(rule), status.get("limitRemaining", 0)
        is_within = status["code"] == "OK" and (rule not in SHADOW or left > 0 or (rule, value) not in ended)
        if left == 0:
            ended.add((rule, value))
        it["total"] += 1
        it["within"] += is_within
        it["near"] += is_within and limit - left > 4 * limit // 5
        it["over"] += not is_within
        it["shadow"] += not is_within and rule in SHADOW
    return found


def counted(port, connections, count):
    replies = [[] for _ in range(connections)]
    threads = [threading.Thread(target=asked, args=(port, number, count, replies[number])) for number in range(connections)]
    with connected(port) as link, link.makefile("rb") as file:
        for it in threads:
            it.start()
        told = []
        while any(it.is_alive() for it in threads) and len(told) < 100:
            told.append(statistics(link, file))
        for it in threads:
            it.join()
        told.append(statistics(link, file))
    wrong = []
    if sum(map(len, replies)) != connections * count:
        wrong.append("a check wasn't answered")
    last, wanted = told[-1], counted_from([it for each in replies for it in each])
    if sorted(last) != sorted(wanted):
        wrong.append(f"rules {sorted(last)} and not {sorted(wanted)}")
    for rule, numbers in wanted.items():
        for name in NUMBERS:
            found = last.get(rule, {}).get(name)
            if name != "seen" and found != numbers[name]:
                wrong.append(f"{name} of rule {rule} is {found} and not {numbers[name]}")
        if not 0 <= last.get(rule, {}).get("seen", -1) <= numbers["over"]:
            wrong.append(f"seen of rule {rule} isn't among those over")
    for earlier, later in zip(told, told[1:]):
        for rule, numbers in earlier.items():
            if any(numbers[name] > later[rule][name] for name in NUMBERS):
                wrong.append(f"a number of rule {rule} fell")
    print("; ".join(wrong) or "as the replies")


if __name__ == "__main__":
    if sys.argv[1] == "config":
        config()
    else:
        counted(*map(int, sys.argv[2:]))
