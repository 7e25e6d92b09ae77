"""Callers over the front of several instances, for tests/scale.sh.

load PORT CALLERS KEYS TIMES HOMES    so many callers, each with one connection, ask together TIMES times for each of the keys, in a shuffled
                                      order that is the same each time. Prints a line: the requests, the keys, the least and the most that
                                      one key was admitted, other answers than 200 and 429, and the keys that more than one instance answered.
                                      HOMES gets a line for each key: its name, its instance, and how often it was admitted.
"""
import collections
import random
import re
import socket
import sys
import threading

HEAD = re.compile(rb"HTTP/1\.1 (\d+) ")
LENGTH = re.compile(rb"(?i)\r\ncontent-length: *(\d+)")
HOME = re.compile(rb"(?i)\r\nx-limiter: *(\S+)")
PIECE = 25


def request(key):
    body = b'{"domain":"shop","descriptors":[{"entries":[{"key":"user","value":"%s"}]}]}' % key
    return b"POST /json HTTP/1.1\r\nHost: front\r\nContent-Length: %d\r\n\r\n" % len(body) + body


def answers(link, count):
    """The status and the instance of so many answers."""
    held = b""
    while count:
        end = held.find(b"\r\n\r\n")
        if end >= 0:
            head = held[: end + 2]
            whole = end + 4 + int(LENGTH.search(head)[1])
            if len(held) >= whole:
                home = HOME.search(head)
                yield HEAD.match(head)[1].decode(), home[1].decode() if home else "none"
                held = held[whole:]
                count -= 1
                continue
        piece = link.recv(65536)
        if not piece:
            raise ConnectionError("the front closed a connection")
        held += piece


def caller(port, keys, found):
    with socket.create_connection(("127.0.0.1", port), 30) as link:
        for start in range(0, len(keys), PIECE):
            piece = keys[start : start + PIECE]
            link.sendall(b"".join(map(request, piece)))
            for key, (status, home) in zip(piece, answers(link, len(piece))):
                found.append((key, status, home))


def load(port, callers, keys, times, homes):
    names = [b"user-%d" % i for i in range(keys)]
    asked = names * times
    random.Random(1).shuffle(asked)
    found = []
    threads = [threading.Thread(target=caller, args=(port, asked[i::callers], found)) for i in range(callers)]
    for thread in threads:
        thread.start()
    for thread in threads:
        thread.join()
    admitted = collections.Counter({name: 0 for name in names})
    places = collections.defaultdict(set)
    other = 0
    for key, status, home in found:
        admitted[key] += status == "200"
        other += status not in ("200", "429")
        places[key].add(home)
    with open(homes, "w") as file:
        for name in names:
            file.write(f"{name.decode()} {'+'.join(sorted(places[name]))} {admitted[name]}\n")
    several = sum(len(place) != 1 for place in places.values())
    print(f"{len(found)} requests, {len(places)} keys, {min(admitted.values())} to {max(admitted.values())} admitted, {other} other, {several} several")


if sys.argv[1] == "load":
    load(*map(int, sys.argv[2:6]), sys.argv[6])
