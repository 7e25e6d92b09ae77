"""Connections to the server on the loopback address, for tests/http.sh.

raw PORT             sends standard input, ends its side, and prints what comes back
beside PORT N        N connections that are open at once ask for the health check; prints how many are answered 200
idle PORT K N        K connections are kept open and ask nothing, while N others, one after the other, ask for the health check, each within
                     5 seconds; then each of the K asks too. Prints how many of the N and of the K are answered 200
silent PORT K N M    K connections are kept open and ask nothing, while N others, all open at once, make a check in turn, M times each; then
                     each of the K asks for the health check. Prints how many of the checks and of the K are answered 200
many PORT N M        N connections ask M times each on one key, in pieces of 100; prints how many answers are 200
cut PORT             a health check and a check are sent on connections of their own, cut after each of their bytes; prints how many
                     connections got so many answers, none, one and two
window PORT          one connection asks for a limit of one hit a second: twice in one second, and again in a later one; prints the three
                     statuses
"""
import re
import socket
import sys
import threading
import time

BODY = b'{"domain":"d","descriptors":[{"entries":[{"key":"many","value":"a"}]}]}'
CHECK = b"POST /json HTTP/1.1\r\nContent-Length: %d\r\n\r\n" % len(BODY) + BODY
HEALTH = b"GET /healthcheck HTTP/1.1\r\nConnection: close\r\n\r\n"


def connected(port):
    return socket.create_connection(("127.0.0.1", port), 60)


def read_all(link):
    whole = b""
    while piece := link.recv(65536):
        whole += piece
    return whole


def raw(port):
    with connected(port) as link:
        link.sendall(sys.stdin.buffer.read())
        link.shutdown(socket.SHUT_WR)
        sys.stdout.buffer.write(read_all(link))


def beside(port, count):
    links = [connected(port) for _ in range(count)]
    for link in links:
        link.sendall(HEALTH)
    print(sum(read_all(link).startswith(b"HTTP/1.1 200 ") for link in links))


def idle(port, kept, count):
    links = [connected(port) for _ in range(kept)]
    answered = 0
    for _ in range(count):
        with socket.create_connection(("127.0.0.1", port), 5) as link:
            link.sendall(HEALTH)
            answered += read_all(link).startswith(b"HTTP/1.1 200 ")
    for link in links:
        link.sendall(HEALTH)
    print(answered, sum(read_all(link).startswith(b"HTTP/1.1 200 ") for link in links))


def silent(port, kept, count, times):
    links = [connected(port) for _ in range(kept)]
    others = [connected(port) for _ in range(count)]
    files = [link.makefile("rb") for link in others]
    answered = 0
    for _ in range(times):
        for link in others:
            link.sendall(CHECK)
        answered += sum(read_answer(file) == 200 for file in files)
    for file, link in zip(files, others):
        file.close()
        link.close()
    for link in links:
        link.sendall(HEALTH)
    print(answered, sum(read_all(link).startswith(b"HTTP/1.1 200 ") for link in links))


def cut(port):
    whole = b"GET /healthcheck HTTP/1.1\r\n\r\n" + CHECK
    found = [0, 0, 0]
    for length in range(len(whole) + 1):
        with connected(port) as link:
            link.sendall(whole[:length])
            link.shutdown(socket.SHUT_WR)
            statuses = re.findall(rb"HTTP/1\.1 (\d+) ", read_all(link))
            if statuses == [b"200"] * len(statuses):
                found[len(statuses)] += 1
    print(*found)


def window(port):
    with connected(port) as link:
        file = link.makefile("rb")

        def status(value):
            body = b'{"domain":"d","descriptors":[{"entries":[{"key":"second","value":"%d"}]}]}' % value
            link.sendall(b"POST /json HTTP/1.1\r\nContent-Length: %d\r\n\r\n" % len(body) + body)
            return read_answer(file)

        # Another counter each time, until both requests were answered in the second in which the first was sent.
        for value in range(60):
            second = int(time.time())
            statuses = [status(value), status(value)]
            if int(time.time()) == second:
                break
        while int(time.time()) == second:
            time.sleep(0.01)
        print(*statuses, status(value))


def ask(port, times, found, at):
    with connected(port) as link:
        for _ in range(times // 100):
            link.sendall(CHECK * 100)
            found[at] += read_answers(link, 100)


def read_answers(link, count):
    """How many of so many answers have status 200."""
    file = link.makefile("rb")
    return sum(read_answer(file) == 200 for _ in range(count))


def read_answer(file):
    """The status of the next answer, which is read whole."""
    status = int(file.readline().split(b" ")[1])
    length = 0
    while (line := file.readline().strip().lower()) != b"":
        if line.startswith(b"content-length:"):
            length = int(line.split(b":")[1])
    file.read(length)
    return status


def many(port, count, times):
    found = [0] * count
    threads = [threading.Thread(target=ask, args=(port, times, found, at)) for at in range(count)]
    for thread in threads:
        thread.start()
    for thread in threads:
        thread.join()
    print(sum(found))


if __name__ == "__main__":
    {"raw": raw, "beside": beside, "idle": idle, "silent": silent, "many": many, "cut": cut, "window": window}[sys.argv[1]](*map(int, sys.argv[2:]))
