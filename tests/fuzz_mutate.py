"""Made-up input and changes of it, for tests/fuzz.py: each call draws from the generator that it is given alone."""
import copy
import json
import re

CHECK = {"domain": "d", "descriptors": [{"entries": [{"key": "k", "value": "a"}]}]}
REQUESTS = [
    CHECK,
    {"domain": "d", "descriptors": [{"entries": [{"key": "k", "value": "b"}]}], "hitsAddend": 2},
    {"domain": "d", "descriptors": [{"entries": [{"key": "u", "value": ""}]}, {"entries": [{"key": "k", "value": "ab"}]}]},
    {"domain": "d", "descriptors": [{"entries": [{"key": "l"}, {"key": "m", "value": "x"}], "hitsAddend": "0"}]},
    {"domain": "d", "descriptors": [{"entries": [{"key": "z"}], "limit": {"requests_per_unit": 3, "unit": "day"}}]},
]
CONFIGS = [
    {"domain": "d", "descriptors": [{"key": "k", "rateLimit": {"unit": "MINUTE", "requestsPerUnit": 2}}]},
    {
        "name": "file",
        "domain": "e",
        "descriptors": [
            {"key": "k", "value": "v*", "shadow_mode": True, "rate_limit": {"unit": "day", "requests_per_unit": "5"}},
            {"key": "k", "descriptors": [{"key": "l", "rateLimit": {"unlimited": True, "name": "n"}}]},
            {"key": "m", "detailedMetric": True, "rateLimit": {"unit": "SECOND", "name": "o", "replaces": ["n", {"name": "p"}]}},
        ],
    },
]
RELOADS = [{"reload": [config]} for config in CONFIGS] + [{"reload": CONFIGS}, {"reload": []}]
LINES = [{"check": request} for request in REQUESTS] * 4 + [{"tick": 65}, {"tick": "120"}, RELOADS[0]]
SETTINGS = [
    {
        "domain": "q",
        "buckets": [
            {
                "match": {"plan": "free"},
                "bucketIdBuilder": {"bucketIdBuilder": {"name": {"stringValue": "free"}, "user": {"attribute": "user"}}},
                "reportingInterval": "5s",
                "noAssignmentBehavior": {
                    "fallbackRateLimit": {"requestsPerTimeUnit": {"requestsPerTimeUnit": "2", "timeUnit": "SECOND"}}
                },
                "expiredAssignmentBehavior": {
                    "expiredAssignmentBehaviorTimeout": "3s",
                    "fallbackRateLimit": {"blanketRule": "DENY_ALL"},
                },
            },
            {
                "bucketIdBuilder": {"bucketIdBuilder": {"name": {"stringValue": "b"}}},
                "reporting_interval": "0.500s",
                "noAssignmentBehavior": {"fallbackRateLimit": {"tokenBucket": {"maxTokens": 2, "fillInterval": "1s"}}},
                "expiredAssignmentBehavior": {"reuseLastAssignment": {}},
            },
        ],
    }
]
ASSIGNED = {
    "bucketId": {"bucket": {"name": "b"}},
    "quotaAssignmentAction": {
        "assignmentTimeToLive": "3s",
        "rateLimitStrategy": {"requestsPerTimeUnit": {"requestsPerTimeUnit": 1, "timeUnit": "MINUTE"}},
    },
}
STREAM = [
    {"at": "0s", "request": {}},
    {"at": "0s", "request": {"attributes": {"plan": "free", "user": "u"}}},
    {"at": "0s", "request": {"attributes": {"plan": "free", "user": "v"}}},
    {"at": "0s", "response": {"bucketAction": [ASSIGNED]}},
    {"at": "0s", "response": {"bucket_action": [{"bucket_id": {"bucket": {"name": "b"}}, "abandon_action": {}}, ASSIGNED]}},
    {"at": "0s", "connection": "LOST"},
    {"at": "0s", "connection": "UP"},
    {"at": "0s"},
]
POOL = {"requestsPerTimeUnit": "10", "timeUnit": "SECOND", "assignmentTimeToLive": "10s"}
POOLS = [{"domain": "q", "pools": [{"bucketId": {"bucket": {"name": it}}, **POOL} for it in "bc"]}]
USAGE = {"bucketId": {"bucket": {"name": "b"}}, "timeElapsed": "1.500s", "numRequestsAllowed": "3", "num_requests_denied": 1}
REPORTS = [
    {"at": "0s", "client": "c1", "reports": {"domain": "q", "bucketQuotaUsages": [USAGE]}},
    {"at": "0s", "client": "c2", "reports": {"bucket_quota_usages": [USAGE, {"bucket_id": {"bucket": {"name": "x"}}}]}},
    {"at": "0s", "client": "c3"},
]

NAMES = sorted(
    {
        name
        for text in map(json.dumps, (REQUESTS, RELOADS, LINES, SETTINGS, STREAM, POOLS, REPORTS))
        for name in re.findall(r'"([A-Za-z_]+)": ', text)
    }
)
VALUES = [
    *(None, True, False, 0, 1, -1, 1.5, 1e3, 2**32 - 1, 2**32, 2**63, 2**64 - 1, 2**64, -(2**63) - 1, 10**12, 10**12 + 1),
    *("", "0", "007", "1" * 20, "1" * 21, "9" * 20, "-1", "+1", "1.0", " 1", "k", "d", "q", "a*", "*", "SECOND", "minute", "UnKnown", "WEEK"),
    *("x" * 1024, "x" * 1025, "é" * 512, "é" * 513, "5s", "1.500s", "0s", "0.0000s", "1.0005s", "1s ", "1000000000s", "1000000000.001s"),
    *("1000000001s", "9999999999999s", "s", ".5s", "LOST", "up", "ALLOW_ALL", "\0", "a/b~c", "\x7f\x85", "\U0001f600", "ſ"),
    *([], {}, [None], [[]], [{}], {"name": "n"}, {"key": "k"}, {"bucket": {"name": "b"}}),
]
BYTES = [
    *(b"{", b"}", b"[", b"]", b'"', b":", b",", b"\\", b"\\u", b"\\ud800", b"\\udc00", b"\\ud83d\\ude00", b"\\u0000", b"\\/", b"\\x"),
    *(b"1e999", b"-1e-999", b"-0", b"0.0", b"1E2", b"00", b"0x1", b"NaN", b"Infinity", b"null", b"true", b"\xff", b"\xc3", b"\xed\xa0\x80"),
    *(b"\0", b"\r", b"\t", b" ", b"\x1f", b"\x7f", b"\xef\xbb\xbf", b"//", b"\n", b'"k":1,', b'"tick":1,', b"9" * 400, b"[" * 130, b"]" * 130),
]


def camel_or_plain(name):
    if "_" in name:
        return re.sub("_([a-z])", lambda found: found[1].upper(), name)
    return re.sub("([A-Z])", r"_\1", name).lower()


def places(value):
    """Each place below a value: what holds it, and its name or index there."""
    found, left = [], [value]
    while left:
        holder = left.pop()
        for name in list(holder) if isinstance(holder, dict) else range(len(holder)):
            found.append((holder, name))
            if isinstance(holder[name], (dict, list)):
                left.append(holder[name])
    return found


def change(rng, root):
    """One change of a value, somewhere in it."""
    there = places(root)
    if not there:
        return rng.choice(VALUES)
    holder, name = rng.choice(there)
    kind = rng.randrange(10)
    if kind < 3:
        holder[name] = copy.deepcopy(rng.choice(VALUES))
    elif kind < 4:
        del holder[name]
    elif kind < 6 and isinstance(holder, dict):
        new = rng.choice((camel_or_plain(name), camel_or_plain(name), rng.choice(NAMES), "x~/", "x" * 1025, "é", ""))
        holder[new] = copy.deepcopy(holder[name]) if rng.random() < 0.3 else holder.pop(name)
    elif kind < 7 and isinstance(holder, dict):
        holder[rng.choice(NAMES)] = copy.deepcopy(rng.choice((rng.choice(VALUES), holder[name])))
    elif kind < 9 and isinstance(holder, list):
        holder[name:name] = [copy.deepcopy(holder[name]) for _ in range(rng.choice((1, 1, 31, 32, 33)))]
    else:
        other, at = rng.choice(there)
        holder[name] = copy.deepcopy(rng.choice(([holder[name]], {rng.choice(NAMES): holder[name]}, other[at])))
    return root


def spelled(rng, value):
    separators = rng.choice(((",", ":"), (",", ":"), (",", ":"), (", ", ": "), (" ,", "\t:")))
    return json.dumps(value, separators=separators, ensure_ascii=rng.random() < 0.2).encode("utf-8", "surrogatepass")


def change_bytes(rng, data):
    """One change of bytes."""
    at = rng.randrange(len(data) + 1)
    to = min(len(data), at + rng.choice((1, 1, 2, 8, 40)))
    kind = rng.randrange(7)
    if kind == 0:
        return data[:at]
    if kind == 1:
        return data[:at] + data[to:]
    if kind == 2:
        return data[:to] + data[at:]
    if kind == 3 and at < len(data):
        return data[:at] + bytes([data[at] ^ (1 << rng.randrange(8))]) + data[at + 1 :]
    if kind == 4:
        return data[:at] + bytes([rng.randrange(256)]) + data[to:]
    return data[:at] + rng.choice(BYTES) + data[rng.choice((at, to)) :]


def document(rng, seeds):
    """One of these values with some changes, as bytes."""
    value = copy.deepcopy(rng.choice(seeds))
    for _ in range(rng.choice((0, 1, 1, 1, 2, 3))):
        value = change(rng, value)
        if not isinstance(value, (dict, list)):
            break
    data = spelled(rng, value)
    for _ in range(rng.choice((0, 0, 0, 1, 1, 2))):
        data = change_bytes(rng, data)
    return data


def line(rng, seeds):
    """The same, but mostly without a change and mostly without a line feed in it."""
    if rng.random() < 0.3:
        return spelled(rng, rng.choice(seeds))
    data = document(rng, seeds)
    return data if rng.random() < 0.02 else data.replace(b"\n", b" ")


def timed(rng, seeds, count):
    """Lines whose moments mostly go on."""
    now, lines = 0, []
    for _ in range(count):
        now += rng.choice((0, 0, 1, 100, 500, 999, 4000))
        shown = f"{now // 1000}.{now % 1000:03}s" if rng.random() < 0.7 or now % 1000 else f"{now // 1000}s"
        moved = [{**seed, "at": shown} for seed in seeds]
        lines.append(line(rng, moved))
    return lines


def changed_run(rng, run):
    """A printed run with some change."""
    lines = run.split(b"\n")[:-1]
    kind = rng.randrange(6)
    at, other = rng.randrange(len(lines)), rng.randrange(len(lines))
    if kind == 0:
        lines[at], lines[other] = lines[other], lines[at]
    elif kind == 1:
        del lines[at]
    elif kind == 2:
        lines.insert(at, lines[other])
    elif kind == 3:
        numbers = list(re.finditer(rb"\d+", lines[at]))
        found = rng.choice(numbers)
        new = rng.choice((b"0", b"1", b"2", b"60", b"4294967296", b"18446744073709551616", b"%d" % (int(found[0]) + 1)))
        lines[at] = lines[at][: found.start()] + new + lines[at][found.end() :]
    elif kind == 4:
        value = json.loads(lines[at])
        change(rng, value)
        lines[at] = json.dumps(value, separators=(",", ":"), sort_keys=True, ensure_ascii=False).encode()
    else:
        return change_bytes(rng, run)
    return b"".join(line + b"\n" for line in lines)


# Connections.

HEAD_BYTES = [
    *(b"\r\n", b"\n", b"\r", b":", b" ", b"\t", b"\0", b"\x80", b"?", b",", b"HTTP/1.0", b"HTTP/1.1", b"HTTP/2.0", b"\r\n\r\n"),
    *(b"Content-Length: 5\r\n", b"content-length:0\r\n", b"Transfer-Encoding: chunked\r\n", b"Connection: x , Close\r\n", b" folded\r\n"),
    *(b"A: b\r\n" * 63, b"A: b\r\n" * 65, b"\n" * 70, b"x" * 200),
]


ORDINARY = b"".join(
    b"POST /json HTTP/1.1\r\nContent-Length: %d\r\n\r\n%s" % (len(body), body) for body in (json.dumps(it).encode() for it in [*REQUESTS, {}])
)
ORDINARY += b"GET /healthcheck HTTP/1.1\r\n\r\nGET / HTTP/1.1\r\nA: b\r\n\r\n"


def asked(rng):
    """A request, mostly one that is answered."""
    method = rng.choice(("POST",) * 6 + ("GET", "GET", "PUT", "HEAD", "get", "OPTIONS"))
    target = rng.choice(("/json",) * 5 + ("/healthcheck", "/healthcheck?x=1", "/json?", "/", "*", "/jso", "/json/"))
    if method == "GET" and rng.random() < 0.7:
        target = "/healthcheck"
    end = rng.choice((b"\r\n", b"\r\n", b"\n"))
    body = b""
    fields = rng.sample((b"Host: a", b"Accept:*/*", b"X-A: \xc3\xa9", b"Expect: 100-continue", b"Connection: keep-alive"), rng.randrange(3))
    if method == "POST" or rng.random() < 0.2:
        body = document(rng, REQUESTS)
        length = len(body) + rng.choice((0,) * 12 + (1, -1, 1000, 1048577, 10**10))
        fields.append(rng.choice((b"Content-Length: %d", b"content-length:%d", b"CONTENT-LENGTH: \t%d ")) % max(length, 0))
    if rng.random() < 0.05:
        fields.append(b"Connection: close")
    head = b"%s %s HTTP/1.%d" % (method.encode(), target.encode(), rng.random() < 0.95)
    return end.join((head, *fields)) + end + end, body


def connection(rng):
    """What one peer sends before it ends its side."""
    data = rng.choice((b"",) * 9 + (b"\r\n\n",))
    for _ in range(rng.choice((1, 1, 2, 3, 6))):
        head, body = asked(rng)
        for _ in range(rng.choice((0, 0, 0, 0, 1, 2))):
            at = rng.randrange(len(head) + 1)
            kind = rng.randrange(4)
            if kind == 0:
                head = head[:at] + head[at + rng.choice((1, 4)) :]
            elif kind == 1:
                head = head[:at] + bytes([rng.randrange(256)]) + head[at + 1 :]
            else:
                head = head[:at] + rng.choice(HEAD_BYTES) + head[at:]
        data += head + body
    if rng.random() < 0.03:
        data += b"GET / HTTP/1.1\r\nA: " + b"x" * rng.choice((16300, 16365, 16400, 40000))
    return data[: rng.randrange(len(data) + 1)] if rng.random() < 0.15 else data


def pieces(rng, data):
    """The same bytes in some pieces."""
    cuts = sorted(rng.randrange(len(data) + 1) for _ in range(rng.randrange(4)))
    return [data[a:b] for a, b in zip([0, *cuts], [*cuts, len(data)])]
