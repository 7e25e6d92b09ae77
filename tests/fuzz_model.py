"""What docs/FORMATS.md says of bytes: the value that they spell, or the number and the place of their first fault.

For tests/fuzz.py. It shares no code with the program. Values that are read come back in one plain form: the names of proto3's JSON, no
field that has its default, whole numbers as numbers, durations as milliseconds.
"""
import json
import re

MOST_TEXT = 1024
DEEPEST_JSON = 127
UNITS = ("SECOND", "MINUTE", "HOUR", "DAY")


class Refused(Exception):
    def __init__(self, number, at=""):
        super().__init__(f"{number} at {at}")
        self.number, self.at = number, at

    def shown(self):
        return {"at": self.at, "number": self.number}


def join(place, name):
    return f"{place}/" + str(name).replace("~", "~0").replace("/", "~1")


# JSON as serde_json reads it.


class NoJson(ValueError):
    pass


def whole_or_float(text):
    number = int(text) if len(text) < 30 else None
    if text != "-0" and number is not None and -(2**63) <= number < 2**64:
        return number
    return finite(text)


def finite(text):
    number = float(text)
    if number in (float("inf"), float("-inf")):
        raise NoJson
    return number


def no_constant(_):
    raise NoJson


def members_of(pairs):
    for name, value in pairs:
        no_half_pairs(name)
        no_half_pairs(value)
    return dict(pairs)


def no_half_pairs(value):
    """A text has no half of a pair of surrogates. Objects were seen before."""
    if isinstance(value, str) and re.search("[\ud800-\udfff]", value):
        raise NoJson
    if isinstance(value, list):
        for item in value:
            no_half_pairs(item)


def depth_of(text):
    depth = deepest = 0
    for c in re.sub(r'"(?:[^"\\]|\\.)*"', "", text, flags=re.DOTALL):
        depth += (c in "[{") - (c in "]}")
        deepest = max(deepest, depth)
    return deepest


def parse(data):
    try:
        text = data.decode("utf-8")
        if depth_of(text) > DEEPEST_JSON:
            raise NoJson
        value = json.loads(
            text, parse_int=whole_or_float, parse_float=finite, parse_constant=no_constant, object_pairs_hook=members_of
        )
        no_half_pairs(value)
        return value
    except (ValueError, RecursionError):
        raise Refused(1) from None


# Kinds of values: each takes a value and its place.


def text(value, at):
    if not isinstance(value, str):
        raise Refused(5, at)
    return value


def short(number):
    """A text of at most 1,024 bytes; a longer one is refused with this number."""

    def kind(value, at):
        if len(text(value, at).encode()) > MOST_TEXT:
            raise Refused(number, at)
        return value

    return kind


def whole(most):
    def kind(value, at):
        if isinstance(value, str):
            if not re.fullmatch("[0-9]{1,20}", value):
                raise Refused(6, at)
            value = int(value)
        elif isinstance(value, bool) or not isinstance(value, (int, float)):
            raise Refused(5, at)
        elif isinstance(value, float):
            raise Refused(6, at)
        if not 0 <= value <= most:
            raise Refused(7, at)
        return value

    return kind


def truth(value, at):
    if not isinstance(value, bool):
        raise Refused(5, at)
    return value


def unit(value, at):
    """UNKNOWN is none."""
    name = text(value, at).upper() if text(value, at).isascii() else ""
    if name == "UNKNOWN":
        return None
    if name not in UNITS:
        raise Refused(8, at)
    return name


def named(*names):
    def kind(value, at):
        if text(value, at) not in names:
            raise Refused(8, at)
        return value

    return kind


def duration(value, at):
    found = re.fullmatch(r"([0-9]{1,12})(?:\.([0-9]{1,9}))?s", text(value, at))
    if not found:
        raise Refused(40, at)
    seconds, decimals = int(found[1]), (found[2] or "").ljust(9, "0")
    if seconds * 10**9 + int(decimals) > 10**18:
        raise Refused(42, at)
    if decimals[3:] != "000000":
        raise Refused(41, at)
    return seconds * 1000 + int(decimals[:3])


def items(kind, most=None, number=None):
    def of_list(value, at):
        if not isinstance(value, list):
            raise Refused(5, at)
        if most is not None and len(value) > most:
            raise Refused(number, at)
        return [kind(item, join(at, i)) for i, item in enumerate(value)]

    return of_list


def named_members(kind):
    """An object whose names are data, in the order of their bytes."""

    def of_object(value, at):
        if not isinstance(value, dict):
            raise Refused(2, at)
        found = {}
        for name in sorted(value):
            if len(name.encode()) > MOST_TEXT:
                raise Refused(18, at)
            found[name] = kind(value[name], join(at, name))
        return found

    return of_object


def spelled(camel):
    return re.sub("([A-Z])", r"_\1", camel).lower()


class Fields:
    def __init__(self, value, place):
        if not isinstance(value, dict):
            raise Refused(2, place)
        self.left, self.place = dict(value), place

    def take(self, camel, kind, default=None):
        plain = spelled(camel)
        standing = [name for name in dict.fromkeys((camel, plain)) if name in self.left]
        if len(standing) == 2:
            raise Refused(4, join(self.place, camel))
        value = self.left.pop(standing[0]) if standing else None
        if value is None:
            return default
        found = kind(value, join(self.place, standing[0]))
        return default if found is None else found

    def end(self):
        if self.left:
            raise Refused(3, join(self.place, min(self.left)))
        return self.place


def message(read):
    """A kind that is an object of fields."""
    return lambda value, at: read(Fields(value, at))


def present(**fields):
    return {name: value for name, value in fields.items() if value is not None}


u32, u64 = whole(2**32 - 1), whole(2**64 - 1)
name18 = short(18)
name26 = short(26)


# Requests.


def read_entry(f):
    key, value = f.take("key", name26, ""), f.take("value", name26, "")
    place = f.end()
    if key == "":
        raise Refused(24, place)
    return {"key": key, "value": value}


def read_limit(f):
    count, per = f.take("requestsPerUnit", u32, 0), f.take("unit", unit)
    place = f.end()
    if per is None:
        raise Refused(14, place)
    return {"requestsPerUnit": count, "unit": per}


def read_descriptor(f):
    entries = f.take("entries", items(message(read_entry), 32, 25), [])
    limit, hits = f.take("limit", message(read_limit)), f.take("hitsAddend", u32)
    place = f.end()
    if not entries:
        raise Refused(23, place)
    return present(entries=entries, limit=limit, hitsAddend=hits)


def read_request(f):
    domain = f.take("domain", name26, "")
    descriptors = f.take("descriptors", items(message(read_descriptor), 32, 22), [])
    hits = f.take("hitsAddend", u32, 0)
    place = f.end()
    if domain == "":
        raise Refused(20, place)
    if not descriptors:
        raise Refused(21, place)
    return {"domain": domain, "descriptors": descriptors, "hitsAddend": hits}


def request_of(data):
    return read_request(Fields(parse(data), ""))


# Configurations.


def replaced(value, at):
    if isinstance(value, str):
        return name18(value, at)
    if not isinstance(value, dict):
        raise Refused(5, at)
    f = Fields(value, at)
    name = f.take("name", name18, "")
    f.end()
    return name


def read_policy(f):
    per, count = f.take("unit", unit), f.take("requestsPerUnit", u32, 0)
    unlimited, name = f.take("unlimited", truth, False), f.take("name", name18, "")
    replaces = [it for it in f.take("replaces", items(replaced, 32, 30), []) if it]
    place = f.end()
    if not unlimited and per is None:
        raise Refused(14, place)
    if unlimited and per is not None:
        raise Refused(15, place)
    if name and name in replaces:
        raise Refused(29, place)
    limit = {"unlimited": True} if unlimited else {"requestsPerUnit": count, "unit": per}
    return {**limit, "name": name, "replaces": replaces}


def read_node(f):
    key, value = f.take("key", name18, ""), f.take("value", name18, "")
    policy, shadow = f.take("rateLimit", message(read_policy)), f.take("shadowMode", truth, False)
    f.take("detailedMetric", truth)
    below = f.take("descriptors", items(message(read_node)), [])
    place = f.end()
    return {**present(rateLimit=policy), "key": key, "value": value, "shadowMode": shadow, "descriptors": below, "place": place}


def read_file(f):
    f.take("name", text)
    domain, nodes = f.take("domain", name18, ""), f.take("descriptors", items(message(read_node)), [])
    return {"domain": domain, "descriptors": nodes, "place": f.end()}


class Trees:
    """The rules of trees, tree by tree, each node before those below it."""

    def __init__(self, files):
        self.count = 0
        domains = set()
        for file in files:
            if file["domain"] == "":
                raise Refused(10, file["place"])
            if file["domain"] in domains:
                raise Refused(11, file["place"])
            domains.add(file["domain"])
            self.level(file["descriptors"], 1)

    def level(self, nodes, level):
        siblings = set()
        for node in nodes:
            self.count += 1
            name = (node["key"], node["value"])
            for number, applies in ((12, node["key"] == ""), (13, name in siblings), (16, level > 32), (17, self.count > 65536)):
                if applies:
                    raise Refused(number, node["place"])
            siblings.add(name)
            self.level(node["descriptors"], level + 1)


def config_of(datas):
    """Of files: the configuration, or the number of the refused file with its refusal."""
    files = []
    for index, data in enumerate(datas):
        try:
            files.append(read_file(Fields(parse(data), "")))
        except Refused as refused:
            return None, (index, refused)
    for index in range(len(files)):
        try:
            Trees(files[: index + 1])
        except Refused as refused:
            return None, (index, refused)
    return files, None


# Scripts.


def line_of(data):
    f = Fields(parse(data), "")
    unknown = [name for name in f.left if name not in ("check", "reload", "tick")]
    if unknown:
        raise Refused(3, join("", min(unknown)))
    events = [name for name, value in f.left.items() if value is not None]
    if len(events) != 1:
        raise Refused(28 if events else 27)
    if "check" in events:
        return "check", f.take("check", message(read_request))
    if "tick" in events:
        return "tick", f.take("tick", whole(10**12))
    files = f.take("reload", items(message(read_file)))
    Trees(files)
    return "reload", files


def lines_in(data):
    """Cut at each line feed; what stands behind the last one is a line where it isn't empty."""
    lines = data.split(b"\n")
    return lines if lines[-1] else lines[:-1]


# Quota settings, streams, pools and reports.


def read_per_unit(f):
    f.take("requestsPerTimeUnit", u64)
    per, place = f.take("timeUnit", unit), None
    place = f.end()
    if per is None:
        raise Refused(14, place)
    return True


def read_tokens(f):
    most, fill, interval = f.take("maxTokens", u32, 0), f.take("tokensPerFill", u32, 1), f.take("fillInterval", duration, 0)
    place = f.end()
    for number, value in ((44, most), (45, fill), (46, interval)):
        if value == 0:
            raise Refused(number, place)
    return True


def read_strategy(f):
    kinds = (
        f.take("blanketRule", named("ALLOW_ALL", "DENY_ALL")),
        f.take("requestsPerTimeUnit", message(read_per_unit)),
        f.take("tokenBucket", message(read_tokens)),
    )
    place = f.end()
    if sum(kind is not None for kind in kinds) > 1:
        raise Refused(34, place)
    return True


strategy = message(read_strategy)
texts = named_members(name18)


def read_empty(f):
    f.end()
    return True


def read_part(f):
    fixed, attribute = f.take("stringValue", name18), f.take("attribute", name18)
    place = f.end()
    if (fixed is None) == (attribute is None):
        raise Refused(33, place)
    return True


def read_builder(f):
    parts = f.take("bucketIdBuilder", named_members(message(read_part)), {})
    f.end()
    return parts


def read_unassigned(f):
    f.take("fallbackRateLimit", strategy)
    f.end()
    return True


def read_expired(f):
    timeout = f.take("expiredAssignmentBehaviorTimeout", duration)
    fallback, reuse = f.take("fallbackRateLimit", strategy), f.take("reuseLastAssignment", message(read_empty))
    place = f.end()
    if fallback and reuse:
        raise Refused(34, place)
    if timeout == 0:
        raise Refused(47, place)
    return True


def read_bucket(f):
    f.take("match", texts)
    parts = f.take("bucketIdBuilder", message(read_builder), {})
    interval = f.take("reportingInterval", duration, 0)
    f.take("noAssignmentBehavior", message(read_unassigned))
    f.take("expiredAssignmentBehavior", message(read_expired))
    place = f.end()
    for number, applies in ((31, interval == 0), (32, not parts), (37, len(parts) > 32)):
        if applies:
            raise Refused(number, place)
    return True


def settings_of(data):
    f = Fields(parse(data), "")
    domain = f.take("domain", name18, "")
    f.take("buckets", items(message(read_bucket)))
    if f.end() == "" and domain == "":
        raise Refused(10)


def read_bucket_id(f):
    names = f.take("bucket", texts, {})
    f.end()
    return names


def names_of_bucket(names, place):
    if not names:
        raise Refused(32, place)
    if len(names) > 32:
        raise Refused(37, place)


def read_assignment(f):
    f.take("assignmentTimeToLive", duration)
    f.take("rateLimitStrategy", strategy)
    f.end()
    return True


def read_action(f):
    names = f.take("bucketId", message(read_bucket_id), {})
    assigned, abandoned = f.take("quotaAssignmentAction", message(read_assignment)), f.take("abandonAction", message(read_empty))
    place = f.end()
    if not names:
        raise Refused(32, place)
    if assigned and abandoned:
        raise Refused(34, place)
    if not assigned and not abandoned:
        raise Refused(35, place)
    names_of_bucket(names, place)
    return True


def read_asked(f):
    f.take("attributes", texts)
    f.end()
    return True


def read_response(f):
    actions = f.take("bucketAction", items(message(read_action)), [])
    f.end()
    return actions


def stream_line_of(data):
    """The moment of a line in milliseconds, its event, and how many actions it has."""
    f = Fields(parse(data), "")
    events = ("request", "response", "connection")
    unknown = [name for name in f.left if name not in ("at", *events)]
    if unknown:
        raise Refused(3, join("", min(unknown)))
    there = [name for name in events if f.left.get(name) is not None]
    if len(there) > 1:
        raise Refused(28)
    if f.left.get("at") is None:
        raise Refused(36)
    at = f.take("at", duration)
    f.take("request", message(read_asked))
    actions = f.take("response", message(read_response), [])
    f.take("connection", named("LOST", "UP"))
    return at, there[0] if there else None, len(actions)


def read_pool(f):
    names = f.take("bucketId", message(read_bucket_id), {})
    f.take("requestsPerTimeUnit", u64)
    per, lifetime = f.take("timeUnit", unit), f.take("assignmentTimeToLive", duration, 0)
    return names, per, lifetime, f.end()


def pools_of(data):
    """The domain of the pools and their buckets."""
    f = Fields(parse(data), "")
    domain, known = f.take("domain", name18, ""), []

    def pool(value, at):
        names, per, lifetime, place = read_pool(Fields(value, at))
        for number, applies in (
            (14, per is None),
            (32, not names),
            (37, len(names) > 32),
            (48, names in known),
            (49, lifetime == 0),
        ):
            if applies:
                raise Refused(number, place)
        known.append(names)

    f.take("pools", items(pool))
    if f.end() == "" and domain == "":
        raise Refused(10)
    return domain, known


def read_usage(f):
    names = f.take("bucketId", message(read_bucket_id), {})
    f.take("timeElapsed", duration)
    f.take("numRequestsAllowed", u64)
    f.take("numRequestsDenied", u64)
    names_of_bucket(names, f.end())
    return names


def read_reports(f):
    domain, usages = f.take("domain", name18, ""), f.take("bucketQuotaUsages", items(message(read_usage)), [])
    f.end()
    return domain, usages


def report_of(data, pools_domain, last):
    """The moment of a line in milliseconds, its client and the buckets of its usages."""
    f = Fields(parse(data), "")
    at, client = f.take("at", duration), f.take("client", name18, "")
    domain, usages = f.take("reports", message(read_reports), ("", []))
    f.end()
    if at is None:
        raise Refused(36)
    if client == "":
        raise Refused(50)
    if domain not in ("", pools_domain):
        raise Refused(51, "/reports")
    if at < last:
        raise Refused(39, "/at")
    return at, client, usages


def shown_duration(millis):
    return f"{millis // 1000}s" if millis % 1000 == 0 else f"{millis // 1000}.{millis % 1000:03}s"
