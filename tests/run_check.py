#!/usr/bin/env python3
"""Reads a configuration, a script and what `ratelimit drive` printed for it, and says whether that is a lawful run and its totals.

Usage: run_check.py CONFIG SCRIPT OUTPUT [--workers N] [--cells N] [--start T] [--global-shadow] [--stats]

The definitions are those of crates/script_run/specs, a clause of a lawful run each; this program shares no code with the proved
one. It ends with 0 where all clauses, the totals and with --stats the statistics hold, else with 1 after a line that says which clause fails where. Of refused lines
it knows those that tests/stress_script.py writes.
"""
import argparse
import json
import sys
from bisect import bisect_right, insort

SECONDS = {"SECOND": 1, "MINUTE": 60, "HOUR": 3600, "DAY": 86400}
RANKS = {"SECOND": 0, "MINUTE": 1, "HOUR": 2, "DAY": 3}
REFUSED = {"": {"at": "", "number": 1}, "{}": {"at": "", "number": 27}, '{"tick":1.5}': {"at": "/tick", "number": 6}}
MOST_PINS = 32
MOST_VERSIONS = 1048576


class Fault(Exception):
    """The clause that fails, and the line where."""

    def __init__(self, clause, line, text):
        super().__init__(f"{clause}: line {line}: {text}")


class Config:
    """Trees by domain; finds the rule of a descriptor level by level."""

    def __init__(self, files):
        self.trees, self.numbers = {}, {}
        for file in files:
            self.trees[file["domain"]] = file.get("descriptors") or []
            for node in self.trees[file["domain"]]:
                self.number(node)
        self.rules = {}

    def number(self, node):
        """Numbers the node and those below it, each before those below it."""
        self.numbers[id(node)] = len(self.numbers)
        for below in node.get("descriptors") or []:
            self.number(below)

    def rule(self, domain, entries, own):
        """None, or (limit, unit, shadow, name, replaces, number), where an unlimited rule has no unit and a descriptor's own limit no number."""
        key = (domain, entries, own)
        if key not in self.rules:
            self.rules[key] = self.look_up(domain, entries, own)
        return self.rules[key]

    def look_up(self, domain, entries, own):
        if domain not in self.trees:
            return None
        if own is not None:
            return (own[0], own[1], False, None, (), None)
        level, node = self.trees[domain], None
        for key, value in entries:
            node = matching(level, key, value)
            if node is None:
                return None
            level = node.get("descriptors") or []
        policy = node.get("rateLimit")
        if policy is None:
            return None
        name = policy.get("name") or None
        replaces = tuple(r if isinstance(r, str) else r["name"] for r in policy.get("replaces") or [])
        if policy.get("unlimited"):
            return (None, None, False, name, replaces, self.numbers[id(node)])
        limit = int(policy.get("requestsPerUnit") or 0)
        return (limit, policy["unit"], bool(node.get("shadowMode")), name, replaces, self.numbers[id(node)])


def matching(level, key, value):
    same = [n for n in level if n["key"] == key]
    for n in same:
        if n.get("value") and n["value"] == value:
            return n
    for n in same:
        if n.get("value") and n["value"].endswith("*") and value.startswith(n["value"][:-1]):
            return n
    for n in same:
        if not n.get("value"):
            return n
    return None


class Check:
    """A request: its domain, and of each descriptor the entries, the limit of its own and the hits."""

    def __init__(self, request):
        self.domain = request["domain"]
        hits = max(int(request.get("hitsAddend") or 0), 1)
        self.descriptors = []
        for d in request["descriptors"]:
            entries = tuple((e["key"], e.get("value") or "") for e in d["entries"])
            own = d.get("limit")
            own = None if own is None else (int(own.get("requestsPerUnit") or 0), own["unit"])
            own_hits = d.get("hitsAddend")
            self.descriptors.append((entries, own, hits if own_hits is None else int(own_hits)))
        self.found = {}

    def finds(self, number, config):
        """What each descriptor finds, by the configuration of this number."""
        if number not in self.found:
            rules = [config.rule(self.domain, entries, own) for entries, own, _ in self.descriptors]
            replaced = {name for rule in rules if rule for name in rule[4]}
            self.found[number] = [None if rule and rule[3] is not None and rule[3] in replaced else rule for rule in rules]
        return self.found[number]


class Script:
    """The lines: checks, reloads, ticks and refused lines. Equal texts are read once."""

    def __init__(self, data):
        texts = data.split("\n")
        if texts and texts[-1] == "":
            texts.pop()
        self.read, self.lines, self.configs = {}, [], []
        for text in texts:
            if text not in self.read:
                self.read[text] = self.event(text)
            self.lines.append(self.read[text])

    def event(self, text):
        if text in REFUSED:
            return ("bad", REFUSED[text])
        line = json.loads(text)
        if "check" in line:
            return ("check", Check(line["check"]))
        if "tick" in line:
            return ("tick", int(line["tick"]))
        self.configs.append(Config(line["reload"]))
        return ("reload", len(self.configs))


class Counter:
    """A counter: its end, what was charged on it and seen of it, and who was given its cell."""

    __slots__ = ("name", "start", "end", "charges", "seen", "binders", "first")

    def __init__(self, name, start):
        self.name, self.start = name, start
        self.end = start + SECONDS[name[2]]
        self.charges, self.seen, self.binders, self.first = [], [], set(), {}


class Run:
    def __init__(self, first, script, records, options):
        self.script, self.records, self.options = script, records, options
        self.configs = {0: (0, first)}
        self.counters = {}
        self.named = set()
        # of each version and rule that counted anything: its numbers, by their names
        self.counted = {}

    def fail(self, clause, i, text):
        raise Fault(clause, i + 1, text)

    def counter(self, domain, entries, unit, moment):
        start = moment - moment % SECONDS[unit]
        key = (domain, entries, unit, start)
        counter = self.counters.get(key)
        if counter is None:
            counter = self.counters[key] = Counter((domain, entries, unit), start)
        return counter

    # ---- one record a line, and the versions

    def kinds(self):
        clause, lines, records = "one record per line", self.script.lines, self.records
        for i, (line, r) in enumerate(zip(lines, records)):
            if r.get("line") != i + 1:
                self.fail(clause, i, "another line's record")
            if not 0 <= r["worker"] < self.options.workers:
                self.fail(clause, i, "no worker has this number")
            kind, refused = line[0], r.get("refused")
            name = refused.get("name") if refused else None
            fits = {
                "check": "reply" in r or name in ("CountersFull", "ClaimsSpent"),
                "reload": "installed" in r or name == "VersionsFull",
                "tick": r.get("ticked") == line[1],
                "bad": refused == line[1],
            }[kind]
            if not fits:
                self.fail(clause, i, f"the record isn't that of a {kind}")
        if len(records) != len(lines):
            self.fail(clause, min(len(records), len(lines)), f"{len(records)} records for {len(lines)} lines")

    def versions(self):
        clause = "versions numbered"
        latest = {}
        for i, (line, r) in enumerate(zip(self.script.lines, self.records)):
            worker, version = r["worker"], r["version"]
            if version < latest.get(worker, 0):
                self.fail("versions never fall", i, "the worker's version fell")
            if "installed" in r:
                if r["installed"] != version or version in self.configs:
                    self.fail(clause, i, "a version that was installed before")
                if worker in latest and version <= latest[worker]:
                    self.fail(clause, i, "an installed version isn't above those that its worker had")
                self.configs[version] = (line[1], self.script.configs[line[1] - 1])
            latest[worker] = version
        if sorted(self.configs) != list(range(len(self.configs))) or len(self.configs) > MOST_VERSIONS:
            self.fail(clause, 0, "the installed versions have a gap")
        for i, r in enumerate(self.records):
            if r["version"] not in self.configs:
                self.fail(clause, i, "a version that wasn't installed")

    # ---- moments

    def moments(self):
        clause, start = "moments never fall", self.options.start
        offers, own, latest = {}, {}, {}
        for line, r in zip(self.script.lines, self.records):
            if line[0] == "tick":
                offers.setdefault(line[1], set()).add(r["worker"])
        for i, (line, r) in enumerate(zip(self.script.lines, self.records)):
            worker, moment = r["worker"], r["moment"]
            if line[0] == "tick":
                own.setdefault(worker, set()).add(line[1])
                if moment < line[1]:
                    self.fail(clause, i, "a tick's moment is before its number")
            if moment < max(start, latest.get(worker, 0)):
                self.fail(clause, i, "the worker's moment fell")
            by_others = offers.get(moment, set()) - {worker}
            if moment != start and not by_others and moment not in own.get(worker, ()):
                self.fail(clause, i, "no tick that its worker could know offers this moment")
            latest[worker] = moment

    # ---- replies by the rule; what is charged, seen and known

    def replies(self):
        known = {}
        for i, (line, r) in enumerate(zip(self.script.lines, self.records)):
            if line[0] != "check":
                continue
            number, config = self.configs[r["version"]]
            found = line[1].finds(number, config)
            for (entries, _, _), rule in zip(line[1].descriptors, found):
                if rule and rule[1]:
                    self.named.add(self.counter(line[1].domain, entries, rule[1], r["moment"]))
            if "reply" in r:
                self.reply(i, line[1], found, r, known.setdefault(r["worker"], {}))

    def reply(self, i, check, found, r, known):
        clause, reply = "replies by the rule", r["reply"]
        statuses, counts = reply["statuses"], r["counts"]
        if not len(statuses) == len(counts) == len(found):
            self.fail(clause, i, "not one status a descriptor")
        over = False
        for (entries, _, hits), rule, status, count in zip(check.descriptors, found, statuses, counts):
            if rule is None or rule[1] is None:
                want = {"code": "OK"} if rule is None else {"code": "OK", "limitRemaining": 4294967295}
                if count is not None or status != want:
                    self.fail(clause, i, "a status without a limit")
                continue
            if self.limited(i, self.counter(check.domain, entries, rule[1], r["moment"]), rule, hits, status, count, r, known):
                over = True
        if reply["overallCode"] != ("OVER_LIMIT" if over and not self.options.global_shadow else "OK"):
            self.fail(clause, i, "the overall code")

    def limited(self, i, counter, rule, hits, status, count, r, known):
        clause, limit, latest = "replies by the rule", rule[0], known.get(counter)
        before, seen = (count or {}).get("before"), (count or {}).get("seen")
        if (before is None) == (seen is None):
            self.fail(clause, i, "a limited descriptor without its count")
        if before is not None:
            if hits == 0:
                self.fail(clause, i, "hits of 0 were charged")
            if latest is not None and (latest > limit or latest > before):
                self.fail("values never fall", i, "charged above what its worker knew")
            value = before + hits
            counter.charges.append((before, hits, i))
        else:
            if hits != 0 and seen <= limit:
                self.fail(clause, i, "seen within the limit, and not charged")
            if latest is not None and latest > seen:
                self.fail("values never fall", i, "seen below what its worker knew")
            value = seen
            counter.seen.append((seen, i))
        known[counter] = value if latest is None or value > latest else latest
        counter.binders.add(r["worker"])
        counter.first.setdefault(r["worker"], i)
        over = value > limit and not rule[2]
        want = {
            "code": "OVER_LIMIT" if over else "OK",
            "currentLimit": {"requestsPerUnit": limit, "unit": rule[1]} if limit else {"unit": rule[1]},
            "durationUntilReset": f"{counter.end - r['moment']}s",
        }
        if limit > value:
            want["limitRemaining"] = limit - value
        if status != want:
            self.fail(clause, i, f"the status is {status}, not {want}")
        if rule[5] is not None:
            self.count(r["version"], rule, hits, before, over)
        return over

    def count(self, version, rule, hits, before, over):
        """Adds the hits to the numbers of their rule, each by where the counter stood with it, or all as seen where none was charged."""
        limit = rule[0]
        near = 4 * limit // 5
        if before is None:
            added = {"total": hits, "within": 0, "near": 0, "over": hits, "seen": hits}
        else:
            stands = range(before + 1, before + hits + 1)
            added = {
                "total": hits,
                "within": len(range(stands.start, min(stands.stop, limit + 1))),
                "near": len(range(max(stands.start, near + 1), min(stands.stop, limit + 1))),
                "over": len(range(max(stands.start, limit + 1), stands.stop)),
                "seen": 0,
            }
        added["shadow"] = 0 if over else added["over"]
        numbers = self.counted.setdefault((version, rule[5]), dict.fromkeys(added, 0))
        for name, hits_added in added.items():
            numbers[name] += hits_added

    # ---- one ledger, and lawful sights in it

    def ledger(self):
        for counter in self.counters.values():
            total = 0
            sums = {0}
            for before, hits, i in sorted(counter.charges):
                if before != total:
                    self.fail("charges form a ledger", i, f"{before} before it, where {total} were charged with less")
                total += hits
                sums.add(total)
            for seen, i in counter.seen:
                if seen not in sums:
                    self.fail("sights lawful", i, f"{seen} seen, which is no sum of charges")

    # ---- refused checks and reloads

    def refusals(self):
        clause, workers = "refusals have causes", self.options.workers
        if not any("name" in r.get("refused", {}) for r in self.records):
            return
        ends = sorted(c.end for c in self.named)
        others = {w: sorted(c.end for c in self.counters.values() if c.binders - {w}) for w in range(workers)}
        alone = {}
        for c in self.counters.values():
            if len(c.binders) == 1:
                (worker,) = c.binders
                alone.setdefault(worker, []).append((c.first[worker], c.end))
        for firsts in alone.values():
            firsts.sort(reverse=True)
        own = {w: [] for w in range(workers)}

        def after(sorted_ends, moment):
            return len(sorted_ends) - bisect_right(sorted_ends, moment)

        for i, (line, r) in enumerate(zip(self.script.lines, self.records)):
            refused = r.get("refused", {})
            name = refused.get("name")
            if name == "ClaimsSpent":
                self.fail(clause, i, "claims are never spent in a run")
            if name == "VersionsFull" and not refused["versions"] == len(self.configs) == MOST_VERSIONS:
                self.fail(clause, i, "not as many versions as there may be")
            if name != "CountersFull":
                continue
            live, held, wanted, worker, moment = refused["live"], refused["held"], refused["wanted"], r["worker"], r["moment"]
            firsts = alone.get(worker, [])
            while firsts and firsts[-1][0] < i:
                insort(own[worker], firsts.pop()[1])
            number, config = self.configs[r["version"]]
            wants = {
                (entries, rule[1])
                for (entries, _, _), rule in zip(line[1].descriptors, line[1].finds(number, config))
                if rule and rule[1]
            }
            if live + held + wanted <= self.options.cells:
                self.fail(clause, i, "they fit into the cells")
            if not 1 <= wanted <= len(wants):
                self.fail(clause, i, "more counters wanted than it names, or none")
            if held > MOST_PINS * (workers - 1):
                self.fail(clause, i, "more cells held than other workers may hold")
            if after(others[worker], moment) + after(own[worker], moment) < live:
                self.fail(clause, i, "fewer counters were given cells than are live")
            if after(ends, moment) < live + wanted:
                self.fail(clause, i, "fewer counters are named than live and wanted")

    # ---- one worker: all is determined

    def sequential(self):
        if self.options.workers != 1:
            return
        clause, moment, version = "sequential with one worker", self.options.start, 0
        charged, bound = {}, {}
        for i, (line, r) in enumerate(zip(self.script.lines, self.records)):
            if line[0] == "tick":
                moment = max(moment, line[1])
                bound = {c: e for c, e in bound.items() if e > moment}
            if "installed" in r:
                version += 1
            if r["version"] != version or r["moment"] != moment:
                self.fail(clause, i, "another version or another moment")
            if line[0] != "check":
                continue
            number, config = self.configs[version]
            found = line[1].finds(number, config)
            counters = [
                self.counter(line[1].domain, entries, rule[1], moment) if rule and rule[1] else None
                for (entries, _, _), rule in zip(line[1].descriptors, found)
            ]
            wanted = {c for c in counters if c is not None and c not in bound}
            if "reply" not in r:
                numbers = (r["refused"]["live"], r["refused"]["held"], r["refused"]["wanted"])
                if numbers != (len(bound), 0, len(wanted)) or len(bound) + len(wanted) <= self.options.cells:
                    self.fail(clause, i, "refused with other numbers")
                continue
            if len(bound) + len(wanted) > self.options.cells:
                self.fail(clause, i, "answered where there was no room")
            for c in wanted:
                bound[c] = c.end
            for c, (_, _, hits), rule, count in zip(counters, line[1].descriptors, found, r["counts"]):
                if c is None:
                    continue
                value = charged.get(c, 0)
                sees = hits == 0 or value > rule[0]
                if count != ({"seen": value} if sees else {"before": value}):
                    self.fail(clause, i, f"{value} were charged before")
                if not sees:
                    charged[c] = value + hits

    # ---- totals

    def totals(self, totals):
        moment = max([self.options.start] + [line[1] for line in self.script.lines if line[0] == "tick"])
        want = []
        for c in self.counters.values():
            charged = sum(hits for _, hits, _ in c.charges)
            if charged and c.end > moment:
                domain, entries, unit = c.name
                order = (domain.encode(), [(k.encode(), v.encode()) for k, v in entries], RANKS[unit], c.start)
                shown = {
                    "domain": domain,
                    "entries": [{"key": k, "value": v} for k, v in entries],
                    "start": c.start,
                    "unit": unit,
                }
                want.append((order, {"charged": charged, "counter": shown}))
        want.sort(key=lambda w: w[0])
        lines = len(self.records)
        for i, (found, (_, wanted)) in enumerate(zip(totals, want)):
            if found != wanted:
                self.fail("totals", lines + i, f"{found}, not {wanted}")
        if len(totals) != len(want):
            self.fail("totals", lines + min(len(totals), len(want)), f"{len(totals)} totals, not {len(want)}")

    # ---- the statistics

    def stats(self, stats):
        want = [
            {"stats": {**numbers, "rule": rule, "version": version}}
            for (version, rule), numbers in sorted(self.counted.items())
            if numbers["total"]
        ]
        if stats != want:
            place = next((i for i, (a, b) in enumerate(zip(stats, want)) if a != b), min(len(stats), len(want)))
            found, wanted = stats[place : place + 1], want[place : place + 1]
            raise Fault("statistics", place + 1, f"{found}, not {wanted}, of {len(want)}")

    def check(self, totals, stats):
        self.kinds()
        self.versions()
        self.moments()
        self.replies()
        self.ledger()
        self.refusals()
        self.sequential()
        self.totals(totals)
        if self.options.stats:
            self.stats(stats)
        elif stats:
            raise Fault("statistics", 1, "nobody asked for them")


def lines_of(path, count):
    """The first `count` lines are records, the others totals and behind them statistics."""
    records, totals, stats = [], [], []
    with open(path, encoding="utf-8") as file:
        for text in file:
            line = json.loads(text)
            if stats or "stats" in line:
                stats.append(line)
            elif len(records) >= count or "charged" in line:
                totals.append(line)
            else:
                records.append(line)
    return records, totals, stats


def main():
    parser = argparse.ArgumentParser()
    for name in ("config", "script", "output"):
        parser.add_argument(name)
    parser.add_argument("--workers", type=int, default=1)
    parser.add_argument("--cells", type=int, default=262144)
    parser.add_argument("--start", type=int, default=0)
    parser.add_argument("--global-shadow", action="store_true")
    parser.add_argument("--stats", action="store_true")
    options = parser.parse_args()
    with open(options.config, encoding="utf-8") as file:
        first = Config([json.load(file)])
    with open(options.script, encoding="utf-8") as file:
        script = Script(file.read())
    records, totals, stats = lines_of(options.output, len(script.lines))
    run = Run(first, script, records, options)
    try:
        run.check(totals, stats)
    except Fault as fault:
        print(f"FAILED {fault}")
        return 1
    answered = sum("reply" in r for r in records)
    full = sum("name" in r.get("refused", {}) for r in records)
    print(f"ok: {len(records)} lines, {answered} checks answered, {full} refused, {len(run.configs) - 1} reloads, {len(totals)} totals, {len(stats)} statistics")
    return 0


if __name__ == "__main__":
    sys.exit(main())
