#!/usr/bin/env python3
"""Plants a fault into what `ratelimit drive` printed, for tests/stress.sh.

Usage: stress_fault.py FAULT OUTPUT CHANGED

FAULT is one of those that `faults` names. The first record from the middle on that the fault fits is changed.
"""
import json
import sys


def pairs(r):
    return list(zip(r.get("counts", []), r.get("reply", {}).get("statuses", [])))


def charged(r):
    """What was charged where hits were charged before and some remain, with its status."""
    return [(c, s) for c, s in pairs(r) if c and c.get("before", 0) > 0 and "limitRemaining" in s]


def seen(r):
    """What was seen above a limit, with its status."""
    return [(c, s) for c, s in pairs(r) if c and "seen" in c and s["code"] == "OVER_LIMIT"]


def lost_addition(r):
    count, status = charged(r)[0]
    count["before"] -= 1
    status["limitRemaining"] += 1


def invented_sight(r):
    """A value above all sums of charges, since one more may have been seen a moment later."""
    seen(r)[0][0]["seen"] += 2**40


def admitted_over_the_limit(r):
    r["reply"]["overallCode"] = "OK"


def another_remaining(r):
    for status in r["reply"]["statuses"]:
        if "limitRemaining" in status:
            status["limitRemaining"] += 1


def later_moment_of_its_own(r):
    r["moment"] += 1


def version_never_installed(r):
    r["version"] += 100000


def refused_with_room(r):
    r["refused"]["live"] = 1


def more_held_than_may_be(r):
    r["refused"]["held"] += 1000


def worker_never_there(r):
    r["worker"] = 64


def another_tick(r):
    r["ticked"] += 1


def installed_twice(r):
    r["installed"] -= 1
    r["version"] -= 1


def line_drawn_twice(r):
    r["line"] -= 1


def total_too_high(r):
    r["charged"] += 1


FAULTS = {
    "lost_addition": (charged, lost_addition),
    "invented_sight": (seen, invented_sight),
    "admitted_over_the_limit": (lambda r: r.get("reply", {}).get("overallCode") == "OVER_LIMIT", admitted_over_the_limit),
    "another_remaining": (lambda r: "limitRemaining" in json.dumps(r.get("reply", {})), another_remaining),
    "later_moment_of_its_own": (lambda r: "reply" in r, later_moment_of_its_own),
    "version_never_installed": (lambda r: "reply" in r, version_never_installed),
    "refused_with_room": (lambda r: r.get("refused", {}).get("name") == "CountersFull", refused_with_room),
    "more_held_than_may_be": (lambda r: r.get("refused", {}).get("name") == "CountersFull", more_held_than_may_be),
    "worker_never_there": (lambda r: "worker" in r, worker_never_there),
    "another_tick": (lambda r: "ticked" in r, another_tick),
    "installed_twice": (lambda r: r.get("installed", 0) > 1, installed_twice),
    "line_drawn_twice": (lambda r: "line" in r, line_drawn_twice),
    "total_too_high": (lambda r: "charged" in r, total_too_high),
    "record_left_out": (lambda r: "line" in r, None),
    "total_left_out": (lambda r: "charged" in r, None),
}


def main():
    if sys.argv[1] == "faults":
        print("\n".join(FAULTS))
        return 0
    fits, plant = FAULTS[sys.argv[1]]
    with open(sys.argv[2], encoding="utf-8") as file:
        lines = file.readlines()
    for i in list(range(len(lines) // 2, len(lines))) + list(range(len(lines) // 2)):
        r = json.loads(lines[i])
        if fits(r):
            if plant is None:
                del lines[i]
            else:
                plant(r)
                lines[i] = json.dumps(r, separators=(",", ":")) + "\n"
            with open(sys.argv[3], "w", encoding="utf-8") as file:
                file.writelines(lines)
            return 0
    print(f"no record that {sys.argv[1]} fits")
    return 1


sys.exit(main())
