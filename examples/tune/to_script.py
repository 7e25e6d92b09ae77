"""Reads an access log (nginx's combined format, HAProxy's httplog) and prints a script: a tick a second, a check a line."""
import calendar, json, re, sys, time
LINE = re.compile(r'^(?:.*?(\S+):\d+ |(\S+) .*?)\[(\d+/\w+/\d+:\d+:\d+:\d+)[^]]*\][^"]*"[A-Z]+ ([^ ?"]+)')
last = None
for found in filter(None, map(LINE.search, sys.stdin)):
    address, path = (found[1] or found[2])[:1024], found[4][:1024]
    moment = calendar.timegm(time.strptime(found[3], "%d/%b/%Y:%H:%M:%S"))
    if moment != last:
        print(json.dumps({"tick": moment}))
    last, caller = moment, {"key": "remote_address", "value": address}
    entries = [[caller], [{"key": "path", "value": path}, caller]]
    print(json.dumps({"check": {"domain": "trial", "descriptors": [{"entries": e} for e in entries]}}))
