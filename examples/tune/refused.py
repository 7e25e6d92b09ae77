"""refused.py SCRIPT RUN: what `drive` printed for a script, as a table: of each caller and path, how many checks were refused."""
import collections, json, sys
asked, over, refused, checks = collections.Counter(), collections.Counter(), 0, 0
for line, record in zip(open(sys.argv[1]), map(json.loads, open(sys.argv[2]))):
    if "reply" in record:
        checks += 1
        refused += record["reply"]["overallCode"] == "OVER_LIMIT"
        for descriptor, status in zip(json.loads(line)["check"]["descriptors"], record["reply"]["statuses"]):
            name = " ".join(entry["value"] for entry in descriptor["entries"])
            asked[name] += 1
            over[name] += status["code"] == "OVER_LIMIT"
over = +over
print(f"{refused} of {checks} checks would have been refused")
for name, count in sorted(over.items(), key=lambda item: (-item[1], item[0])):
    print(f"{count:6} of {asked[name]:6}  {name}")
