#!/usr/bin/env bash
# Checks docs/MIGRATE.md: its converter makes the stored JSON of each example, `lookup` says of them what the page shows, and each field has the
# answer that its table says.
# Usage: tests/migrate.sh [PROGRAM]
# Prints `ok NAME` or `FAILED NAME: ...` for each case, and ends with 1 if any failed. It needs python3 with PyYAML (Debian: python3-yaml).
set -u
here=$(cd "$(dirname "${BASH_SOURCE[0]}")" && pwd)
top=$(cd "$here/.." && pwd)
program=${1:-$top/crates/ratelimit/out/ratelimit}
page=$top/docs/MIGRATE.md
work=$(mktemp -d) || exit 1
trap 'rm -rf "$work"' EXIT
failed=0

if [ ! -x "$program" ]; then
    printf 'FAILED program: there is none at %s\n' "$program"
    exit 1
fi
if ! python3 -c 'import yaml' 2>/dev/null; then
    printf 'FAILED PyYAML: it is not installed\n'
    exit 1
fi

# same NAME WANTED FOUND
same() {
    if [ "$2" = "$3" ]; then
        printf 'ok %s\n' "$1"
    else
        printf 'FAILED %s: %s, not %s\n' "$1" "$3" "$2"
        failed=1
    fi
}

# The first indented block of the page that makes to_json.py, as a shell command.
sed -n '/^    cat > to_json.py/,/^    END$/{s/^    //;p;}' "$page" >"$work/paste"
(cd "$work" && bash ./paste)
same "the page's converter is the file" '' "$(diff "$work/to_json.py" "$top/examples/migrate/to_json.py" 2>&1)"

for yaml in "$top"/examples/migrate/*.yaml; do
    name=$(basename "$yaml" .yaml)
    python3 "$work/to_json.py" <"$yaml" >"$work/$name.json"
    same "$name: its JSON" '' "$(diff "$work/$name.json" "${yaml%.yaml}.json" 2>&1)"
done

for json in "$top"/examples/migrate/*.json; do
    basename "$json" .json
    "$program" lookup "$json" 2>&1 < <(cat "${json%.json}.jsonl" 2>/dev/null)
done >"$work/found"
sed -n '/^    01-database$/,/^$/s/^    //p' "$page" >"$work/shown"
same "what the page shows of them" '' "$(diff "$work/found" "$work/shown")"

# answer NAME WANTED NODE [FILE]: what is said of a file with this node
answer() {
    printf '%s' "${4:-{\"domain\":\"d\",\"descriptors\":[$3]\}}" >"$work/file.json"
    local said
    said=$("$program" lookup "$work/file.json" </dev/null 2>&1)
    same "$1" "$2" "${said#ratelimit: config 0: refused }"
}
limit='"rate_limit":{"unit":"second","requests_per_unit":"5"}'
answer 'key, value and rate_limit' '' "{\"key\":\"k\",\"value\":\"v\",$limit}"
answer 'an empty key' '12 at /descriptors/0' "{\"value\":\"v\",$limit}"
answer 'two siblings' '13 at /descriptors/1' "{\"key\":\"k\",$limit},{\"key\":\"k\",$limit}"
answer 'a value that is no text' '5 at /descriptors/0/value' "{\"key\":\"k\",\"value\":7,$limit}"
answer 'an empty domain' '10 at ' '' "{\"descriptors\":[{\"key\":\"k\",$limit}]}"
answer 'a unit in capitals' '' '{"key":"k","rate_limit":{"unit":"DAY","requests_per_unit":5}}'
for unit in week month year; do
    answer "the unit $unit" '8 at /descriptors/0/rate_limit/unit' "{\"key\":\"k\",\"rate_limit\":{\"unit\":\"$unit\",\"requests_per_unit\":5}}"
done
answer 'no unit' '14 at /descriptors/0/rate_limit' '{"key":"k","rate_limit":{"requests_per_unit":5}}'
answer 'a number too large' '7 at /descriptors/0/rate_limit/requests_per_unit' '{"key":"k","rate_limit":{"unit":"day","requests_per_unit":"4294967296"}}'
answer 'a number that is not whole' '6 at /descriptors/0/rate_limit/requests_per_unit' '{"key":"k","rate_limit":{"unit":"day","requests_per_unit":"0x10"}}'
answer unlimited '' '{"key":"k","rate_limit":{"unlimited":true}}'
answer 'a unit beside unlimited' '15 at /descriptors/0/rate_limit' '{"key":"k","rate_limit":{"unlimited":true,"unit":"day"}}'
answer 'name and replaces' '' '{"key":"k","rate_limit":{"unit":"day","name":"a","replaces":[{"name":"b"}]}}'
answer 'a rule that replaces itself' '29 at /descriptors/0/rate_limit' '{"key":"k","rate_limit":{"unit":"day","name":"a","replaces":[{"name":"a"}]}}'
answer '33 replaced names' '30 at /descriptors/0/rate_limit/replaces' \
    "{\"key\":\"k\",\"rate_limit\":{\"unit\":\"day\",\"replaces\":[$(seq -s, 33 | sed 's/[0-9]*/{"name":"n&"}/g')]}}"
answer 'shadow_mode and detailed_metric' '' "{\"key\":\"k\",\"shadow_mode\":true,\"detailed_metric\":true,$limit}"
for field in quota_mode value_to_metric share_threshold; do
    answer "$field" "3 at /descriptors/0/$field" "{\"key\":\"k\",\"$field\":true,$limit}"
done
printf '{"domain":"d"}' >"$work/one.json"
same 'two files of one domain' 'ratelimit: config 1: refused 11 at ' "$("$program" lookup "$work/one.json" "$work/one.json" </dev/null 2>&1)"
exit "$failed"
