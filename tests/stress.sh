#!/usr/bin/env bash
# Runs long made-up scripts through the real program by four workers over 64 cells, and reads with a plain program whether each run
# is a lawful one with its totals (tests/run_check.py). Then it plants faults into what the last run printed, each of which has to be found.
# A run of 1,000,000 checks is judged by `ratelimit audit`, and a shorter one too, whole and with one byte changed at each of 100 places.
# Usage: tests/stress.sh [RUNS of 700,000 lines, 15 unless given: more than 10,000,000 checks]
# It is outside of the gate, takes some minutes and needs python3. The last line of a run says how many checks it had.
set -u
here=$(cd "$(dirname "${BASH_SOURCE[0]}")" && pwd)
top=$(cd "$here/.." && pwd)
runs=${1:-15}
lines=${STRESS_LINES:-700000}
# The checks of the long run that is audited, and the lines of the one whose bytes are changed.
checks=${STRESS_CHECKS:-1000000}
audited=${STRESS_AUDITED:-10000}
work=$(mktemp -d) || exit 1
trap 'rm -rf "$work"' EXIT
failed=0

# drive WORKERS CELLS: the program over the script, and what the reader says
drive() {
    "$top/ratelimit" drive --workers "$1" --cells "$2" "$work/config.json" <"$work/script" >"$work/out" 2>"$work/err" || {
        printf 'FAILED the program ended with %s: %s\n' $? "$(head -n 1 "$work/err")"
        return 1
    }
    python3 "$here/run_check.py" "$work/config.json" "$work/script" "$work/out" --workers "$1" --cells "$2"
}

for seed in $(seq "$runs"); do
    python3 "$here/stress_script.py" "$seed" "$lines" "$work/config.json" "$work/script" || exit 1
    printf 'run %s: ' "$seed"
    drive 4 64 || failed=1
done

# One worker, whose run is determined, over a shorter script.
python3 "$here/stress_script.py" 1 $((lines / 10)) "$work/config.json" "$work/script" || exit 1
printf 'one worker: '
drive 1 64 || failed=1

# Planted faults.
printf 'four workers: '
drive 4 64 || failed=1
for fault in $(python3 "$here/stress_fault.py" faults); do
    if ! python3 "$here/stress_fault.py" "$fault" "$work/out" "$work/changed"; then
        failed=1
        continue
    fi
    if said=$(python3 "$here/run_check.py" "$work/config.json" "$work/script" "$work/changed" --workers 4 --cells 64); then
        printf 'FAILED %s: not found\n' "$fault"
        failed=1
    else
        printf 'found %s: %s\n' "$fault" "$said"
    fi
done

# audit RUN: the verdict on a run of four workers over 64 cells
audit() {
    "$top/ratelimit" audit --run "$1" --workers 4 --cells 64 "$work/config.json" <"$work/script"
}

# run_and_audit: a run of the script, which has to be lawful
run_and_audit() {
    local lines said
    lines=$(wc -l <"$work/script")
    printf 'to be audited: '
    drive 4 64 || failed=1
    said=$(audit "$work/out")
    printf 'audit of %s lines: %s\n' "$lines" "$said"
    [ "$said" = "{\"lawful\":true,\"records\":$lines}" ] || {
        printf 'FAILED audit of %s lines\n' "$lines"
        failed=1
    }
}

python3 "$here/stress_script.py" 3 "$checks" "$work/config.json" "$work/script" short || exit 1
run_and_audit
python3 "$here/stress_script.py" 2 "$audited" "$work/config.json" "$work/script" || exit 1
run_and_audit
# With another byte it may be lawful only where the plain reader finds no fault either, as where another worker may have had a line.
lawful=0
for place in $(seq 100); do
    python3 "$here/stress_byte.py" "$place" "$work/out" "$work/changed" || exit 1
    said=$(audit "$work/changed")
    case $said in
    '{"lawful":false,"line":'* | '{"clause":'*) ;;
    *)
        lawful=$((lawful + 1))
        if ! python3 "$here/run_check.py" "$work/config.json" "$work/script" "$work/changed" --workers 4 --cells 64 >"$work/err" 2>&1; then
            printf 'FAILED byte %s: audit said %s, the plain reader %s\n' "$place" "$said" "$(tail -n 1 "$work/err")"
            failed=1
        fi
        ;;
    esac
done
printf 'audit of 100 changed bytes: %s lawful, as the plain reader finds them\n' "$lawful"
exit "$failed"
