#!/usr/bin/env bash
# Prints where the time of the last .ci/run on this machine went: processor seconds and minutes by crate and part, and the other work that the machine did.
# usage: tests/gate_time.sh [FILE], a table that .ci/run left in ${TMPDIR:-/tmp}/ratelimit-gate (the newest unless given)
exec python3 "$(dirname "${BASH_SOURCE[0]}")/gate_time.py" print "$@"
