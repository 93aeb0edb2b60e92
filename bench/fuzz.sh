#!/bin/sh
# Random and changed schedules, traces, quorum inputs and backup files through `tcs` and through another program that knows the same
# commands and makes the inputs: both must answer alike, and none may crash. The first argument is the number of inputs of
# each kind (200,000 without one), the second the first seed (1).
#
# The other program is $PEER. Where it is missing nothing is tried.
set -eu
top=$(cd "$(dirname "$0")/.." && pwd)
peer=${PEER:-/work/shared/peer/plain}
program=${TCS:-$top/crates/tcs/out/tcs}
for needed in "$peer" "$program"; do
    if [ ! -x "$needed" ]; then
        echo "skipped: no program $needed"
        exit 0
    fi
done
for kind in schedule trace quorum file; do
    python3 "$top/bench/fuzz.py" "$program" "$peer" "$kind" "${1:-200000}" "${2:-1}"
done
