#!/bin/sh
# Nanoseconds per event of the steps of a run, over its first 100,000 events and over all 1,000,000, and how the time per
# event grows. The schedule, over 3 shards of 3 nodes each, is written by a program that is called as `PROGRAM load SEED
# COUNT`: the first argument, or ../shared/peer/plain. Without such a program nothing is measured. Run it at the top of the
# repository.
set -e
writer=$(realpath "${1:-../shared/peer/plain}" 2>/dev/null) || true
cd "$(dirname "$0")/../crates/benchmarks"
if [ ! -x "$writer" ]; then
    echo "skipped: no program that writes a schedule"
    exit 0
fi
"$writer" load 1 1000000 | rt run -- steps 2>&1 | awk '
    / commits$/ { print }
    / us$/ { each[$1] = 1000 * $3 / $1; printf "%d events: %.0f ns/event\n", $1, each[$1] }
    END { printf "grows by %.2f\n", each[1000000] / each[100000] }'
