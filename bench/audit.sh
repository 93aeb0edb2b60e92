#!/bin/sh
# Time and memory of `tcs audit` beside those of another program that knows the same command, on the trace of a schedule
# that this program makes (`load 1 200000`): five runs of each by turns, and of them the medians and the greatest peaks. And
# the time that `tcs` takes for one byte, of a trace of about 5 MB and of one of about 200 MB: a leader that prepares the
# largest payload again and again.
#
# The other program is $PEER. Where it is missing nothing is measured.
set -eu
top=$(cd "$(dirname "$0")/.." && pwd)
peer=${PEER:-/work/shared/peer/plain}
program=${TCS:-$top/crates/tcs/out/tcs}
if [ ! -x "$peer" ]; then
    echo "skipped: no program $peer"
    exit 0
fi
if [ ! -x "$program" ]; then
    echo "skipped: no program $program; bin/tcs builds it"
    exit 0
fi
work=$(mktemp -d)
trap 'rm -rf "$work"' EXIT

# A schedule of so many deliveries of one PREPARE with 16 reads and 16 writes of 64 bytes.
again() {
    head -n 7 "$top/examples/one-commit.sched" | sed '/^certify/,$d'
    awk -v count="$1" 'BEGIN {
        line = "certify 1 v 1"
        for (i = 97; i < 113; i++) line = line sprintf(" r %c 0", i)
        for (j = 0; j < 64; j++) value = value "ab"
        for (i = 97; i < 113; i++) line = line sprintf(" w %c %s", i, value)
        print line
        for (k = 0; k < count; k++) print "deliver 1"
        print "end"
    }'
}

"$peer" load 1 200000 | "$peer" replay >"$work/load"
again 1900 | "$peer" replay >"$work/small"
again 76000 | "$peer" replay >"$work/large"
python3 "$top/bench/side_by_side.py" compare "$program" "$peer" 5 "200000 events" audit "$work/load"
python3 "$top/bench/side_by_side.py" growth "$program" 5 audit ns 1000000000 \
    "$(wc -c <"$work/small")" "$work/small" "$(wc -c <"$work/large")" "$work/large"
