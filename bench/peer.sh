#!/bin/sh
# Time and memory of `tcs` beside those of another program that knows the same commands: `replay` and `quorum` of 200,000
# events, on inputs which that program makes (`load 1 N` and `random quorum 1 N`), `gen` and `soak` of 50,000 events, and the
# `replay` of what `gen` writes. Five runs of each by turns, and of them the medians and the greatest peaks; and of 100,000 and of
# 1,000,000 events the time that `tcs replay` takes for one event.
#
# The other program is $PEER. Where it is missing nothing is measured.
set -eu
top=$(cd "$(dirname "$0")/.." && pwd)
peer=${PEER:-/work/shared/peer/plain}
program=${TCS:-$top/crates/tcs/out/tcs}
if [ ! -x "$peer" ]; then
    echo "skipped: no program $peer"
    exit 0
fi
if [ ! -x "$program" ]; then
    echo "skipped: no program $program; bin/tcs builds it"
    exit 0
fi
work=$(mktemp -d)
trap 'rm -rf "$work"' EXIT
for count in 100000 200000 1000000; do
    "$peer" load 1 "$count" >"$work/$count"
done
python3 "$top/bench/side_by_side.py" compare "$program" "$peer" 5 "200000 events" replay "$work/200000"
"$peer" random quorum 1 200000 >"$work/quorum"
python3 "$top/bench/side_by_side.py" compare "$program" "$peer" 5 "200000 events" quorum "$work/quorum"
for word in gen soak; do
    python3 "$top/bench/side_by_side.py" compare "$program" "$peer" 5 "50000 events" "$word 7 50000" /dev/null
done
"$peer" gen 7 50000 >"$work/generated"
python3 "$top/bench/side_by_side.py" compare "$program" "$peer" 5 "50000 generated events" replay "$work/generated"
python3 "$top/bench/side_by_side.py" growth "$program" 5 replay us 1000000 100000 "$work/100000" 1000000 "$work/1000000"
