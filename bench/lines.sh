#!/bin/sh
# Events per second that are read and parsed from standard input: a million short event lines of each of four kinds, then
# a million certifies of one read and one write. Run it at the top of the repository.
set -e
cd "$(dirname "$0")/../crates/benchmarks"
measure() {
    {
        printf 'tcs 1\ncertifier serial\nshards 1\nnode 1 1\nconfig 1 1 1\nevents\n'
        yes "$1" | head -n 1000000
        echo end
    } | rt run -- lines 2>&1 | awk -v line="$1" '
        / events$/ { events = $1 }
        / us$/ { printf "%s: %.0f events/s\n", line, events / $1 * 1000000 }'
}
measure 'deliver 1234'
measure 'nudge 1'
measure 'ask 1 1'
measure 'take 1 1.20'
measure 'certify 1 v 1 r a 0 w a 05'
