#!/bin/sh
# Lines per second of a trace that are read and parsed from standard input: half a million events, each with one message
# of 33 bytes. Run it at the top of the repository.
set -e
cd "$(dirname "$0")/../crates/benchmarks"
awk 'BEGIN {
    print "trace 1 serial 1"
    for (k = 1; k <= 500000; k++) {
        print "e " k " acted"
        print "m " k " 1 1 PREPARE 010000000101000000010101010000000000000001010161000000000000000000"
    }
    print "order -"
    print "end 500000 500000"
}' | rt run -- traces 2>&1 | awk '
    / lines, / { lines = $1; print }
    / us$/ { printf "%.0f lines/s\n", lines / $1 * 1000000 }'
