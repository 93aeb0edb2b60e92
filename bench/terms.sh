#!/bin/sh
# Copies of payloads, and parts of them in a shard, per second: of one read and one write, and of the largest payload (16
# reads and 16 writes with names of 32 bytes and values of 64 bytes). Scattered copies are of the same names and values, each
# in a place of its own, as payloads were kept before their copies shared them. Run it at the top of the repository.
set -e
cd "$(dirname "$0")/../crates/benchmarks"
rounds=${1:-10000000}
rt run -- terms "$rounds" 2>&1 | awk -v n="$rounds" '
    function rate(us) { return us > 0 ? sprintf("%d", n * 1000000 / us) : "too many" }
    / us, / { printf "%s %s copies/s, %s scattered copies/s, %s restrictions/s to one shard of one, %s restrictions/s to one of two\n",
        $1, rate($3), rate($6), rate($11), rate($18) }'
