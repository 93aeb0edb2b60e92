#!/bin/sh
# Megabytes per second of `decode` and `encode`: small messages, and a NEW_STATE of 4,096 full rows (16 reads and 16
# writes with names of 32 bytes and values of 64 bytes). Run it at the top of the repository.
set -e
cd "$(dirname "$0")/../crates/benchmarks"
frame() {
    python3 - "$1" <<'PY'
import sys
def name(i): return "20" + ("%032d" % i).encode().hex()
def payload():
    parts = "%016x" % 2 + "10"
    parts += "".join(name(i) + "%016x" % 1 for i in range(16))
    return parts + "10" + "".join(name(i) + "40" + "ab" * 64 for i in range(16))
def row(k): return "%04x" % k + "01" + "%08x" % k + "10" + "".join("%02x" % s for s in range(1, 17)) + "00" + payload() + "01"
if sys.argv[1] == "state":
    print("09" + "01" + "00000002" + "02" + "0102" + "01" + "01" + "%04x" % 4096 + "".join(row(k) for k in range(1, 4097)))
else:
    print("01000000010100000001010101000000000000000101016100000000000000000101610105")
    print("05000000010001010000000101")
PY
}
measure() {
    frame "$1" | rt run -- frames "$2" 2>&1 | awk '
        / bytes, / { bytes = $1; rounds = $3 }
        /^decode / { printf "%d bytes: decode %.0f MB/s, encode %.0f MB/s\n", bytes, bytes * rounds / $2, bytes * rounds / $5 }'
}
measure small 200000
measure state 5
