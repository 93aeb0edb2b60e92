#!/bin/sh
# Votes per second by scan and by index, for each rule, over logs of 256 and of 4,096 committed rows. Each transaction
# reads and writes 4 objects: of 16 in all, of 1,024, and of 16,384. Votes to commit are on payloads that saw all rows;
# votes that clash are on such as saw all but the last row that wrote their objects, so a scan goes through nearly all
# rows for either. Run it at the top of the repository.
set -e
cd "$(dirname "$0")/../crates/benchmarks"
measure() {
    rt run -- votes "$1" "$2" "$3" 2>&1 | awk -v objects="$1" -v rows="$2" -v votes="$3" '
        function line(rule, kind, scan, by_index) {
            printf "%6d objects, %4d rows, %-8s, %s: scan %.0f votes/s, index %.0f votes/s, %.2f times as many\n",
                objects, rows, rule, kind, votes * 1e6 / scan, votes * 1e6 / by_index, scan / by_index
        }
        $2 == "commit" && $5 == "clash" { line($1, "to commit", $3, $4); line($1, "that clash", $6, $7) }'
}
for objects in 16 1024 16384; do
    for rows in 256 4096; do
        measure "$objects" "$rows" 5000
    done
done
