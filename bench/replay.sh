#!/bin/sh
# Events per second and peak memory of `tcs replay`, for schedules of one certify and N deliveries. Run it at the top of
# the repository.
set -eu
top=$(cd "$(dirname "$0")/.." && pwd)
for count in 10000 100000 999999; do
    {
        head -n 7 "$top/examples/one-commit.sched"
        yes 'deliver 1' | head -n "$count"
        echo end
    } >"${TMPDIR:-/tmp}/tcs-bench.sched"
    python3 - "$top/bin/tcs" "${TMPDIR:-/tmp}/tcs-bench.sched" "$count" <<'PY'
import resource, subprocess, sys, time
program, schedule, count = sys.argv[1], sys.argv[2], int(sys.argv[3])
begun = time.perf_counter()
with open(schedule) as text:
    subprocess.run([program, "replay"], stdin=text, stdout=subprocess.DEVNULL, check=True)
seconds = time.perf_counter() - begun
peak = resource.getrusage(resource.RUSAGE_CHILDREN).ru_maxrss
print(f"{count + 1} events: {(count + 1) / seconds:.0f} events/s, peak memory {peak} KiB")
PY
done
rm -f "${TMPDIR:-/tmp}/tcs-bench.sched"
