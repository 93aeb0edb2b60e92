#!/bin/sh
# Refuses each allocation of small runs in turn: the program ends with status 6 (out of memory), or as it does with all of
# its allocations. A library that is loaded before the C library's refuses the allocation of one number.
set -eu
top=$(cd "$(dirname "$0")/.." && pwd)
program=${TCS:-$top/crates/tcs/out/tcs}
if [ ! -x "$program" ]; then
    echo "skipped: no program $program; bin/tcs builds it"
    exit 0
fi
work=$(mktemp -d)
trap 'rm -rf "$work"' EXIT
cat >"$work/refuse.c" <<'C'
#define _GNU_SOURCE
#include <dlfcn.h>
#include <errno.h>
#include <fcntl.h>
#include <stdlib.h>
#include <unistd.h>

static long left = -1;

// Whether this allocation is the one to refuse. A file is left where it came to that.
static int refused(void) {
    if (left < 0) left = atol(getenv("REFUSE"));
    if (left == 0 || --left) return 0;
    close(open(getenv("REFUSED"), O_CREAT | O_WRONLY, 0600));
    errno = ENOMEM;
    return 1;
}

void *malloc(size_t size) {
    static void *(*next)(size_t);
    if (!next) next = dlsym(RTLD_NEXT, "malloc");
    return refused() ? NULL : next(size);
}

void *realloc(void *old, size_t size) {
    static void *(*next)(void *, size_t);
    if (!next) next = dlsym(RTLD_NEXT, "realloc");
    return refused() ? NULL : next(old, size);
}

int posix_memalign(void **to, size_t align, size_t size) {
    static int (*next)(void **, size_t, size_t);
    if (!next) next = dlsym(RTLD_NEXT, "posix_memalign");
    return refused() ? ENOMEM : next(to, align, size);
}

void *aligned_alloc(size_t align, size_t size) {
    static void *(*next)(size_t, size_t);
    if (!next) next = dlsym(RTLD_NEXT, "aligned_alloc");
    return refused() ? NULL : next(align, size);
}
C
cc -O2 -shared -fPIC -o "$work/refuse.so" "$work/refuse.c" -ldl

# Each allocation of `tcs WORDS` on an input.
try() {
    words=$1 input=$2
    usual=0
    "$program" $words <"$input" >"$work/usual" 2>/dev/null || usual=$?
    number=1 ended=0
    while :; do
        rm -f "$work/refused"
        status=0
        REFUSE=$number REFUSED=$work/refused LD_PRELOAD=$work/refuse.so \
            "$program" $words <"$input" >"$work/output" 2>/dev/null || status=$?
        [ -e "$work/refused" ] || break
        if [ "$status" = 6 ]; then
            ended=$((ended + 1))
        elif [ "$status" != "$usual" ] || ! cmp -s "$work/output" "$work/usual"; then
            echo "$words of $(basename "$input"): allocation $number refused gives status $status"
            exit 1
        fi
        number=$((number + 1))
    done
    echo "$words of $(basename "$input"): $((number - 1)) allocations, $ended of them refused give status 6, the others the usual"
}

try replay "$top/examples/one-commit.sched"
try replay "$top/crates/worked_runs/data/take_over_after_leader_stops.sched"
try replay "$top/crates/worked_runs/data/state_in_two_pieces.sched"
try audit "$top/examples/take-over.trace"
try quorum "$top/examples/two-proposers.quorum"
try totals "$top/examples/counters.sched"
try restore "$top/crates/worked_runs/data/backup.backup"
try 'soak 1 30' /dev/null
