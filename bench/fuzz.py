"""Random and changed inputs of one kind through two programs that know the same commands.

Called as `fuzz.py PROGRAM PEER KIND COUNT FIRST_SEED`. The kinds are schedule (`replay`), trace (`audit`), quorum (`quorum`)
and file (`restore`). The peer makes each input; of two inputs one is changed. Both programs must answer alike: bytes on standard
output, exit number, and text on standard error.
"""

import subprocess
import sys
from multiprocessing import Pool

COMMANDS = {"schedule": "replay", "trace": "audit", "quorum": "quorum", "file": "restore"}
RULES = ["serial", "snapshot", "commute"]


def output(words, given=b""):
    return subprocess.run(words, input=given, stdout=subprocess.PIPE, stderr=subprocess.DEVNULL).stdout


def made(peer, kind, seed):
    """The input of a seed."""
    number = str(seed)
    if kind == "quorum":
        text = output([peer, "random", "quorum", number, str(5 + seed % 60)])
    elif kind == "file":
        text = output([peer, "random", "file", number])
    else:
        version, rule = str(1 + seed % 2), RULES[seed % 3]
        text = output([peer, "random", "schedule", number, version, rule, str(5 + seed % 60)])
        if kind == "trace":
            text = output([peer, "replay"], text)
    return output([peer, "mutate", kind, number], text) if seed % 2 else text


def answer(program, kind, text):
    done = subprocess.run([program, COMMANDS[kind]], input=text, capture_output=True, timeout=60)
    return done.returncode, done.stdout, done.stderr.split(b": ", 1)[-1]


def case(given):
    program, peer, kind, seed = given
    text = made(peer, kind, seed)
    ours, theirs = answer(program, kind, text), answer(peer, kind, text)
    return seed, ours[0], ours == theirs


def main():
    program, peer, kind, count, first = sys.argv[1:6]
    statuses, differ = {}, []
    seeds = range(int(first), int(first) + int(count))
    with Pool() as pool:
        for seed, status, same in pool.imap_unordered(case, ((program, peer, kind, s) for s in seeds), 64):
            statuses[status] = statuses.get(status, 0) + 1
            if not same:
                differ.append(seed)
    counts = ", ".join(f"status {status}: {statuses[status]}" for status in sorted(statuses))
    print(f"{kind}: {len(seeds)} inputs, {len(differ)} differ ({counts})")
    if differ:
        print("seeds that differ:", *sorted(differ)[:20])
        sys.exit(1)


main()
