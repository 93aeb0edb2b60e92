"""Runs programs one after the other on the same input, by the same words, and tells their seconds and their peaks of memory.

side_by_side.py compare TCS PEER RUNS NAME WORDS INPUT    medians, ratio of speed, ratio of memory
side_by_side.py growth TCS RUNS WORDS UNIT SCALE COUNT INPUT COUNT INPUT  the time for one unit of each input, and its growth
"""
import os
import statistics
import sys
import time


def run(program, word, path):
    """The seconds of one run of a program, and its peak of memory in KiB. Exit numbers 0 and 1 are answers."""
    begun = time.perf_counter()
    child = os.fork()
    if child == 0:
        os.dup2(os.open(path, os.O_RDONLY), 0)
        os.dup2(os.open(os.devnull, os.O_WRONLY), 1)
        os.execv(program, [program, *word.split()])
    _, status, usage = os.wait4(child, 0)
    code = os.waitstatus_to_exitcode(status)
    if code not in (0, 1):
        sys.exit(f"{program} {word} < {path} ended with {code}")
    return time.perf_counter() - begun, usage.ru_maxrss


def compare(tcs, peer, runs, name, word, path):
    """Both programs by turns, so that what else the machine does meets both alike."""
    taken = {tcs: [], peer: []}
    for _ in range(int(runs)):
        for program in taken:
            taken[program].append(run(program, word, path))
    median = {program: statistics.median(seconds for seconds, _ in taken[program]) for program in taken}
    peak = {program: max(memory for _, memory in taken[program]) for program in taken}
    print(f"{word}, {name}: tcs {median[tcs]:.2f} s and {peak[tcs]} KiB, peer {median[peer]:.2f} s and {peak[peer]} KiB")
    print(f"{word}, {name}: speed {median[peer] / median[tcs]:.2f} of the peer's, memory {peak[tcs] / peak[peer]:.2f} times")


def growth(tcs, runs, word, unit, scale, *sizes):
    """The time for one unit of the input, which has so many of them."""
    each = []
    for count, path in zip(sizes[::2], sizes[1::2]):
        seconds = statistics.median(run(tcs, word, path)[0] for _ in range(int(runs)))
        each.append(seconds / int(count) * float(scale))
        print(f"{word}: {count} units, {each[-1]:.3f} {unit} each")
    print(f"{word}: time for each grows by {each[-1] / each[0]:.2f}")


if __name__ == "__main__":
    {"compare": compare, "growth": growth}[sys.argv[1]](*sys.argv[2:])
