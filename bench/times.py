#!/usr/bin/env python3
"""Times two programs on one file, in turn, and says how they compare.

times.py PROGRAM PLAIN FILE SMALL [REPEATS]

A time is the processor time of one run (user and system). SMALL is a small file: its time is nearly all start-up. Fails where the median
of PROGRAM on FILE is more than 1.5 times that of PLAIN.
"""

import os
import statistics
import sys

LIMIT = 1.5
WARM_UP = 5


def one_run(program, path):
    """The processor time of one run, in microseconds."""
    source = os.open(path, os.O_RDONLY)
    sink = os.open(os.devnull, os.O_WRONLY)
    actions = [(os.POSIX_SPAWN_DUP2, source, 0), (os.POSIX_SPAWN_DUP2, sink, 1)]
    child = os.posix_spawn(program, [program], os.environ, file_actions=actions)
    _, status, usage = os.wait4(child, 0)
    os.close(source)
    os.close(sink)
    if status != 0:
        sys.exit(f"bench: {program} failed on {path}")
    return 1e6 * (usage.ru_utime + usage.ru_stime)


def measure(programs, path, repeats):
    """For each program its times, the programs taking turns."""
    times = [[] for _ in programs]
    for turn in range(repeats + WARM_UP):
        for program, found in zip(programs, times):
            found.append(one_run(program, path))
    return [found[WARM_UP:] for found in times]


def report(title, times):
    """Prints a table of both programs; answers their medians."""
    print(title)
    medians = []
    for name, found in zip(("kcrun_listing", "plain"), times):
        medians.append(statistics.median(found))
        print(f"  {name}: median {medians[-1]:7.0f} us, least {min(found):7.0f} us")
    print(f"  kcrun_listing/plain: median {medians[0] / medians[1]:.2f}, least {min(times[0]) / min(times[1]):.2f}")
    return medians


def main():
    programs, (path, small) = sys.argv[1:3], sys.argv[3:5]
    repeats = int(sys.argv[5]) if len(sys.argv) > 5 else 200
    large = report(f"largest file, {repeats} runs of each:", measure(programs, path, repeats))
    start = report(f"example file (start-up), {repeats} runs of each:", measure(programs, small, repeats))
    beyond = [max(a - b, 1) for a, b in zip(large, start)]
    print(f"beyond start-up: kcrun_listing {beyond[0]:.0f} us, plain {beyond[1]:.0f} us, kcrun_listing/plain {beyond[0] / beyond[1]:.2f}")
    ratio = large[0] / large[1]
    if ratio > LIMIT:
        sys.exit(f"bench: too slow: {ratio:.2f} times plain, and {LIMIT} is the limit")
    print(f"within the limit: {ratio:.2f} times plain, and {LIMIT} is the limit")


if __name__ == "__main__":
    main()
