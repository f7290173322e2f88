#!/usr/bin/env python3
"""Runs kcrun_listing on many run files and compares what it prints with what the model says.

    python3 tools/compare.py [PROGRAM [FILES [SEED]]]

PROGRAM is crates/kcrun_listing/out/kcrun_listing where it is not given, FILES 10,000 and SEED 1. The files are the same for the same seed. It stops at the first
difference, keeps that file, and shows the first line that differs.
"""

import subprocess
import sys
import tempfile
from collections import Counter
from itertools import zip_longest
from pathlib import Path

from files import make
from model import listing

ROOT = Path(__file__).resolve().parent.parent
DIFFERING = Path(tempfile.gettempdir()) / "compare-differs.run"
MOST_SECONDS = 20  # for one file, which takes the program some milliseconds
GRANTED = {"b": "starts", "s": "steps", "c": "collects", "h": "halts"}


def printed(program, data):
    """What the program prints for these bytes; a bad end is told in a line of its own, which no listing has."""
    try:
        done = subprocess.run([program], input=data, stdout=subprocess.PIPE, stderr=subprocess.DEVNULL, timeout=MOST_SECONDS)
    except subprocess.TimeoutExpired:
        return f"no end within {MOST_SECONDS} seconds\n"
    end = f"exit status {done.returncode}\n" if done.returncode else ""
    return done.stdout.decode("ascii", "replace") + end


def show_difference(wanted, found):
    """Shows the first line in which the two texts differ."""
    lines = zip_longest(wanted.splitlines(keepends=True), found.splitlines(keepends=True))
    for number, (want, have) in enumerate(lines, start=1):
        if want != have:
            print(f"line {number}:")
            print(f"  model: {want!r}")
            print(f"  program: {have!r}")
            return


def count_lines(text, tally):
    """Adds to the tally what the lines of a listing tell."""
    for line in text.splitlines():
        letter, *fields = line.split(" ")
        if letter == "f":
            tally["faults"] += 1
        elif letter == "o":
            tally["openings " + ("refused" if fields[0].startswith("r") else "granted")] += 1
        elif letter in GRANTED:
            told = fields[1]
            tally[f"calls refused with {told[1:]:>2}" if told.startswith("r") else f"{GRANTED[letter]} granted"] += 1


def compare(program, files, seed):
    """Whether all of the files agree; prints what came up, or the difference."""
    tally = Counter()
    kinds = Counter()
    for index in range(files):
        kind, data = make(seed, index)
        wanted = listing(data, tally)
        found = printed(program, data)
        if found != wanted:
            DIFFERING.write_bytes(data)
            print(f"file {index + 1} of seed {seed} ({kind}) differs; it is in {DIFFERING}")
            show_difference(wanted, found)
            return False
        kinds[kind] += 1
        count_lines(wanted, tally)
    print(f"{files} files of seed {seed} agree:", ", ".join(f"{count} {kind}" for kind, count in kinds.most_common()))
    for what, count in sorted(tally.items()):
        print(f"{count:10} {what}")
    return True


def main(arguments):
    program = Path(arguments[0]) if arguments else ROOT / "crates" / "kcrun_listing" / "out" / "kcrun_listing"
    files = int(arguments[1]) if len(arguments) > 1 else 10_000
    seed = int(arguments[2]) if len(arguments) > 2 else 1
    if not program.is_file():
        print(f"compare: no program {program}; build it with: cd crates/kcrun_listing && rt run", file=sys.stderr)
        return 2
    return 0 if compare(program.resolve(), files, seed) else 1


if __name__ == "__main__":
    sys.exit(main(sys.argv[1:]))
