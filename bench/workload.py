#!/usr/bin/env python3
"""How the time and the memory of the command `workload` grow with its count of objects: counts of 100, 200, 400 .. up to 20,000, or
until a run takes more than two minutes. Prints the seconds of each, its peak memory, and the ratio of its seconds to those of the
count before. Each summary has to tell that every observation was accepted and stands in an object.

Build the program first: (cd crates/mpc_cli && rt run -- run --key +founder-1 </dev/null). Then: python3 bench/workload.py
"""
import os
import sys

from session import PROGRAM, run

SEED = 7
MOST = 20_000


def expect(count, text):
    for line in (f"entries {2 * count + 1}\n", f"objects {4 * count}\n", f"accepted {4 * count}\n"):
        if line.encode() not in text:
            sys.exit(f"no line {line.strip()} in the summary: {text.decode()}")


def counts():
    count = 100
    while count < MOST:
        yield count
        count *= 2
    yield MOST


def main():
    before = None
    for count in counts():
        words = [PROGRAM, "workload", "--seed", str(SEED), "--count", str(count)]
        seconds, peak, text = run(words, os.devnull)
        expect(count, text)
        ratio = "" if before is None else f", {seconds / before:.2f} times the one before"
        print(f"{count:7} objects: {seconds:7.2f} s, peak {peak / 1e3:.1f} MB{ratio}", flush=True)
        if seconds > 120:
            break
        before = seconds


if __name__ == "__main__":
    main()
