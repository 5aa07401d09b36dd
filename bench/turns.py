#!/usr/bin/env python3
"""How fast lines are filed beside sha256sum, on a machine whose speed changes: sessions of 640,000 accepted lines, in the
order of their times and at random over 28 days, and session.py's own of 632,064 lines, and sha256sum of the same bytes in
turns, fifteen times each, or as many as the first argument says. Each further argument is the path of another build of the program, which takes turns too:
machines differ in how fast they hash, so that an older program is the better measure. Prints the best and the median of
the seconds of a processor, in the program alone and with the system's, and the speed beside each of the others.
Everything is in /dev/shm, so that no disk counts.

Build the program first: (cd crates/mpc_cli && rt run -- run --key +founder-1 </dev/null). Then: python3 bench/turns.py
"""
import os
import subprocess
import sys
import tempfile

import session
from filed import at_random, in_order, make
from session import PROGRAM

LINES = 640_000
TURNS = int(sys.argv[1]) if len(sys.argv) > 1 else 15
RUN = ["run", "--key", "+founder-1"]
OTHERS = [["sha256sum"], *([os.path.abspath(path), *RUN] for path in sys.argv[2:])]


def seconds(words, path):
    """The seconds of a processor that a command takes over a file: in itself, and with the system's."""
    with tempfile.TemporaryDirectory(dir="/dev/shm") as folder:
        with open(path, "rb") as source, open(os.path.join(folder, "sink"), "wb") as sink:
            child = subprocess.Popen(words, stdin=source, stdout=sink, cwd=folder)
            _, status, used = os.wait4(child.pid, 0)
    if status != 0:
        sys.exit(f"{words[0]} ended with status {status}")
    return used.ru_utime, used.ru_utime + used.ru_stime


def best_and_median(times):
    times = sorted(times)
    return times[0], times[len(times) // 2]


def told(name, times):
    best, median = best_and_median(times)
    return f"{name} {best:.2f} {median:.2f}"


def compare(name, path):
    commands = [[PROGRAM, *RUN], *OTHERS]
    turns = [[seconds(words, path) for words in commands] for _ in range(TURNS)]
    for place, what in enumerate(("in the program", "with the system")):
        ours, *others = ([turn[command][place] for turn in turns] for command in range(len(commands)))
        print(told(f"{name}, {what}: the program", ours))
        for words, times in zip(OTHERS, others):
            best, median = (theirs / own for theirs, own in zip(best_and_median(times), best_and_median(ours)))
            print(f"  {told(words[0], times)}; our speed {best:.2f} {median:.2f} of its", flush=True)


def main():
    with tempfile.TemporaryDirectory(dir="/dev/shm") as folder:
        path = os.path.join(folder, "session")
        for name, line in (("in order", in_order), ("at random", at_random)):
            make(path, LINES, line)
            compare(name, path)
        session.FRAMES = 64
        session.make(path, "submit80")
        compare("session.py's 80 columns", path)


if __name__ == "__main__":
    main()
