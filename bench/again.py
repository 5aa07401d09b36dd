#!/usr/bin/env python3
"""How the time grows with how often one place was filed and retracted: sessions of the office's setup and of 2,500, 5,000,
10,000 and 20,000 batches of the same two lines, whose observations are retracted before the next batch comes. Prints
the seconds of a processor of each session, the best of three runs, and their ratio to those of the one before.

The journal is kept in /dev/shm. Build the program first: (cd crates/mpc_cli && rt run -- run --key +founder-1
</dev/null). Then: python3 bench/again.py
"""
import os
import sys
import tempfile

from filed import framed
from session import PROGRAM, SETUP, line_of, ran

LINES = line_of("W000001", 3, 1000, 1, 1, 10) + line_of("W000001", 3, 500, 1, 1, 11)


def make(path, batches):
    with open(path, "w", newline="") as out:
        for place, (verb, body) in enumerate(SETUP):
            out.write(framed("+founder-1", place + 1, verb, body))
        for batch in range(batches):
            out.write(framed("observer-1", 3 * batch + 1, "submit80", LINES))
            for which in (1, 2):
                body = f'{{"observation":{2 * batch + which}}}'
                out.write(framed("observer-1", 3 * batch + 1 + which, "retract", body))


def main():
    with tempfile.TemporaryDirectory(dir="/dev/shm") as folder:
        path, before = os.path.join(folder, "session"), None
        for batches in (2_500, 5_000, 10_000, 20_000):
            make(path, batches)
            results = [ran([PROGRAM, "run", "--key", "+founder-1"], path, above="/dev/shm") for _ in range(3)]
            accepted = results[0].text.count(b" obs ")
            if accepted != 2 * batches:
                sys.exit(f"{accepted} lines were accepted, not {2 * batches}")
            seconds = min(result.user + result.system for result in results)
            ratio = "" if before is None else f", {seconds / before:.2f} times the one before"
            print(f"{batches:6} times: {seconds:.2f} s{ratio}", flush=True)
            before = seconds


if __name__ == "__main__":
    main()
