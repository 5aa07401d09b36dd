#!/usr/bin/env python3
"""How the time of a session grows with the observations that the office has: sessions of the office's setup and batches
of 1,000 lines, 5,000, 10,000, 20,000 .. lines in all, to 640,000, or until one takes more than ten seconds. Each line
is accepted, and tested against all that stand. There are two tables: of lines that come in the order of their times,
and of lines whose times lie anywhere in 28 days, so that each is put in its place far from the one before. Prints the
seconds of each session, the best of three runs, and their ratio to those of the one before, and the least seconds of a
processor that one took in the program, and in the system.

The journal is kept in /dev/shm, so that no sync of a disk counts, or on the disk with the argument `disk`.

Build the program first: (cd crates/mpc_cli && rt run -- run --key +founder-1 </dev/null). Then: python3 bench/filed.py
"""
import os
import sys
import tempfile

from session import PROGRAM, SETUP, columns, line_of, name_of, ran

ABOVE = None if "disk" in sys.argv[1:] else "/dev/shm"
BATCH = 1_000
MOST = 640_000
FRAME = 9_000  # lines of one frame number of `columns`
DAY = 100_000  # moments of a day that a line can name
MOMENTS = 27 * DAY


def framed(key, number, verb, body):
    return f"{key} {number} {verb} {len(body)}\n{body}"


def at_random(number, lines):
    return columns(number // FRAME, number % FRAME)


def in_order(number, lines):
    """The lines of a session fill 27 days from their first to their last; the two of a pair are close to each other."""
    frame, pair = number // FRAME, number % FRAME // 2
    moment = number * (MOMENTS // lines)
    arc = (frame * 2 + number % 2) % 100
    return line_of(name_of(frame, pair), 1 + moment // DAY, moment % DAY, pair // 60 % 60, pair % 60, arc)


def make(path, lines, line):
    with open(path, "w", newline="") as out:
        for place, (verb, body) in enumerate(SETUP):
            out.write(framed("+founder-1", place + 1, verb, body))
        for batch in range(lines // BATCH):
            body = "".join(line(number, lines) for number in range(batch * BATCH, (batch + 1) * BATCH))
            out.write(framed("observer-1", batch + 1, "submit80", body))


def table(path, line):
    lines, before = 5_000, None
    while lines <= MOST and (before is None or before < 10):
        make(path, lines, line)
        words = [PROGRAM, "run", "--key", "+founder-1"]
        results = [ran(words, path, above=ABOVE) for _ in range(3)]
        seconds, user, system = (min(result[place] for result in results) for place in range(3))
        accepted = results[0].text.count(b" obs ")
        if accepted != lines:
            sys.exit(f"{accepted} lines were accepted, not {lines}")
        ratio = "" if before is None else f", {seconds / before:.2f} times the one before"
        peak = min(result.peak for result in results)
        print(
            f"{lines:7} lines: {seconds:6.2f} s{ratio}; processor {user:.2f} s, system {system:.2f} s; "
            f"peak {peak / 1e3:.1f} MB",
            flush=True,
        )
        lines, before = 2 * lines, seconds


def main():
    with tempfile.TemporaryDirectory() as folder:
        path = os.path.join(folder, "session")
        print("in the order of their times")
        table(path, in_order)
        print("at random over 28 days")
        table(path, at_random)


if __name__ == "__main__":
    main()
