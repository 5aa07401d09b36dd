#!/usr/bin/env python3
"""Makes two sessions and runs the built program on each: one of the office's setup and 10,000 small requests, batches of two
lines each; and one in which the founder enters 400 stations, and the lines of 4 batches name each of them in turn. Prints the
seconds, the requests and megabytes a second and the peak memory, the best of three runs, and checks that each line was accepted.

Build the program first: (cd crates/mpc_cli && rt run -- run --key +founder-1 </dev/null). Then: python3 bench/requests.py
"""
import os
import sys
import tempfile

from session import LINES, PROGRAM, SETUP, columns, run

SMALL = 10_000
STATIONS = [f"{letter}{number:02}" for letter in "BCDE" for number in range(100)]
BATCHES = 4


def framed(key, number, verb, body):
    return f"{key} {number} {verb} {len(body)}\n{body}"


def small(out):
    """The setup, and batches of two lines each. Says how many frames there are, and how many lines."""
    for place, (verb, body) in enumerate(SETUP):
        out.write(framed("+founder-1", place + 1, verb, body))
    for request in range(SMALL):
        frame, first = request // 4_900, 2 * (request % 4_900)
        body = columns(frame, first) + columns(frame, first + 1)
        out.write(framed("observer-1", request + 1, "submit80", body))
    return len(SETUP) + SMALL, 2 * SMALL


def stations(out):
    """The setup, 400 stations, and batches whose lines name them in turn. Says how many frames there are, and how many lines."""
    acts = list(SETUP)
    for code in STATIONS:
        acts.append(("station", f'{{"code":"{code}","from":"1998-01-01","name":"Station {code}","to":"2199-12-31"}}'))
    for place, (verb, body) in enumerate(acts):
        out.write(framed("+founder-1", place + 1, verb, body))
    for batch in range(BATCHES):
        lines = []
        for number in range(LINES):
            code = STATIONS[(number // 2 * 131 + batch) % len(STATIONS)]
            lines.append(columns(batch, number)[:77] + code + "\n")
        out.write(framed("observer-1", batch + 1, "submit80", "".join(lines)))
    return len(acts) + BATCHES, BATCHES * LINES


def measure(make, path):
    with open(path, "w", newline="") as out:
        frames, lines = make(out)
    size = os.path.getsize(path)
    seconds, peak, text = min((run([PROGRAM, "run", "--key", "+founder-1"], path) for _ in range(3)), key=lambda r: r[0])
    accepted = text.count(b" obs ")
    if accepted != lines:
        sys.exit(f"{make.__name__}: {accepted} lines were accepted, not {lines}")
    print(
        f"{make.__name__:9} {frames:6} requests, {lines:6} lines, {size / 1e6:5.1f} MB: {seconds:6.2f} s, "
        f"{frames / seconds:8.0f} requests/s, {size / 1e6 / seconds:6.1f} MB/s, peak {peak / 1e3:.1f} MB"
    )


def main():
    with tempfile.TemporaryDirectory() as folder:
        for make in (small, stations):
            measure(make, os.path.join(folder, "session"))


if __name__ == "__main__":
    main()
