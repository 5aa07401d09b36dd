#!/usr/bin/env python3
"""How fast the readers of lines are alone, beside sha256sum of the same bytes. Makes one batch of 9,876 lines (one
frame of `session.py`) of 80 columns and one of ADES in PSV form, and reads each 64 times, whole and in pieces of 4,096
bytes; sha256sum takes a file of the batch 64 times over. All six take turns, fifteen times each, or as many as the
first argument says, since a machine's speed changes. Prints the megabytes per second of a processor in the program
itself, at best and in the median, and four ratios: the speed of 80 columns beside sha256sum's, that of ADES beside that
of 80 columns, and for both forms that of pieces beside that of the whole batch. A ratio is given of the bests, of the
medians, and as the median of the turns.

Build the program first: (cd crates/reader_bench && rt run -- columns 1 <stdin). Then: python3 bench/readers.py. The
path of another build may stand as the second argument.
"""
import os
import statistics
import subprocess
import sys
import tempfile

from session import HEADER, LINES, columns, fields

TURNS = int(sys.argv[1]) if len(sys.argv) > 1 else 15
READINGS = 64
TOP = os.path.dirname(os.path.dirname(os.path.abspath(__file__)))
BUILT = os.path.join(TOP, "crates/reader_bench/out/reader_bench")
PROGRAM = os.path.abspath(sys.argv[2]) if len(sys.argv) > 2 else BUILT


def batches():
    """The two batches, by the names of their readers."""
    return {
        "columns": "".join(columns(0, number) for number in range(LINES)),
        "psv": HEADER + "".join(fields(0, number) for number in range(LINES)),
    }


def write(path, text):
    with open(path, "w", newline="") as out:
        out.write(text)
    return path


def seconds(words, path, wanted):
    """The seconds of a processor that a command takes over a file, in itself; its answer begins as wanted."""
    with open(path, "rb") as source, tempfile.TemporaryFile() as sink:
        child = subprocess.Popen(words, stdin=source, stdout=sink)
        _, status, used = os.wait4(child.pid, 0)
        sink.seek(0)
        answer = sink.read()
    if status != 0 or not answer.startswith(wanted):
        sys.exit(f"{' '.join(words)} ended with status {status} and said {answer}")
    return used.ru_utime


def measures(folder):
    """What is measured, by name: the words of a command, the file that it takes, how its answer begins, and how many
    bytes it goes over."""
    for reader, text in batches().items():
        once = write(os.path.join(folder, reader), text)
        often = write(os.path.join(folder, reader + "-often"), text * READINGS)
        size = READINGS * len(text)
        wanted = f"lines {READINGS * LINES}\n".encode()
        yield f"sha256sum of {reader}", (["sha256sum"], often, b"", size)
        yield reader, ([PROGRAM, reader, str(READINGS)], once, wanted, size)
        yield f"{reader}-pieces", ([PROGRAM, f"{reader}-pieces", str(READINGS)], once, wanted, size)


def measured():
    """The speeds of each, one for each turn, in megabytes per second."""
    with tempfile.TemporaryDirectory(dir="/dev/shm") as folder:
        told = dict(measures(folder))
        speeds = {name: [] for name in told}
        for _ in range(TURNS):
            for name, (words, path, wanted, size) in told.items():
                speeds[name].append(size / 1e6 / seconds(words, path, wanted))
        return speeds


def ratio(speeds, one, other):
    """The speed of one beside the other's: of the bests, of the medians, and the median of the turns."""
    return (
        max(speeds[one]) / max(speeds[other]),
        statistics.median(speeds[one]) / statistics.median(speeds[other]),
        statistics.median(mine / theirs for mine, theirs in zip(speeds[one], speeds[other])),
    )


def main():
    speeds = measured()
    print(f"{TURNS} turns, MB/s of a processor in the program: the best, the median")
    for name, those in speeds.items():
        print(f"{name:22} {max(those):8.1f} {statistics.median(those):8.1f}")
    print("ratios: of the bests, of the medians, the median of the turns")
    for one, other in (
        ("columns", "sha256sum of columns"),
        ("psv", "columns"),
        ("columns-pieces", "columns"),
        ("psv-pieces", "psv"),
    ):
        best, median, turns = ratio(speeds, one, other)
        print(f"{one + ' to ' + other:32} {best:6.2f} {median:6.2f} {turns:6.2f}")


if __name__ == "__main__":
    main()
