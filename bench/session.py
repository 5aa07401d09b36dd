#!/usr/bin/env python3
"""Makes two sessions, each of the office's setup and frames of good lines: one of 80-column lines, about 0.8 MB a frame,
and one of ADES in PSV form, about 0.6 MB a frame. Runs the built program on each, and prints its megabytes per second and its
peak memory beside those of `wc -l` and `sha256sum` on the same file in the same run.

Two lines each are of one name and one night, so that each line is accepted. There are 64 frames, or as many as the first argument
says.

With the argument `strangers` the station isn't entered, and 64 frames come: each line is read, judged and refused as T1, so that the
time is that of reading, judging and answering alone.

Build the program first: (cd crates/mpc_cli && rt run -- run --key +founder-1 </dev/null). Then: python3 bench/session.py
"""
import os
import subprocess
import sys
import tempfile
import time
import typing

STRANGERS = "strangers" in sys.argv[1:]
FRAMES = 64 if STRANGERS else int(sys.argv[1]) if len(sys.argv) > 1 and sys.argv[1].isdigit() else 64
LINES = 9876  # 81 bytes each with the line feed: 0.8 MB
PROGRAM = os.path.join(os.path.dirname(os.path.dirname(os.path.abspath(__file__))), "crates/mpc_cli/out/mpc_cli")


SETUP = [
    ("station", '{"code":"703","from":"1998-01-01","name":"Catalina","to":"2199-12-31"}'),
    ("code", '{"kind":"mode","letter":"C","word":"CCD"}'),
    ("code", '{"kind":"band","letter":"V","word":"V"}'),
    ("code", '{"kind":"catalogue","letter":"W","word":"Gaia3"}'),
    ("enrol", '{"key":"observer-1","name":"Ann","role":"observer"}'),
]
HEADER = "# version=2017\ntrkSub|mode|stn|obsTime|ra|dec|astCat|mag|band\n"


FIRST_LETTERS = "WXYZABCDEFGHIJKLMNOPQRSTUV"  # of names, one for each hundred frames


def name_of(frame, pair):
    """Seven characters for a pair of lines, which are no packed designation: a letter and six digits."""
    return f"{FIRST_LETTERS[frame // 100]}{frame % 100:02}{pair:04}"


def line_of(name, day, fraction, minutes, seconds, arc):
    """A line of 80 columns, from a day of March 2024 and a fraction of it in units of 0.00001."""
    text = (
        f"     {name}  C2024 03 {day:02}.{fraction:05} "
        f"06 {minutes:02} {seconds:02}.{arc:02} +23 {minutes:02} {seconds:02}.{arc % 10} "
        f"         19.{arc % 10} V      703"
    )
    assert len(text) == 80, (len(text), text)
    return text + "\n"


def columns(frame, number):
    """A line whose time is somewhere in 28 days."""
    pair = number // 2
    fraction = (number * 7919 + frame) % 100000
    arc = (number * 31 + frame) % 100
    return line_of(name_of(frame, pair), 1 + pair % 28, fraction, (number // 60) % 60, number % 60, arc)


def fields(frame, number):
    pair = number // 2
    day = 1 + pair % 28
    seconds = number % 60
    minutes = (number // 60) % 60
    units = (number * 7919 + frame) % 1000000
    height = (pair * 7919 + frame) % 1000000
    return (
        f"W{frame:02}{pair:04}|CCD|703|2024-03-{day:02}T06:{minutes:02}:{seconds:02}Z"
        f"|93.{units:06}|+23.{height:06}|Gaia3|19.{number % 10}|V\n"
    )


def make(path, verb):
    with open(path, "w", newline="") as out:
        for place, (act, body) in enumerate(SETUP):
            if not (STRANGERS and act == "station"):
                out.write(f"+founder-1 {place + 1} {act} {len(body)}\n{body}")
        for frame in range(FRAMES):
            if verb == "submit80":
                body = "".join(columns(frame, number) for number in range(LINES))
            else:
                body = HEADER + "".join(fields(frame, number) for number in range(LINES))
            out.write(f"observer-1 {frame + 1} {verb} {len(body)}\n{body}")
    return os.path.getsize(path)


class Ran(typing.NamedTuple):
    seconds: float
    user: float  # seconds of a processor in the program
    system: float  # and in the system
    peak: int  # kilobytes
    text: bytes  # what it wrote


def ran(words, path, folder=None, above=None, wanted=0):
    """A command with the file as its input, in this folder, else in an empty one in the folder above: the program keeps its journal
    in the folder that it runs in. It has to end with the wanted status. It is started by `time`, a small process: the peak of what
    is started from here would be that of this script at least."""
    if folder is None:
        with tempfile.TemporaryDirectory(dir=above) as empty:
            return ran(words, path, empty, wanted=wanted)
    with open(path, "rb") as source, tempfile.TemporaryFile() as sink, tempfile.NamedTemporaryFile() as told:
        begun = time.monotonic()
        words_of_time = ["/usr/bin/time", "-o", told.name, "-f", "%M", *words]
        said = subprocess.DEVNULL if wanted else None
        child = subprocess.Popen(words_of_time, stdin=source, stdout=sink, stderr=said, cwd=folder)
        _, status, used = os.wait4(child.pid, 0)
        seconds = time.monotonic() - begun
        if os.waitstatus_to_exitcode(status) != wanted:
            sys.exit(f"{words[0]} ended with status {os.waitstatus_to_exitcode(status)}")
        sink.seek(0)
        return Ran(seconds, used.ru_utime, used.ru_stime, int(told.read().split()[-1]), sink.read())


def run(words, path, folder=None):
    """Seconds, peak kilobytes and output of a command."""
    result = ran(words, path, folder)
    return result.seconds, result.peak, result.text


def measure(path, verb):
    size = make(path, verb)
    print(f"{verb}: {FRAMES} frames, {size / 1e6:.1f} MB")
    for words in (["wc", "-l"], ["sha256sum"], [PROGRAM, "run", "--key", "+founder-1"]):
        best = min((run(words, path) for _ in range(3)), key=lambda r: r[0])
        seconds, peak, text = best
        name = os.path.basename(words[0])
        print(f"{name:10} {size / 1e6 / seconds:8.1f} MB/s   peak {peak / 1e3:7.1f} MB, {peak * 1024 / size:.2f} bytes a byte")
        if name == "mpc_cli":
            answered = text.count(b" refused T1\n" if STRANGERS else b" obs ")
            if answered != FRAMES * LINES:
                sys.exit(f"{answered} lines were answered so, not {FRAMES * LINES}")


def main():
    with tempfile.TemporaryDirectory() as folder:
        path = os.path.join(folder, "session")
        for verb in ("submit80", "submitpsv"):
            measure(path, verb)


if __name__ == "__main__":
    main()
