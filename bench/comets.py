#!/usr/bin/env python3
"""How the register of comets grows: an office in a journal in memory (/dev/shm) with 5,000, 10,000 and 20,000 objects, each
a comet of a register that is made by bench/journal.py, 99 to a half-month. For each the best of five turns of

- `comets` over no input, beside `run` over no input, which opens the same office: the difference opens the register;
- `comets` over two hundred batches of 10,000 lines under comets' names, which are translated, beside `run` over the same
  lines as two hundred batches, in which it refuses each line: of both the opening is taken off, and the time of one batch
  is told.

The seconds are those of a processor, with the system's. Of each batch the answer is compared with what Python makes of it.

Build the program first: (cd crates/mpc_cli && rt run -- run --key +founder-1 </dev/null). Then: python3 bench/comets.py
"""
import datetime
import os
import sys
import tempfile

import journal
from session import PROGRAM, ran

KEY = "+founder-1"
COUNTS = [5_000, 10_000, 20_000]
TURNS, BATCHES, LINES = 5, 200, 10_000
HALVES = "ABCDEFGHJKLMNOPQRSTUVWXY"
ORDERS = "ABCDEFGHJKLMNOPQRSTUVWXYZ"
ONE_HALF = 99
START = 1_711_929_600 * 10**9


def framed(number, verb, body, key=KEY):
    return f"{key} {number} {verb} {len(body)}\n".encode() + body


def place(index):
    """The year, the half-month and the number in it, from 1, of the object with this index."""
    half, number = divmod(index, ONE_HALF)
    year, half = divmod(half, len(HALVES))
    return 1925 + year, half, number + 1


def named(index):
    """The object's designation, printed and packed, and its comet's packed name."""
    year, half, number = place(index)
    cycle, order = divmod(number - 1, len(ORDERS))
    letter, century = HALVES[half], "IJK"[year // 100 - 18]
    digits = f"{century}{year % 100:02}{letter}"
    return (f"{year} {letter}{ORDERS[order]}{cycle or ''}", f"{digits}{cycle:02}{ORDERS[order]}",
            f"C{digits}{number:02}0")


def observations(index):
    """The lines of two tracklets of the object, a day apart, in ADES."""
    year, half, number = place(index)
    first = datetime.datetime(year, half // 2 + 1, 1 + 15 * (half % 2), number // 60, number % 60)
    for tracklet, start in enumerate((first, first + datetime.timedelta(1))):
        for step in range(2):
            time = start + datetime.timedelta(minutes=10 * step)
            yield (f"{index:05X}{'AB'[tracklet]}|CCD|703|{time:%Y-%m-%dT%H:%M:%S}Z|{10 + number / 10 + step / 100:.4f}|"
                   f"{tracklet + step / 10:.2f}|Gaia3\n").encode()


def office(count):
    """The frames that make an office of so many objects."""
    yield framed(1, "station", b'{"code":"703","from":"1925-01-01","name":"Catalina","to":"2199-12-31"}')
    yield framed(2, "code", b'{"kind":"mode","letter":"C","word":"CCD"}')
    yield framed(3, "code", b'{"kind":"catalogue","letter":"W","word":"Gaia3"}')
    yield framed(4, "enrol", b'{"key":"observer-1","name":"Ann","role":"observer"}')
    head = b"# version=2017\ntrkSub|mode|stn|obsTime|ra|dec|astCat\n"
    for number, first in enumerate(range(0, count, 1_000), start=1):
        body = head + b"".join(line for index in range(first, min(first + 1_000, count)) for line in observations(index))
        yield framed(number, "submitpsv", body, "observer-1")
    for index in range(count):
        yield framed(5 + index, "designate", f'{{"tracklets":[{2 * index + 1},{2 * index + 2}]}}'.encode())


def register(count):
    """The file of a register in which each object is a comet."""
    return journal.second_file([
        journal.Entry(0, index + 1, START + index * 10**9, 1, f'{{"kind":"C","object":"{named(index)[0]}"}}'.encode())
        for index in range(count)])


def batch(count):
    """Lines under comets' names, and what they are translated to."""
    rest = "  C2024 03 15.12345 06 12 34.56 +23 45 01.2          19.5 V      703\n"
    asked, told = [], []
    for line in range(LINES):
        _, packed, comet = named(line * 7_919 % count)
        asked.append(f"    {comet}{rest}")
        told.append(f"     {packed}{rest}")
    return "".join(asked).encode(), "".join(told).encode()


def best_of(words, path, folder, wanted):
    """The least seconds of some turns, whose output has to begin so."""
    found = []
    for _ in range(TURNS):
        it = ran([PROGRAM, *words], path, folder)
        if not it.text.startswith(wanted):
            sys.exit(f"{words[0]}: another output: {it.text[:300]!r}")
        found.append(it.user + it.system)
    return min(found)


def measure(count, folder):
    """The seconds that opening the register takes, and those for a batch, of `comets` and of `run`."""
    def path_of(name, content):
        path = os.path.join(folder, name)
        with open(path, "wb") as out:
            out.write(content)
        return path

    made = ran([PROGRAM, "run", "--key", KEY], path_of("office", b"".join(office(count))), folder).text
    if made.count(b"\nobject ") != count or not made.rstrip().endswith(named(count - 1)[1].encode()):
        sys.exit(f"the office isn't made: {made[-300:]!r}")
    path_of("desk.comets", register(count))
    asked, told = batch(count)
    answer = f"200 {len(told)}\n".encode() + told
    empty = path_of("empty", b"")
    translates = path_of("translates", framed(0, "translate", asked) * BATCHES)
    submits = path_of("submits", b"".join(framed(10**6 + n, "submit80", asked, "observer-1") for n in range(BATCHES)))
    comets, run = ["comets", "--key", KEY], ["run", "--key", KEY]
    opened, office_opened = best_of(comets, empty, folder, b""), best_of(run, empty, folder, b"")
    translated = best_of(comets, translates, folder, answer * BATCHES)
    refused = best_of(run, submits, folder, b"422 ")
    return opened - office_opened, (translated - opened) / BATCHES, (refused - office_opened) / BATCHES


def main():
    before = None
    for count in COUNTS:
        with tempfile.TemporaryDirectory(dir="/dev/shm") as folder:
            opening, translating, refusing = measure(count, folder)
        ratio = "" if before is None else f", {translating / before:.2f} times that over half as many"
        print(f"{count:6} comets: opened in {opening:.3f} s; {LINES} lines translated in {translating:.4f} s{ratio}, "
              f"refused by run in {refusing:.4f} s", flush=True)
        before = translating


if __name__ == "__main__":
    main()
