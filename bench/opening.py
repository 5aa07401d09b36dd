#!/usr/bin/env python3
"""How opening grows with the journal: journals of batches of accepted lines, of 1, 2, 4 .. MB, to 200, or as many MB as
an argument says, each opened by a run over no input. The files are made here (bench/journal.py), and not by the program.
The batches have 1,000 lines, or with the argument `pairs` 2; the lines' times lie anywhere in 28 days, or with the
argument `order` they come in their order. For each size, the best of five turns, in which the commands alternate:

- the opening: seconds by the clock and their ratio to those of the size before, seconds of a processor, and the peak of
  memory for each byte of the journal;
- `sha256sum` of the same file: the megabytes a second of both, by seconds of a processor;
- the same entries in the first file, behind them one that no office makes: the program reads and files all of them, and
  ends with Damaged without a move. What the opening of the journal takes more is what the digests cost, and is told
  beside the seconds of `sha256sum`;
- the office moved from the first file: seconds by the clock and of a processor, and the peak of memory. The journal
  that is left has to be the one that was made here, byte for byte;
- a session that reads the same batches, whose station isn't entered, so that each line is read, judged and refused.

The seconds of a processor are those in the program and in the system together, but for the last command's, which are
those in the program alone, beside the opening's. The folder of temporary files needs room for five times the largest
journal; where it lies on a disk, the clock's seconds have the disk's.

Build the program first: (cd crates/mpc_cli && rt run -- run --key +founder-1 </dev/null). Then:
python3 bench/opening.py
"""
import filecmp
import os
import subprocess
import sys
import tempfile

import journal
from filed import at_random, framed, in_order
from session import PROGRAM, SETUP, ran

ORDER = "order" in sys.argv[1:]
MOST = next((int(word) for word in sys.argv[1:] if word.isdigit()), 200)
BATCH = 2 if "pairs" in sys.argv[1:] else 1_000
BYTES = 58 + 81 * BATCH  # of a batch in the journal
LINES = round(MOST * 1e6 / BYTES) * BATCH
WORDS = [PROGRAM, "run", "--key", "+founder-1"]
OPENED = 1_711_929_600 * 10**9  # the moment of the setup: 2024-04-01, after each line's time
TURNS = 5
DAMAGED = 5


def line(number):
    return in_order(number, LINES) if ORDER else at_random(number, LINES)


def body(place):
    return "".join(line(number) for number in range(place * BATCH, (place + 1) * BATCH))


def entries(first, last):
    """The entries of the batches from the first to before the last; the first comes after the office's setup."""
    if first == 0:
        for number, (verb, text) in enumerate(SETUP, start=1):
            yield journal.entry(0, number, OPENED, verb, text)
    for place in range(first, last):
        yield journal.entry(1, place + 1, OPENED + 1 + place, "submit80", body(place))


class Files:
    """The two files of an office, to which entries are added, without the closed gates at their ends."""

    def __init__(self, top):
        self.folders = {name: os.path.join(top, name) for name in ("journal", "first", "moved")}
        for folder in self.folders.values():
            os.mkdir(folder)
        self.last, self.gate = journal.NO_DIGEST, 0
        self.journal, self.first = self.path("journal", "desk.journal2"), self.path("first", "desk.journal")
        with open(self.journal, "wb") as file:
            file.write(b"\1")
        open(self.first, "wb").close()

    def path(self, folder, name):
        return os.path.join(self.folders[folder], name)

    def add(self, more):
        """Adds these entries to both files, and closes them."""
        with open(self.journal, "r+b") as chained, open(self.first, "r+b") as plain:
            chained.seek(-1 if self.gate else 0, os.SEEK_END)
            plain.seek(self.gate)
            for it in more:
                own = journal.parcel(it)
                self.last = journal.digest(self.last, own)
                chained.write(b"\1" + own + self.last)
                plain.write(b"\1" + own)
            chained.write(b"\0")
            self.gate = plain.tell()
            plain.write(b"\0")
            plain.truncate()

    def lay_first(self):
        """Lays the first file, as it is, into the folder where it is moved, and adds an entry of no verb to the other
        one."""
        old = self.path("moved", "desk.journal")
        if os.path.exists(old):
            os.remove(old)
        with open(self.first, "rb") as file, open(old, "wb") as copy:
            while piece := file.read(1 << 20):
                copy.write(piece)
        with open(self.first, "r+b") as file:
            file.seek(self.gate)
            file.write(b"\1" + journal.parcel(journal.Entry(0, 9, OPENED, 200, b"")) + b"\0")


def is_whole(files, batches, top):
    """Ends the script where the program doesn't find each line accepted in the journal, or damage in the first file
    elsewhere than at its last entry."""
    ask = os.path.join(top, "ask")
    with open(ask, "w", newline="") as out:
        out.write(framed("+founder-1", 0, "tally", ""))
    text = ran(WORDS, ask, files.folders["journal"]).text
    if f"accepted {batches * BATCH}\n".encode() not in text:
        sys.exit(f"{batches * BATCH} lines aren't accepted: {text.decode()}")
    first = subprocess.run(WORDS, stdin=subprocess.DEVNULL, capture_output=True, cwd=files.folders["first"])
    if first.stderr.splitlines()[:1] != [f"mpc_cli: Damaged in 1 at {files.gate}".encode()]:
        sys.exit(f"the first file isn't read to its last entry, at {files.gate}: {first.stderr.decode()}")


def moved(files):
    """The office moved; the journal that is left is the one that was made."""
    left = files.path("moved", "desk.journal2")
    if os.path.exists(left):
        os.remove(left)
    result = ran(WORDS, os.devnull, files.folders["moved"])
    if not filecmp.cmp(left, files.journal, shallow=False):
        sys.exit("the office that was moved isn't the journal that was made")
    return result


def read(session):
    """A session that reads the batches and files no line."""
    result = ran(WORDS, session)
    if b" obs " in result.text:
        sys.exit("a line was accepted whose station isn't entered")
    return result


def write_session(path, batches):
    with open(path, "w", newline="") as out:
        for place, (verb, text) in enumerate(act for act in SETUP if act[0] != "station"):
            out.write(framed("+founder-1", place + 1, verb, text))
        for place in range(batches):
            out.write(framed("observer-1", place + 1, "submit80", body(place)))


def sizes():
    size = 1
    while size < MOST:
        yield size
        size *= 2
    yield MOST


def least(results, of):
    return min(of(result) for result in results)


def clock(result):
    return result.seconds


def processor(result):
    return result.user + result.system


def turns(files, session):
    """Each command of a turn, by its name, as often as there are turns."""
    commands = {
        "opening": lambda: ran(WORDS, os.devnull, files.folders["journal"]),
        "sha256sum": lambda: ran(["sha256sum"], files.journal),
        "first": lambda: ran(WORDS, os.devnull, files.folders["first"], wanted=DAMAGED),
        "move": lambda: moved(files),
        "reading": lambda: read(session),
    }
    found = {name: [] for name in commands}
    for turn in range(TURNS):
        for name in list(commands)[turn:] + list(commands)[:turn]:
            found[name].append(commands[name]())
    return found


def tell(batches, size, before, empty, found):
    """Prints a size. Gives the seconds of its opening."""
    opening, hashing, first, move = (found[name] for name in ("opening", "sha256sum", "first", "move"))
    seconds, used, own = least(opening, clock), least(opening, processor), least(hashing, processor)
    peak = opening[0].peak
    ratio = "" if before is None else f", {seconds / before:.2f} times the one before"
    added = used - least(first, processor)
    print(f"{size / 1e6:6.1f} MB, {batches * BATCH} lines: opened in {seconds:.2f} s{ratio}; "
          f"processor {used:.2f} s, {size / 1e6 / used:.0f} MB/s beside {size / 1e6 / own:.0f} of sha256sum; "
          f"peak {peak / 1e3:.1f} MB, {(peak - empty) * 1024 / size:.1f} bytes a byte beside {empty / 1e3:.1f} MB")
    print(f"  from the first file {used - added:.2f} s: the digests add {added:.2f} s, "
          f"{added / max(own, 0.001):.2f} times the {own:.2f} s of sha256sum")
    print(f"  moved in {least(move, clock):.2f} s, processor {least(move, processor):.2f} s, "
          f"peak {move[0].peak / 1e3:.1f} MB")
    in_program, reading = least(opening, lambda it: it.user), least(found["reading"], lambda it: it.user)
    print(f"  in the program {in_program:.2f} s, {in_program / max(reading, 0.001):.1f} times the {reading:.2f} s of "
          "reading the same batches", flush=True)
    return seconds


def main():
    done, before = 0, None
    with tempfile.TemporaryDirectory() as top:
        files, session = Files(top), os.path.join(top, "session")
        empty = ran(WORDS, os.devnull).peak
        for size in sizes():
            wanted = round(size * 1e6 / BYTES)
            files.add(entries(done, wanted))
            done = wanted
            files.lay_first()
            is_whole(files, done, top)
            write_session(session, done)
            before = tell(done, os.path.getsize(files.journal), before, empty, turns(files, session))


if __name__ == "__main__":
    main()
