#!/usr/bin/env python3
"""How long each act and each query takes in an office of 10,000 and of 160,000 tracklets (or of as many as the arguments
say, 10,000 at least), each of two observations. Half of the tracklets stand in objects, two in each; of the objects every
second one has a good verdict, and all but 180 of those have a number. The office is one running program, whose journal lies
in /dev/shm, so that the disk costs little. The requests of a kind are sent together, and their answers awaited; the best of
three times is printed, in microseconds a request. Each answer has to have status 200. An opening takes over a half-month that
has no designation yet, and carries 100 of them, the most that it may; the openings come last, since each leaves 100 objects.

Build the program first: (cd crates/mpc_cli && rt run -- run --key +founder-1 </dev/null). Then: python3 bench/acts.py
"""
import os
import subprocess
import sys
import tempfile
import threading
import time

from session import PROGRAM, SETUP, line_of, name_of

FOUNDER = "+founder-1"
FIRST_NUMBER = 620_000
BATCH = 4_000  # lines of a batch, two of each tracklet
OPEN = 180  # objects that can be numbered, and aren't
MANY = 60  # requests of a kind that are sent together
HALF_LETTERS = "ABCDEFGHJKLMNOPQRSTUVWXY"  # of a year's half-months
CARRIED = ",".join(str(order) for order in range(1, 101))  # as many as an opening may carry
FOLDER = "/dev/shm" if os.path.isdir("/dev/shm") else None


class Office:
    """A running program."""

    def __init__(self, folder):
        words = [PROGRAM, "run", "--key", FOUNDER]
        self.child = subprocess.Popen(words, stdin=subprocess.PIPE, stdout=subprocess.PIPE, cwd=folder)
        self.used = 0

    def frame(self, verb, body, is_act=True):
        if is_act:
            self.used += 1
        head = f"{FOUNDER} {self.used if is_act else 0} {verb} {len(body)}\n"
        return (head + body).encode()

    def ask(self, frames):
        """Sends the frames, and gives the seconds until all are answered, and the texts."""
        begun = time.monotonic()
        sender = threading.Thread(target=self.send, args=(frames,))
        sender.start()
        texts = [self.answer() for _ in frames]
        seconds = time.monotonic() - begun
        sender.join()
        return seconds, texts

    def send(self, frames):
        self.child.stdin.write(b"".join(frames))
        self.child.stdin.flush()

    def answer(self):
        status, length = self.child.stdout.readline().split()
        text = self.child.stdout.read(int(length))
        if status != b"200":
            sys.exit(f"status {status.decode()}: {text.decode()}")
        return text

    def end(self):
        self.child.stdin.close()
        self.child.wait()


def two_lines(t):
    """The lines of a tracklet, counted from 0. A tracklet with an even place and the one after it are a week apart."""
    name = name_of(t // 10_000, t % 10_000)
    day = 1 + t % 2 * 7 + t // 2 % 7
    fraction = t // 14 * 7 % 99_900
    minutes, seconds, arc = t // 60 % 60, t % 60, t // 3_600 % 90
    return line_of(name, day, fraction, minutes, seconds, arc) + line_of(name, day, fraction + 50, minutes, seconds, arc + 1)


def found(office, tracks):
    """The office with its tracklets and objects. Gives the designations."""
    office.ask([office.frame(verb, body) for verb, body in SETUP])
    per_batch = BATCH // 2
    for first in range(0, tracks, per_batch):
        body = "".join(two_lines(t) for t in range(first, min(first + per_batch, tracks)))
        _, texts = office.ask([office.frame("submit80", body)])
        accepted = texts[0].count(b"obs ")
        if accepted != body.count("\n"):
            sys.exit(f"of a batch of {body.count(chr(10))} lines {accepted} were accepted")
    pairs = range(1, tracks // 2, 2)
    _, texts = office.ask([office.frame("designate", f'{{"tracklets":[{t},{t + 1}]}}') for t in pairs])
    names = [" ".join(text.decode().split("object ")[1].split()[:2]) for text in texts]
    good = names[::2]
    number(office, good[:-OPEN])
    verdicts(office, good[-OPEN:])
    return names


def verdicts(office, names):
    office.ask([office.frame("verdict", f'{{"object":"{name}","u":1,"oppositions":5}}') for name in names])


def number(office, names):
    """Good verdicts and numbers for these objects, a thousand at a time."""
    for first in range(0, len(names), 1_000):
        verdicts(office, names[first:first + 1_000])
        office.ask([office.frame("number", f'{{"first":{FIRST_NUMBER + first},"most":1000}}')])


def half_month(i):
    """A half-month from 1925 on, counted from 0; the designations of the office are of 2024."""
    return f"{1925 + i // 24} {HALF_LETTERS[i % 24]}"


def kinds(tracks, names):
    """The requests of each kind: the verb, and a body for each of three times as many as are sent together. None: no request."""
    free = tracks // 2 + 2  # isolated tracklets stand from here on
    given = len(names[::2]) - OPEN
    plain = names[1::2]  # objects without a verdict
    return [
        ("submit80", lambda i: two_lines(tracks + i)),
        ("designate", lambda i: f'{{"tracklets":[{free + 2 * i | 1},{(free + 2 * i | 1) + 1}]}}'),
        ("attribute", lambda i: f'{{"tracklet":{free + 1_001 + i},"to":"{plain[i]}"}}'),
        ("release", lambda i: f'{{"tracklet":{free + 1_001 + i}}}'),
        ("identify", lambda i: f'{{"principal":"{plain[2 * i]}","secondary":"{plain[2 * i + 1]}"}}'),
        ("separate", lambda i: f'{{"secondary":"{plain[2 * i + 1]}"}}'),
        ("verdict", lambda i: f'{{"object":"{plain[i]}","u":5,"oppositions":2}}'),
        ("number", lambda i: f'{{"first":{FIRST_NUMBER + given + i},"most":1}}'),
        ("retract", lambda i: f'{{"observation":{2 * tracks - 2 * i}}}'),
        ("enrol", lambda i: f'{{"key":"observer-{i + 1_000}","name":"Ann","role":"observer"}}'),
        ("station", lambda i: f'{{"code":"{"YZ"[i // 100]}{i % 100:02}","from":"1998-01-01","name":"S","to":"2199-12-31"}}'),
        ("receipt", lambda i: f"{i + 1_001}"),
        ("tally", lambda i: ""),
        ("tracklet", lambda i: f"{tracks // 3 + i}"),
        ("object", lambda i: names[len(names) // 3 + i]),
        ("halfmonth", lambda i: "2024 E"),
        ("name", lambda i: f"{FIRST_NUMBER + given // 2 + i}"),
        ("isolated", lambda i: "" if i < 3 else None),
        ("catalogue", lambda i: "" if i < 3 and tracks <= 10_000 else None),
        ("opening", lambda i: f'{{"half":"{half_month(i)}","given":100,"carried":[{CARRIED}]}}'),
    ]


ACTS = "submit80 designate attribute release identify separate verdict number retract enrol station opening".split()


def microseconds(office, verb, body):
    """The best of three times, in microseconds a request."""
    best = None
    for turn in range(3):
        bodies = [body(turn * MANY + place) for place in range(MANY)]
        frames = [office.frame(verb, one, verb in ACTS) for one in bodies if one is not None]
        if frames:
            each = office.ask(frames)[0] / len(frames) * 1e6
            best = each if best is None else min(best, each)
    return best


def main():
    sizes = [int(word) for word in sys.argv[1:]] or [10_000, 160_000]
    table = {}
    for tracks in sizes:
        with tempfile.TemporaryDirectory(dir=FOLDER) as folder:
            office = Office(folder)
            names = found(office, tracks)
            for verb, body in kinds(tracks, names):
                table.setdefault(verb, []).append(microseconds(office, verb, body))
            office.end()
    print(f"{'microseconds':12}" + "".join(f"{tracks:12}" for tracks in sizes))
    for verb, times in table.items():
        print(f"{verb:12}" + "".join(f"{'' if each is None else format(each, '.1f'):>12}" for each in times), flush=True)


if __name__ == "__main__":
    main()
