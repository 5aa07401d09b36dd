"""A disk that loses what wasn't synced, as checks/power and checks/stops have it: the library power.c in front of the
program, and what the two files become when the power fails. Beside that the acts that both send, and an office in the
first file, which the program moves."""
import mmap
import os
import struct
import subprocess

from shared import ENROL, FIRST, JOURNAL, KEY, SETUP, TOP, bytes_of, columns, journal, put

CAPACITY, HEAD = 1 << 18, 4096  # as in power.c
NAMES, STATE = (JOURNAL, FIRST), "state"
COUNTS, SAFETY = 3, 5  # so many numbers are counts of calls, and so many stand for each file after them
OPENED = 1_711_929_600 * 10**9  # when the entries of the first file were made: on 2024-04-01


def acts():
    """25 acts, each as caller, number, verb and body: five that set the office up, twenty batches of 2 to 60 lines."""
    found = [(KEY, number, verb, body) for number, (verb, body) in enumerate(SETUP, start=1)]
    for frame in range(20):
        lines = [columns(frame, number) for number in range((2, 2, 6, 2, 60)[frame % 5])]
        found.append(("observer-1", frame + 1, "submit80", "".join(lines)))
    return found


def enrolments(count):
    """So many entries of a first file, each of which enrols an observer that none of the acts names."""
    bodies = [ENROL.replace(b"observer-1", b"old-%06d" % number) for number in range(count)]
    return [journal.entry(0, 1_000 + at, OPENED + at, "enrol", body) for at, body in enumerate(bodies)]


def as_entries(them, observer=1):
    """Acts as the entries of a first file: those of the founder, and those of observer-1, who is this caller."""
    return [journal.entry(0 if key == KEY else observer, number, OPENED + place, verb, body)
            for place, (key, number, verb, body) in enumerate(them)]


def facts(entries):
    """What entries have but for their moments, which the program's clock tells."""
    return [(it.caller, it.number, it.verb, it.body) for it in entries]


def kept_in(folder):
    """The entries of the journal in a folder, by a reading of its own, or why it has none."""
    file = bytes_of(os.path.join(folder, JOURNAL))
    if file is None or not journal.is_in_force(file):
        return "the journal isn't in force"
    try:
        return [it for _, it in journal.read_second(file)]
    except journal.Damaged as damaged:
        return f"the journal is {damaged}"


def is_moving(folder):
    """Whether a first file was opened in this folder and no journal is in force: a move was under way, or will be."""
    file = bytes_of(os.path.join(folder, JOURNAL))
    return file is not None and not journal.is_in_force(file)


def library(folder):
    """Builds the library, and gives what it wants of the environment whatever fails. It needs cc."""
    path = os.path.join(folder, "power.so")
    words = ["cc", "-O2", "-shared", "-fPIC", "-o", path, os.path.join(TOP, "checks/power.c"), "-ldl"]
    subprocess.run(words, check=True, timeout=120)
    return {**os.environ, "LD_PRELOAD": path, "POWER_STATE": STATE}


def begin(folder):
    """Makes the file in which the library keeps what is safe."""
    with open(os.path.join(folder, STATE), "wb") as file:
        file.truncate(HEAD + 4 * CAPACITY)


def calls(folder):
    """How many syncs and writes the library noted since the power failed last."""
    with open(os.path.join(folder, STATE), "rb") as file:
        return struct.unpack_from("2q", file.read(HEAD))


def lose_power(folder, is_kept):
    """Each file becomes what is safe of it, with each byte of the rest that `is_kept` says, and with a length to which
    it was cut where it says so; None keeps neither. A file that no process got as far as opening stays as it is."""
    with open(os.path.join(folder, STATE), "r+b") as file, mmap.mmap(file.fileno(), 0) as state:
        for place, name in enumerate(NAMES):
            lose(os.path.join(folder, name), state, place, is_kept)
        state[:] = bytes(len(state))


def lose(path, state, place, is_kept):
    """What one file becomes."""
    begun, length, cut, named, _ = struct.unpack_from("5q", state, 8 * (COUNTS + SAFETY * place))
    if not begun:
        return
    seen = bytes_of(path) or b""
    safe_at, unsafe_at = HEAD + place * CAPACITY, HEAD + (2 + place) * CAPACITY
    image = bytearray(state[safe_at:safe_at + max(length, len(seen))])
    unsafe = state[unsafe_at:unsafe_at + len(seen)]
    if is_kept is None:
        del image[length:]
    else:
        if cut < length and is_kept():
            image = image[:cut].ljust(len(seen), b"\0")
        for at in range(len(seen)):
            if unsafe[at] and is_kept():
                image[at] = seen[at]
    if named:
        put(path, image)
    elif os.path.exists(path):
        os.remove(path)
