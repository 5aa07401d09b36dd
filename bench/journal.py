"""The two files of an office, made of entries and read, by what docs/FORMATS.md says of them ("The journal").

It shares nothing with the program: a file that is made here is what the program has to read, and what it writes is
compared with what is made here.
"""
import hashlib
import struct
import typing

CODES = {name: code for code, name in enumerate(
    "enrol station code submit80 submitpsv designate attribute release identify separate verdict number retract "
    "opening".split(), start=1)}
NO_DIGEST = bytes(32)  # before the first parcel
FIELDS = 25  # the bytes of a parcel before its body, its length's own 4 among them
SHORTEST, LONGEST = 21, 1_048_597  # what a length may be


class Entry(typing.NamedTuple):
    """An entry of the history: who asked, under which number, when, for what, and with which body."""
    caller: int
    number: int
    moment: int  # nanoseconds since 1970
    verb: int
    body: bytes


class Damaged(Exception):
    """A file isn't a journal: the offset of the gate where that shows."""

    def __init__(self, offset):
        super().__init__(f"damaged at {offset}")
        self.offset = offset


def entry(caller, number, moment, verb, body):
    """The entry of an act, whose verb is told by its name and whose body may be a text."""
    return Entry(caller, number, moment, CODES[verb], body.encode() if isinstance(body, str) else body)


def parcel(it):
    """The parcel of an entry, in either file."""
    return struct.pack(">IIQqB", 21 + len(it.body), it.caller, it.number, it.moment, it.verb) + it.body


def digest(last, bytes_of_parcel):
    """The digest of a parcel, after the one before it."""
    return hashlib.sha256(last + bytes_of_parcel).digest()


def first_file(entries):
    """The file `desk.journal` of these entries, the oldest first."""
    return b"".join(b"\1" + parcel(it) for it in entries) + b"\0"


def second_file(entries):
    """The file `desk.journal2` of these entries, in force."""
    found, last = [b"\1"], NO_DIGEST
    for it in entries:
        own = parcel(it)
        last = digest(last, own)
        found += [b"\1", own, last]
    return b"".join(found) + b"\0"


def is_in_force(second):
    """Whether a second file counts."""
    return len(second) >= 2 and second[0] == 1


def of_parcel(own):
    """The entry of a parcel."""
    _, caller, number, moment, verb = struct.unpack_from(">IIQqB", own)
    return Entry(caller, number, moment, verb, own[FIELDS:])


def row(file, at, seal, more):
    """The row of gates from this offset on: each parcel's gate and its entry. After a parcel stand so many bytes more,
    which the seal makes of those of the parcel before and of the parcel."""
    found, last = [], bytes(more)
    while True:
        if at >= len(file):
            raise Damaged(at)
        if file[at] != 1:
            return found
        length = int.from_bytes(file[at + 1:at + 5], "big")
        end = at + 5 + length
        if at + 5 > len(file) or not SHORTEST <= length <= LONGEST or end + more >= len(file):
            raise Damaged(at)
        own = file[at + 1:end]
        last = seal(last, own)
        if file[end:end + more] != last:
            raise Damaged(at)
        found.append((at, of_parcel(own)))
        at = end + more


def read_first(file):
    """The entries of a first file, each after the offset of its gate."""
    return [] if file in (b"", b"\1") else row(file, 0, lambda last, own: b"", 0)


def read_second(file):
    """The entries of a second file that is in force, each after the offset of its gate."""
    return row(file, 1, digest, len(NO_DIGEST))
