#!/usr/bin/env python3
"""How the command `mirror` grows with the office: made-up offices (examples/made_up) of 10,000 to 80,000 observations, four
to an object, in a journal and a database in memory (/dev/shm). For each the best of five turns of: `mirror` into a new
file, `mirror` over as many old rows, `look` of a day, `export`, and `run` over no input, which opens the office as `mirror`
and `export` do; and beside them sqlite3, which imports the same rows as CSV in one transaction, into a new file and over
the old ones, in WAL mode and with a checkpoint at its end, as `mirror` does.

Told are the seconds of a processor, with the system's; how much longer `mirror` takes than on the office before; its peak
memory; and the bytes of its file and of sqlite3's. The line of `mirror` has to say how many rows there are, and both
files have to hold the same ones.

Build the program first: (cd crates/mpc_cli && rt run -- run --key +founder-1 </dev/null). Then: python3 bench/mirror.py
"""
import os
import sqlite3
import subprocess
import sys
import tempfile

from session import PROGRAM, ran

SEED = 7
OBJECTS = [2_500, 5_000, 10_000, 20_000]
TURNS = 5
KEY = "+workload-1"
MADE_UP = os.path.join(os.path.dirname(os.path.dirname(os.path.abspath(__file__))), "examples/made_up")
FILES = ("mirror.db", "mirror.db-wal")
LOOK = ["look", "--from", "2024-03-15", "--to", "2024-03-16"]
MAKE = """PRAGMA journal_mode = wal;
CREATE TABLE object (place INTEGER PRIMARY KEY, principal TEXT NOT NULL UNIQUE, number INTEGER NOT NULL,
    observations INTEGER NOT NULL) STRICT;
CREATE TABLE sight (id INTEGER PRIMARY KEY, object TEXT NOT NULL, time INTEGER NOT NULL, ra INTEGER NOT NULL,
    dec INTEGER NOT NULL, station TEXT NOT NULL) STRICT;
"""
FILL = """BEGIN;
DELETE FROM sight;
DELETE FROM object;
.import --csv objects.csv object
.import --csv sights.csv sight
COMMIT;
PRAGMA wal_checkpoint(TRUNCATE);
"""


def make(count, folder):
    """Runs the session of an office with so many objects in a folder."""
    with subprocess.Popen([MADE_UP, str(SEED), str(count)], stdout=subprocess.PIPE) as frames:
        subprocess.run([PROGRAM, "run", "--key", KEY], stdin=frames.stdout, stdout=subprocess.DEVNULL, cwd=folder,
                       check=True)
    if frames.returncode:
        sys.exit("examples/made_up failed")


def rows_of(path):
    """All rows of a file's two tables."""
    conn = sqlite3.connect(path)
    rows = [conn.execute(f"SELECT * FROM {table} ORDER BY 1").fetchall() for table in ("object", "sight")]
    conn.close()
    return rows


def put_rows(folder, rows):
    """The rows as CSV, and what the shell of SQLite is given to import them."""
    for name, table in zip(("objects.csv", "sights.csv"), rows):
        with open(os.path.join(folder, name), "w", encoding="ascii") as out:
            out.writelines(",".join(str(it) if it != "" else '""' for it in row) + "\n" for row in table)
    for name, text in (("new", MAKE + FILL), ("old", FILL)):
        with open(os.path.join(folder, name), "w", encoding="ascii") as out:
            out.write(text)


def remove(folder, names):
    for name in names:
        if os.path.exists(os.path.join(folder, name)):
            os.remove(os.path.join(folder, name))


class Best:
    """The best of the turns of each command in one folder: its seconds and its peak."""

    def __init__(self, folder):
        self.folder, self.best = folder, {}

    def run(self, name, words, given=os.devnull):
        it = ran(words, given, self.folder)
        self.best[name] = min(self.best.get(name, (1e9, 0)), (it.user + it.system, it.peak))
        return it.text

    def seconds(self, name):
        return self.best[name][0]


def turn(best, line):
    """Each command once."""
    folder = best.folder
    remove(folder, FILES)
    for name in ("new", "old"):
        told = best.run(f"mirror {name}", [PROGRAM, "mirror"])
        if told != line:
            sys.exit(f"another line: {told.decode()}")
    best.run("look", [PROGRAM, *LOOK])
    best.run("export", [PROGRAM, "export"])
    best.run("open", [PROGRAM, "run", "--key", KEY])
    put_rows(folder, rows_of(os.path.join(folder, "mirror.db")))
    remove(folder, ("other.db", "other.db-wal", "other.db-shm"))
    for name in ("new", "old"):
        best.run(f"sqlite3 {name}", ["sqlite3", "other.db"], os.path.join(folder, name))
    if rows_of(os.path.join(folder, "mirror.db")) != rows_of(os.path.join(folder, "other.db")):
        sys.exit("other rows")


def main():
    before = None
    for count in OBJECTS:
        with tempfile.TemporaryDirectory(dir="/dev/shm") as folder:
            make(count, folder)
            best = Best(folder)
            for _ in range(TURNS):
                turn(best, f"mirror {2 * count + 1} objects {count} sights {4 * count}\n".encode())
            sizes = [os.path.getsize(os.path.join(folder, it)) / 1e6 for it in ("mirror.db", "other.db")]
        new, old, opening = (best.seconds(it) for it in ("mirror new", "mirror old", "open"))
        grown = "" if before is None else f" ({new / before[0]:.2f}, {old / before[1]:.2f} times the office before)"
        print(f"{4 * count:6} observations: mirror into a new file {new:5.2f} s, over as many rows {old:5.2f} s{grown}, "
              f"opening of it {opening:.2f} s, peak {best.best['mirror old'][1] / 1e3:.1f} MB, "
              f"sqlite3 {best.seconds('sqlite3 new'):.2f} and {best.seconds('sqlite3 old'):.2f} s, "
              f"export {best.seconds('export'):.2f} s, look {best.seconds('look'):.2f} s, "
              f"files {sizes[0]:.1f} and {sizes[1]:.1f} MB", flush=True)
        before = new, old


if __name__ == "__main__":
    main()
