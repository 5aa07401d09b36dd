"""What the scripts of checks/ share: their command line, how they say what held, requests, and a running office.

Each script takes `--program PATH`, the built program (without it crates/mpc_cli/out/mpc_cli, which `rt run` makes), and
`--long`, for its longer form where it has one. It ends with 0, with 1 where something failed, or with 77 where the
machine lacks a tool that it needs, so that not all was tried.
"""
import argparse
import contextlib
import os
import select
import shutil
import signal
import socket
import subprocess
import sys
import time

TOP = os.path.dirname(os.path.dirname(os.path.abspath(__file__)))
sys.path.append(os.path.join(TOP, "bench"))
sys.dont_write_bytecode = True

import journal  # noqa: E402: the files of bench/journal.py
from session import SETUP, columns  # noqa: E402: the lines of bench/session.py

JOURNAL, FIRST = "desk.journal2", "desk.journal"  # the file that counts, and the one that it was moved from
REGISTER = "desk.comets"  # the file of the register of comets
BUILT = os.path.join(TOP, "crates/mpc_cli/out/mpc_cli")
PORT = 8017
LACKS = 77
MEMORY = "/dev/shm" if os.path.isdir("/dev/shm") else None  # a folder for folders where a sync takes no time
KEY = "+founder-1"
ENROL = b'{"key":"observer-1","name":"Ann","role":"observer"}'
failed = left_out = False


def arguments(about, *more):
    """What the command line gives. `more` are further options, each a pair of a name and what argparse takes of it."""
    parser = argparse.ArgumentParser(description=about, formatter_class=argparse.RawDescriptionHelpFormatter)
    parser.add_argument("--program", default=BUILT, help="the built program")
    parser.add_argument("--long", action="store_true", help="the longer form")
    for name, kind in more:
        parser.add_argument(name, **kind)
    found = parser.parse_args()
    found.program = os.path.abspath(found.program)
    if not os.access(found.program, os.X_OK):
        sys.exit(f"{found.program} is no program: build it first, (cd crates/mpc_cli && rt run -- export)")
    return found


def need(*tools):
    """Ends the script where the machine lacks one of these tools."""
    missing = [tool for tool in tools if not shutil.which(tool)]
    if missing:
        lacking(", ".join(missing))


def lacking(what):
    """Ends the script, since the machine lacks something that it needs."""
    print(f"left out: this machine lacks {what}")
    sys.exit(LACKS)


def check(name, good, seen=""):
    """Says whether something held, and where it didn't what was seen."""
    global failed
    print(("ok: " if good else "NOT ok: ") + name + ("" if good else f"\n  {seen!r:.2000}"), flush=True)
    failed = failed or not good


def leave_out(name, why):
    """Says that a part of the script wasn't tried, since the machine doesn't let it."""
    global left_out
    print(f"left out: {name}: {why}", flush=True)
    left_out = True


def ended():
    """The status with which the script ends."""
    return 1 if failed else LACKS if left_out else 0


def framed(number, verb, body=b"", key=KEY):
    """The frame of a request."""
    body = body.encode() if isinstance(body, str) else body
    return f"{key} {number} {verb} {len(body)}\n".encode() + body


def replies(text):
    """The replies of a run, each with its status and its text. The last one has None as status where it is torn."""
    found = []
    while text:
        head, line, rest = text.partition(b"\n")
        words = head.split(b" ")
        if not line or len(words) != 2 or not all(word.isdigit() for word in words) or len(rest) < int(words[1]):
            return found + [(None, text.decode(errors="replace"))]
        size = int(words[1])
        found.append((int(words[0]), rest[:size].decode()))
        text = rest[size:]
    return found


def asked(running, frame, seconds=60):
    """What a run answers to a frame: the status and the text, or None and what came where it ends or says nothing."""
    with contextlib.suppress(BrokenPipeError):
        os.write(running.stdin.fileno(), frame)
    found, until = b"", time.monotonic() + seconds
    while time.monotonic() < until:
        if select.select([running.stdout], [], [], 1)[0]:
            piece = os.read(running.stdout.fileno(), 65536)
            found += piece
            whole = replies(found)
            if whole and whole[0][0] is not None:
                return whole[0]
            if not piece:
                break
    return None, found.decode(errors="replace")


def connect():
    """A connection to the office that is being served, once its port is open."""
    for _ in range(200):
        try:
            return socket.create_connection(("127.0.0.1", PORT), timeout=20)
        except OSError:
            time.sleep(0.05)
    raise SystemExit(f"nobody serves port {PORT}")


def put(path, content):
    """Makes a file of these bytes."""
    with open(path, "wb") as file:
        file.write(content)


def bytes_of(path):
    """The bytes of a file, or None where there is none."""
    try:
        with open(path, "rb") as file:
            return file.read()
    except FileNotFoundError:
        return None


def within(seconds, words, folder, **how):
    """A call in this folder: its status, what it wrote and what it said. All that it started ends with it. After so
    many seconds it is ended, and its status is None."""
    pipes = {"stdout": subprocess.PIPE, "stderr": subprocess.PIPE, "start_new_session": True, **how}
    running = subprocess.Popen(words, cwd=folder, **pipes)
    try:
        written, said = running.communicate(timeout=seconds)
        return running.returncode, written, said
    except subprocess.TimeoutExpired:
        return None, b"", f"no end within {seconds} seconds".encode()
    finally:
        with contextlib.suppress(ProcessLookupError):
            os.killpg(running.pid, signal.SIGKILL)
        running.wait()


@contextlib.contextmanager
def started(words, folder, **how):
    """A process in this folder. What is still there of it at the end, and of what it started, is killed."""
    process = subprocess.Popen(words, cwd=folder, start_new_session=True, **how)
    try:
        yield process
    finally:
        with contextlib.suppress(ProcessLookupError):
            os.killpg(process.pid, signal.SIGKILL)
        process.wait()
        for stream in (process.stdin, process.stdout, process.stderr):
            if stream:
                with contextlib.suppress(OSError):
                    stream.close()


def serving(program, connections, folder, **how):
    """An office in this folder that attends so many connections."""
    pipes = {"stdout": subprocess.PIPE, "stderr": subprocess.PIPE, **how}
    return started([program, "serve", "--connections", str(connections), "--key", KEY], folder, **pipes)
