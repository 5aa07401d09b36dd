#!/usr/bin/env python3
"""Eight connections at once, beside one connection after another: tallies and submissions over loopback against the built
program's `serve`, and then against a plain server: a few lines of C that read a request, sync its body and a byte more to a
file where it has one, and write an answer of the same length. Prints requests a second and the median and 99th percentile of
the latency, and the office's speed beside the plain server's; ends with 1 where an answer was another one than was wanted.
With a third number it does so many times, each second time with the plain server first, and prints the medians.

A connection sends each request when it has the answer to the one before. Tallies change nothing; each submission is a batch of
two lines, so that it goes through the journal's two syncs. Each connection has a caller of its own. The clients are processes,
so that they don't hold one another up; a machine with few processors measures them too.

Build the program first (examples/office | (cd crates/mpc_cli && rt run -- run --key +founder-1)); port 8017 of this machine
must be free, and cc be there. Then: python3 bench/load.py [TALLIES [SUBMISSIONS [TIMES]]], for each connection; at most 1,000.
"""
import multiprocessing
import os
import socket
import statistics
import subprocess
import sys
import tempfile
import time

from session import PROGRAM, SETUP, columns

COUNTS = [int(word) for word in sys.argv[1:]]
TALLIES = COUNTS[0] if COUNTS else 1_000
SUBMISSIONS = COUNTS[1] if len(COUNTS) > 1 else 300
TIMES = COUNTS[2] if len(COUNTS) > 2 else 1
CONNECTIONS = 8

PLAIN = r"""
#define _GNU_SOURCE
#include <arpa/inet.h>
#include <fcntl.h>
#include <netinet/tcp.h>
#include <pthread.h>
#include <stdio.h>
#include <stdlib.h>
#include <string.h>
#include <unistd.h>

static pthread_mutex_t turn = PTHREAD_MUTEX_INITIALIZER;
static int file;
static const char tally[] = "HTTP/1.1 200 OK\r\nContent-Length: 54\r\nContent-Type: text/plain\r\n\r\n"
                            "entries 0\nisolated 0\nobjects 0\nretracted 0\naccepted 0\n";

static void keep(const char *body, size_t size) {
  pthread_mutex_lock(&turn);
  if (write(file, body, size) < 0 || fsync(file) || write(file, "", 1) < 0 || fsync(file)) exit(1);
  pthread_mutex_unlock(&turn);
}

static void *attend(void *given) {
  int peer = (int)(long)given;
  char bytes[65537];
  size_t come = 0;
  for (;;) {
    char *end, *length;
    ssize_t more = recv(peer, bytes + come, 65536 - come, 0);
    if (more <= 0) break;
    bytes[come += more] = 0;
    while ((end = strstr(bytes, "\r\n\r\n"))) {
      size_t head = end + 4 - bytes, size = (length = strstr(bytes, "Content-Length: ")) ? atol(length + 16) : 0;
      if (come < head + size) break;
      if (size) keep(bytes + head, size);
      if (send(peer, tally, sizeof tally - 1, 0) < 0) break;
      memmove(bytes, bytes + head + size, (come -= head + size) + 1);
    }
  }
  close(peer);
  return 0;
}

int main(void) {
  int listener = socket(AF_INET, SOCK_STREAM, 0), one = 1;
  struct sockaddr_in place = {.sin_family = AF_INET, .sin_port = htons(8017), .sin_addr = {htonl(INADDR_LOOPBACK)}};
  file = open("plain.journal", O_CREAT | O_WRONLY | O_APPEND, 0600);
  setsockopt(listener, SOL_SOCKET, SO_REUSEADDR, &one, sizeof one);
  if (file < 0 || bind(listener, (void *)&place, sizeof place) || listen(listener, 128)) return 1;
  for (;;) {
    pthread_t thread;
    int peer = accept(listener, 0, 0);
    setsockopt(peer, IPPROTO_TCP, TCP_NODELAY, &one, sizeof one);
    if (peer >= 0 && pthread_create(&thread, 0, attend, (void *)(long)peer) == 0) pthread_detach(thread);
  }
}
"""


def connect():
    for _ in range(100):
        try:
            peer = socket.create_connection(("127.0.0.1", 8017), timeout=60)
            peer.setsockopt(socket.IPPROTO_TCP, socket.TCP_NODELAY, 1)
            return peer
        except OSError:
            time.sleep(0.1)
    sys.exit("nobody serves port 8017")


def request(method, target, key, body=b""):
    return (f"{method} {target} HTTP/1.1\r\nHost: localhost\r\nDesk-Key: {key}\r\n"
            f"Content-Length: {len(body)}\r\n\r\n").encode() + body


def answer(stream):
    status = int(stream.readline().split()[1])
    size = 0
    while (line := stream.readline().strip()):
        if line.lower().startswith(b"content-length:"):
            size = int(line.split(b":")[1])
    return status, stream.read(size)


def tally(caller, number):
    return request("GET", "/v1/ask/tally", f"observer-{caller}")


def submission(caller, number):
    body = columns(caller, 2 * number) + columns(caller, 2 * number + 1)
    return request("POST", f"/v1/act/{number + 1}/submit80", f"observer-{caller}", body.encode())


def one_connection(make, caller, first, count, ready, go, results):
    """Sends the requests one after another, and gives the seconds that each took."""
    texts = [make(caller, number) for number in range(first, first + count)]
    peer = connect()
    stream = peer.makefile("rb")
    ready.release()
    go.wait()
    took, good = [], True
    for text in texts:
        start = time.perf_counter()
        peer.sendall(text)
        status, _ = answer(stream)
        took.append(time.perf_counter() - start)
        good = good and status == 200
    peer.close()
    results.put((took, good))


def measure(name, make, callers, first, count):
    """So many connections at once. Says whether each answer was 200."""
    ready, go, results = multiprocessing.Semaphore(0), multiprocessing.Event(), multiprocessing.Queue()
    workers = [multiprocessing.Process(target=one_connection, args=(make, caller, first, count, ready, go, results))
               for caller in callers]
    for worker in workers:
        worker.start()
    for _ in workers:
        ready.acquire()
    start = time.perf_counter()
    go.set()
    found = [results.get() for _ in workers]
    seconds = time.perf_counter() - start
    for worker in workers:
        worker.join()
    took = sorted(second for part, _ in found for second in part)
    print(f"{name:12} {len(callers)} connection(s): {len(took):6} requests, {len(took) / seconds:8.0f} requests/s, "
          f"median {1e3 * took[len(took) // 2]:7.3f} ms, 99th percentile {1e3 * took[len(took) * 99 // 100]:7.3f} ms")
    return all(good for _, good in found), len(took) / seconds


def plain_server(folder):
    """The plain server, built in this folder and started."""
    with open(os.path.join(folder, "plain.c"), "w") as file:
        file.write(PLAIN)
    subprocess.run(["cc", "-O2", "-pthread", "-o", "plain", "plain.c"], cwd=folder, check=True)
    return subprocess.Popen([os.path.join(folder, "plain")], cwd=folder)


def measure_all(rows):
    """Each row in turn. Says whether each answer was 200, and the requests a second of each row."""
    found = [measure(*row) for row in rows]
    return all(good for good, _ in found), [speed for _, speed in found]


def set_up():
    """The founder enters a station, the words of a mode, a band and a catalogue, and the observers."""
    peer = connect()
    stream = peer.makefile("rb")
    acts = SETUP[:4] + [("enrol", f'{{"key":"observer-{caller}","name":"Ann","role":"observer"}}')
                        for caller in range(1, CONNECTIONS + 1)]
    good = True
    for number, (verb, body) in enumerate(acts, start=1):
        peer.sendall(request("POST", f"/v1/act/{number}/{verb}", "+founder-1", body.encode()))
        good = answer(stream)[0] == 200 and good
    peer.close()
    return good, len(acts)


def measure_office(folder, rows):
    """The office, from an empty folder on. Says whether all was answered as wanted, and the requests a second."""
    print("the office:")
    office = subprocess.Popen([PROGRAM, "serve", "--connections", str(3 + 2 * CONNECTIONS), "--key", "+founder-1"],
                              cwd=folder, stdout=subprocess.PIPE, text=True)
    good, acts = set_up()
    all_good, speeds = measure_all(rows)
    written, _ = office.communicate(timeout=60)
    entries = acts + SUBMISSIONS * (1 + CONNECTIONS)
    wanted = f"connections {3 + 2 * CONNECTIONS}\nentries {entries}\n"
    if written != wanted:
        print(f"NOT ok: the office ended with {written!r} in place of {wanted!r}")
    return good and all_good and written == wanted, speeds


def measure_plain(folder, rows):
    print("the plain server:")
    plain = plain_server(folder)
    try:
        return measure_all(rows)
    finally:
        plain.kill()
        plain.wait()


def main():
    if not os.access(PROGRAM, os.X_OK):
        sys.exit("build the program first")
    everyone = range(1, CONNECTIONS + 1)
    rows = [("tallies", tally, [1], 0, TALLIES), ("tallies", tally, everyone, 0, TALLIES),
            ("submissions", submission, [1], 0, SUBMISSIONS),
            ("submissions", submission, everyone, SUBMISSIONS, SUBMISSIONS)]
    ours, theirs, all_good = [], [], True
    for turn in range(TIMES):
        sides = [(measure_office, ours), (measure_plain, theirs)]
        with tempfile.TemporaryDirectory() as folder:
            for measured, speeds in sides if turn % 2 == 0 else reversed(sides):
                good, found = measured(folder, rows)
                all_good = all_good and good
                speeds.append(found)
    for (name, _, callers, _, _), office, plain in zip(rows, zip(*ours), zip(*theirs)):
        beside = statistics.median(one / other for one, other in zip(office, plain))
        print(f"{name:12} {len(callers)} connection(s): medians {statistics.median(office):.0f} and "
              f"{statistics.median(plain):.0f} requests/s, {beside:.2f} of the plain server's speed")
    if not all_good:
        print("NOT ok: an answer was another than 200, or the office ended otherwise")
        return 1
    return 0


if __name__ == "__main__":
    sys.exit(main())
