#!/usr/bin/env python3
"""Measures a hub that keeps its changes in a file, beside Python's sqlite3, in one run: store.py HUB [FOLDER]

The files are made in FOLDER, or in bench/out. One insert of sqlite3 is one commit, in WAL mode with synchronous=FULL. Each figure is the
best of its rounds, which take turns; commits are counted as calls of fsync and fdatasync. Times are by the clock, so other work on the
machine and on its disk shows in them."""

import contextlib
import multiprocessing
import os
import pathlib
import socket
import sqlite3
import statistics
import subprocess
import sys
import tempfile
import time

HERE = pathlib.Path(__file__).resolve().parent
WRITERS, CHANGES, ROUNDS, MOST = 16, 2048, 5, 4096


def row(what, value, unit):
    print(f"{what:<72} {value:12.2f} {unit}", flush=True)


def change(node, counter):
    parent = f"{counter - 1}@{node}" if counter > 1 else "-"
    return f"change {node} 1\ni {counter}@{node} {parent} 61\n"


def unlinked(path):
    for name in (path, f"{path}-wal", f"{path}-shm"):
        pathlib.Path(name).unlink(missing_ok=True)
    return path


def plain_rate(path, is_grown):
    """How many commits a second sqlite3 makes of a change each; on a log that grows with them, or on one that has its size, as it has
    after some thousand commits: then a sync needn't store the file's new size."""
    with contextlib.closing(sqlite3.connect(unlinked(path), isolation_level=None)) as database:
        database.execute("pragma journal_mode = wal")
        database.execute("create table change (number integer primary key, text text not null) strict")
        first = 1
        if is_grown:
            database.execute("pragma synchronous = off")
            first = insert(database, first)
        database.execute("pragma synchronous = full")
        start = time.perf_counter()
        insert(database, first)
        return CHANGES / (time.perf_counter() - start)


def insert(database, first):
    for number in range(first, first + CHANGES):
        database.execute("insert into change (number, text) values (?, ?)", (number, change(1, number)))
    return first + CHANGES


class Server:
    """A server with a store, or without one. A library counts the calls that sync its files."""

    def __init__(self, hub, store, library=None):
        self.told = tempfile.TemporaryFile()
        words = [hub, "serve", "--port", "0"] + (["--store", store] if store else [])
        environment = dict(os.environ)
        if library:
            environment |= {"LD_PRELOAD": library, "DISK_FILE": store, "DISK_FAILS": "sync", "DISK_TOLD": str(self.told.fileno())}
        self.process = subprocess.Popen(words, stdout=subprocess.PIPE, env=environment, pass_fds=[self.told.fileno()])
        self.port = int(self.process.stdout.readline().split()[1])
        self.before = self.syncs()

    def syncs(self):
        return os.fstat(self.told.fileno()).st_size

    def end(self):
        self.process.kill()
        self.process.wait()


def write(port, node, count, ready, go, waits):
    """A client that sends changes, each after the reply to the one before it."""
    with socket.create_connection(("127.0.0.1", port)) as connection:
        connection.setsockopt(socket.IPPROTO_TCP, socket.TCP_NODELAY, 1)
        replies = connection.makefile("rb")
        ready.release()
        go.wait()
        took = []
        for counter in range(1, count + 1):
            start = time.perf_counter()
            connection.sendall(change(node, counter).encode())
            reply = replies.readline()
            took.append(time.perf_counter() - start)
            if not reply.startswith(b"ok version "):
                sys.exit(f"answered {reply!r}")
        waits.put(took)


def written(server, writers):
    """The changes a second of so many writers without pause, and how long each change waited."""
    ready, go, waits = multiprocessing.Semaphore(0), multiprocessing.Event(), multiprocessing.Queue()
    each = CHANGES // writers
    words = [(server.port, node, each, ready, go, waits) for node in range(1, writers + 1)]
    running = [multiprocessing.Process(target=write, args=some) for some in words]
    for one in running:
        one.start()
    for _ in running:
        ready.acquire()
    start = time.perf_counter()
    go.set()
    took = [wait for _ in running for wait in waits.get()]
    rate = each * writers / (time.perf_counter() - start)
    for one in running:
        one.join()
    return rate, took


def stored_rate(hub, path, writers, library=None):
    """What `written` says of a new store, and how many syncs a change took where they are counted."""
    server = Server(hub, path and unlinked(path), library)
    rate, took = written(server, writers)
    syncs = (server.syncs() - server.before) / CHANGES
    server.end()
    return rate, took, syncs


def full_store(hub, path):
    """A store of as many changes as a hub takes, whose server was killed."""
    server = Server(hub, unlinked(path))
    with socket.create_connection(("127.0.0.1", server.port)) as connection:
        replies = connection.makefile("rb")
        for first in range(1, MOST + 1, 64):
            connection.sendall("".join(change(1, counter) for counter in range(first, first + 64)).encode())
            for _ in range(64):
                if not (reply := replies.readline()).startswith(b"ok version "):
                    sys.exit(f"answered {reply!r}")
    server.end()
    return path


def start_time(hub, path):
    """How long a server takes from its start until it has printed its port."""
    start = time.perf_counter()
    server = Server(hub, path)
    took = time.perf_counter() - start
    server.end()
    return took


def built_counter(folder):
    """The library of tests/store that counts calls."""
    library = f"{folder}/disk.so"
    words = [os.environ.get("CC", "cc"), "-O2", "-std=gnu11", "-shared", "-fPIC", str(HERE.parent / "tests" / "store" / "disk.c")]
    subprocess.run([*words, "-o", library], check=True)
    return library


def main():
    hub, folder = os.path.abspath(sys.argv[1]), sys.argv[2] if len(sys.argv) > 2 else str(HERE / "out")
    os.makedirs(folder, exist_ok=True)
    system = subprocess.run(["stat", "-f", "-c", "%T", folder], stdout=subprocess.PIPE, text=True, check=True).stdout.strip()
    with tempfile.TemporaryDirectory(dir=folder) as place:
        path, library = f"{place}/kept.hub", built_counter(place)
        print(f"\nA store on {system}, changes of one character by clients that wait for each reply; sqlite3 {sqlite3.sqlite_version}")
        rounds = [(plain_rate(path, False), plain_rate(path, True), stored_rate(hub, path, 1), stored_rate(hub, path, WRITERS))
                  for _ in range(ROUNDS)]
        plain, grown, (one, one_waits, _), (many, many_waits, _) = (max(figures) for figures in zip(*rounds))
        row("sqlite3 by Python, synchronous=FULL, one insert a commit", plain, "commits/s")
        row("  on a log that has its size", grown, "commits/s")
        row("one writer", one, "changes/s")
        row("  beside sqlite3 on a log that has its size, wanted: 0.7 at least", one / grown, "times")
        row("  median of the rounds", statistics.median(found[0] / rate for _, rate, found, _ in rounds), "times")
        row("  median wait", statistics.median(one_waits) * 1e6, "us")
        row(f"{WRITERS} writers", many, "changes/s")
        row("  beside one writer", many / one, "times")
        row("  median wait", statistics.median(many_waits) * 1e6, "us")
        row("  99 of 100 waits are below", sorted(many_waits)[len(many_waits) * 99 // 100] * 1e6, "us")
        commit = stored_rate(hub, path, 1, library)[2]
        row("syncs of a commit, by one writer", commit, "syncs")
        row(f"changes in a commit, {WRITERS} writers, wanted: 4 at least", commit / stored_rate(hub, path, WRITERS, library)[2], "changes")
        for writers in (1, WRITERS):
            row(f"without a store, writers: {writers}", max(stored_rate(hub, None, writers)[0] for _ in range(ROUNDS)), "changes/s")
        full_store(hub, path)
        times = [start_time(hub, path) for _ in range(ROUNDS)]
        row(f"a start from {MOST:,} changes, wanted: below 0.3", min(times), "s")
        row("  median", statistics.median(times), "s")


if __name__ == "__main__":
    main()
