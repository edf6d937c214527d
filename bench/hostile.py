#!/usr/bin/env python3
"""Measures what one client can do to all of a hub: hostile.py HUB [nested|refused|subscribers|unfinished|writer].. does those parts, and with no
word all. Colliding ids are in chosen_ids.c. Times are by the clock, so other work on the machine shows in them."""

import multiprocessing
import socket
import statistics
import subprocess
import sys
import threading
import time

from sessions import CHANGES, STRONG, Client, Replay, long_program, row, text_of, typed

MARKS = 4096
NESTED_CHARACTERS = 8400
NESTED_CHANGES = 12
# Half the spans of the text that is filtered, as many as are strong.
SPANS = 4000


class Server:
    """A server of `sessions` sessions."""

    def __init__(self, hub, sessions):
        words = [hub, "serve", "--port", "0", "--sessions", str(sessions)]
        # It says so when a client of these goes away in the midst of a request.
        self.child = subprocess.Popen(words, stdout=subprocess.PIPE, stderr=subprocess.DEVNULL)
        self.port = int(self.child.stdout.readline().split()[1])

    def memory(self):
        """What it holds now, in MiB."""
        with open(f"/proc/{self.child.pid}/status") as status:
            return next(int(line.split()[1]) / 1024 for line in status if line.startswith("VmRSS"))

    def end(self):
        if self.child.wait() != 0:
            sys.exit("the server failed")


def waits(title, taken):
    """Rows of how long requests took, in seconds."""
    row(f"{title}: median", statistics.median(taken) * 1e6, "us")
    row("  the longest", max(taken) * 1e6, "us")


def nested_marks(key):
    """Changes of 256 marks, each within the last."""
    changes = []
    for start in range(0, MARKS, 256):
        lines = ["change 1 256"]
        for k in range(start, start + 256):
            lines.append(f"m {NESTED_CHARACTERS + 1 + k}@1 {key(k)} <{k + 1}@1 >{NESTED_CHARACTERS - k}@1")
        changes.append("\n".join(lines) + "\n")
    return changes


def removals_within(hub, marks):
    """How long changes take that remove a character each behind these marks, and how many MiB each version keeps."""
    session = Replay(hub)
    for change in text_of(NESTED_CHARACTERS) + marks:
        session.ask(change)
    before, taken = session.memory("VmRSS"), []
    for k in range(NESTED_CHANGES):
        start = time.perf_counter()
        session.ask(f"change 1 1\nd {NESTED_CHARACTERS + MARKS + 1 + k}@1 {MARKS + 50 + k}@1\n")
        taken.append(time.perf_counter() - start)
    kept = (session.memory("VmRSS") - before) / NESTED_CHANGES
    session.end()
    return taken, kept


def measure_nested(hub):
    print("\nMarks each within the last, 4,096 in 8,400 characters, then changes of 33 bytes that remove a character each")
    cases = (
        ("comments", nested_marks(lambda k: f"comment:{k + 1} -")),
        ("colors", nested_marks(lambda k: f"color {k:06x}")),
        ("no marks", []),
    )
    for what, marks in cases:
        taken, kept = removals_within(hub, marks)
        waits(f"{what}: a change", taken)
        row("  memory kept a version", kept, "MiB")


def flood(port, request, replies):
    """Sends a request again and again, without a look at its replies, until the server is gone or this process is ended."""
    with socket.create_connection(("127.0.0.1", port)) as connection:
        threading.Thread(target=lambda: all(iter(lambda: connection.recv(1 << 16), b"")), daemon=True).start()
        replies.release()
        while True:
            connection.sendall(request * 64)


def waits_beside_flood(hub, request):
    """How long changes of 8 characters take at the end of a text of 30,720, perhaps while another session sends a request without end."""
    server = Server(hub, 2 if request else 1)
    writer = Client(server.port)
    for change in text_of(30720):
        writer.ask(change)
    if request:
        ready = multiprocessing.Semaphore(0)
        other = multiprocessing.Process(target=flood, args=(server.port, request, ready), daemon=True)
        other.start()
        ready.acquire()
        time.sleep(0.1)
    taken = [writer.ask(typed(1, first, f"{first - 1}@1", 8))[1] for first in range(30721, 32721, 8)]
    writer.end()
    if request:
        other.terminate()
        other.join()
    server.child.wait()
    return taken


def measure_refused(hub):
    print("\nChanges of 8 characters at the end of 30,720 and more, by one that waits for each reply")
    waits("alone", waits_beside_flood(hub, None))
    waits("while another session sends changes without end that are refused at their first line", waits_beside_flood(hub, b"change 1 1\ni 1@1 - 61\n"))


def strong_at(counter, places):
    """A change that makes each of these characters strong."""
    lines = [f"change 1 {len(places)}"]
    for at, place in enumerate(places):
        lines.append(f"m {counter + at}@1 strong - <{place}@1 >{place}@1")
    return "\n".join(lines) + "\n"


def measure_subscribers(hub):
    print("\nA subscriber of 3 slots over 8,000 spans that takes one item after each change of another")
    for others in (0, 60):
        server = Server(hub, 3)
        writer, idle, puller = (Client(server.port) for _ in range(3))
        for change in text_of(2 * SPANS):
            writer.ask(change)
        for start in range(0, SPANS, 250):
            writer.ask(strong_at(2 * SPANS + 1 + start, [2 * k + 1 for k in range(start, start + 250)]))
        program = long_program(4096)
        for _ in range(others):
            idle.ask(f"sub 1024 {program}\n")
        number = puller.ask(f"sub 1024 {STRONG}\n")[0][-1].split()[2]
        taken = []
        for counter in range(3 * SPANS + 1, 3 * SPANS + 13):
            writer.ask(f"change 1 1\ni {counter}@1 {2 * SPANS}@1 61\n")
            taken.append(puller.ask(f"pull {number} 1\n")[1])
        waits(f"beside {others} of 4,096 slots that never pull", taken)
        for client in (idle, puller, writer):
            client.end()
        server.end()


def measure_unfinished(hub):
    sessions = 62
    print(f"\nUnfinished changes: {sessions} sessions send 255 lines of 69,999 bytes of a change of 256")
    server = Server(hub, sessions)
    before = server.memory()
    request = b"change 1 256\n" + (b"x" * 69999 + b"\n") * 255
    clients = [socket.create_connection(("127.0.0.1", server.port)) for _ in range(sessions)]

    def send(client):
        try:
            client.sendall(request)
        except OSError:
            pass

    threads = [threading.Thread(target=send, args=(client,)) for client in clients]
    for thread in threads:
        thread.start()
    for thread in threads:
        thread.join()
    time.sleep(3)
    row("memory held a session", (server.memory() - before) / sessions, "MiB")
    for client in clients:
        client.close()
    server.child.wait()


def write_without_pause(port, ready, go, sent_at):
    """Makes the changes, each as soon as the one before it is answered, and gives when each was sent."""
    writer = Client(port)
    requests = [typed(1, 8 * k + 1, f"{8 * k}@1" if k else "-", 8) for k in range(CHANGES)]
    ready.release()
    go.wait()
    times = []
    for request in requests:
        times.append(time.perf_counter())
        writer.ask(request)
    writer.end()
    sent_at.put(times)


def measure_writer(hub):
    print("\nA writer without pause, 4,096 changes of 8 characters: from a change to its item at a subscriber that pulls")
    server = Server(hub, 2)
    ready, go, sent_at = multiprocessing.Semaphore(0), multiprocessing.Event(), multiprocessing.Queue()
    other = multiprocessing.Process(target=write_without_pause, args=(server.port, ready, go, sent_at))
    other.start()
    puller = Client(server.port)
    puller.ask(f"sub 1024 {STRONG}\n")
    ready.acquire()
    go.set()
    come = {}
    while CHANGES not in come:
        reply, _ = puller.ask("pull 0 1024\n")
        now = time.perf_counter()
        come.update({int(line.split()[1]): now for line in reply if line.startswith("end ")})
    sent = sent_at.get()
    taken = [come[version + 1] - at for version, at in enumerate(sent)]
    waits("a change to its item", taken)
    row("  99 of 100 are below", sorted(taken)[len(taken) * 99 // 100] * 1e6, "us")
    puller.end()
    other.join()
    server.end()


PARTS = {
    "nested": measure_nested,
    "refused": measure_refused,
    "subscribers": measure_subscribers,
    "unfinished": measure_unfinished,
    "writer": measure_writer,
}


def main():
    hub, *wanted = sys.argv[1:]
    for name, measure in PARTS.items():
        if not wanted or name in wanted:
            measure(hub)


if __name__ == "__main__":
    main()
