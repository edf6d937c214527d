#!/usr/bin/env python3
"""Measures the built program: sessions on standard input, sessions over TCP, spans shared out among processors, and what
versions take of memory. sessions.py HUB [replay|refusals|filter|memory|serve|catch].. does those parts, and with no word all.

Times are by the clock, so other work on the machine shows in them."""

import multiprocessing
import os
import socket
import statistics
import subprocess
import sys
import tempfile
import time

CHARACTERS = 32768
CHANGES = 4096
# Answers 1 on a strong span: `ldxw r0, [r1+24]`, `and r0, 1`, `exit`.
STRONG = "611018000000000057000000010000009500000000000000"
# Answers 0 on every span: `ldxw r0, [r1+24]`, `and r0, 32`, `exit`.
NEVER = "611018000000000057000000200000009500000000000000"

# Answers 1 on a span that ends with a question mark, in 9 slots.
with open(os.path.join(os.path.dirname(os.path.abspath(__file__)), "../examples/filters/question.hex")) as hexadecimal:
    QUESTION = hexadecimal.read().strip()


def slot(opcode, registers, offset, immediate):
    number = immediate & 0xFFFFFFFF
    return bytes([opcode, registers]) + (offset & 0xFFFF).to_bytes(2, "little") + number.to_bytes(4, "little")


def long_program(slots):
    """A program of `slots` slots that answers 0: it adds to r2 and ends."""
    program = [slot(0xB7, 0, 0, 0), slot(0xB7, 2, 0, 1)]
    while len(program) < slots - 1:
        program.append(slot(0x07, 2, 0, 3))
    program.append(slot(0x95, 0, 0, 0))
    return b"".join(program).hex()


def typed(node, first, parent, count, code="61"):
    """A change of characters, each behind the one before it."""
    lines = [f"change {node} {count}"]
    for counter in range(first, first + count):
        lines.append(f"i {counter}@{node} {parent} {code}")
        parent = f"{counter}@{node}"
    return "\n".join(lines) + "\n"


def text_of(count, code="61"):
    """`count` characters by node 1, in changes of 256."""
    changes = []
    for first in range(1, count + 1, 256):
        parent = f"{first - 1}@1" if first > 1 else "-"
        changes.append(typed(1, first, parent, min(256, count + 1 - first), code))
    return changes


def row(what, value, unit):
    print(f"{what:<72} {value:12.2f} {unit}", flush=True)


class Replay:
    """A session with `hub replay`."""

    def __init__(self, hub, workers=1, processors=None, size=None):
        bind = (lambda: os.sched_setaffinity(0, processors)) if processors else None
        words = [hub, "replay", "--workers", str(workers)] + (["--size", size] if size else [])
        self.child = subprocess.Popen(words, stdin=subprocess.PIPE, stdout=subprocess.PIPE, preexec_fn=bind)

    def ask(self, request, last="ok "):
        """Sends a request, and answers the lines of its reply up to the one that ends it."""
        self.child.stdin.write(request.encode())
        self.child.stdin.flush()
        lines = []
        while True:
            line = self.child.stdout.readline().decode()
            lines.append(line)
            if line.startswith(last):
                return lines
            if not line.startswith(("hit ", "end ")):
                sys.exit(f"{request[:60]!r} was answered {line!r}")

    def memory(self, name):
        """A figure of the process in MiB."""
        with open(f"/proc/{self.child.pid}/status") as status:
            for line in status:
                if line.startswith(name):
                    return int(line.split()[1]) / 1024
        return 0.0

    def end(self):
        self.child.stdin.close()
        if self.child.wait() != 0:
            sys.exit("the session failed")


def measure_replay(hub):
    print("\nA session of 4,096 changes on standard input, 8 characters each, to 32,768")
    size = CHARACTERS // CHANGES
    changes = [typed(1, size * k + 1, f"{size * k}@1" if k else "-", size) for k in range(CHANGES)]
    alone = "".join(changes)
    pulling = f"sub 1024 {STRONG}\n" + "".join(change + "pull 0 1024\n" for change in changes)
    for what, session in (("without a subscriber", alone), ("with one that pulls after each", pulling)):
        times = []
        for _ in range(3):
            start = time.perf_counter()
            done = subprocess.run([hub, "replay"], input=session.encode(), stdout=subprocess.PIPE, check=True)
            times.append(time.perf_counter() - start)
        if f"ok version {CHANGES}\n".encode() not in done.stdout:
            sys.exit("a change was refused")
        row(f"whole, {what}", min(times), "s")
        row("  a change", min(times) / CHANGES * 1e6, "us")


def waits_at_the_end(hub, after_refusal):
    """How long changes of 8 characters take at the end of a text of 30,720 and more, each perhaps after one that was refused."""
    session = Replay(hub)
    for change in text_of(30720):
        session.ask(change)
    waits = []
    for first in range(30721, 32721, 8):
        if after_refusal:
            session.ask("change 1 1\ni 1@1 - 61\n", last="no 46 ")
        start = time.perf_counter()
        session.ask(typed(1, first, f"{first - 1}@1", 8))
        waits.append(time.perf_counter() - start)
    session.end()
    return waits


def measure_refusals(hub):
    print("\nChanges of 8 characters at the end of 32,768, by one that waits for each reply: median")
    row("each after one that was accepted", statistics.median(waits_at_the_end(hub, False)) * 1e6, "us")
    row("each after one that was refused", statistics.median(waits_at_the_end(hub, True)) * 1e6, "us")


def spans_session(hub, count, workers, processors):
    """A session over a text of `count` spans of one character."""
    session = Replay(hub, workers, processors)
    for change in text_of(count):
        session.ask(change)
    counter = count + 1
    places = list(range(1, count, 2))
    for start in range(0, len(places), 256):
        part = places[start : start + 256]
        lines = [f"change 1 {len(part)}"]
        for place in part:
            lines.append(f"m {counter}@1 strong - <{place}@1 >{place}@1")
            counter += 1
        session.ask("\n".join(lines) + "\n")
    return session


def measure_filter(hub):
    print("\nA pull of one version of 5,000 spans")
    programs = (("3", NEVER), ("500", long_program(500)), ("2,000", long_program(2000)))
    every = sorted(os.sched_getaffinity(0))
    for slots, program in programs:
        what = f"a program of {slots} slots"
        least = {}
        for processors, workers in ((1, 1), (2, 1), (2, 2), (4, 1), (4, 2)):
            if processors > len(every):
                continue
            session = spans_session(hub, 5000, workers, every[:processors])
            times = []
            for turn in range(60):
                session.ask(f"sub 1024 {program}\n")
                start = time.perf_counter()
                reply = session.ask(f"pull {turn} 1024\n")
                times.append(time.perf_counter() - start)
                if not reply[-2].endswith(" 5000\n"):
                    sys.exit(f"no end: {reply[-2]}")
                session.ask(f"close {turn}\n")
            session.end()
            least[processors, workers] = min(times)
            row(f"{what}, {processors} processor(s), --workers {workers}: least", min(times) * 1e3, "ms")
            row("  median", statistics.median(times) * 1e3, "ms")
        if len(every) > 1:
            row("  one processor against two, the better of both", least[1, 1] / min(least[2, 1], least[2, 2]), "times")


def versions_session(hub, texts, later):
    """A session that makes versions, with how much memory it took."""
    session = Replay(hub)
    for change in texts:
        session.ask(change)
    start = time.perf_counter()
    for change in later:
        session.ask(change)
    took = time.perf_counter() - start
    most, now = session.memory("VmHWM"), session.memory("VmRSS")
    session.end()
    return most, now, took / max(len(later), 1)


def removals(count):
    """Changes of one operation that change no span."""
    return [f"change 1 1\nu {CHARACTERS + 1 + k}@1 strong ^ $\n" for k in range(count)]


def marks(count, key):
    """Changes of one mark each, of 4 characters with 4 between them."""
    lines = []
    for k in range(count):
        lines.append(f"change 1 1\nm {CHARACTERS + 1 + k}@1 {key(k)} <{8 * k + 1}@1 <{8 * k + 5}@1\n")
    return lines


def nested(count):
    """Changes of one comment each, of a number of its own and within the one before it."""
    lines = []
    for k in range(count):
        lines.append(f"change 1 1\nm {CHARACTERS + 1 + k}@1 comment:{k + 1} - <{k + 1}@1 >{CHARACTERS - k}@1\n")
    return lines


def measure_memory(hub):
    print("\nMemory of versions of 32,768 characters that a hub keeps: VmHWM of /proc/PID/status")
    full = CHANGES - CHARACTERS // 256
    link = "link " + "x" * 1024
    # The last two are cut short, since all 4,096 versions would take more than this machine has.
    cases = (
        ("one-byte characters, one span", "61", removals(full)),
        ("four-byte characters, one span", "1f600", removals(full)),
        ("one-byte characters, a mark more in each", "61", marks(full, lambda k: "strong -")),
        ("one-byte characters, a link of 1,024 bytes more in each", "61", marks(512, lambda k: link)),
        ("one-byte characters, a comment more in each, nested", "61", nested(512)),
    )
    for what, code, later in cases:
        most, now, took = versions_session(hub, text_of(CHARACTERS, code), later)
        row(f"{len(later) + CHARACTERS // 256:,} versions: {what}", most, "MiB")
        row("  a change, by one that waits for each reply", took * 1e6, "us")


def client(port, node, changes, size, ready, go, times):
    """Sends changes to a server, each after the reply to the one before it."""
    with socket.create_connection(("127.0.0.1", port)) as connection:
        connection.setsockopt(socket.IPPROTO_TCP, socket.TCP_NODELAY, 1)
        requests = [typed(node, size * k + 1, f"{size * k}@{node}" if k else "-", size).encode() for k in range(changes)]
        replies = connection.makefile("rb")
        ready.release()
        go.wait()
        took = []
        for request in requests:
            start = time.perf_counter()
            connection.sendall(request)
            reply = replies.readline()
            took.append(time.perf_counter() - start)
            if not reply.startswith(b"ok version "):
                sys.exit(f"answered {reply!r}")
        connection.shutdown(socket.SHUT_WR)
        replies.read()
        times.put(took)


def serve_with(hub, clients, size):
    """The changes a second of `clients` clients, each a process, and how long each of them waited."""
    words = [hub, "serve", "--port", "0", "--sessions", str(clients)]
    server = subprocess.Popen(words, stdout=subprocess.PIPE)
    port = int(server.stdout.readline().split()[1])
    ready, go, times = multiprocessing.Semaphore(0), multiprocessing.Event(), multiprocessing.Queue()
    each = CHANGES // clients
    running = []
    for node in range(1, clients + 1):
        one = multiprocessing.Process(target=client, args=(port, node, each, size, ready, go, times))
        one.start()
        running.append(one)
    for _ in running:
        ready.acquire()
    start = time.perf_counter()
    go.set()
    waits = [wait for _ in running for wait in times.get()]
    took = time.perf_counter() - start
    for one in running:
        one.join()
    if server.wait() != 0:
        sys.exit("the server failed")
    return each * clients / took, waits


def handshake(connection):
    """Begins a WebSocket."""
    lines = ["GET /session HTTP/1.1", "Host: 127.0.0.1", "Upgrade: websocket", "Connection: Upgrade", "Sec-WebSocket-Version: 13",
             "Sec-WebSocket-Key: dGhlIHNhbXBsZSBub25jZQ==", "", ""]
    connection.sendall("\r\n".join(lines).encode())
    reply = b""
    while not reply.endswith(b"\r\n\r\n"):
        reply += connection.recv(4096)
    if not reply.startswith(b"HTTP/1.1 101 "):
        sys.exit(f"answered {reply!r}")


def text_frame(text):
    """A message in one frame, with a mask of zeros."""
    length = bytes([128 | len(text)]) if len(text) < 126 else bytes([254]) + len(text).to_bytes(2, "big")
    return b"\x81" + length + bytes(4) + text


def waits_at_doors(hub, size, count=1300):
    """How long changes wait for their replies over a socket file, TCP and a WebSocket, one after another at each door in turn, by one
    process with a session at each."""
    with tempfile.TemporaryDirectory() as folder:
        words = ["--port", "0", "--web", "0", "--unix", f"{folder}/hub.sock", "--sessions", "3"]
        server = subprocess.Popen([hub, "serve", *words], stdout=subprocess.PIPE)
        port, web = (int(server.stdout.readline().split()[1]) for _ in range(2))
        server.stdout.readline()
        file = socket.socket(socket.AF_UNIX)
        file.connect(f"{folder}/hub.sock")
        doors = {"--unix": file}
        for door, number in (("--port", port), ("--web", web)):
            doors[door] = socket.create_connection(("127.0.0.1", number))
            doors[door].setsockopt(socket.IPPROTO_TCP, socket.TCP_NODELAY, 1)
        handshake(doors["--web"])
        waits = {door: [] for door in doors}
        for k in range(count):
            for node, (door, connection) in enumerate(doors.items(), 1):
                request = typed(node, size * k + 1, f"{size * k}@{node}" if k else "-", size).encode()
                request = text_frame(request) if door == "--web" else request
                start = time.perf_counter()
                connection.sendall(request)
                reply = connection.recv(4096)
                waits[door].append(time.perf_counter() - start)
                if b"ok version " not in reply or not reply.endswith(b"\n"):
                    sys.exit(f"answered {reply!r}")
        for connection in doors.values():
            connection.close()
        if server.wait() != 0:
            sys.exit("the server failed")
    return waits


def measure_doors(hub):
    print("\nA change at each door of one server in turn, by one that waits: the least median of three, and its ratio to TCP's")
    for size in (1, 8):
        runs = [waits_at_doors(hub, size) for _ in range(3)]
        medians = {door: min(statistics.median(waits[door]) for waits in runs) for door in runs[0]}
        for door, median in medians.items():
            row(f"{door}, changes of {size} character(s)", median * 1e6, "us")
            row("  by --port", median / medians["--port"], "times")


def measure_serve(hub):
    measure_doors(hub)
    print("\nA server on 127.0.0.1: 4,096 changes of clients that wait for each reply")
    for size in (1, 8):
        for clients in (1, 8):
            rates = [serve_with(hub, clients, size) for _ in range(3)]
            rate, waits = max(rates)
            row(f"{clients} client(s), changes of {size} character(s)", rate, "changes/s")
            row("  median wait", statistics.median(waits) * 1e6, "us")
            row("  99 of 100 waits are below", sorted(waits)[len(waits) * 99 // 100] * 1e6, "us")


class Client:
    """A session with a server, that waits for each reply."""

    def __init__(self, port):
        self.connection = socket.create_connection(("127.0.0.1", port))
        self.connection.setsockopt(socket.IPPROTO_TCP, socket.TCP_NODELAY, 1)
        self.replies = self.connection.makefile("rb")

    def ask(self, request):
        """The lines of the reply, and how long it took."""
        start = time.perf_counter()
        self.connection.sendall(request.encode())
        lines = []
        while not lines or not lines[-1].startswith("ok "):
            lines.append(self.replies.readline().decode())
            if not lines[-1].startswith(("ok ", "hit ", "end ")):
                sys.exit(f"{request[:60]!r} was answered {lines[-1]!r}")
        return lines, time.perf_counter() - start

    def end(self):
        self.connection.shutdown(socket.SHUT_WR)
        self.replies.read()
        self.connection.close()


def catch_up(port, ready, go, found):
    """Takes the items of all versions from 0 on, and looks whether each version ends once, in order."""
    session = Client(port)
    ready.release()
    go.wait()
    start = time.perf_counter()
    reply, _ = session.ask(f"sub 1024 {QUESTION} from 0\n")
    pull = f"pull {reply[-1].split()[2]} 1024\n"
    items, ends = 0, []
    while not ends or ends[-1] < CHANGES:
        reply, _ = session.ask(pull)
        items += len(reply) - 1
        ends += [int(line.split()[1]) for line in reply if line.startswith("end ")]
    took = time.perf_counter() - start
    if ends != list(range(CHANGES + 1)):
        sys.exit("a version was left out, or came twice")
    session.end()
    found.put(items / took)


def write_beside(hub, count):
    """How long a writer that has a subscriber of its own waits for its changes and its pulls while `count` others catch up from
    version 0, and how many items a second each of these gets. 2,048 versions are there when they begin."""
    server = subprocess.Popen([hub, "serve", "--port", "0", "--sessions", str(count + 1)], stdout=subprocess.PIPE)
    port = int(server.stdout.readline().split()[1])
    ready, go, found = multiprocessing.Semaphore(0), multiprocessing.Event(), multiprocessing.Queue()
    running = [multiprocessing.Process(target=catch_up, args=(port, ready, go, found)) for _ in range(count)]
    for one in running:
        one.start()
    writer = Client(port)
    changes = text_of(CHARACTERS, "3f") + removals(CHANGES - CHARACTERS // 256)
    for change in changes[:2048]:
        writer.ask(change)
    writer.ask(f"sub 64 {QUESTION}\n")
    for _ in running:
        ready.acquire()
    writing, pulling = [], []
    go.set()
    for change in changes[2048:]:
        writing.append(writer.ask(change)[1])
        pulling.append(writer.ask("pull 0 64\n")[1])
    rates = [found.get() for _ in running]
    writer.end()
    for one in running:
        one.join()
    if server.wait() != 0:
        sys.exit("the server failed")
    return writing, pulling, rates


def caught_up_alone(hub):
    """How many items a second a session gets that catches up from version 0 when all versions are there."""
    session = Replay(hub)
    for change in text_of(CHARACTERS, "3f") + removals(CHANGES - CHARACTERS // 256):
        session.ask(change)
    start = time.perf_counter()
    session.ask(f"sub 1024 {QUESTION} from 0\n")
    items, reply = 0, []
    while len(reply) != 1:
        reply = session.ask("pull 0 1024\n")
        items += len(reply) - 1
    took = time.perf_counter() - start
    session.end()
    return items / took


def measure_catching(hub):
    print("\nCatching up over 4,096 versions of 32,768 characters with a filter of 9 slots; a hit and an end in each version")
    row("alone, all versions there", caught_up_alone(hub), "items/s")
    for count in (0, 1, 2):
        writing, pulling, rates = write_beside(hub, count)
        beside = f"beside {count} that catch up from version 0"
        for what, waits in (("a change", writing), ("a pull of one version", pulling)):
            row(f"{what}, {beside}: median wait", statistics.median(waits) * 1e6, "us")
            row("  99 of 100 waits are below", sorted(waits)[len(waits) * 99 // 100] * 1e6, "us")
            row("  the longest", max(waits) * 1e6, "us")
        for rate in rates:
            row("  one that catches up", rate, "items/s")


PARTS = {
    "replay": measure_replay,
    "refusals": measure_refusals,
    "filter": measure_filter,
    "memory": measure_memory,
    "serve": measure_serve,
    "catch": measure_catching,
}


def main():
    hub, *wanted = sys.argv[1:]
    for name, measure in PARTS.items():
        if not wanted or name in wanted:
            measure(hub)


if __name__ == "__main__":
    main()
