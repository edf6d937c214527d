"""What one client could keep from others: threads, places, memory, and the server's log."""
import contextlib
import fcntl
import os
import pathlib
import re
import socket
import threading
import time

from doors import CLOSE, FULL, MESSAGE, PING, PONG, TEXT, UNKNOWN, Ended, Stream, Web, connected, expect, frame, head, others, read_head, served, server
from pages import resident

LINE = 70_000


# Threads.

def threads_of(user):
    """How many threads the processes of a user have."""
    count = 0
    for status in pathlib.Path("/proc").glob("[0-9]*/status"):
        with contextlib.suppress(OSError):
            fields = dict(line.split(":", 1) for line in status.read_text().splitlines() if ":" in line)
            if fields["Uid"].split()[0] == str(user):
                count += int(fields["Threads"])
    return count


def try_no_thread(hub):
    """Where no thread can be made for a connection, it is told at once that there is no place, whatever those before it do, and others
    are answered as before."""
    if os.geteuid() != 0:
        return "no other user: only root can be one"
    user = 61_184 + os.getpid() % 1000
    with server(hub, "--read", user=user) as here:
        clients = [Stream(here.port), Stream(here.path)]
        for client in clients:
            expect(client.ask("close 0"), UNKNOWN)
        most = threads_of(user)
    with server(hub, "--read", user=user, threads=most) as here:
        silent, speaking = Stream(here.port), Stream(here.path)
        for client in (silent, speaking):
            expect(client.ask("close 0"), UNKNOWN)
        for number in range(20):
            for make in here.makers():
                if make.func is Web:
                    with connected(here.web) as connection:
                        expect(read_head(connection.makefile("rb"))[0], 503, "a browser for which there is no thread")
                else:
                    client = make()
                    expect(client.lines.readline().decode(), FULL + "\n", "a client for which there is no thread")
                    expect(client.lines.read(), b"", "behind 69")
                    client.close()
            expect(speaking.ask("change 1 1", f"i {number + 1}@1 - 61"), f"ok version {number + 1}")
        expect(silent.ask("latest"), "ok latest 20")
        # A thread that ends leaves its place.
        silent.close()
        for make in here.makers():
            client = served(make)
            expect(client.ask("latest"), "ok latest 20")
            client.close()
        expect(here.process.poll(), None)
    return "connections for which no thread can be made"


# The log.

def session_lines(said):
    """How many lines of a log tell of sessions, and how many it says are missing."""
    told = missing = 0
    for line in said.splitlines():
        kind = re.fullmatch(r"[0-9]{4}-[0-9]{2}-[0-9]{2}T[0-9]{2}:[0-9]{2}:[0-9]{2}Z hub: (?:(session)|([0-9]+) lines are missing) .*", line)
        if kind is None:
            raise AssertionError(f"a line of a log: {line!r}")
        told += kind[1] is not None
        missing += int(kind[2] or 0)
    return told, missing


@contextlib.contextmanager
def small_pipe():
    """A pipe that is full after a page."""
    reader, writer = os.pipe()
    fcntl.fcntl(writer, fcntl.F_SETPIPE_SZ, 4096)
    try:
        yield reader, writer
    finally:
        for end in (reader, writer):
            with contextlib.suppress(OSError):
                os.close(end)


def try_unread_log(hub, sessions=1000):
    """A log that nobody reads stops no door; once it is read, each line is there or counted. And a server ends whose log nobody reads."""
    with small_pipe() as (reader, writer), server(hub, "--log", errors=writer) as here:
        os.close(writer)
        makers = here.makers()
        for number in range(sessions):
            client = makers[number % 3]()
            expect(client.ask("close 0"), UNKNOWN, f"session {number} of a server whose log nobody reads")
            client.close()
        said = []

        def read():
            while piece := os.read(reader, 65_536):
                said.append(piece)

        reading = threading.Thread(target=read)
        reading.start()
        while len(said) < 1 or not b"".join(said).endswith(b"\n") or b" lines are missing " not in b"".join(said):
            # The count stands before the next line.
            served(makers[0]).close()
            sessions += 1
            time.sleep(0.01)
        begun = [served(make) for make in makers]
        sessions += len(makers)
        for client in begun:
            client.close()
        # All sessions have ended once their places are free again.
        told = missing = 0
        while told + missing < 2 * sessions:
            told, missing = session_lines(b"".join(said).rpartition(b"\n")[0].decode())
            time.sleep(0.01)
        expect((told + missing, missing > 0), (2 * sessions, True), "lines of a log that are told or counted")
        here.process.kill()
        reading.join()
    with small_pipe() as (reader, writer), server(hub, "--log", "--sessions", 64, errors=writer) as here:
        os.close(writer)
        for number in range(64):
            client = here.makers()[number % 3]()
            expect(client.ask("close 0"), UNKNOWN)
            client.close()
        expect(here.process.wait(), 0, "the status of a server whose log nobody reads")
    return f"a log that nobody reads: {told} lines, {missing} counted"


# Places.

def try_dribbled_heads(hub):
    """Heads that come a byte at a time, each after a pause: all of a head has one deadline, so that a place is soon free."""
    with server(hub, "--read", "--at-once", 5) as here, others(here) as rest:
        stopped = threading.Event()

        def dribble(sent):
            with connected(here.web) as slow, contextlib.suppress(ConnectionError):
                answer = slow.makefile("rb")
                slow.setblocking(True)
                for byte in head(X="y" * 10_000):
                    slow.sendall(bytes([byte]))
                    sent[0] += 1
                    if stopped.wait(0.6) or is_answered(slow):
                        break
                return read_head(answer)[0]

        counts = [[0] for _ in range(5)]
        dribbling = [threading.Thread(target=dribble, args=(count,)) for count in counts]
        for one in dribbling:
            one.start()
        rest.ask()
        rest.during(lambda: [one.join() for one in dribbling])
        stopped.set()
        if max(count[0] for count in counts) >= 60:
            raise AssertionError(f"of heads that came byte by byte so many bytes were waited for: {counts}")
        rest.during(lambda: served(lambda: Web(here.web))).close()
    return f"heads byte by byte: ended behind {max(count[0] for count in counts)} bytes"


def is_answered(connection):
    """Whether something waits to be read."""
    connection.setblocking(False)
    try:
        return connection.recv(1, socket.MSG_PEEK) is not None
    except BlockingIOError:
        return False
    finally:
        connection.setblocking(True)


def try_dribbled_ends(hub):
    """Clients that go on sending, a byte at a time, though their session has ended: its place is free soon."""
    with server(hub, "--at-once", 3) as here:
        stopped = threading.Event()

        def dribble(client):
            with contextlib.suppress(OSError):
                while not stopped.wait(0.2):
                    client.connection.sendall(frame(PONG, b"") if isinstance(client, Web) else b"x")

        dribbling = []
        for client in here.clients():
            line = b"x" * (LINE + 1)
            client.connection.sendall(frame(TEXT, line) if isinstance(client, Web) else line)
            expect(client.reply(), ["no 61 LineTooLong"])
            dribbling.append(threading.Thread(target=dribble, args=(client,)))
            dribbling[-1].start()
        clients = [served(make) for make in here.makers()]
        stopped.set()
        for one in dribbling:
            one.join()
        for client in clients:
            client.close()
    return "clients that send on behind their session's end"


# Memory.

def try_large_messages(hub):
    """Clients that each send a message but for its last byte: none is held that is longer than a request can be."""
    with server(hub, "--read") as here, contextlib.ExitStack() as stack:
        others_before = [stack.enter_context(contextlib.closing(Web(here.web))) for _ in range(64)]
        for client in others_before:
            expect(client.ask("close 0"), UNKNOWN)
        before = resident(here.process)
        message = frame(TEXT, b"y" * MESSAGE)
        for client in others_before:
            client.connection.sendall(message[:-1])
        held = before
        last = None
        while last != held:
            last = held
            time.sleep(0.5)
            held = max(held, resident(here.process))
        for client in others_before:
            client.connection.sendall(message[-1:])
            expect(client.reply(), ["no 61 LineTooLong"])
        grown = held - before
        if grown > 128 * 1024:
            raise AssertionError(f"64 messages of {MESSAGE} bytes take {grown} KiB")
        expect(here.process.poll(), None)
    return f"64 messages of {MESSAGE} bytes: {grown} KiB"


PARTS = [try_no_thread, try_unread_log, try_dribbled_heads, try_dribbled_ends, try_large_messages]
