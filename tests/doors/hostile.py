"""Clients that mean harm, or are broken: what each is told, and that sessions at all doors are answered meanwhile."""
import contextlib
import select
import socket
import struct
import time
from concurrent.futures import ThreadPoolExecutor

from doors import (BINARY, CLOSE, FULL, LONGEST_MARK, MESSAGE, PING, PONG, PROGRAM, TEXT, UNKNOWN, Ended, Stream, Web, closing, connected,
                   expect, frame, head, others, read_head, served, server)

READ = ["--read"]
LINE = 70_000
KEY_LINE, VERSION_LINE = "Sec-WebSocket-Key", "Sec-WebSocket-Version"


def answer_to(port, *sent):
    """The status of what these bytes are answered, and the body."""
    with connected(port) as connection:
        # What is refused may be refused before all of it was sent.
        with contextlib.suppress(ConnectionError):
            for part in sent:
                connection.sendall(part)
        lines = connection.makefile("rb")
        status, fields = read_head(lines)
        with contextlib.suppress(ConnectionError):
            return status, fields, lines.read() if status != 101 else b""
        return status, fields, b""


# Handshakes.

def try_handshakes(hub):
    """Heads that are no right handshake."""
    many = b"".join(b"a%d: b\r\n" % number for number in range(65))
    rows = {
        "a right one": (head(), 101),
        "no key": (head(left_out=[KEY_LINE]), 400),
        "a key that is too short": (head(Sec_WebSocket_Key="dGhl"), 400),
        "a key that is no base64": (head(Sec_WebSocket_Key="!" * 22 + "=="), 400),
        "version 8": (head(Sec_WebSocket_Version="8"), 400),
        "no version": (head(left_out=[VERSION_LINE]), 400),
        "no Upgrade": (head(left_out=["Upgrade"]), 400),
        "another Upgrade": (head(Upgrade="h2c"), 400),
        "no Connection": (head(left_out=["Connection"]), 400),
        "HTTP/1.0": (head().replace(b"HTTP/1.1", b"HTTP/1.0"), 400),
        "another path": (head("/other"), 404),
        "POST of a session": (head().replace(b"GET", b"POST"), 405),
        "POST": (b"POST / HTTP/1.1\r\nHost: a\r\nContent-Length: 3\r\n\r\nabc", 405),
        "no HTTP": (b"change 1 1\ni 1@1 - 61\n\n", 400),
        "HTTP/2": (b"PRI * HTTP/2.0\r\n\r\nSM\r\n\r\n", 400),
        "TLS": (bytes.fromhex("16030100a5010000a10303") + bytes(range(160)), 400),
        "NUL in a line": (head(X="a\0b"), 400),
        "65 header lines": (head()[:-2] + many + b"\r\n", 431),
        "a line of 17 KiB": (head(X="y" * 17_000), 431),
        "1 MB of header lines": (head()[:-2] + (b"x: " + b"y" * 1000 + b"\r\n") * 1000 + b"\r\n", 431),
    }
    with server(hub, *READ) as here, others(here) as rest:
        for what, (sent, status) in rows.items():
            expect(answer_to(here.web, sent)[0], status, what)
            rest.ask(1)
        expect(here.process.poll(), None)
        status, fields, body = answer_to(here.web, b"POST / HTTP/1.1\r\nHost: a\r\n\r\n")
        expect((status, fields.get("allow"), body), (405, "GET, HEAD", b"405 Method Not Allowed"), "what is allowed")
        status, fields, body = answer_to(here.web, b"HEAD /session HTTP/1.1\r\nHost: a\r\n\r\n")
        expect((status, int(fields["content-length"]), body), (400, len("400 Bad Request"), b""), "HEAD of a session")
    return f"{len(rows)} heads of requests"


def unread(connection):
    """How many bytes the other end of a connection on this machine hasn't read yet."""
    words = [f"{int.from_bytes(socket.inet_aton(address)[::-1], 'big'):08X}:{port:04X}"
             for address, port in (connection.getpeername(), connection.getsockname())]
    with open("/proc/net/tcp", encoding="ascii") as table:
        rows = [line.split() for line in table]
    return sum(int(row[4].split(":")[1], 16) for row in rows if row[1:3] == words)


def try_slow_handshakes(hub):
    """Heads that come byte by byte, each once the one before it was read; and halves of heads, of which nothing more comes."""
    with server(hub, *READ) as here, others(here) as rest:
        def byte_by_byte():
            with connected(here.web) as slow:
                for byte in head(X="y" * 200):
                    # Behind the answer nothing more is sent: it would be lost where the server has closed meanwhile.
                    if select.select([slow], [], [], 0)[0]:
                        break
                    slow.sendall(bytes([byte]))
                    while unread(slow):
                        time.sleep(0.001)
                return read_head(slow.makefile("rb"))[0]

        expect(rest.during(byte_by_byte), 408, "a head byte by byte")
        halves = [b"", b"G", head()[:40], head()[:-1]]
        clients = [connected(here.web) for _ in halves]
        for client, half in zip(clients, halves):
            client.sendall(half)
        rest.ask()
        for client, half in zip(clients, halves):
            expect(rest.during(lambda client=client: read_head(client.makefile("rb"))[0]), 408, f"{half!r} and nothing more")
            client.close()
        for half in halves:
            client = connected(here.web)
            client.sendall(half)
            client.shutdown(socket.SHUT_WR)
            expect(client.makefile("rb").read(), b"", f"{half!r} and the end")
            client.close()
        rest.ask()
    return "heads that come slowly, or never whole"


def try_unfinished(hub):
    """Connections that never finish their handshake use no session up, and only hold up handshakes of others: as many as there may
    be sessions are waited for, and each other one is told 503 at once."""
    with server(hub, *READ, "--at-once", 5) as here, others(here) as rest:
        idle = [connected(here.web) for _ in range(100)]
        for number, connection in enumerate(idle):
            with contextlib.suppress(ConnectionError):
                connection.sendall(head()[:number % 60])
        rest.ask()
        one, other = Stream(here.port), Stream(here.path)
        for client in (one, other):
            expect(client.ask("close 0"), UNKNOWN)
        expect(Stream(here.port).ask("close 0"), FULL)
        one.close()
        told = rest.during(lambda: [read_head(connection.makefile("rb"))[0] for connection in idle[50:]])
        if not set(told) <= {503, None} or 503 not in told:
            raise AssertionError(f"unfinished handshakes past those that are waited for are told {told}")
        client = rest.during(lambda: served(lambda: Web(here.web)))
        client.close()
        for connection in idle:
            connection.close()
        rest.during(lambda: served(lambda: Web(here.web))).close()
    return "100 connections without a whole handshake"


# Frames.

def try_frames(hub):
    """Frames that are wrong: the code that each is closed with."""
    rows = {
        "not masked": (1002, [frame(TEXT, b"x", masked=False)]),
        "no UTF-8": (1007, [frame(TEXT, b"\xff\xfe")]),
        "no UTF-8, in a fragment": (1007, [frame(TEXT, b"\xe4", last=False), frame(0, b"\xe4")]),
        "a character that is cut off": (1007, [frame(TEXT, b"close 0 \xe2\x82")]),
        "a reserved bit": (1002, [frame(TEXT, b"x", reserved=4)]),
        "an unknown code": (1002, [frame(3, b"x")]),
        "an unknown code of control": (1002, [frame(11, b"x")]),
        "a continuation of nothing": (1002, [frame(0, b"x")]),
        "a message within another": (1002, [frame(TEXT, b"x", last=False), frame(TEXT, b"y")]),
        "a long ping": (1002, [frame(PING, b"p" * 126)]),
        "a ping in fragments": (1002, [frame(PING, b"p", last=False)]),
        "a close with a wrong code": (1002, [closing(5)]),
        "a close of one byte": (1002, [frame(CLOSE, b"x")]),
        "2^63 bytes announced": (1009, [struct.pack("!BBQ4s", 0x81, 0xFF, (1 << 63) - 1, b"mask")]),
        "a byte more than a message may have announced": (1009, [struct.pack("!BBQ4s", 0x81, 0xFF, MESSAGE + 1, b"mask")]),
        "fragments of more than a message may have": (1009, [frame(TEXT, b"x" * (1 << 16), last=False)] + [frame(0, b"x" * (1 << 16), last=False)] * 4),
        "a binary message": (1003, [frame(BINARY, b"close 0\n")]),
        "a binary message, empty": (1003, [frame(BINARY, b"")]),
        "a close": (1000, [closing(1000)]),
        "two closes": (1000, [closing(1000), closing(1001)]),
        "a request behind a close": (1000, [closing(1000), frame(TEXT, b"close 0")]),
    }
    with server(hub, *READ) as here, others(here) as rest:
        for what, (code, frames) in rows.items():
            client = Web(here.web)
            with contextlib.suppress(ConnectionError):
                client.send(*frames)
            expect(client.ending(), code, what)
            client.close()
            rest.ask(1)
        expect(here.process.poll(), None)
    return f"{len(rows)} wrong frames"


def try_right_frames(hub):
    """Frames that are right, though no browser sends them so."""
    with server(hub, *READ) as here, others(here) as rest:
        early = Web(here.web, head() + frame(TEXT, b"close 0"))
        expect(early.message(), UNKNOWN + "\n", "a request right behind the head")
        early.send(frame(TEXT, b"clo", last=False), frame(PING, b"there?"), frame(0, b"", last=False), frame(0, b"se 0"))
        expect(early.frame(), (PONG, b"there?"), "a ping between fragments")
        expect(early.message(), UNKNOWN + "\n", "a message in fragments")
        early.send(frame(PONG, b"unasked"), frame(PING, b""), frame(TEXT, b""))
        expect(early.frame(), (PONG, b""), "an empty ping")
        expect(early.message(), "no 60 BadCommand\n", "an empty message, which is an empty line")
        early.send(frame(TEXT, b"close 0\nclose 1"))
        expect([early.message(), early.message()], [UNKNOWN + "\n"] * 2, "two requests in one message")
        early.send(frame(TEXT, b"change 9 1\n"), frame(TEXT, b"i 1@9 - 61"))
        expect(early.message(), f"ok version {rest.version + 1}\n", "a request in two messages")
        rest.version += 1
        for byte in frame(TEXT, b"close 0"):
            early.send(bytes([byte]))
        expect(early.message(), UNKNOWN + "\n", "a frame byte by byte")
        early.send(frame(CLOSE, b""))
        if early.ending() not in (0, 1000):
            raise AssertionError("a close without a code is answered another one")
        for half in (frame(TEXT, b"close 0")[:4], frame(TEXT, b"close 0")[:1], frame(TEXT, b"close 0", last=False), b""):
            client = Web(here.web)
            client.send(half)
            rest.ask(1)
            client.connection.shutdown(socket.SHUT_WR)
            while (found := client.frame()) is not None:
                expect(found[0], CLOSE, f"after {half!r} and the end")
            client.close()
        rest.ask(1)
    return "frames that are right, and halves of some"


def try_limits(hub):
    """A line and a message as long as they may be, and one byte longer."""
    with server(hub, *READ) as here, others(here) as rest:
        for client in here.clients():
            for text, want in [("x" * (LINE - 1) + "\n", "no 60 BadCommand"), ("x" * LINE + "\nclose 0\n", "no 61 LineTooLong")]:
                client.connection.sendall(frame(TEXT, text.encode()) if isinstance(client, Web) else text.encode())
                expect(client.reply(), [want], f"a line of {len(text)} bytes and more")
            if isinstance(client, Web):
                expect(client.ending(), 1000, "behind a line that is too long")
            else:
                expect(client.end(), "", "behind a line that is too long")
            client.close()
            rest.ask(1)
        line = b"x" * (LINE - 1) + b"\n"
        longest = line * (MESSAGE // LINE) + b"y" * (MESSAGE % LINE - 1) + b"\n"
        client = Web(here.web)
        client.send(frame(TEXT, longest))
        for _ in range(MESSAGE // LINE + 1):
            expect(client.message(), "no 60 BadCommand\n", "a line of a long message")
        half = MESSAGE // 2
        client.send(frame(TEXT, longest[:half], last=False), frame(0, longest[half:]))
        for _ in range(MESSAGE // LINE + 1):
            expect(client.message(), "no 60 BadCommand\n", "a line of a long message in fragments")
        change = "change2 65535 256\n" + 256 * LONGEST_MARK
        client.send(frame(TEXT, change.encode()))
        expect(client.reply(), ["no 46 StaleCounter line 2"], "the longest change there is, whose marks name themselves")
        expect(client.ask("close 0"), UNKNOWN)
        with contextlib.suppress(ConnectionError):
            client.send(frame(TEXT, longest + b"z"))
        expect(client.ending(), 1009, "a message of a byte more")
        rest.ask(1)
    return "lines and messages as long as they may be, and longer"


def try_endless(hub):
    """Fragments without an end, and pings without an end: empty ones add nothing, and no other session waits for them."""
    with server(hub, *READ) as here, others(here) as rest:
        client = Web(here.web)
        client.send(frame(TEXT, b"clo", last=False))
        for _ in range(20):
            client.send(frame(0, b"", last=False) * 5000)
            rest.ask(1)
        client.send(frame(0, b"se 0"))
        expect(client.message(), UNKNOWN + "\n", "behind 100,000 empty fragments")
        client.reset()
        flood = Web(here.web)
        flood.connection.setblocking(False)
        with contextlib.suppress(BlockingIOError):
            for _ in range(1000):
                flood.connection.sendall(frame(PING, b"p" * 125) * 1000)
        rest.ask()
        flood.reset()
        rest.ask()
    return "fragments and pings without an end"


# What is never read, and what never comes.

def fill(rest):
    """Versions whose `show` is long."""
    client, text = rest.clients[0], " ".join(["61"] * 256)
    for _ in range(16):
        first, rest.version = 1000 * (rest.version + 1), rest.version + 1
        expect(client.ask("change2 7 1", f"r {first}@7 - 256 {text}"), f"ok version {rest.version}")


def try_never_reads(hub):
    """Clients that ask and never read: each holds up its own session alone, and over a WebSocket not for good."""
    with server(hub, *READ, "--at-once", 6) as here, others(here) as rest:
        fill(rest)
        request = f"show {rest.version} 0 1024\n"
        deaf = here.clients()
        for client in deaf:
            sent = frame(TEXT, request.encode()) if isinstance(client, Web) else request.encode()
            client.connection.setblocking(False)
            with contextlib.suppress(BlockingIOError, ConnectionError):
                for _ in range(10_000):
                    client.connection.sendall(sent * 100)
            rest.ask()
        # Nobody leaves but the one that is ended.
        rest.during(lambda: served(lambda: Web(here.web))).close()
        for client in deaf:
            client.close()
        rest.during(lambda: served(lambda: Stream(here.port))).close()
        expect(here.process.poll(), None)
    return "clients that never read"


def try_silent(hub):
    """A client that says nothing is pinged, and stays as long as it answers; one that doesn't answer is ended."""
    with server(hub, *READ, "--at-once", 5) as here, others(here) as rest:
        deaf, there = Web(here.web), Web(here.web)
        pings = 0

        def answer():
            nonlocal pings
            while (found := there.frame()) is not None and found[0] == PING:
                there.send(frame(PONG, found[1]))
                pings += 1
            return found

        with ThreadPoolExecutor(1) as pool:
            answering = pool.submit(answer)
            found = rest.during(lambda: list(iter(deaf.frame, None)))
            before = pings
            while pings == before:
                rest.ask(1)
                time.sleep(0.2)
            there.send(frame(TEXT, b"close 0"))
            expect(answering.result(), (TEXT, f"{UNKNOWN}\n".encode()), f"a client that answered {pings} pings")
        if not found or any(one[0] != PING for one in found[:-1]) or found[-1][0] not in (PING, CLOSE):
            raise AssertionError(f"a client that answers no ping is sent {found!r}")
        rest.during(lambda: served(lambda: Web(here.web))).close()
    return "silent clients, pinged"


def told_when_silent(make, sent):
    """What a client is told that sends this and nothing more; done again where the machine was so slow that it was ended before."""
    while True:
        with contextlib.suppress(Ended, ConnectionError):
            client = make()
            client.connection.sendall(sent)
            return client.reply()


def try_idle(hub):
    """With `--idle` a client that sends no request is ended at each door, though it answers pings; of one that sent the half of a
    change that is refused."""
    with server(hub, *READ, "--idle", 1) as here:
        for client in (Stream(here.port), Stream(here.path)):
            expect(client.lines.read(), b"", "a silent client's end")
        client = Web(here.web)
        while (found := client.frame()) is not None and found[0] == PING:
            client.send(frame(PONG, found[1]))
        if found is not None:
            expect((found[0], client.frame()), (CLOSE, None), "the end of a client that only answers pings")
        client.close()
        half = b"change 1 2\ni 1@1 - 61\n"
        for make in here.makers():
            sent = frame(TEXT, half) if make.func is Web else half
            expect(told_when_silent(make, sent), ["no 41 Truncated"], "a change that isn't whole")
        expect(here.process.poll(), None)
    return "silent clients with --idle"


def try_half_messages(hub):
    """A frame or a line that is never finished: others are answered, and its session's place is free once its client is gone."""
    with server(hub, *READ, "--at-once", 6) as here, others(here) as rest:
        clients = here.clients()
        for client in clients:
            half = frame(TEXT, b"change 1 2\ni 1@")[:-5] if isinstance(client, Web) else b"change 1 2\ni 1@"
            client.connection.sendall(half)
        rest.ask()
        for end in ("close", "reset"):
            for client in clients:
                getattr(client, end)()
            clients = [rest.during(lambda make=make: served(make)) for make in here.makers()]
            for client in clients:
                expect(client.ask("sub 1024 zz"), "no 63 BadHex")
                client.connection.sendall(b"\x81\xff" if isinstance(client, Web) else b"pull 0")
        rest.ask()
    return "half messages, and clients that vanish within one"


def try_flood(hub):
    """More clients than may be at once, over all doors together: so many are answered, and each other one is told 69."""
    with server(hub, *READ, "--at-once", 9) as here, others(here) as rest:
        makers, clients = here.makers(), []
        for number in range(120):
            clients.append(makers[number % 3]())
            expect(clients[-1].ask("close 0"), UNKNOWN if number < 6 else FULL, f"client {number}")
        for client in clients[6:]:
            if isinstance(client, Web):
                expect(client.ending(), 1013, "behind 69")
            else:
                with contextlib.suppress(ConnectionError):
                    expect(client.lines.read(), b"", "behind 69")
            client.close()
        rest.ask()
        # Of a request that is no handshake no session is used up.
        expect(answer_to(here.web, b"GET / HTTP/1.1\r\nHost: a\r\n\r\n")[0], 404)
        for client in clients[:6]:
            expect(client.ask("close 1"), UNKNOWN)
        for at, make in enumerate(makers):
            clients[at].close()
            again = rest.during(lambda make=make: served(make))
            expect(again.ask(f"sub 1 {PROGRAM}"), f"ok sub {at}")
        rest.ask()
        expect(here.process.poll(), None)
    return "120 clients at once where 9 may be"


def try_no_session_used(hub):
    """A GET, a wrong handshake and a connection that is ended use up none of the sessions of `--sessions`."""
    with server(hub, *READ, "--sessions", 3) as here:
        for sent in (b"GET / HTTP/1.1\r\nHost: a\r\n\r\n", b"scan\r\n\r\n", b"", head(Origin="http://evil.example"),
                     head(left_out=[KEY_LINE])):
            with connected(here.web) as connection:
                connection.sendall(sent)
                connection.shutdown(socket.SHUT_WR)
                connection.makefile("rb").read()
        clients = here.clients()
        for version, client in enumerate(clients, 1):
            expect(client.ask("change 1 1", f"i {version}@1 - 61"), f"ok version {version}")
        for client in clients:
            client.close()
        expect(here.process.wait(), 0, "the status")
        expect(here.process.stdout.read(), b"")
    return "what uses up no session"


def try_few_descriptors(hub):
    """More clients than the server has descriptors for: those that wait are answered as others leave."""
    with server(hub, *READ, descriptors=24) as here:
        clients = [client for _ in range(20) for client in (Stream(here.port), Stream(here.path))]
        for client in clients:
            client.send("close 0\n")
        # Which door has the next descriptor isn't told, so they are served in any order.
        waiting = {client.connection: client for client in clients}
        while waiting:
            for connection in select.select(list(waiting), [], [])[0]:
                client = waiting.pop(connection)
                expect(client.reply(), [UNKNOWN])
                client.close()
        served(lambda: Web(here.web)).close()
        expect(here.process.poll(), None)
    return "more clients than descriptors"


PARTS = [try_handshakes, try_slow_handshakes, try_unfinished, try_frames, try_right_frames, try_limits, try_endless, try_never_reads,
         try_silent, try_idle, try_half_messages, try_flood, try_no_session_used, try_few_descriptors]
