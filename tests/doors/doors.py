"""Servers with doors, and clients of them: lines over TCP or a socket file, and frames of a WebSocket (RFC 6455)."""
import base64
import contextlib
import functools
import hashlib
import os
import pathlib
import resource
import shutil
import socket
import struct
import subprocess
import tempfile
import time
from concurrent.futures import ThreadPoolExecutor, wait

TEXT, BINARY, CLOSE, PING, PONG = 1, 2, 8, 9, 10
KEY = "dGhlIHNhbXBsZSBub25jZQ=="
# The most bytes of a message: a change's header, and 256 lines of a mark with a link of 1,024 bytes at the greatest ids.
GREATEST = "281474976710655@65535"
LONGEST_MARK = f"m {GREATEST} link {'x' * 1024} <{GREATEST} >{GREATEST}\n"
MESSAGE = len("change2 65535 256\n") + 256 * len(LONGEST_MARK)
PROGRAM = "b7000000010000009500000000000000"
UNKNOWN = "no 52 NoSubscriber"
FULL = "no 69 TooManySessions"


class Ended(Exception):
    """A session ended where a reply was due."""


def expect(got, want, of=""):
    if got != want:
        raise AssertionError(f"{of}{': ' if of else ''}{got!r:.300} where {want!r:.300} is wanted")


def is_last(line):
    """Whether a line ends a reply."""
    return line.startswith(("ok ", "no "))


def replies_in(text):
    """Lines, as the replies that they are."""
    replies, begun = [], []
    for line in text.splitlines(keepends=True):
        begun.append(line)
        if is_last(line):
            replies.append("".join(begun))
            begun = []
    return replies + ["".join(begun)] * bool(begun)


def connected(address):
    """A connection to a port of 127.0.0.1, an address with its port, or a socket file; one that is there stays as it is."""
    if isinstance(address, socket.socket):
        return address
    if isinstance(address, int):
        address = ("127.0.0.1", address)
    if isinstance(address, tuple):
        connection = socket.create_connection(address)
        connection.setsockopt(socket.IPPROTO_TCP, socket.TCP_NODELAY, 1)
        return connection
    connection = socket.socket(socket.AF_UNIX)
    connection.connect(str(address))
    return connection


def reset(connection):
    """Ends a connection as the system does for a process that is killed with bytes unread."""
    with contextlib.suppress(OSError):
        connection.setsockopt(socket.SOL_SOCKET, socket.SO_LINGER, struct.pack("ii", 1, 0))
    connection.close()


class Stream:
    """A session of lines."""

    def __init__(self, address):
        self.connection = connected(address)
        self.lines = self.connection.makefile("rb")
        self.sent = self.received = 0    # bytes

    def send(self, text):
        self.connection.sendall(text.encode())
        self.sent += len(text.encode())

    def reply(self):
        """The lines of the next reply."""
        reply = []
        while not reply or not is_last(reply[-1]):
            line = self.lines.readline().decode()
            self.received += len(line.encode())
            if not line.endswith("\n"):
                raise Ended
            reply.append(line.removesuffix("\n"))
        return reply

    def ask(self, *lines):
        """The last line of the reply to a request. One that is turned away may find its connection closed as it sends."""
        with contextlib.suppress(ConnectionError):
            self.send("".join(line + "\n" for line in lines))
        return self.reply()[-1]

    def end(self):
        """Sends nothing more, and returns what still comes."""
        self.connection.shutdown(socket.SHUT_WR)
        return self.lines.read().decode()

    def close(self):
        self.lines.close()
        self.connection.close()

    def reset(self):
        self.lines.close()
        reset(self.connection)


def head(path="/session", host="127.0.0.1", left_out=(), **more):
    """The head of a handshake; names of lines have `_` in place of `-`."""
    lines = {"Host": host, "Upgrade": "websocket", "Connection": "Upgrade", "Sec-WebSocket-Version": "13", "Sec-WebSocket-Key": KEY,
             **{name.replace("_", "-"): value for name, value in more.items()}}
    rows = [f"{name}: {value}" for name, value in lines.items() if name not in left_out]
    return "\r\n".join([f"GET {path} HTTP/1.1", *rows, "", ""]).encode()


def frame(code, body, last=True, masked=True, reserved=0):
    """A frame as a client sends it."""
    first, count, mask = code | reserved << 4 | last << 7, len(body), bytes([0x5C, 0x21, 0xF0, 0x0A])
    length = bytes([count | masked << 7]) if count < 126 else struct.pack("!BH", 126 | masked << 7, count) if count < 1 << 16 else \
        struct.pack("!BQ", 127 | masked << 7, count)
    if not masked:
        return bytes([first]) + length + body
    hidden = int.from_bytes(body, "big") ^ int.from_bytes((mask * (count // 4 + 1))[:count], "big")
    return bytes([first]) + length + mask + hidden.to_bytes(count, "big")


def closing(code):
    return frame(CLOSE, struct.pack("!H", code))


class Web:
    """A WebSocket. `status` is what the handshake was answered, 101 where the session began."""

    def __init__(self, address, request=None):
        self.connection = connected(address)
        self.bytes = self.connection.makefile("rb")
        self.sent = self.received = 0    # bytes of frames
        self.begin(head() if request is None else request)

    def begin(self, request):
        with contextlib.suppress(ConnectionError):
            self.connection.sendall(request)
        self.status, self.fields = read_head(self.bytes)
        if self.status == 101:
            guid = "258EAFA5-E914-47DA-95CA-C5AB0DC85B11"
            expect(self.fields["sec-websocket-accept"], base64.b64encode(hashlib.sha1((KEY + guid).encode()).digest()).decode())

    def send(self, *frames):
        self.connection.sendall(b"".join(frames))
        self.sent += len(b"".join(frames))

    def frame(self):
        """The next frame's code and its body; None at the end."""
        two = self.bytes.read(2)
        if len(two) < 2:
            return None
        length = two[1]
        if length > 125:
            length, = struct.unpack("!H" if length == 126 else "!Q", self.bytes.read(2 if length == 126 else 8))
        expect(two[0] & 0xF0, 0x80, "a frame's first bits")
        self.received += length + (2 if two[1] < 126 else 4 if two[1] == 126 else 10)
        return two[0] & 15, self.bytes.read(length)

    def message(self):
        """The next text message. Pings are answered."""
        while True:
            found = self.frame()
            if found is None or found[0] == CLOSE:
                raise Ended(found)
            if found[0] == PING:
                self.send(frame(PONG, found[1]))
            elif found[0] == TEXT:
                return found[1].decode()

    def reply(self):
        """The lines of the next message, which are one reply."""
        text = self.message()
        expect(len(replies_in(text)), 1, f"the replies of one message, {text!r:.200}")
        return text.removesuffix("\n").split("\n")

    def ask(self, *lines):
        with contextlib.suppress(ConnectionError):
            self.send(frame(TEXT, "".join(line + "\n" for line in lines).encode()))
        return self.reply()[-1]

    def ending(self):
        """The code with which the server closes, None where it does without one; after that nothing comes."""
        code = None
        with contextlib.suppress(ConnectionError):
            while found := self.frame():
                expect(code, None, f"what was sent before {found!r:.80}")
                if found[0] == CLOSE:
                    code = struct.unpack("!H", found[1][:2])[0] if found[1] else 0
        return code

    def close(self):
        self.bytes.close()
        self.connection.close()

    def reset(self):
        self.bytes.close()
        reset(self.connection)


def read_head(lines):
    """The status of an answer, None where none comes, and its fields, by names in small letters."""
    try:
        first = lines.readline().decode()
        fields = {}
        while (line := lines.readline().decode().strip()):
            name, _, value = line.partition(":")
            fields[name.lower()] = value.strip()
    except ConnectionError:
        return None, {}
    return (int(first.split(" ")[1]), fields) if first.startswith("HTTP/1.1 ") else (None, fields)


class Server:
    """A server that listens at all its doors, or at those that are named."""

    def __init__(self, hub, *words, doors=("port", "web", "unix"), umask=0o022, descriptors=None, user=None, threads=None, errors=None):
        def limit():
            os.umask(umask)
            if descriptors:
                resource.setrlimit(resource.RLIMIT_NOFILE, (descriptors, descriptors))
            if threads:
                resource.setrlimit(resource.RLIMIT_NPROC, (threads, threads))
            if user is not None:
                os.setgroups([])
                os.setgid(user)
                os.setuid(user)

        self.folder = pathlib.Path(tempfile.mkdtemp())
        self.folder.chmod(0o755)
        if user is not None:
            os.chown(self.folder, user, user)
            hub = shutil.copy(hub, self.folder / "hub")
        self.path = self.folder / "hub.sock"
        places = {"port": "0", "web": "0", "unix": str(self.path)}
        named = [word for door in doors for word in (f"--{door}", places[door])]
        self.errors = open(self.folder / "errors", "w+b")
        self.process = subprocess.Popen([str(hub), "serve", *named, *map(str, words)], stdout=subprocess.PIPE,
                                        stderr=self.errors if errors is None else errors, preexec_fn=limit)
        self.port = self.web = None
        for door in doors:
            said = self.process.stdout.readline().decode()
            name, _, value = said.rstrip("\n").partition(" ")
            expect(name, door, f"the line of a door, {said!r}; standard error has {self.said()!r}")
            if door == "unix":
                expect(value, str(self.path))
            else:
                setattr(self, door, int(value))

    def said(self):
        """What stands on standard error."""
        return pathlib.Path(self.errors.name).read_text(encoding="utf-8")

    def makers(self):
        """What makes a session at each door."""
        doors = [(Stream, self.port), (Web, self.web), (Stream, self.path if self.path.exists() else None)]
        return [functools.partial(kind, address) for kind, address in doors if address is not None]

    def clients(self):
        """A new session at each door."""
        return [make() for make in self.makers()]

    def stop(self):
        self.process.kill()
        self.process.wait()
        self.process.stdout.close()
        self.errors.close()
        shutil.rmtree(self.folder, ignore_errors=True)


@contextlib.contextmanager
def server(hub, *words, **more):
    made = Server(hub, *words, **more)
    try:
        yield made
    finally:
        made.stop()


def served(make):
    """A session that is answered, now or once another one has ended; what those before it were told is left out."""
    while True:
        with contextlib.suppress(Ended, ConnectionError):
            client = make()
            if getattr(client, "status", 101) == 101 and client.ask("close 0") == UNKNOWN:
                return client
            client.close()
        time.sleep(0.01)


class Others:
    """Sessions, one at each door, that must be answered as if they were alone."""

    def __init__(self, here):
        self.clients, self.version, self.counter = here.clients(), 0, 0

    def ask(self, count=10):
        """Each makes changes, and reads them."""
        for _ in range(count):
            for client in self.clients:
                parent = f"{self.counter}@1" if self.counter else "-"
                self.counter, self.version = self.counter + 1, self.version + 1
                expect(client.ask("change 1 1", f"i {self.counter}@1 {parent} 61"), f"ok version {self.version}", "another session")
                expect(client.ask("latest"), f"ok latest {self.version}", "another session")

    def during(self, act):
        """What an act answers; until then they are asked now and then, so that they aren't silent."""
        with ThreadPoolExecutor(1) as pool:
            job = pool.submit(act)
            while not job.done():
                self.ask(1)
                wait([job], 0.2)
            return job.result()

    def close(self):
        for client in self.clients:
            client.close()


@contextlib.contextmanager
def others(here):
    made = Others(here)
    made.ask(1)
    try:
        yield made
    finally:
        made.close()
