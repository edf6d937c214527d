"""Servers with a store, their sessions, and what their files hold."""

import contextlib
import os
import pathlib
import re
import shutil
import socket
import sqlite3
import subprocess
import tempfile

from document import Document, printed

HERE = pathlib.Path(__file__).resolve().parent
ROOT = HERE.parent.parent

AT_ONCE = 64
# What is told of a start that takes longer than a second, as on a busy machine.
PROGRESS = re.compile("hub: [0-9]+ of [0-9]+ changes of the store are read.*\n")


class Wrong(Exception):
    """Something that must not be."""


class Ended(Exception):
    """The server ended the session where a reply was due."""


def expect(is_so, what):
    if not is_so:
        raise Wrong(what)


def same(got, want, what):
    if got != want:
        raise Wrong(f"{what}: {got!r} where {want!r} is wanted")


class Client:
    """A session over TCP."""

    def __init__(self, port):
        self.connection = socket.create_connection(("127.0.0.1", port))
        self.connection.setsockopt(socket.IPPROTO_TCP, socket.TCP_NODELAY, 1)
        self.lines = self.connection.makefile("rb")

    def send(self, text):
        self.connection.sendall(text.encode())

    def reply(self):
        """The lines of the next reply, of which the last begins with `ok` or `no`."""
        reply = []
        while not reply or not reply[-1].startswith(("ok ", "no ")):
            line = self.lines.readline()
            if not line.endswith(b"\n"):
                raise Ended
            reply.append(line[:-1].decode())
        return reply

    def ask(self, request):
        self.send(request + "\n")
        return self.reply()

    def changes(self):
        """The texts of all accepted changes."""
        texts, count = [], AT_ONCE
        while count == AT_ONCE:
            *lines, last = self.ask(f"changes {len(texts)} {AT_ONCE}")
            expect(last.startswith("ok changes "), last)
            count = int(last.split()[2])
            found = changes_in(lines)
            same(len(found), count, "changes in a reply")
            texts += found
        return texts

    def spans(self, version):
        """The spans of a version, as `hub spans` prints them."""
        lines, count = [], 1
        while len(lines) < count:
            *some, last = self.ask(f"show {version} {len(lines)} 1024")
            expect(last.startswith("ok spans "), last)
            count = int(last.split()[2])
            expect(some or not count, "a reply without spans")
            lines += some
        return [line.removeprefix("span ") for line in lines]

    def latest(self):
        return int(self.ask("latest")[-1].split()[2])

    def close(self):
        with contextlib.suppress(OSError):
            self.lines.close()
            self.connection.close()


def changes_in(lines):
    """The texts of changes whose lines stand one behind another."""
    texts, at = [], 0
    while at < len(lines):
        count = int(lines[at].split()[2])
        texts.append("".join(line + "\n" for line in lines[at : at + count + 1]))
        at += count + 1
    return texts


def spans_of(texts):
    """The spans of accepted changes, by the model."""
    document = Document()
    for text in texts:
        for op in ops_in(text):
            document.take(op)
    return printed(document)


def id_in(word):
    return None if word == "-" else tuple(int(part) for part in word.split("@"))


def anchor_in(word):
    return word if word in "^$" else (word[0], id_in(word[1:]))


def ops_in(text):
    """The operations of a change of the first form, as the model has them."""
    for line in text.splitlines()[1:]:
        kind, own, *words = line.split(" ")
        if kind == "i":
            yield kind, id_in(own), id_in(words[0]), int(words[1], 16)
        elif kind == "d":
            yield kind, id_in(own), id_in(words[0])
        else:
            yield kind, id_in(own), *words[:-2], anchor_in(words[-2]), anchor_in(words[-1])


def said_in(errors):
    """What a program said on standard error, but for what it tells of a long start."""
    errors.seek(0)
    return "".join(line for line in errors.read().decode().splitlines(True) if not PROGRESS.fullmatch(line))


class Server:
    """A process `hub serve --store FILE --read`. Its port is None where it ended before it printed one."""

    def __init__(self, hub, store, *words, port=0, environment=None, inherited=()):
        self.errors = tempfile.TemporaryFile()
        words = [hub, "serve", "--port", str(port), "--store", str(store), "--read", *words]
        environment = {**os.environ, **(environment or {})}
        self.process = subprocess.Popen(words, stdout=subprocess.PIPE, stderr=self.errors, env=environment, pass_fds=inherited)
        self.port = None

    def listen(self):
        """Waits for the line that says the port; what stands there otherwise."""
        self.first = self.process.stdout.readline().decode()
        if self.first.startswith("port "):
            self.port = int(self.first.split()[1])
        return self.port

    def kill(self):
        self.process.kill()
        return self.wait()

    def wait(self):
        """The exit status, what was still printed, and what was said on standard error."""
        status = self.process.wait()
        with self.process.stdout as output:
            printed_last = output.read().decode()
        with self.errors as errors:
            return status, printed_last, said_in(errors)


@contextlib.contextmanager
def serving(hub, store, *words, **options):
    """A server that has begun, which is killed in the end."""
    server = Server(hub, store, *words, **options)
    try:
        if server.listen() is None:
            status, _, said = server.wait()
            raise Wrong(f"it began with {server.first!r}, status {status}, and said {said!r}")
        yield server
    finally:
        if server.process.poll() is None:
            server.kill()


def log_of(store):
    return pathlib.Path(f"{store}-wal")


def copied(store, folder):
    """A copy of a store's file and log in a new folder within this one."""
    to = pathlib.Path(tempfile.mkdtemp(dir=folder)) / "copy.hub"
    for source, target in ((pathlib.Path(store), to), (log_of(store), log_of(to))):
        if source.exists():
            shutil.copy(source, target)
    return to


def kept(store, is_made=True):
    """The texts that sqlite3 finds in a store that no server has open, by their numbers from 1 on. It reads a copy, since it
    writes what it opens. A file that no server finished to make may be no database yet."""
    with tempfile.TemporaryDirectory() as folder:
        copy = copied(store, folder)
        with contextlib.closing(sqlite3.connect(copy)) as database:
            try:
                database.execute("pragma schema_version")
            except sqlite3.DatabaseError:
                expect(not is_made, "sqlite3 finds no database")
                return []
            same(database.execute("pragma integrity_check").fetchall(), [("ok",)], "integrity_check")
            if not database.execute("select name from sqlite_master where name = 'change'").fetchall():
                return []
            rows = database.execute("select number, text from change order by number").fetchall()
    same([number for number, _ in rows], list(range(1, len(rows) + 1)), "the numbers of the rows")
    return [text for _, text in rows]


def printed_by_tool(store, hub):
    """What `hub spans` prints of what the command sqlite3 prints of a store."""
    with tempfile.TemporaryDirectory() as folder:
        copy = copied(store, folder)
        texts = subprocess.run(["sqlite3", "-newline", "", copy, "select text from change order by number"], stdout=subprocess.PIPE, check=True)
    spans = subprocess.run([hub, "spans"], input=texts.stdout, stdout=subprocess.PIPE, check=False)
    return spans.stdout.decode().split("\n")[:-1]


def replayed(hub, store, *requests, options=(), errors=subprocess.DEVNULL):
    """The status of `hub replay` over a store, and what it printed."""
    words = [hub, "replay", "--store", str(store), "--read", *options]
    given = "".join(request + "\n" for request in requests).encode()
    done = subprocess.run(words, input=given, stdout=subprocess.PIPE, stderr=errors, check=False)
    return done.returncode, done.stdout.decode().split("\n")[:-1]


def replayed_changes(hub, store, most, **given):
    """What `hub replay` finds in a store: the texts of its changes, or None and the line that refuses it."""
    requests = [f"changes {start} {AT_ONCE}" for start in range(0, most + 1, AT_ONCE)]
    status, lines = replayed(hub, store, *requests, **given)
    if status != 0:
        expect(lines, f"status {status} without a line")
        return None, lines[0], status
    return changes_in([line for line in lines if not line.startswith(("ok ", "no "))]), "", status


class Disk:
    """Processes whose calls on a store fail or are noted, by disk.c."""

    def __init__(self, folder):
        self.library = f"{folder}/disk.so"
        words = [os.environ.get("CC", "cc"), "-O2", "-std=gnu11", "-Wall", "-Wextra", "-shared", "-fPIC", str(HERE / "disk.c")]
        subprocess.run([*words, "-o", self.library], check=True)

    def environment(self, store, **options):
        return {"LD_PRELOAD": self.library, "DISK_FILE": str(store), **{f"DISK_{name}": str(it) for name, it in options.items()}}
