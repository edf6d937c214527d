#!/usr/bin/python3
"""Serves texts that hubs on several machines follow: gateway.py --hub HUB --folder FOLDER [OPTIONS]

A gateway takes sessions (docs/SESSIONS.md) over TCP. For each document that a session names it starts a hub with a store.
A change goes to the document's Redis stream, and every gateway gives the changes of the stream to its hub in their order, so
that all have one text. All other lines go to this gateway's hub as they are. A session's first line may be `document NAME`
(letters a to z, digits, `-` and `_`, at most 64), answered `ok document NAME`; without it the document is `text`. Of a
session's lines `hub` is answered with the document's id, and `stats` has ` behind N` at its end: how many entries of the stream
the hub doesn't have yet.

It prints `port <p>` and serves until it is ended. docs/OPERATING.md has what each failure does. Two commands start it:

    redis-server
    gateway.py --hub hub --folder .
"""
import argparse
import asyncio
import contextlib
import fcntl
import os
import pathlib
import re
import secrets
import signal
import socket
import sys
import time

from document import Document
from hub_process import HubEnded
from lines import ReplyEnd, SUBSCRIBES, next_request, session_reader
from stream import FAILURES, Primaries, what_may_be_lost

NAME = re.compile(rb"document ([a-z0-9_-]{1,64})\n")
PIECE = 1 << 16
# How long a client's last bytes are read once its session has ended.
REST_SECONDS = 5
# Seconds between two tries to ask a server of Redis for its settings.
LOSSES_PAUSE = 2
# The status of a gateway whose folder has one already.
FOLDER_IN_USE = 3
# Changes of one session that wait for their replies; the session is read on once there are fewer.
MOST_WAITING = 64
BAD_COMMAND, FULL, TOO_MANY = b"no 60 BadCommand\n", b"no 50 HistoryFull\n", b"no 69 TooManySessions\n"


class SessionEnded(Exception):
    """The session ends: a client that has gone, or one that can't be answered now."""


class Session:
    """A client's session. Replies come in the order of the requests: those of changes by the stream, while further changes
    are read; any other request waits until they are there."""

    def __init__(self, gateway, reader, writer):
        self.gateway, self.options = gateway, gateway.options
        self.reader, self.writer = reader, writer
        self.document, self.hub, self.subscribers = None, None, 0
        self.waiting, self.answered = {}, asyncio.Event()
        self.changes, self.bytes = 0, 0

    async def run(self):
        try:
            request = await self.begin(await self.next())
            while request and not request.is_foreign:
                await self.answer(request)
                request = await self.next() if request.is_whole else None
            await self.settle()
            if request:
                await self.refuse_foreign()
        except (SessionEnded, HubEnded, OSError, asyncio.IncompleteReadError):
            pass
        finally:
            self.end()

    async def begin(self, request):
        """Opens the document by the session's first request, and gives the first one that is to be answered; None at the end."""
        if request and request.is_foreign:
            return request
        is_named = request and request.text.startswith(b"document ")
        name = NAME.fullmatch(request.text) if is_named else None
        if is_named and not name:
            # The session ends, lest a client go on in a document that it doesn't mean.
            self.writer.write(BAD_COMMAND)
            return None
        self.document = await self.gateway.document(name[1].decode() if name else self.options.document)
        if not self.document:
            self.writer.write(TOO_MANY)
            return None
        self.document.sessions.add(self)
        if name:
            self.writer.write(b"ok " + request.text)
            request = await self.next()
        return request

    async def refuse_foreign(self):
        """Ends a session with what isn't one, as a page's POST. What follows is taken for nothing, but read for some time: else
        the client could miss the answer."""
        self.writer.write(BAD_COMMAND)
        self.writer.write_eof()
        with contextlib.suppress(asyncio.TimeoutError):
            await asyncio.wait_for(self.pass_over_rest(), REST_SECONDS)

    async def pass_over_rest(self):
        while await self.reader.read(PIECE):
            pass

    async def next(self):
        try:
            return await asyncio.wait_for(next_request(self.reader), self.options.idle)
        except asyncio.TimeoutError:
            return None

    def end(self):
        for number, timer in self.waiting.items():
            timer.cancel()
            self.document.withdraw(number)
        if self.hub:
            self.hub[1].close()
        if self.document:
            self.document.open_subscribers -= self.subscribers
            self.document.sessions.discard(self)
            self.document.unused_since = time.monotonic()
        self.writer.close()

    async def settle(self, most=0):
        """Waits until no more than so many changes wait for their replies, and the client has taken what it was sent."""
        while len(self.waiting) > most:
            if self.writer.is_closing():
                raise SessionEnded
            self.answered.clear()
            await self.answered.wait()
        await self.writer.drain()

    async def answer(self, request):
        if request.is_change:
            return await self.change(request.text)
        await self.settle()
        if request.text == b"hub\n":
            await self.opened()
            self.writer.write(b"ok hub %s\n" % self.document.rules.id.encode())
        elif request.text == b"stats\n":
            await self.stats(request.text)
        elif request.text.startswith(b"document "):
            self.writer.write(BAD_COMMAND)
        elif request.is_whole:
            last = await self.relay(request.text)
            self.count_subscribers(request.text, last)
        else:
            await self.relay_rest(request.text)

    # Changes.

    async def change(self, text):
        limits = self.options.per_session
        await self.settle(0 if limits else MOST_WAITING - 1)
        if (self.changes + 1 > limits.get("changes", self.changes + 1)
                or self.bytes + len(text) > limits.get("bytes", self.bytes + len(text))):
            self.writer.write(FULL)
            return
        number, reply = self.document.submit(text)
        self.waiting[number] = asyncio.get_running_loop().call_later(self.options.patience, self.give_up)
        reply.add_done_callback(lambda done: self.reply(number, len(text), done.result()))

    def reply(self, number, length, line):
        timer = self.waiting.pop(number, None)
        if timer is None:
            return
        timer.cancel()
        if line.startswith(b"ok "):
            self.changes, self.bytes = self.changes + 1, self.bytes + length
        self.writer.write(line)
        self.answered.set()

    def give_up(self):
        """A change has waited too long. It may be in the stream or not, so neither `ok` nor `no` is right."""
        self.writer.transport.abort()
        self.answered.set()

    # Everything else.

    async def opened(self):
        try:
            await asyncio.wait_for(self.document.is_open.wait(), self.options.patience)
        except asyncio.TimeoutError:
            raise SessionEnded from None

    async def connected(self):
        """This client's own session with the hub."""
        if not self.hub:
            await self.opened()
            self.hub = await self.document.hub.connect()
        return self.hub

    async def relay(self, text):
        """Gives a request to the hub, and its reply to the client; the reply's last line."""
        reader, writer = await self.connected()
        writer.write(text)
        end, last = ReplyEnd(), None
        while last is None:
            piece = await reader.read(PIECE)
            if not piece:
                raise SessionEnded
            self.writer.write(piece)
            await self.writer.drain()
            last = end.last_line(piece)
        return last

    async def relay_rest(self, text):
        """Gives the last request, which isn't whole, and all that follows to the hub, up to the end of both."""
        reader, writer = await self.connected()
        writer.write(text)
        sending = asyncio.create_task(self.send_rest(writer))
        try:
            while piece := await reader.read(PIECE):
                self.writer.write(piece)
                await self.writer.drain()
            self.writer.write_eof()
            await asyncio.wait([sending], timeout=REST_SECONDS)
        finally:
            sending.cancel()

    async def send_rest(self, writer):
        """What a hub that has ended the session doesn't take is read all the same: else the client could miss the last reply."""
        with contextlib.suppress(OSError):
            while piece := await self.reader.read(PIECE):
                writer.write(piece)
                await writer.drain()
            writer.write_eof()

    async def stats(self, text):
        reader, writer = await self.connected()
        writer.write(text)
        line = await reader.readuntil(b"\n")
        behind = await self.document.behind()
        told = b"behind %s" % (b"unknown" if behind is None else b"%d" % behind)
        self.writer.write((b"ok stats" if line == BAD_COMMAND else line.rstrip(b"\n")) + b" " + told + b"\n")

    def count_subscribers(self, text, last):
        added = last.startswith(b"ok sub ") - last.startswith(b"ok closed ")
        self.subscribers += added
        self.document.open_subscribers += added
        if last.startswith(b"no 51 ") and SUBSCRIBES.match(text):
            self.document.subscriber_refused()


class Gateway:
    def __init__(self, options):
        self.options, self.documents, self.ending, self.sessions = options, {}, {}, 0

    async def document(self, name):
        """The document of that name; None where there are too many in use. One whose hub is being ended is waited for."""
        while name in self.ending:
            await asyncio.wait([self.ending[name]])
        if name not in self.documents:
            if len(self.documents) >= self.options.documents:
                return None
            self.documents[name] = Document(name, self.options, Primaries(self.options.redis))
        return self.documents[name]

    async def serve(self, reader, writer):
        writer.get_extra_info("socket").setsockopt(socket.IPPROTO_TCP, socket.TCP_NODELAY, 1)
        if self.sessions >= self.options.sessions:
            writer.write(TOO_MANY)
            writer.close()
            return
        self.sessions += 1
        try:
            await Session(self, reader, writer).run()
        finally:
            self.sessions -= 1

    async def end_unused(self):
        """Ends the hubs of documents that no session has used for some time."""
        while True:
            await asyncio.sleep(min(1, self.options.unused / 4))
            for name, document in list(self.documents.items()):
                if not document.sessions and time.monotonic() - document.unused_since > self.options.unused:
                    del self.documents[name]
                    self.ending[name] = asyncio.create_task(document.end())
                    await asyncio.wait([self.ending[name]])
                    del self.ending[name]

    async def tell_losses(self, url):
        """Says once, as soon as a server of Redis is reached, what it may lose."""
        while True:
            try:
                if told := await what_may_be_lost(url):
                    print(f"gateway {self.options.name}: {re.sub('//.*@', '//', url)}: {told}; {self.kept()}", file=sys.stderr, flush=True)
                return
            except FAILURES:
                await asyncio.sleep(LOSSES_PAUSE)

    def kept(self):
        if self.options.memory:
            return "hubs here keep no store, so answered changes may be lost with it"
        return "answered changes are in the stores, and gateways append them again where no others came in between"

    async def run(self):
        host, _, port = self.options.listen.rpartition(":")
        server = await asyncio.start_server(self.serve, host.strip("[]"), int(port), **session_reader())
        print("port", server.sockets[0].getsockname()[1], flush=True)
        stopped = asyncio.Event()
        for number in (signal.SIGTERM, signal.SIGINT):
            asyncio.get_running_loop().add_signal_handler(number, stopped.set)
        beside = [asyncio.create_task(each) for each in (self.end_unused(), *map(self.tell_losses, self.options.redis))]
        await stopped.wait()
        server.close()
        for task in beside:
            task.cancel()
        for document in self.documents.values():
            await document.end()


def limits(text):
    """`changes=n,bytes=n,subscribers=n`, any of them, as the hub takes them."""
    found = dict(re.fullmatch(r"(changes|bytes|subscribers)=([0-9]+)", word).groups() for word in text.split(","))
    return {word: int(number) for word, number in found.items()}


def document_name(text):
    if not NAME.fullmatch(f"document {text}\n".encode()):
        raise ValueError
    return text


def parsed():
    parser = argparse.ArgumentParser(description=__doc__, formatter_class=argparse.RawDescriptionHelpFormatter)
    parser.add_argument("--hub", required=True, help="the hub's executable")
    parser.add_argument("--folder", required=True, type=pathlib.Path, help="where stores and sockets are, this gateway's own")
    parser.add_argument("--listen", default="127.0.0.1:4711", help="HOST:PORT; port 0: the system chooses")
    parser.add_argument("--redis", action="append", help="redis://HOST:PORT, for each server that is the primary or may become it")
    parser.add_argument("--replicas", type=int, default=0, help="how many replicas must have a change before it is answered")
    parser.add_argument("--name", default=socket.gethostname(), help="this gateway's name in the stream's hash `at`")
    parser.add_argument("--document", default="text", type=document_name, help="the document of sessions that name none")
    parser.add_argument("--documents", type=int, default=16, help="the most hubs at once")
    parser.add_argument("--sessions", type=int, default=1024, help="the most sessions at once")
    parser.add_argument("--unused", type=float, default=300, help="seconds without a session after which a hub is ended")
    parser.add_argument("--idle", type=float, help="seconds without a request after which a session is ended")
    parser.add_argument("--patience", type=float, default=30, help="seconds that a request waits for stream and hub")
    parser.add_argument("--counter-jump", default="", help="as of the hub; the first gateway of a document decides")
    parser.add_argument("--per-session", type=limits, default={}, help="as of the hub")
    parser.add_argument("--workers", help="as of the hub")
    parser.add_argument("--fill", action="store_true", help="append what this gateway's store has to a stream without changes")
    parser.add_argument("--memory", action="store_true", help="hubs without a store: the stream alone keeps the changes")
    parser.add_argument("--door", choices=["unix", "port"], default="unix", help="how the hub is reached")
    parser.add_argument("--journal", type=argparse.FileType("a"), help="a file for a line of each entry: document, place, reply")
    options = parser.parse_args()
    options.redis = options.redis or ["redis://127.0.0.1:6379"]
    options.incarnation = secrets.token_hex(8)
    options.serve = ["--workers", options.workers] if options.workers else []
    if "subscribers" in options.per_session:
        options.serve += ["--per-session", f"subscribers={options.per_session['subscribers']}"]
    options.folder.mkdir(mode=0o700, parents=True, exist_ok=True)
    # Hubs are started in the folder, and reached from there: a socket file's path must be short.
    options.hub = [os.path.abspath(options.hub) if os.sep in options.hub else options.hub]
    os.chdir(options.folder)
    options.lock = lock(options.folder)
    return options


def lock(folder):
    """The folder is this process's own, up to its end: two gateways would take each other's hubs and records away."""
    file = os.open("lock", os.O_RDWR | os.O_CREAT | os.O_CLOEXEC, 0o600)
    try:
        fcntl.flock(file, fcntl.LOCK_EX | fcntl.LOCK_NB)
    except BlockingIOError:
        print(f"gateway: {folder}: another gateway runs over this folder", file=sys.stderr)
        sys.exit(FOLDER_IN_USE)
    return file


if __name__ == "__main__":
    sys.exit(asyncio.run(Gateway(parsed()).run()))
