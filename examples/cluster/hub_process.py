"""A hub's process, started by a gateway, and the gateway's own session with it."""
import asyncio
import contextlib
import ctypes
import os
import re
import signal

# From <sys/prctl.h>: the signal that a process gets when its parent ends.
PR_SET_PDEATHSIG = 1
# Bytes that are read ahead of the hub. No line of a reply that the gateway itself asks for is longer.
AHEAD = 1 << 17
# The end of a connection, of which nothing more comes.
ENDED = (OSError, asyncio.IncompleteReadError, asyncio.LimitOverrunError)


class HubEnded(Exception):
    """The hub's process, or the gateway's session with it, has ended, or it answers what tells nothing of a change."""


class StoreRefused(Exception):
    """The hub refuses its store as damaged (65)."""


def end_with_parent():
    """In the new process: a hub doesn't outlive its gateway, whose successor starts one over the same store."""
    ctypes.CDLL(None).prctl(PR_SET_PDEATHSIG, signal.SIGKILL)


class Hub:
    def __init__(self, words, door, store, socket):
        """`words` begin the command; `door` is `unix` or `port`; `store` is a file's path, or None."""
        self.words, self.door, self.store, self.socket = words, door, store, socket
        self.process, self.handle, self.address, self.lines = None, None, None, None

    async def start(self, jump):
        await self.stop()
        words = [*self.words, "--read"]
        words += ["--unix", str(self.socket)] if self.door == "unix" else ["--port", "0"]
        words += ["--store", str(self.store)] if self.store else []
        words += ["--counter-jump", jump] if jump else []
        self.process = await asyncio.create_subprocess_exec(
            *words, stdin=asyncio.subprocess.DEVNULL, stdout=asyncio.subprocess.PIPE, preexec_fn=end_with_parent)
        with contextlib.suppress(ProcessLookupError):
            self.handle = os.pidfd_open(self.process.pid)
        first = (await self.process.stdout.readline()).decode().strip()
        if first.startswith("refused 65 "):
            raise StoreRefused(first)
        kind, _, where = first.partition(" ")
        if kind != self.door:
            raise HubEnded(f"it didn't start: {first or 'it said nothing'}")
        self.address = where
        self.lines = await self.connect()

    async def connect(self):
        """A session of the hub, as a reader and a writer."""
        try:
            if self.door == "unix":
                return await asyncio.open_unix_connection(self.address, limit=AHEAD)
            return await asyncio.open_connection("127.0.0.1", int(self.address), limit=AHEAD)
        except OSError as error:
            raise HubEnded(f"it takes no connection: {error}") from None

    async def ask(self, request):
        """The lines of the reply to one request of the gateway's own session."""
        if not self.lines:
            raise HubEnded("it isn't there")
        reader, writer = self.lines
        try:
            writer.write(request)
            reply = [await reader.readuntil(b"\n")]
            while not reply[-1].startswith((b"ok ", b"no ")):
                reply.append(await reader.readuntil(b"\n"))
        except ENDED:
            raise HubEnded("its session has ended") from None
        return reply

    async def ask_for(self, request, kind):
        """The same, of a request that is always answered `ok`."""
        reply = await self.ask(request)
        if not reply[-1].startswith(b"ok " + kind + b" "):
            raise HubEnded(f"it answers {reply[-1].decode().strip()}")
        return reply

    async def latest(self):
        """The number of the latest version."""
        return int((await self.ask_for(b"latest\n", b"latest"))[-1].split()[2])

    async def changes(self, version, count):
        """The texts of up to `count` accepted changes, from 1 to 64, behind a version."""
        lines = (await self.ask_for(b"changes %d %d\n" % (version, count), b"changes"))[:-1]
        texts, at = [], 0
        while at < len(lines):
            end = at + 1 + int(re.fullmatch(rb"change[23]? [0-9]+ ([0-9]+)\n", lines[at])[1])
            texts.append(b"".join(lines[at:end]))
            at = end
        return texts

    async def ended(self):
        """Waits for the process to end."""
        await self.process.wait()
        raise HubEnded(f"its process has ended with status {self.process.returncode}")

    def is_running(self):
        return self.process is not None and self.process.returncode is None

    def kill(self):
        """By the process's handle: its number could be another one's by now."""
        if self.handle is not None:
            with contextlib.suppress(ProcessLookupError):
                signal.pidfd_send_signal(self.handle, signal.SIGKILL)

    async def stop(self):
        """Ends the process; what was answered is in its store."""
        if self.lines:
            self.lines[1].close()
            self.lines = None
        if self.process:
            self.kill()
            await self.process.wait()
        if self.handle is not None:
            os.close(self.handle)
        self.process, self.handle = None, None
        if self.door == "unix" and os.path.exists(self.socket):
            os.unlink(self.socket)
