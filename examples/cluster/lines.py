"""The lines of a session, as far as a gateway must know them: where a request ends, which requests are changes, and where
a reply ends. What a line means is the hub's (docs/SESSIONS.md)."""
import asyncio
import re
from typing import NamedTuple

# A line of a session has at most so many bytes with its line feed. `readuntil` doesn't count the line feed.
LINE_LIMIT = 70_000
# No line of a change that can be accepted is longer (a run of 256 characters is the longest).
LONGEST_RIGHT_LINE = 2048
HEADER = re.compile(rb"change[23]? ([1-9][0-9]{0,4}) ([1-9][0-9]{0,2})\n")
SUBSCRIBES = re.compile(rb"sub[23]? ")
# What begins a message of HTTP, as a browser sends it for any page, or of TLS. No session has such a line.
HTTP, TLS = re.compile(rb" HTTP/1\.[01]\r?\n$"), b"\x16\x03"


class Request(NamedTuple):
    """A request's bytes. A change is for the stream. What isn't whole is the last of its session: it goes to the hub as it
    is, with all that follows, and the hub answers what it answers. What is foreign isn't of a session, nor is what follows."""
    text: bytes
    is_change: bool = False
    is_whole: bool = True
    is_foreign: bool = False


def followers(header):
    """How many lines follow a line, as a hub counts them: where it is the first line of a change and right, its count."""
    found = HEADER.fullmatch(header)
    if not found or int(found[1]) > 65535 or int(found[2]) > 256:
        return 0
    return int(found[2])


def session_reader():
    return dict(limit=LINE_LIMIT - 1)


def is_change(text):
    """Whether a text is one change by its lines. One with a line that is too long, or with a byte that isn't ASCII, isn't for
    the stream: any hub refuses it."""
    lines = text.split(b"\n")
    return (text.isascii() and text.endswith(b"\n") and 1 < len(lines) - 1 == 1 + followers(lines[0] + b"\n")
            and all(len(line) < LONGEST_RIGHT_LINE for line in lines))


class LineTooLong(Exception):
    """A line is too long; the exception has what was read of it."""


async def first_line(reader):
    """A request's first line, or what TLS begins with: no line feed need ever follow that."""
    line = b""
    try:
        while len(line) < len(TLS) and TLS.startswith(line):
            line += await reader.readexactly(1)
        if line != TLS and not line.endswith(b"\n"):
            line += await reader.readuntil(b"\n")
    except asyncio.IncompleteReadError as cut:
        raise asyncio.IncompleteReadError(line + cut.partial, None) from None
    except asyncio.LimitOverrunError:
        raise LineTooLong(line) from None
    if len(line) > LINE_LIMIT:
        raise LineTooLong(line)
    return line


async def next_request(reader):
    """The next request of a client; None at the end."""
    lines = []
    try:
        lines.append(await first_line(reader))
        for _ in range(followers(lines[0])):
            lines.append(await reader.readuntil(b"\n"))
    except asyncio.IncompleteReadError as cut:
        text = b"".join(lines) + cut.partial
        return Request(text, is_whole=False) if text else None
    except LineTooLong as long:
        return Request(*long.args, is_whole=False)
    except asyncio.LimitOverrunError:
        return Request(b"".join(lines), is_whole=False)
    text = b"".join(lines)
    return Request(text, is_change=is_change(text), is_foreign=lines[0] == TLS or HTTP.search(lines[0]) is not None)


class ReplyEnd:
    """Finds where a reply ends, in the pieces that it comes in: with the first line that begins with `ok` or `no`."""

    def __init__(self):
        self.begun = b""

    def last_line(self, piece):
        """The reply's last line, where this piece ends it, else None. A hub sends nothing behind it before the next request."""
        at = piece.rfind(b"\n", 0, len(piece) - 1) + 1
        line = piece[at:] if at else self.begun + piece
        if line.endswith(b"\n"):
            self.begun = b""
            return line if line.startswith((b"ok ", b"no ")) else None
        self.begun = line
        return None
