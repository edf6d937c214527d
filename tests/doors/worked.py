"""The worked cases of sessions, over each door: crates/test_cases, and rows in the same form as files."""
import asyncio
import contextlib
import pathlib
import random
import re
import socket
import threading

import websockets
from doors import MESSAGE, TEXT, Ended, Stream, Web, expect, frame, replies_in, server

CASES = pathlib.Path(__file__).resolve().parent.parent.parent / "crates" / "test_cases"


def input_of(lines):
    """The input that the lines of a case say, as bytes; crates/test_cases/src/main.rt has their form."""
    found = []
    for line in lines:
        key, _, text = line.partition(" ")
        count, _, rest = text.partition(" ")
        if key == "line":
            found.append(text + "\\0a")
        elif key == "text":
            found.append(text)
        elif key == "times":
            found += [rest] * int(count)
        elif key == "count":
            last, _, row = rest.partition(" ")
            found += [row.replace("{n-1}", str(number - 1)).replace("{n}", str(number)) + "\\0a"
                      for number in range(int(count), int(last) + 1)]
    text = "".join(found).encode()
    return re.sub(rb"\\([0-9a-f]{2})", lambda digits: bytes.fromhex(digits[1].decode()), text)


def cases_of_crate():
    """Name, options, input and output of each case of `replay` that is no usage error."""
    printed, name = {}, None
    for line in (CASES / "stdout").read_text(encoding="utf-8").splitlines():
        if line.startswith("> "):
            printed[name][1].append(line[2:] + "\n")
        elif found := re.fullmatch(r"([^ ]+): ([0-9])", line):
            name = found[1]
            printed[name] = int(found[2]), []
    for block in (CASES / "stdin").read_text(encoding="utf-8").rstrip("\n").split("\n\n"):
        lines = [line for line in block.split("\n") if not line.startswith("#")]
        name, words = lines[0].removeprefix("case "), [line for line in lines if line.startswith("args ")]
        if not words or words[0].split(" ")[1] != "replay" or printed[name][0] != 0:
            continue
        yield name, words[0].split(" ")[2:], input_of(lines), "".join(printed[name][1])


def cases_of_rows(folder):
    """The same of a folder with `statuses`, `until` (cases that no longer hold), and files NAME, NAME.args and NAME.stdout."""
    past = {row.split(" ")[0] for row in (folder / "until").read_text(encoding="utf-8").splitlines()}
    for row in (folder / "statuses").read_text(encoding="utf-8").splitlines():
        name, status = row.split(" ")
        if name in past:
            continue
        words = (folder / f"{name}.args").read_text(encoding="utf-8").split("\n")[:-1]
        if status == "0" and words[:1] == ["replay"]:
            yield name, words[1:], (folder / name).read_bytes(), (folder / f"{name}.stdout").read_text(encoding="utf-8")


def exchanged(client, sent):
    """Sends all and reads all, both at once, since a session reads no further while its replies aren't taken."""
    def send():
        with contextlib.suppress(OSError):
            client.connection.sendall(sent)
            client.connection.shutdown(socket.SHUT_WR)

    sender = threading.Thread(target=send)
    sender.start()
    got = client.lines.read().decode()
    sender.join()
    client.close()
    return got


def ended_messages(port, message):
    """Sends a message, ends the connection on this side, and returns the messages that came."""
    client, replies = Web(port), []

    def send():
        with contextlib.suppress(OSError):
            client.send(frame(TEXT, message.encode()))
            client.connection.shutdown(socket.SHUT_WR)

    sender = threading.Thread(target=send)
    sender.start()
    with contextlib.suppress(Ended, ConnectionError):
        while True:
            replies.append(client.message())
    sender.join()
    client.close()
    return replies


async def closed_messages(port, messages):
    """Sends messages, closes, and returns the messages that came."""
    url, replies = f"ws://127.0.0.1:{port}/session", []
    client = await websockets.connect(url, max_size=None, max_queue=None, ping_interval=None, open_timeout=None,
                                      close_timeout=1e9)
    with contextlib.suppress(websockets.ConnectionClosed):
        for message in messages:
            await client.send(message)
    await client.close()
    with contextlib.suppress(websockets.ConnectionClosed):
        while True:
            replies.append(await client.recv())
    return replies


def in_messages(sent, rng):
    """Lines in messages of some of them, each at most as long as one may be."""
    lines, messages, many = sent.splitlines(keepends=True), [], rng.choice([1, 3, 1000])
    while lines:
        message = ""
        for _ in range(rng.randrange(many) + 1):
            if lines and len((message + lines[0]).encode()) <= MESSAGE:
                message += lines.pop(0)
        messages.append(message)
    return messages


def over_lines(hub, door, case):
    name, options, sent, want = case
    with server(hub, "--sessions", 1, *options, doors=[door]) as here:
        expect(exchanged(Stream(here.port if door == "port" else here.path), sent), want, f"{name} by --{door}")
        expect(here.process.wait(), 0, f"the status of {name}")


def over_web(hub, case, rng):
    """As one message, and then the end of the connection; and as several, and then a close: behind that nothing is told, so
    what is answered at the end of the input alone isn't."""
    name, options, sent, want = case
    told, sent = replies_in(want), sent.decode()
    if len(sent.encode()) <= MESSAGE:
        with server(hub, "--sessions", 1, *options, doors=["web"]) as here:
            expect(ended_messages(here.web, sent), told, f"{name} by --web, as one message")
            expect(here.process.wait(), 0, f"the status of {name}")
    with server(hub, "--sessions", 1, *options, doors=["web"]) as here:
        got = asyncio.run(closed_messages(here.web, in_messages(sent, rng)))
        expect(got, told[:-1] if "end-of-input" in name else told, f"{name} by --web, as several messages")
        expect(here.process.wait(), 0, f"the status of {name}")


def is_text(sent):
    """Whether it can be sent as text messages of whole lines."""
    try:
        return sent.decode().endswith("\n") and max(map(len, sent.splitlines(keepends=True))) <= MESSAGE
    except UnicodeDecodeError:
        return False


def try_worked(hub, rows=None, seed=0):
    """The worked cases of sessions, each by a server of its own at each door, with the replies of `replay` to the letter."""
    rng, cases = random.Random(seed), [*cases_of_crate(), *(cases_of_rows(rows) if rows else [])]
    # A server has an id, and `replay`, of which the cases are, has none.
    cases = [case for case in cases if b"hub" not in case[2].splitlines()]
    texts = [case for case in cases if is_text(case[2])]
    for case in cases:
        over_lines(hub, "port", case)
        over_lines(hub, "unix", case)
    for case in texts:
        over_web(hub, case, rng)
    return f"{len(cases)} cases by --port and by --unix, {len(texts)} by --web, each as one message and as several"
