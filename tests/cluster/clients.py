"""Writers and subscribers of this test. Each comes back, to any gateway, whenever its session ends."""
import asyncio
import contextlib
import socket
import struct

import model

REPLY_SECONDS = 25
# A gateway that is away, or a hub without a place, is asked again after so many seconds.
PAUSE_SECONDS = 0.3
LETTERS = "abcdefgh ???"


class Broken(Exception):
    """A session that has ended, or isn't answered."""


class Wrong(Exception):
    """An answer that is never right."""


class Client:
    """One client's session, with any of the gateways."""

    def __init__(self, rng, addresses, first):
        self.rng, self.addresses, self.address = rng, addresses, addresses[first]
        self.lines, self.sessions = None, 0

    async def connect(self):
        """A session, with the gateway of before or, where that takes none, with any."""
        while not self.lines:
            try:
                opened = asyncio.open_connection(self.address, 4711, limit=1 << 22)
                self.lines = await asyncio.wait_for(opened, 3)
                self.lines[1].get_extra_info("socket").setsockopt(socket.IPPROTO_TCP, socket.TCP_NODELAY, 1)
                self.sessions += 1
            except (OSError, asyncio.TimeoutError):
                await self.leave()

    async def leave(self):
        """Ends the session; the next one is with any of the gateways."""
        self.reset()
        self.address = self.rng.choice(self.addresses)
        await asyncio.sleep(PAUSE_SECONDS)

    def reset(self):
        """Ends the session as a client does that is killed."""
        if self.lines:
            with contextlib.suppress(OSError):
                link = self.lines[1].get_extra_info("socket")
                link.setsockopt(socket.SOL_SOCKET, socket.SO_LINGER, struct.pack("ii", 1, 0))
            self.lines[1].close()
            self.lines = None

    async def ask(self, request):
        """The lines of a reply. A session that was broken from outside ends here; the next one begins with `connect`."""
        if not self.lines:
            raise Broken("reset")
        reader, writer = self.lines
        try:
            writer.write(request.encode())
            reply = []
            while not reply or not reply[-1].startswith(("ok ", "no ")):
                line = (await asyncio.wait_for(reader.readuntil(b"\n"), REPLY_SECONDS)).decode()[:-1]
                reply.append(line)
        except (OSError, asyncio.IncompleteReadError, asyncio.TimeoutError) as error:
            raise Broken(type(error).__name__) from None
        if reply[-1].startswith("no 69"):
            raise Broken(reply[-1])
        return reply


class Known:
    """The characters and removals of acknowledged changes, and the greatest counter: what writers build on."""

    def __init__(self):
        self.characters, self.removals, self.counter, self.sent, self.is_over = [], [], 0, set(), False


class Writer(Client):
    def __init__(self, rng, addresses, node, known, pace):
        super().__init__(rng, addresses, node % len(addresses))
        self.node, self.known, self.pace = node, known, pace
        self.own, self.versions, self.found, self.refused = 0, {}, [], 0
        self.counts = {"sent again": 0, "was there": 0}

    def change(self):
        """A new change: its text, and its last counter."""
        rng, known = self.rng, self.known
        counter = max(self.own, known.counter) + 1
        place = rng.choice(known.characters[-200:] if rng.random() < 0.7 else known.characters) if known.characters else None
        named = f"{place[0]}@{place[1]}" if place else "-"
        kind = rng.random()
        if place and kind < 0.05:
            return f"change {self.node} 1\nd {counter}@{self.node} {named}\n", counter
        if place and kind < 0.12:
            return self.change_of("d", counter, known.characters, place)
        if known.removals and kind < 0.15:
            return self.change_of("v", counter, known.removals, rng.choice(known.removals))
        if place and kind < 0.17:
            other = rng.choice(known.characters)
            word = rng.choice(["m {} strong -", "m {} strong -", "u {} strong"]).format(f"{counter}@{self.node}")
            return f"change {self.node} 1\n{word} <{named} >{other[0]}@{other[1]}\n", counter
        codes = [f"{ord(rng.choice(LETTERS)):x}" for _ in range(rng.randint(2, 6))]
        line = f"r {counter}@{self.node} {named} {len(codes)} {' '.join(codes)}"
        return f"change2 {self.node} 1\n{line}\n", counter + len(codes) - 1

    def change_of(self, kind, counter, known, first):
        """Removals, or revivals, of what is known from one id on: up to five ids in a row."""
        known, (number, of) = set(known), first
        count = next(count for count in range(1, 6) if count == 5 or (number + count, of) not in known)
        line = f"{kind} {counter}@{self.node} {number}@{of}" + (f" {count}" if count > 1 else "")
        return f"change3 {self.node} 1\n{line}\n", counter + count - 1

    def wrong_change(self):
        """A change that is refused, and with which number."""
        counter = max(self.own, self.known.counter) + 1
        return self.rng.choice([
            (f"change {self.node} 1\nd {self.own}@{self.node} 1@1\n", "no 46"),
            (f"change {self.node} 1\nd {counter + 1}@{self.node} {counter}@{60000 + self.node}\n", "no 47"),
            (f"change3 {self.node} 1\nv {counter + 1}@{self.node} {counter}@{60000 + self.node}\n", "no 47"),
            (f"change {self.node} 1\nx\n", "no 40"),
        ]) if self.own else None

    async def run(self):
        while not self.known.is_over:
            if self.rng.random() < 0.08 and (wrong := self.wrong_change()):
                await self.send_wrong(*wrong)
            else:
                await self.send(*self.change())
            await asyncio.sleep(self.rng.expovariate(1 / self.pace))
        self.reset()

    async def send_wrong(self, text, want):
        try:
            await self.connect()
            reply = (await self.ask(text))[-1]
        except Broken:
            return await self.leave()
        if not reply.startswith(want):
            raise Wrong(f"{text!r} is answered {reply}, not {want}")
        self.refused += 1

    async def send(self, text, last):
        """Sends a change until it is answered: a session that ends before that says nothing of it."""
        self.known.sent.add(text)
        is_again = False
        while True:
            try:
                await self.connect()
                reply = (await self.ask(text))[-1]
                if reply.startswith("ok version "):
                    self.versions[text] = int(reply.split()[2])
                    break
                newest = (await self.ask(f"newest {self.node}\n"))[-1]
                if not is_again or not reply.startswith("no 46") or int(newest.split()[2]) < last:
                    raise Wrong(f"{text!r} is answered {reply}, then {newest}; sent again: {is_again}")
                self.found.append(text)
                self.counts["was there"] += 1
                break
            except Broken:
                self.counts["sent again"] += 1
                is_again = True
                await self.leave()
        self.own = last
        self.known.counter = max(self.known.counter, last)
        ops = model.ops_of(text)
        self.known.characters += [op[1] for op in ops if op[0] == "i"]
        self.known.removals += [op[1] for op in ops if op[0] == "d"]


class Subscriber(Client):
    """A subscriber that must get each item once: a session more begins with items that it had, and those must be the same."""

    def __init__(self, rng, addresses, number):
        super().__init__(rng, addresses, number % len(addresses))
        self.program = list(model.PROGRAMS)[number % len(model.PROGRAMS)]
        # The digests of whole versions, the items that came of the next one, and what comes of a version now.
        self.digests, self.had, self.part = [], [], []
        self.last, self.again, self.refused = None, 0, 0

    async def run(self):
        while self.last is None or len(self.digests) <= self.last:
            try:
                await self.follow()
            except Broken:
                await self.leave()
        self.reset()

    async def follow(self):
        """Subscribes behind the last whole version, and takes items until the last version is there."""
        await self.connect()
        first = max(0, len(self.digests) - 1)
        reply = (await self.ask(f"sub 1024 {self.program} from {first}\n"))[-1]
        if not reply.startswith("ok sub "):
            self.refused += 1
            if not reply.startswith(("no 51", "no 55")):
                raise Wrong(f"a subscriber from version {first} is answered {reply}")
            raise Broken(reply)
        self.part, at = [], first
        while self.last is None or len(self.digests) <= self.last:
            for item in (await self.ask(f"pull {reply.split()[2]} 1024\n"))[:-1]:
                at = self.take(item, at)
            await asyncio.sleep(0.2)

    def take(self, item, at):
        """Takes an item of version `at`, and gives the version that goes on. What came before must come again the same."""
        kind, number, _ = item.split(" ", 2)
        if int(number) != at:
            raise Wrong(f"{item} where version {at} goes on")
        self.part.append(item)
        if at == len(self.digests):
            self.had += [item] if len(self.part) > len(self.had) else []
            if self.had[len(self.part) - 1] != item:
                raise Wrong(f"{item} in place of {self.had[len(self.part) - 1]}")
        if kind == "hit":
            return at
        told, self.part = model.digest(self.part), []
        if at < len(self.digests):
            self.again += 1
            if told != self.digests[at]:
                raise Wrong(f"version {at} has other items than before")
        else:
            self.digests.append(told)
            self.had = []
        return at + 1
