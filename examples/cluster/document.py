"""One document at one gateway: its stream, its hub with a store, and how the one follows the other."""
import asyncio
import itertools
import pathlib
import re
import sys
import time
import traceback
from typing import NamedTuple

from hub_process import Hub, HubEnded, StoreRefused
from position import Position, PositionFile
from stream import AT_ONCE, FAILURES, RESTORED, NotReady, Rules, Stream, WrongEntry, new_id, next_chain

# What a hub answers to a change by its text and the changes before it alone. Any other answer (no memory, a store that failed)
# is this hub's own, and the change is given to it again.
DECIDED = re.compile(rb"ok version [0-9]+\n|no (4[0-4]|4[6-9]|50) .*\n")
# Of changes that a `changes` line asks for at once.
CHANGES_AT_ONCE = 64
# Seconds between two tries, at first and at most.
FIRST_PAUSE, LONGEST_PAUSE = 0.05, 2.0
# For how long changes of clients wait where Redis was restarted, or another server took over: gateways that try again by then
# append first what it lost.
OTHERS_SECONDS = 3
# A hub takes so many subscribers, closed ones counted; and for how long one isn't started anew only to have new ones.
SUBSCRIBERS, SECONDS_OF_A_HUB = 64, 20
# After so many seconds a task that hasn't ended is cancelled again.
CANCEL_SECONDS = 1


class Lost(Exception):
    """The store has other changes than the stream: others were appended where it lost some, or the store is another one."""


class Pending(NamedTuple):
    text: bytes
    reply: asyncio.Future


async def cancel(tasks):
    """Cancels tasks, and returns once all have ended. Up to Python 3.11 a task whose `asyncio.wait_for`, which the client of Redis
    uses too, is just being answered loses a cancellation and goes on, so they are cancelled again."""
    while running := [task for task in tasks if not task.done()]:
        for task in running:
            task.cancel()
        await asyncio.wait(running, timeout=CANCEL_SECONDS)


class Document:
    def __init__(self, name, options, primaries):
        self.name, self.options, self.primaries = name, options, primaries
        self.store = None if options.memory else pathlib.Path(f"{name}.db")
        self.hub = self.new_hub(self.store, f"{name}.socket")
        self.kept = PositionFile(f"{name}.position")
        self.rules, self.position = None, None
        read = self.kept.read()
        # Whether the hub has been where the stream was: else it isn't shown before it is.
        self.is_whole = read is not None
        # Whether the store is known to be this document's.
        self.is_followed = read is not None
        if read:
            self.position, self.rules = read[0], Rules(*read[1])
        self.pending, self.numbers = {}, itertools.count(1)
        self.stream, self.due, self.applying, self.more = None, 0, None, asyncio.Event()
        self.is_following = False
        self.is_open, self.is_renamed = asyncio.Event(), False
        self.sessions, self.open_subscribers, self.begun = set(), 0, 0.0
        self.unused_since = time.monotonic()
        self.said = None
        self.task = asyncio.create_task(self.run())

    def new_hub(self, store, socket):
        return Hub([*self.options.hub, "serve", *self.options.serve], self.options.door, store, socket)

    def say(self, *words):
        """One line on standard error, but not the same again and again."""
        line = " ".join(map(str, words))
        if line != self.said:
            self.said = line
            print(f"gateway {self.options.name}: {self.name}: {line}", file=sys.stderr, flush=True)

    # What sessions ask for.

    def submit(self, text):
        """Gives a change to the stream; its number, and a future for the hub's reply."""
        number = next(self.numbers)
        self.pending[number] = Pending(text, asyncio.get_running_loop().create_future())
        self.more.set()
        return number, self.pending[number].reply

    def withdraw(self, number):
        """A change whose client has gone: it may be in the stream or not, and isn't sent again."""
        self.pending.pop(number, None)

    async def behind(self):
        """How many entries of the stream this hub doesn't have yet, or None where the stream isn't followed now."""
        if not self.is_following:
            return None
        try:
            return max(0, await self.last() - self.position.place)
        except (NotReady, *FAILURES):
            return None

    async def last(self):
        """How many entries the stream has, asked over a connection of its own."""
        links = await self.primaries.find()
        stream = Stream(self.name, links, 0)
        try:
            return await stream.last()
        finally:
            await stream.close()

    # The one task that gives the hub its changes.

    async def run(self):
        pause = FIRST_PAUSE
        while True:
            begun = time.monotonic()
            try:
                await self.follow()
            except NotReady as reason:
                self.primaries.pass_over()
                self.say(reason)
                self.open_as_it_is()
            except FAILURES as error:
                self.say("the stream:", type(error).__name__, error)
                self.open_as_it_is()
            except HubEnded as reason:
                self.say("the hub:", reason)
                await self.stop_hub()
            except (Lost, StoreRefused) as reason:
                self.say(f"{reason}; the store is put aside")
                await self.put_aside()
                self.is_renamed = isinstance(reason, Lost)
            except Exception:  # noqa: BLE001: a fault of this program must not leave the document without its task
                traceback.print_exc()
            pause = FIRST_PAUSE if time.monotonic() - begun > LONGEST_PAUSE else min(2 * pause, LONGEST_PAUSE)
            await asyncio.sleep(pause)

    async def follow(self):
        """Follows one primary, for as long as it and the hub are there."""
        if self.rules:
            await self.start_hub()
        links = await self.primaries.find()
        self.stream = Stream(self.name, links, self.options.replicas)
        try:
            await self.agree()
            await self.start_hub()
            await self.align()
            self.due = await self.stream.last()
            self.is_following = True
            await self.follow_both_ways()
        finally:
            self.is_following = False
            await self.stream.close()
            self.stream = None

    async def follow_both_ways(self):
        """Reads and appends until one of them, or the hub, ends. An entry that was given to the hub is waited for."""
        tasks = [asyncio.create_task(each) for each in (self.read(), self.append(), self.hub.ended())]
        try:
            await asyncio.wait(tasks, return_when=asyncio.FIRST_COMPLETED)
        finally:
            await cancel(tasks)
            if self.applying:
                await asyncio.wait([self.applying])
                tasks.append(self.applying)
            self.applying = None
        reasons = [task.exception() for task in tasks if not task.cancelled() and task.exception()]
        of_hub = [reason for reason in reasons if isinstance(reason, HubEnded)]
        raise (of_hub or reasons)[0]

    async def start_hub(self):
        if not self.hub.is_running() or not self.hub.lines:
            self.is_open.clear()
            self.begun = time.monotonic()
            await self.hub.start(self.rules.jump)

    def open_as_it_is(self):
        """A hub with a store is read also while no stream is reached."""
        if self.store and self.is_whole and self.hub.is_running():
            self.is_open.set()

    async def stop_hub(self):
        self.is_open.clear()
        await self.hub.stop()

    async def agree(self):
        """Takes the document's rules from the stream; they are made by the first gateway."""
        may_make = self.position is None or self.options.fill
        # A stream that isn't new: other gateways may have more of it than this one.
        run = "" if self.rules else await self.stream.run()
        rules = await self.stream.rules(may_make, self.rules or Rules(new_id(), new_id(), self.options.counter_jump), run)
        if rules is None:
            raise NotReady("this server doesn't have the stream that was followed; --fill makes one of this store")
        if self.position and rules.origin != self.rules.origin:
            if not self.options.fill or await self.stream.last():
                raise NotReady("this server has another stream of that name than was followed")
            self.position = None
        self.rules = rules
        if self.is_renamed:
            self.rules = rules._replace(id=await self.stream.rename(rules.id))
            self.is_renamed = False
        if self.position is None:
            self.position = self.beginning()

    def beginning(self):
        return Position(0, self.rules.origin, 0)

    async def align(self):
        """Finds up to which entry the hub is. It goes on from the record, if that entry is in the stream still and what the hub
        has beyond are the very next ones; else the whole stream tells it."""
        latest = await self.hub.latest()
        if latest < self.position.version:
            self.position, self.is_whole = self.beginning(), False
        is_aligned = await self.has_record() and await self.recognize(latest)
        while not is_aligned:
            await self.compare(latest)
            is_aligned = await self.recognize(latest)
        self.is_followed = True
        self.kept.write(self.position, self.rules)

    async def has_record(self):
        """Whether the stream has the last entry that this hub has, with the same entries before it."""
        place = self.position.place
        found = await self.stream.entries(place, 1) if place else []
        return not place or (found and (found[0].place, found[0].chain) == (place, self.position.chain))

    async def recognize(self, latest):
        """Takes the entries of all changes that the hub has, if they are the very next ones; those that the stream lacks at
        its end are appended. Whether it is so."""
        while self.position.version < latest:
            texts = await self.hub.changes(self.position.version, CHANGES_AT_ONCE)
            entries = await self.stream.entries(self.position.place + 1, len(texts))
            if not entries:
                await self.restore(latest)
            for text, entry in zip(texts, entries):
                self.check_next(entry)
                if entry.text != text:
                    return False
                self.take(entry, b"ok version %d\n" % (self.position.version + 1))
        return True

    def check_next(self, entry):
        """An entry must be the very next one, by its place and by the digest of all before it."""
        place, chain, _ = self.position
        if entry.place != place + 1:
            raise WrongEntry(f"entry {place + 1} is gone from the stream")
        if entry.chain != next_chain(chain, entry.text):
            raise WrongEntry(f"entry 0-{entry.place} of the stream isn't a gateway's: its chain isn't that of the entries up to it")

    async def restore(self, latest):
        """Appends the changes that the hub has behind the stream's end: the stream lost them, or is to be filled."""
        if not (self.is_followed or self.position.version or self.options.fill):
            raise NotReady(f"the store has {latest} changes and the stream none of them; --fill appends them")
        place, chain, version = self.position
        # Before, so that nothing is appended to a primary whose replicas have left it; after, so that they have it.
        await self.stream.settle(self.options.name, place, version)
        if not await self.stream.restore(chain, await self.changes(version, latest)):
            raise NotReady("another gateway has appended meanwhile")
        await self.stream.settle(self.options.name, place, version)
        self.say(f"{latest - version} changes of the store, which the stream didn't have, are appended behind entry {place}")

    async def changes(self, first, last):
        """The texts of the hub's changes behind a version, up to another one."""
        texts = []
        while first + len(texts) < last:
            texts += await self.hub.changes(first + len(texts), CHANGES_AT_ONCE)
        return texts

    async def compare(self, latest):
        """Gives the stream to a hub without a store, from the beginning, up to where it has as many changes as this one or the
        stream ends. It must have the first changes of this one: which changes a hub has tells all of it."""
        other, texts = self.new_hub(None, f"{self.name}.other"), await self.changes(0, latest)
        self.position = self.beginning()
        try:
            await other.start(self.rules.jump)
            while self.position.version < latest and (entries := await self.stream.entries(self.position.place + 1, AT_ONCE)):
                for entry in entries[:latest - self.position.version]:
                    reply = await self.reply(other, entry)
                    if reply.startswith(b"ok ") and entry.text != texts[self.position.version]:
                        await self.lose(f"version {self.position.version + 1} of the store isn't the stream's")
                    self.have(entry, reply)
        finally:
            await other.stop()

    async def lose(self, reason):
        """Says that the store has what the stream doesn't have, if this is a primary that could be followed."""
        await self.stream.settle(self.options.name, self.position.place, self.position.version)
        raise Lost(reason)

    async def put_aside(self):
        """Begins anew with an empty store: the stream decides. The old one is kept, under another name."""
        await self.stop_hub()
        if self.store:
            moment = time.time_ns()
            for path in self.store.parent.glob(f"{self.store.name}*"):
                path.rename(path.with_name(f"{self.name}.lost-{moment}{path.name.removeprefix(self.name)}"))
        self.position, self.is_whole = self.beginning(), False
        self.kept.write(self.position, self.rules)

    async def read(self):
        while True:
            if self.position.place >= self.due and not self.is_open.is_set():
                self.is_open.set()
                self.is_whole = True
                self.say("open at entry", self.position.place)
            told = self.options.name, self.position.place, self.position.version
            entries = await self.stream.next_entries(*told)
            # Also where nothing comes: so a primary that was replaced is left, and a stream that is gone is noticed.
            await self.stream.settle(*told)
            if not entries and not await self.has_record():
                raise NotReady(f"the stream doesn't have entry {self.position.place} any more")
            if entries:
                self.applying = asyncio.create_task(self.apply_all(entries))
                await asyncio.shield(self.applying)

    async def apply_all(self, entries):
        for entry in entries:
            await self.apply(entry)

    async def apply(self, entry):
        self.take(entry, await self.reply(self.hub, entry))

    async def reply(self, hub, entry):
        """Gives a hub the next entry."""
        self.check_next(entry)
        reply = (await hub.ask(entry.text))[-1]
        if not DECIDED.fullmatch(reply):
            raise HubEnded(f"it answers a change {reply.decode().strip()}")
        return reply

    def take(self, entry, reply):
        """Notes that the hub has an entry more."""
        self.have(entry, reply)
        self.kept.write(self.position, self.rules)
        if self.options.journal:
            print(self.name, entry.place, reply.decode().strip(), file=self.options.journal, flush=True)

    def have(self, entry, reply):
        """The hub has an entry; the client that sent it is answered."""
        version = int(reply.split()[2]) if reply.startswith(b"ok ") else self.position.version
        self.position = Position(entry.place, entry.chain, version)
        pending = self.pending.pop(self.number(entry), None)
        if pending and not pending.reply.done():
            pending.reply.set_result(reply)

    def number(self, entry):
        """The number of the waiting change that an entry has; None where it has none of them. Of what another gateway's hub had
        the text tells it: no change is accepted twice."""
        if entry.by == RESTORED:
            return next((number for number, change in self.pending.items() if change.text == entry.text), None)
        return entry.number if entry.by == self.options.incarnation else None

    async def append(self):
        """Appends what waits, from the oldest change on that wasn't answered: the stream passes over what it has."""
        await self.let_others_restore()
        appended = 0
        while True:
            changes = [(number, change.text) for number, change in self.pending.items() if number > appended]
            if changes:
                await self.stream.append(self.options.incarnation, changes)
                appended = changes[-1][0]
            else:
                self.more.clear()
                await self.more.wait()

    async def let_others_restore(self):
        """This gateway has appended what the stream lost, if it had it. Another one may have more, and can append it only where
        nothing else has come in between."""
        run = await self.stream.run()
        if not await self.stream.is_begun(run):
            await asyncio.sleep(OTHERS_SECONDS)
            await self.stream.begin(run)

    # Places for subscribers.

    def subscriber_refused(self):
        """A hub counts closed subscribers too. Where most are closed, it is started anew from its store; clients come back."""
        is_old = time.monotonic() - self.begun > SECONDS_OF_A_HUB
        if self.open_subscribers < SUBSCRIBERS // 2 and is_old and self.hub.is_running():
            self.say("its places for subscribers are used up, so the hub is started anew")
            self.hub.kill()

    async def end(self):
        await cancel([self.task])
        await self.hub.stop()
        self.kept.close()
