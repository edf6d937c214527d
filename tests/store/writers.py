"""Writers of random changes, and a ledger of what was sent, acknowledged and seen."""

import collections
import threading

from document import change_lines
from hubs import Client, Ended, Wrong, changes_in, expect

KEYS = ["strong", "em", "link", "color", "comment:1", "comment:4294967295"]
VALUES = {"link": ["https://a.b/?q=\\n", "-", "x" * 200], "color": ["0000ff", "cc0000"]}
CODES = [0x61, 0x62, 0x20, 0x27, 0x22, 0x3B, 0x5C, 0xA, 0xD, 0xE9, 0x1F600, 0x10FFFF]


class Author:
    """Makes random changes of one node that a hub with these changes accepts, one behind another."""

    def __init__(self, rng, node, document):
        self.rng, self.node = rng, node
        self.newest = document.counters.get(node, 0)
        self.known = list(document.codes)

    def change(self):
        """The text of the next change."""
        ops = [self.operation() for _ in range(self.rng.choice([1, 1, 1, 2, 3, 12]))]
        return "".join(line + "\n" for line in change_lines(self.node, ops))

    def operation(self):
        rng = self.rng
        kind = rng.choice("iiiiiiiiiiiiiiddmu") if self.known else "i"
        if kind == "i":
            parent = rng.choice([None, *self.known[-3:], *rng.sample(self.known, min(3, len(self.known)))])
            own = self.own_id([parent])
            self.known.append(own)
            return "i", own, parent, rng.choice(CODES)
        if kind == "d":
            removed = rng.choice(self.known)
            return "d", self.own_id([removed]), removed
        anchors = [rng.choice(["^", "$", *[(side, rng.choice(self.known)) for side in "<<><"]]) for _ in range(2)]
        own = self.own_id([anchor[1] for anchor in anchors if not isinstance(anchor, str)])
        key = rng.choice(KEYS)
        return (kind, own, key, *([rng.choice(VALUES.get(key, ["-"]))] if kind == "m" else []), *anchors)

    def own_id(self, named):
        self.newest = max([self.newest, *[identity[0] for identity in named if identity]]) + 1
        return self.newest, self.node


class Ledger:
    """What writers sent and were told, and what others saw meanwhile, in one life of a server."""

    def __init__(self):
        self.changed = threading.Condition()
        self.acknowledged, self.under_way = {}, set()
        self.refusals, self.faults = [], []
        self.seen, self.seen_version = [], 0
        self.writing, self.is_over = 0, False

    def send(self, text):
        with self.changed:
            self.under_way.add(text)

    def answer(self, text, reply):
        """Notes what a change was answered. Returns whether it was accepted."""
        with self.changed:
            if reply.startswith("ok version "):
                number = int(reply.split()[2])
                expect(number not in self.acknowledged, f"two changes were answered {reply!r}")
                self.acknowledged[number] = text
                self.under_way.remove(text)
            else:
                self.refusals.append(reply)
            self.changed.notify_all()
        return reply.startswith("ok version ")

    def wait_for(self, count):
        """Waits until so many changes are acknowledged, or no writer is left."""
        with self.changed:
            self.changed.wait_for(lambda: len(self.acknowledged) >= count or not self.writing)

    def stop(self):
        """Tells readers that nothing more is written."""
        self.is_over = True

    def judge(self, found, before):
        """Holds the changes that a later server has against those that were there before and this ledger. Returns how many changes
        there are besides the acknowledged ones."""
        if self.faults:
            raise self.faults[0]
        expect(found[: len(before)] == before, "a change that was there before is another one, or isn't there")
        for number, text in self.acknowledged.items():
            expect(number <= len(found), f"version {number} was acknowledged, and there are {len(found)}")
            expect(found[number - 1] == text, f"version {number} isn't the change that was acknowledged by it")
        expect(len(set(found)) == len(found), "a change is there twice")
        besides = [text for at, text in enumerate(found[len(before) :], len(before) + 1) if at not in self.acknowledged]
        expect(set(besides) <= self.under_way, "a change that no writer sent")
        expect(len(found) >= self.seen_version, f"version {self.seen_version} was seen, and there are {len(found)}")
        expect(found[: len(self.seen)] == self.seen, "a reader saw other changes")
        return len(besides)


def running(ledger, work, writes=1):
    """A thread that works until its session ends; a fault is kept in the ledger."""

    def run():
        try:
            work()
        except (Ended, OSError):
            pass
        except Exception as fault:  # pylint: disable=broad-except
            ledger.faults.append(fault)
        finally:
            with ledger.changed:
                ledger.writing -= writes
                ledger.changed.notify_all()

    thread = threading.Thread(target=run)
    ledger.writing += writes
    return thread


def writer(port, ledger, author, depth, count=None):
    """A thread that sends changes, up to `depth` of them before it reads a reply, until its session ends or `count` were sent."""
    client, waiting, left = Client(port), collections.deque(), count

    def work():
        nonlocal left
        while left != 0 or waiting:
            while len(waiting) < depth and left != 0:
                text = author.change()
                ledger.send(text)
                waiting.append(text)
                left = None if left is None else left - 1
                client.send(text)
            if not ledger.answer(waiting.popleft(), client.reply()[-1]):
                break
        client.close()

    return running(ledger, work)


PROGRAM = "b7000000010000009500000000000000"


def reader(port, ledger):
    """A thread that reads what there is of versions, changes and items, in turn, until its session ends."""
    client = Client(port)

    def work():
        subscribed = client.ask(f"sub 64 {PROGRAM} from 0")[-1]
        while not ledger.is_over:
            version = client.latest()
            *lines, last = client.ask(f"pull {subscribed.split()[2]} 64")
            if not last.startswith("ok items "):
                raise Wrong(last)
            for line in lines:
                version = max(version, int(line.split()[1]))
            ledger.seen_version = max(ledger.seen_version, version)
            *lines, last = client.ask(f"changes {len(ledger.seen)} 64")
            if not last.startswith("ok changes "):
                raise Wrong(last)
            ledger.seen += changes_in(lines)
        client.close()

    return running(ledger, work, writes=0)

