"""Random schedules of messages, and which of these a replica accepts and which it holds, by the definition.

A message is a change with the counter of its peer's last operation before it. A schedule hands messages of 2 to 4 peers
over: some are lost, some come again, some come before what they name, and some come joined with their peer's next one.
"""
import pathlib
import random
import sys
from typing import NamedTuple

sys.path.insert(0, str(pathlib.Path(__file__).resolve().parent.parent / "models"))
import revivals  # noqa: E402
import text  # noqa: E402

NODES = [1, 2, 3, 300, 65535]
# How many schedules a history has; in a schedule what the replica shows and holds is looked at once or twice.
ORDERS, LOOK = 4, "look"


class Message(NamedTuple):
    previous: int
    made: revivals.Made

    @property
    def last(self):
        return self.made.lines[-1][-1][1][0]

    @property
    def name(self):
        return f"{self.previous}@{self.made.node}"

    def overlaps(self, other):
        """Whether both cover a counter of one peer."""
        is_one = self.made.node == other.made.node
        return is_one and self.previous < other.last and other.previous < self.last


# Schedules.

def any_history(rng):
    """Changes of some peers, each behind its causes: long runs, or short changes of all forms."""
    if rng.random() < 0.03:
        return revivals.wide_history(rng, rng.randint(40, 160))[0]
    writer = revivals.Reviver(rng)
    writer.nodes = rng.sample(NODES, rng.randint(2, 4))
    writer.seen = dict.fromkeys(writer.nodes, 0)
    return [writer.take(writer.made()) for _ in range(min(rng.randint(2, 12), rng.randint(2, 12)))]


def history_of(rng):
    """One of at least two peers."""
    while True:
        history = any_history(rng)
        if len({made.node for made in history}) > 1:
            return history


def messages_of(history):
    last, messages = {}, []
    for made in history:
        messages.append(Message(last.get(made.node, 0), made))
        last[made.node] = messages[-1].last
    return messages


def joined(one, other):
    """A message of the operations of two, of which the other follows the one; None where they aren't one change."""
    if one.made.node != other.made.node or one.last != other.previous:
        return None
    lines = one.made.lines + other.made.lines
    if sum(map(text.count_of, lines)) > text.OPERATIONS:
        return None
    return Message(one.previous, revivals.Made(max(one.made.form, other.made.form), one.made.node, lines))


def some_joined(rng, messages):
    """Some messages that are joined with their peer's next one, each with the place of the later one."""
    pairs = [(place, joined(one, other)) for place, other in enumerate(messages) for one in messages[:place]]
    return [(place, message) for place, message in pairs if message and rng.random() < 0.15]


def schedule_of(rng, history):
    """Deliveries of a history's messages, and looks at what stands then."""
    order = revivals.another_order(rng, history) if rng.random() < 0.5 else history
    messages, count = messages_of(order), len(order)
    spread = rng.choice([0, 0, 2, 6, count, 3 * count])
    loss, again = rng.choice([0, 0, 0.1, 0.3]), rng.choice([0, 0.1, 0.5])
    more = some_joined(rng, messages) if rng.random() < 0.2 else []
    sent = [one for one in [*enumerate(messages), *more] if rng.random() >= loss]
    sent += [(rng.uniform(place, count), message) for place, message in sent if rng.random() < again]
    sent.sort(key=lambda one: one[0] + spread * rng.random())
    deliveries = [message for _, message in sent]
    if rng.random() < 0.5:
        deliveries.insert(rng.randint(0, len(deliveries)), LOOK)
    return [*deliveries, LOOK]


def schedules(seed, count):
    """That many schedules: the history that each is of, and its deliveries."""
    for number in range(count):
        if number % ORDERS == 0:
            history = history_of(random.Random(f"{seed} {number}"))
        yield history, schedule_of(random.Random(f"{seed} {number} order"), history)


def written(deliveries):
    """The deliveries as the programs read them."""
    lines = ["replica"]
    for one in deliveries:
        lines += [LOOK] if one == LOOK else [f"message {one.previous}", *one.made.written()]
    return "".join(line + "\n" for line in lines)


# What becomes of them.

class Buffer:
    """The messages that were accepted, and those that are held: one that names what isn't there waits, and so does one
    that follows an operation of its peer that isn't. One that overlaps a message that was taken in changes nothing."""

    def __init__(self):
        self.accepted, self.held, self.last, self.waited = [], [], {}, 0
        self.there = {"i": set(), "d": set()}     # the characters, and the removals

    def awaited(self, message):
        """The ids of the operations that it waits for."""
        is_next = self.last.get(message.made.node, 0) == message.previous
        awaited = set() if is_next else {(message.previous, message.made.node)}
        own = {"i": set(), "d": set()}
        for op in message.made.ops():
            kind = "d" if op[0] == "v" else "i"
            awaited.update(at for at in text.named(op) if at not in self.there[kind] and at not in own[kind])
            if op[0] in own:
                own[op[0]].add(op[1])
        return awaited

    def accept(self, message):
        self.held.remove(message)
        self.accepted.append(message)
        self.last[message.made.node] = message.last
        for op in message.made.ops():
            if op[0] in self.there:
                self.there[op[0]].add(op[1])

    def deliver(self, message):
        """Takes a message in. Returns those that are accepted then, each behind its causes; what came last is first."""
        if any(message.overlaps(other) for other in self.accepted + self.held):
            return []
        self.held.append(message)
        before = len(self.accepted)
        while ready := [one for one in self.held if not self.awaited(one)]:
            self.accept(ready[-1])
        more = self.accepted[before:]
        self.waited += sum(one is not message for one in more)
        return more


class Found(NamedTuple):
    """What a look finds: how many messages were accepted, and each name that is held, with what that waits for."""
    accepted: int
    held: list


def handed_on(deliveries):
    """What a client is handed of these deliveries, what is found at each look, and the buffer in the end. A client is
    handed what is accepted, each message behind its causes, and what comes again of that, but nothing that waits."""
    buffer, handed, looks = Buffer(), [], []
    for one in deliveries:
        if one == LOOK:
            handed.append(LOOK)
            looks.append(Found(len(buffer.accepted), [(held.name, buffer.awaited(held)) for held in buffer.held]))
        elif any(one.overlaps(other) for other in buffer.accepted):
            handed.append(one)
        else:
            handed += buffer.deliver(one)
    return handed, looks, buffer
