#!/usr/bin/env python3
"""A peer of a hub that runs with --read: it follows the text, and makes changes of what a person says.

    peer.py PORT|PATH [--node N] < COMMANDS

PATH is a socket file of a hub that runs with --unix. Where the connection breaks, the peer connects anew for a minute, takes what it
missed, and sends those of its own changes again that the hub doesn't have: its last one, and more where the hub began anew from an
older store or from none.

The node is that of the peer's own changes, 1 to 65,535; without --node one that has made none is taken, and so it is where the counters
of a node are used up. Commands are lines:

    text                            prints the text
    spans                           prints the spans, as `hub spans` does
    insert PLACE TEXT               inserts a text at a place: 0 is before the first character
    remove FIRST END                removes the characters from place FIRST up to place END
    restore                         takes back the last `remove` that isn't, and what others removed of the same
    mark FIRST END KEY [VALUE]      makes them strong, em, code, underline, strike, comment:N, link (VALUE: its target), color
                                    (VALUE: rrggbb) or, where they are whole lines, block (VALUE: their kind)
    unmark FIRST END KEY            takes such a key from them
    wait VERSION                    waits until the hub has that version

Places count visible characters. In a text \\n stands for a line feed and \\\\ for a backslash, as in what `text` and `spans` print. A
command that changes the text, and `wait`, print `version N`, the version in which all of it is seen. One that is refused by the hub
prints the hub's line, and one that can't be done, or not all of it, `cannot: ` and why."""
import argparse
import bisect
import itertools
import random
import re
import socket
import sys
import time
from typing import NamedTuple

OPERATIONS, NODES, TRIES = 256, 65535, 50
LONGEST_RUN, MEANT = 65535, 262144
CONNECTS, WAITS, PAUSE = 120, 20, 0.5
GREATEST = (1 << 48) - 1
AT_ONCE = 64
LONGEST_LINE = 1 << 22


class Key(NamedTuple):
    """A key of one value: the form of changes that knows it, what its value may be, and whether what is typed at a mark's end is in it."""
    form: str
    value: str
    grows: bool


NOTHING, KIND = "-", "heading:[1-6]|(bullet|number):[0-7]|task:[0-7]:(open|done)|quote|pre|rule"
KEYS = {"strong": Key("change", NOTHING, True), "em": Key("change", NOTHING, True), "code": Key("change2", NOTHING, True),
        "link": Key("change", "[!-~]{1,1024}", False), "color": Key("change", "[0-9a-f]{6}", True),
        "underline": Key("change3", NOTHING, True), "strike": Key("change3", NOTHING, True), "block": Key("change3", KIND, False)}
# Comments have numbers. As a format is printed, keys of the third form stand behind them.
COMMENT = Key("change", NOTHING, False)
ORDER = ["strong", "em", "code", "link", "color", "comment", "underline", "strike", "block"]


class Refused(Exception):
    """A reply `no <number> <Name> ..`."""

    def __init__(self, line):
        super().__init__(line)
        self.number = int(line.split(" ")[1])


class NoHub(Exception):
    """What listens there answers as no hub does."""


# How a line of any reply to a peer begins.
KNOWN = re.compile(r"(ok|no|span|change[23]?|[idmurv]) ")


def meaning(why):
    """What an error means for a person, behind its own words."""
    if isinstance(why, Refused) and why.number == 60:
        return "; the hub must be served with --read"
    if isinstance(why, Refused) and why.number in (48, 49, 50):
        return "; the text has reached a limit (docs/OPERATING.md, \"How long a hub lives\")"
    if "no 69 " in str(why):
        return "; as many sessions are there as the hub allows: try again later"
    if isinstance(why, (ConnectionRefusedError, FileNotFoundError)):
        return "; no hub listens there: start one with `hub serve --read`"
    return ""


class NoCounter(ValueError):
    """There is no counter above all that an operation must exceed."""


def connected(place):
    """A connection to a port of this machine, or to a socket file."""
    if isinstance(place, int):
        return socket.create_connection(("127.0.0.1", place), timeout=60)
    connection = socket.socket(socket.AF_UNIX)
    connection.settimeout(60)
    connection.connect(place)
    return connection


class Session:
    """A session of a hub on this machine."""

    def __init__(self, place):
        self.socket = connected(place)
        self.lines = self.socket.makefile("rb")

    def line(self):
        line = self.lines.readline(LONGEST_LINE)
        if not line.endswith(b"\n"):
            raise ConnectionError("the session with the hub has ended")
        return line[:-1].decode()

    def ask(self, *request):
        """Sends the lines of a request. Returns the reply's lines but the last one, and that one's number: 3 of `ok version 3`."""
        self.socket.sendall("".join(line + "\n" for line in request).encode())
        reply = []
        while not reply or not reply[-1].startswith(("ok ", "no ")):
            reply.append(self.line())
            if not KNOWN.match(reply[-1]):
                raise NoHub(f"what listens there is no hub: it answers `{reply[-1][:60]}`")
        last = reply.pop()
        if last.startswith(("no 66 ", "no 69 ")):
            raise ConnectionError(f"the hub ends this session: {last}")
        if last.startswith("no "):
            raise Refused(last)
        return reply, int(last.split(" ")[2])

    def close(self):
        self.lines.close()
        self.socket.close()


# Words of a change.

def id_in(word):
    """An id as a pair of counter and node, so that ids compare as they do in the text; None of `-`."""
    return None if word == "-" else tuple(int(part) for part in word.split("@"))


def word_of(own):
    return "-" if own is None else f"{own[0]}@{own[1]}"


def above(newest, ids, count=1):
    """The first of `count` counters in a row that are above a peer's newest one and above those of some ids (or None)."""
    greatest = max((own for own in ids if own), default=(0, 0))
    counter = max(newest, greatest[0]) + 1
    if counter + count - 1 > GREATEST:
        raise NoCounter(f"no counter is above that of {word_of(greatest)}" if count == 1 else
                        f"there aren't {count} counters above that of {word_of(greatest)}")
    return counter


def id_runs(ids):
    """Ids in runs of consecutive counters of a node: the first id of each, and how many it has."""
    runs = []
    for counter, node in sorted(ids, key=lambda own: own[::-1]):
        first, count = runs[-1] if runs else ((0, 0), 0)
        if (counter, node) == (first[0] + count, first[1]) and count < LONGEST_RUN:
            runs[-1] = first, count + 1
        else:
            runs.append(((counter, node), 1))
    return runs


def some_runs(runs):
    """As many of these runs as a change has lines for, and may mean operations by."""
    sums = itertools.accumulate(count for _, count in runs)
    return [run for run, meant in zip(runs[:OPERATIONS], sums) if meant <= MEANT]


def run_lines(kind, newest, node, runs):
    """The lines of removals (d) or revivals (v) of what runs name, with ids in a row."""
    count = sum(count for _, count in runs)
    counter = above(newest, [(first[0] + count - 1, first[1]) for first, count in runs], count)
    lines = []
    for first, count in runs:
        lines.append(f"{kind} {counter}@{node} {word_of(first)}" + (f" {count}" if count > 1 else ""))
        counter += count
    return lines


def position(place, anchor):
    """Where an anchor stands among all of them: before and after the character at place P, 2 P and 2 P + 1."""
    if anchor in ("^", "$"):
        return -1 if anchor == "^" else 2 * len(place)
    return 2 * place[id_in(anchor[1:])] + anchor.startswith(">")


def can_be_named(anchor):
    return anchor in ("^", "$") or id_in(anchor[1:])[0] < GREATEST


def changes_in(lines):
    """Lines of changes that stand one behind another, as a list of lines for each change."""
    lines = iter(lines)
    return [[header, *itertools.islice(lines, int(header.split(" ")[2]))] for header in lines]


def first_id(change):
    """The id of a change's first operation."""
    return id_in(change[1].split(" ")[1])


def key_of(key):
    return KEYS.get(key, COMMENT)


def format_text(format):
    """A format as a span's line has it."""
    def rank(key):
        name, _, number = key.partition(":")
        return ORDER.index(name), int(number or 0)

    words = [key if key_of(key).value == NOTHING else f"{key}={format[key]}" for key in sorted(format, key=rank)]
    return ",".join(words) or "plain"


def escaped(text):
    """A text as a span's line has it."""
    return text.replace("\\", "\\\\").replace("\n", "\\n")


def unescaped(text):
    return re.sub(r"\\([\\n])", lambda found: "\n" if found[1] == "n" else "\\", text)


class Mark(NamedTuple):
    """A mark operation: its value is None where it takes the key away."""
    own: tuple
    key: str
    value: str | None
    start: str
    end: str


class Removals:
    """Removals with consecutive counters, of characters with consecutive counters, and which of them are taken back."""

    def __init__(self, own, first, count):
        self.own, self.first, self.back = own, first, bytearray(count)

    def __len__(self):
        return len(self.back)

    def character(self, at):
        return self.first[0] + at, self.first[1]

    def goes_on(self, own, first):
        """Whether a removal is the next one behind these."""
        return (self.own[0] + len(self), self.own[1]) == own and self.character(len(self)) == first


class Layout(NamedTuple):
    """A version of the text: all characters in their order, the place of each, and the visible ones with their formats."""
    order: list
    place: dict
    visible: list
    formats: list


class Replica:
    """The text that follows from the changes taken so far."""

    def __init__(self):
        self.version = 0
        self.newest = {}
        self.characters = {}
        self.parents = {}
        self.children = {None: []}
        self.removals = {}
        self.removed = {}
        self.marks = []
        self.changes = {}
        self.kept_layout = None

    def take(self, change):
        """Takes an accepted change, as its lines."""
        self.changes[first_id(change)] = change
        for line in change[1:]:
            kind, own, *words = line.split(" ")
            own = id_in(own)
            if kind == "i":
                own = self.take_run(own, id_in(words[0]), words[1:])
            elif kind == "r":
                own = self.take_run(own, id_in(words[0]), words[2:])
            elif kind in "dv":
                take = self.take_removals if kind == "d" else self.take_revivals
                own = take(own, id_in(words[0]), int(words[1]) if words[1:] else 1)
            elif kind == "m":
                self.marks.append(Mark(own, *words))
            else:
                self.marks.append(Mark(own, words[0], None, *words[1:]))
            self.newest[own[1]] = own[0]
        self.version += 1
        self.kept_layout = None

    def take_run(self, own, parent, codes):
        """Takes characters of which each stands behind the one before it. Returns the last one's id."""
        counter, node = own
        for offset, code in enumerate(codes):
            own = counter + offset, node
            self.characters[own] = chr(int(code, 16))
            self.parents[own] = parent
            self.children[own] = []
            bisect.insort(self.children[parent], own)
            parent = own
        return parent

    def take_removals(self, own, first, count):
        """Takes removals, by runs: of each character how many of its removals aren't taken back. Returns the last one's id."""
        kept = self.removals.setdefault(own[1], [])
        if kept and kept[-1].goes_on(own, first):
            kept[-1].back += bytes(count)
        else:
            kept.append(Removals(own, first, count))
        for character in ((first[0] + at, first[1]) for at in range(count)):
            self.removed[character] = self.removed.get(character, 0) + 1
        return own[0] + count - 1, own[1]

    def take_revivals(self, own, removal, count):
        """Takes revivals. One of a removal that is taken back already does nothing. Returns the last one's id."""
        kept = self.removals[removal[1]]
        for counter in range(removal[0], removal[0] + count):
            removals = kept[bisect.bisect_right(kept, counter, key=lambda some: some.own[0]) - 1]
            at = counter - removals.own[0]
            if not removals.back[at]:
                removals.back[at] = 1
                character = removals.character(at)
                self.removed[character] -= 1
                if not self.removed[character]:
                    del self.removed[character]
        return own[0] + count - 1, own[1]

    def standing(self, ids):
        """The ids of those removals of some characters that aren't taken back."""
        ids = self.removed.keys() & set(ids)
        return [(removals.own[0] + at, removals.own[1]) for kept in self.removals.values() for removals in kept if ids
                for at, back in enumerate(removals.back) if not back and removals.character(at) in ids]

    def layout(self):
        """The version's layout, which is kept until the next change."""
        if self.kept_layout is None:
            order = self.order()
            place = {own: at for at, own in enumerate(order)}
            seen = [(own, format) for own, format in zip(order, self.formats(place)) if own not in self.removed]
            self.kept_layout = Layout(order, place, [own for own, _ in seen], [format for _, format in seen])
        return self.kept_layout

    def order(self):
        """All characters, removed ones too: each behind its parent, of several children the one with the greatest id first."""
        order, waiting = [], list(self.children[None])
        while waiting:
            order.append(waiting.pop())
            waiting += self.children[order[-1]]
        return order

    def formats(self, place):
        """The format of each character, a dictionary from its keys to their values."""
        begins, ends = {}, {}
        for mark in self.marks:
            start, end = ((position(place, anchor) + 1) // 2 for anchor in (mark.start, mark.end))
            if start < end:
                begins.setdefault(start, []).append(mark)
                ends.setdefault(end, []).append(mark)
        covering, formats, format = {}, [], {}
        for at in range(len(place)):
            if at in begins or at in ends:
                for mark in ends.get(at, []):
                    covering[mark.key].remove(mark)
                for mark in begins.get(at, []):
                    bisect.insort(covering.setdefault(mark.key, []), mark)
                deciding = [marks[-1] for marks in covering.values() if marks]
                format = {mark.key: mark.value for mark in deciding if mark.value is not None}
            formats.append(format)
        return formats

    def ways(self, left):
        """How a character can come to stand directly behind another one, or at the start (None): triples of its parent, the sibling that
        it must have a greater id than since it stands before that one, and the one that it must have a lesser id than."""
        following = self.children[left][-1] if self.children[left] else None
        yield left, following, None
        while following is None and left is not None:
            before, left = left, self.parents[left]
            at = bisect.bisect_left(self.children[left], before)
            following = self.children[left][at - 1] if at else None
            yield left, following, before

    def gaps(self, behind):
        """The characters directly behind which a text can come to stand at one visible place. First, the last of the removed characters
        there that a mark ends behind: what is typed behind a link stands outside it, also where the link's last characters were removed."""
        layout, ends = self.layout(), {mark.end for mark in self.marks}
        following = itertools.islice(layout.order, 0 if behind is None else layout.place[behind] + 1, None)
        gaps = [behind, *itertools.takewhile(self.removed.__contains__, following)]
        first = max((at for at, own in enumerate(gaps) if f">{word_of(own)}" in ends), default=0)
        return gaps[first:] + gaps[:first][::-1]

    def anchors_before(self, first):
        """The anchors at which a mark can start that covers this character and no visible one before it."""
        layout = self.layout()
        yield f"<{word_of(first)}"
        for own in reversed(layout.order[:layout.place[first]]):
            yield f">{word_of(own)}"
            if own not in self.removed:
                return
            yield f"<{word_of(own)}"
        yield "^"

    def anchors_behind(self, last):
        """The anchors at which a mark can end that covers this character and no visible one behind it."""
        layout = self.layout()
        yield f">{word_of(last)}"
        for own in layout.order[layout.place[last] + 1:]:
            yield f"<{word_of(own)}"
            if own not in self.removed:
                return
            yield f">{word_of(own)}"
        yield "$"

    def marks_within(self, key, start, end):
        """The marks of a key that cover something between two anchors, or what may be typed there."""
        place = self.layout().place
        start, end = position(place, start), position(place, end)
        ranges = [(mark, position(place, mark.start), position(place, mark.end)) for mark in self.marks if mark.key == key]
        return [mark for mark, first, last in ranges if max(start, first) < min(end, last)]

    def text(self):
        return "".join(self.characters[own] for own in self.layout().visible)

    def spans(self):
        """The spans: pairs of a format and a text."""
        layout = self.layout()
        pieces = itertools.groupby(zip(layout.formats, layout.visible), key=lambda pair: pair[0])
        return [(format, "".join(self.characters[own] for _, own in piece)) for format, piece in pieces]

    def span_lines(self):
        """The spans as `hub spans` prints them."""
        return [f"{index} {format_text(format)} {escaped(text)}" for index, (format, text) in enumerate(self.spans())]


# What a person may ask for.

def check_text(text):
    for character in text:
        if character == "\0" or "\ud800" <= character <= "\udfff":
            raise ValueError(f"U+{ord(character):04X} can't be inserted")


def check_key(key):
    number = re.fullmatch("comment:([1-9][0-9]{0,9})", key)
    if key not in KEYS and not (number and int(number[1]) < 1 << 32):
        raise ValueError(f"a key is {', '.join(KEYS)}, or comment: and a number from 1 to 4294967295")


def check_value(key, value):
    """A wrong value isn't sent: a line feed in it would be the end of its line."""
    if not re.fullmatch(key_of(key).value, value):
        raise ValueError("a link has 1 to 1024 bytes without spaces, a color six of 0-9a-f, a block heading:1 to 6, bullet:0 to 7, number:0 to 7,"
                         " task:0 to 7 and :open or :done, quote, pre or rule, and other keys have no value")


class Peer:
    """A replica of a hub's text, and the changes of one node. A session is one peer's own: calls of it don't overlap."""

    def __init__(self, place, node=None):
        self.place, self.session = place, Session(place)
        self.replica = Replica()
        self.own, self.is_behind = [], False
        self.removed = []
        if node is not None:
            self.session.ask(f"newest {node}")
        self.node = self.unused_node() if node is None else node
        self.follow()

    def unused_node(self):
        while True:
            node = random.randint(1, NODES)
            if self.session.ask(f"newest {node}")[1] == 0:
                return node

    def follow(self):
        """Takes all changes that the replica hasn't yet. Returns whether there were some."""
        before = self.replica.version
        try:
            self.take_all()
            if self.is_behind and self.replica.version > before:
                self.send_again()
        except OSError:
            self.connect_again()
        return self.replica.version != before

    def take_all(self):
        taken = AT_ONCE
        while taken == AT_ONCE:
            lines, taken = self.session.ask(f"changes {self.replica.version} {AT_ONCE}")
            for change in changes_in(lines):
                self.replica.take(change)

    def connect_again(self):
        """Connects anew, takes what the hub has, and sends again what it should have."""
        self.session.close()
        for left in reversed(range(CONNECTS)):
            try:
                self.session = Session(self.place)
                if not self.goes_on():
                    self.replica = Replica()
                self.take_all()
                self.send_again()
                return
            except OSError:
                if not left:
                    raise
                time.sleep(PAUSE)

    def goes_on(self):
        """Whether the hub has the changes that the replica took, told by the last one: it may have begun anew."""
        version = self.replica.version
        if version == 0:
            return True
        if self.session.ask("latest")[1] < version:
            return False
        return changes_in(self.session.ask(f"changes {version - 1} 1")[0]) == [next(reversed(self.replica.changes.values()))]

    def send_again(self):
        """Sends those of the own changes that the hub doesn't have, up to one that names what another peer must send again first."""
        self.is_behind = False
        for change in [change for change in self.own if not self.has(change)]:
            try:
                self.session.ask(*change)
            except Refused as why:
                if why.number == 47:
                    self.is_behind = True
                    break
                if why.number != 46:
                    raise
        self.take_all()

    def catch_up(self):
        """Waits a while for other peers to send again what own changes name; after it those are given up."""
        for _ in range(WAITS):
            if not self.is_behind:
                return
            time.sleep(PAUSE)
            self.follow()
        self.own = [change for change in self.own if self.has(change)]
        self.is_behind = False

    def has(self, change):
        """Whether the hub has an own change, by the newest counter of its node."""
        counter, node = first_id(change)
        return counter <= self.replica.newest.get(node, 0)

    def submit(self, build):
        """Submits the change whose lines `build` makes of a node and its newest counter. Where the hub has newer changes that make it
        wrong (46 StaleCounter, 47 UnknownRef), follows them and tries again with fresh ids; where the connection breaks, goes on once
        it is known whether the hub has the change. Returns the first operation's id."""
        self.catch_up()
        for left in reversed(range(TRIES)):
            change = self.change_of(build)
            try:
                self.session.ask(*change)
                break
            except Refused as why:
                if why.number not in (46, 47) or not left:
                    raise
                self.follow()
            except OSError:
                self.connect_again()
                if self.replica.changes.get(first_id(change)) == change:
                    break
        self.own.append(change)
        self.follow()
        return first_id(change)

    def change_of(self, build):
        """The change that `build` makes for this peer's node, or for another one if only that one has no counters left for it: anyone
        may have used them up."""
        newest = self.replica.newest.get(self.node, 0)
        try:
            return build(self.node, newest)
        except NoCounter:
            if newest == 0:
                raise
        node = self.unused_node()
        change = build(node, 0)
        self.node = node
        return change

    # By visible places.

    def insert(self, place, text):
        visible = self.replica.layout().visible
        if not 0 <= place <= len(visible):
            raise ValueError(f"the text has {len(visible)} characters")
        self.insert_behind(visible[place - 1] if place else None, text)

    def range(self, first, end):
        """The ids of the visible characters from one place up to another."""
        visible = self.replica.layout().visible
        if not 0 <= first < end <= len(visible):
            raise ValueError(f"no range of a text of {len(visible)} characters")
        return visible[first:end]

    def remove(self, first, end):
        ids = self.range(first, end)
        self.remove_all(ids)
        self.removed.append(ids)

    def restore(self):
        """Takes back the last `remove` of this peer that isn't taken back."""
        if not self.removed:
            raise ValueError("nothing was removed, or all is restored")
        self.restore_all(self.removed[-1])
        self.removed.pop()

    def mark(self, first, end, key, value="-"):
        """Adds a key to a range: one of KEYS, or comment:N."""
        covered = self.range(first, end)
        self.mark_between(covered[0], covered[-1], key, value)

    def unmark(self, first, end, key):
        covered = self.range(first, end)
        self.mark_between(covered[0], covered[-1], key, None)

    # By ids.

    def insert_behind(self, behind, text):
        """Inserts a text behind a character, or at the start (None). Returns the ids of its characters."""
        check_text(text)
        ids = []
        for start in range(0, len(text), OPERATIONS):
            codes = [f"{ord(character):x}" for character in text[start:start + OPERATIONS]]
            counter, node = self.submit(lambda node, newest: self.typed(node, newest, behind, codes))
            ids += [(counter + offset, node) for offset in range(len(codes))]
            behind = ids[-1]
        return ids

    def typed(self, node, newest, behind, codes):
        """The change that inserts characters: a run is one line of the second form."""
        counter, parent = self.way_behind(node, newest, behind, len(codes))
        if len(codes) == 1:
            return [f"change {node} 1", f"i {counter}@{node} {word_of(parent)} {codes[0]}"]
        return [f"change2 {node} 1", f"r {counter}@{node} {word_of(parent)} {len(codes)} {' '.join(codes)}"]

    def way_behind(self, node, newest, behind, count):
        """The counter and the parent by which `count` characters come to stand behind one. The parent is the character to their left;
        where no counter is above it, or above the sibling that they must stand before, another one by which they stand there too."""
        if behind is not None and behind not in self.replica.characters:
            raise ValueError(f"the hub no longer has the character {word_of(behind)}")
        wrong = None
        for left in self.replica.gaps(behind):
            for parent, following, before in self.replica.ways(left):
                try:
                    counter = above(newest, [parent, following], count)
                except NoCounter as why:
                    wrong = wrong or why
                    continue
                if before is None or (counter, node) < before:
                    return counter, parent
        raise wrong

    def remove_all(self, ids):
        """Removes those of these characters that are visible, and at last says which can't be removed."""
        ids = sorted(ids)
        while ids := [own for own in ids if own not in self.replica.removed]:
            self.submit(lambda node, newest: self.removals(node, newest, ids))

    def removals(self, node, newest, ids):
        """The change that removes as many of these characters as it can. Where some have consecutive ids they are on one line; else, or
        where there aren't as many counters, each has its own."""
        runs = some_runs(id_runs(ids))
        try:
            if len(runs) < sum(count for _, count in runs):
                lines = run_lines("d", newest, node, runs)
                return [f"change3 {node} {len(lines)}", *lines]
        except NoCounter:
            pass
        return self.single_removals(node, newest, ids[:OPERATIONS])

    def single_removals(self, node, newest, ids):
        """The change that removes as many of these characters as have a counter above them."""
        lines = []
        for own in ids:
            try:
                newest = above(newest, [own])
            except NoCounter:
                if not lines:
                    raise
                break
            lines.append(f"d {newest}@{node} {word_of(own)}")
        return [f"change {node} {len(lines)}", *lines]

    def restore_all(self, ids):
        """Takes back all removals of these characters that the replica has."""
        while runs := some_runs(id_runs(self.replica.standing(ids))):
            self.submit(lambda node, newest: [f"change3 {node} {len(runs)}", *run_lines("v", newest, node, runs)])

    def mark_between(self, first, last, key, value):
        """Adds a key from one character to another, both included; or takes it away where the value is None. It says at last where it
        doesn't hold since another mark has the greatest counter."""
        check_key(key)
        if value is not None:
            check_value(key, value)
        start, end = self.ends_of_mark(first, last, key)
        over = self.replica.marks_within(key, start, end)
        held = [mark for mark in over if mark.own[0] == GREATEST and mark.value != value]
        below = [mark.own for mark in over if mark.own[0] < GREATEST]
        anchors = [id_in(anchor[1:]) for anchor in (start, end) if anchor not in ("^", "$")]

        def change(node, newest):
            own = f"{above(newest, anchors + below)}@{node}"
            line = f"u {own} {key} {start} {end}" if value is None else f"m {own} {key} {value} {start} {end}"
            return [f"{key_of(key).form} {node} 1", line]

        if not (held and self.is_held(first, last, held)):
            self.submit(change)
        if held:
            raise NoCounter(f"no counter is above that of {word_of(max(held).own)}, which decides {key} here")

    def is_held(self, first, last, marks):
        """Whether each visible character from one to another is covered by one of these marks."""
        layout, place = self.replica.layout(), self.replica.layout().place
        ranges = [(position(place, mark.start), position(place, mark.end)) for mark in marks]
        covered = [2 * place[own] for own in layout.visible if place[first] <= place[own] <= place[last]]
        return all(any(start <= at and at + 1 <= end for start, end in ranges) for at in covered)

    def ends_of_mark(self, first, last, key):
        """The anchors of a mark. One that grows ends before the next character, and what is typed there is in it; others end behind
        their last character. A line's kind begins behind the line feed in front of it, and the last line's ends with the text. An anchor
        that has the greatest counter can't be named: then it is the next best."""
        starts, ends = list(self.replica.anchors_before(first)), list(self.replica.anchors_behind(last))
        if key == "block":
            starts.reverse()
            if ends[-1] == "$" and self.replica.characters[last] != "\n":
                ends.reverse()
        elif key_of(key).grows:
            ends[:2] = ends[1::-1]
        found = [next(filter(can_be_named, anchors), None) for anchors in (starts, ends)]
        if None in found:
            raise NoCounter(f"no counter is above those of the characters where {key} would begin or end")
        return found

    def wait(self, version):
        """Follows until the hub has a version."""
        while self.replica.version < version:
            if not self.follow():
                time.sleep(0.1)

    def close(self):
        self.session.close()


# The command.

def number_in(word):
    if not re.fullmatch("[0-9]{1,9}", word):
        raise ValueError(f"no number: {word}")
    return int(word)


def perform(peer, line):
    """Performs a command. Returns the lines to print."""
    peer.follow()
    command, _, rest = line.partition(" ")
    words = rest.split(" ") if rest else []
    if command == "text" and not words:
        return [escaped(peer.replica.text())]
    if command == "spans" and not words:
        return peer.replica.span_lines()
    if command == "insert" and len(words) >= 2:
        peer.insert(number_in(words[0]), unescaped(rest.partition(" ")[2]))
    elif command == "remove" and len(words) == 2:
        peer.remove(number_in(words[0]), number_in(words[1]))
    elif command == "restore" and not words:
        peer.restore()
    elif command == "mark" and len(words) in (3, 4):
        peer.mark(number_in(words[0]), number_in(words[1]), *words[2:])
    elif command == "unmark" and len(words) == 3:
        peer.unmark(number_in(words[0]), number_in(words[1]), words[2])
    elif command == "wait" and len(words) == 1:
        peer.wait(number_in(words[0]))
    else:
        raise ValueError("no such command; peer.py --help tells them")
    return [f"version {peer.replica.version}"]


def main():
    parser = argparse.ArgumentParser(description=__doc__, formatter_class=argparse.RawDescriptionHelpFormatter)
    parser.add_argument("place", metavar="PORT|PATH")
    parser.add_argument("--node", type=int)
    arguments = parser.parse_args()
    place = int(arguments.place) if re.fullmatch("[0-9]{1,5}", arguments.place) else arguments.place
    sys.stdout.reconfigure(encoding="utf-8", newline="\n")
    try:
        peer = Peer(place, arguments.node)
        for line in sys.stdin.buffer:
            try:
                said = perform(peer, line.removesuffix(b"\n").decode("utf-8", "surrogateescape"))
            except Refused as why:
                said = [str(why)]
            except ValueError as why:
                said = [f"cannot: {why}"]
            print("".join(line + "\n" for line in said), end="", flush=True)
    except (OSError, Refused, NoHub) as why:
        sys.exit(f"peer.py: {why}{meaning(why)}")


if __name__ == "__main__":
    main()
