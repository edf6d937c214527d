"""Histories of several peers with what each of their versions looks like, found from all operations each time.

The rules of changes are those of text.py. A format is painted: of each key there is a list with a place for each
character, and the marks, from the least id to the greatest, are painted over one another. No version is made from the
one before it."""

import bisect
import functools
import itertools
import operator
from typing import NamedTuple

import text
from machine import Machine, context
from readers import behind_an_end_test, load, move, of_fields, slot, unless, whole

NODES = [1, 2, 3, 7, 300, 65535]
COLORS = ["000000", "0000ff", "00ff00", "ffffff"]
LINKS = ["x", "-", "https://a.b", "https://example.org/?q=\\"]
KINDS = ["heading:1", "heading:2", "heading:6", "bullet:0", "bullet:7", "number:0", "task:0:open", "task:0:done", "quote", "pre", "rule"]
VALUES = {"color": COLORS, "link": LINKS, "block": KINDS}
COMMENTS = [1, 1, 2, 3, 4, text.COMMENT]
KEYS = [*text.KEYS, "comment"]
# The form of changes that has all of them.
LATEST = max(key.form for key in text.KEYS.values())
CODES = [ord(letter) for letter in "aaabcdeorst  ?.:\n\\\r\t\u2028é€一😀\U0010ffff"]
START, END = ("^", None), ("$", None)


# What a version looks like.

class Picture(NamedTuple):
    """All characters in order with the place of each, and of each span its visible characters and its format."""
    order: list
    at: dict
    spans: list

    def visible(self):
        return list(itertools.chain.from_iterable(ids for ids, _ in self.spans))

    def span_of(self):
        """The index of each visible character's span."""
        return {own: index for index, (ids, _) in enumerate(self.spans) for own in ids}

    def start(self, end):
        """How many characters stand before an anchor."""
        sign, own = end
        if own is None:
            return 0 if sign == "^" else len(self.order)
        return self.at[own] + (sign == ">")


def place_of_key(key):
    return text.ORDER.index(key[0]), key[1] or 0


@functools.lru_cache(maxsize=None)
def told(found, form):
    """A format as one is told it who knows the keys up to this form; it is pairs of a key and its value."""
    return text.format_text(dict(found), form)


class Shown(text.Text):
    def __init__(self):
        super().__init__()
        self.behind, self.ordered = {}, []

    def take(self, op):
        if op[0] == "i":
            bisect.insort(self.behind.setdefault(op[2], []), op[1])
            self.ordered = None
        return super().take(op)

    def order(self):
        if self.ordered is None:
            self.ordered, waiting = [], list(self.behind[None])
            while waiting:
                own = waiting.pop()
                self.ordered.append(own)
                waiting += self.behind.get(own, ())
        return self.ordered

    def picture(self):
        order, layers = self.order(), {}
        picture = Picture(order, dict(zip(order, range(len(order)))), [])
        for _, _, key, value, (first, last) in sorted(self.marks, key=operator.itemgetter(1)):
            start, stop = picture.start(first), picture.start(last)
            if start < stop:
                if key not in layers:
                    layers[key] = [None] * len(order)
                layers[key][start:stop] = [value] * (stop - start)
        keys, now = sorted(layers, key=place_of_key), None
        rows = zip(*[layers[key] for key in keys]) if keys else itertools.repeat(())
        for own, row in zip(order, rows):
            if own not in self.removed:
                if row != now:
                    held = tuple((key, value) for key, value in zip(keys, row) if value is not None)
                    picture.spans.append(([], held))
                    now = row
                picture.spans[-1][0].append(own)
        return picture

    def text_of(self, ids):
        return "".join([chr(self.codes[own]) for own in ids])

    def lines(self, picture, form=LATEST):
        """What `hub spans` prints of a version, or a session to which the keys of later forms aren't told."""
        return [f"{index} {told(found, form)} " + self.text_of(ids).replace("\\", "\\\\").replace("\n", "\\n")
                for index, (ids, found) in enumerate(picture.spans)]

    def plain_lines(self):
        """The same by text.py, which looks for the last mark over each place."""
        plain = text.Text()
        plain.parents, plain.codes, plain.removed, plain.marks = self.parents, self.codes, self.removed, self.marks
        return text.printed(plain)


# Filters, each with its verdict as a formula.

class Filter(NamedTuple):
    """A program that folds these things of a span into one number, and if so said, of a strong span only."""
    things: tuple
    is_strong: bool = False

    def data(self):
        reads = {"first": behind_an_end_test("text", 1, 0x71, 0), "last": behind_an_end_test("text", 1, 0x71, -1, True)}
        body = b"".join(reads.get(thing) or of_fields(thing) for thing in self.things)
        if self.is_strong:
            body = load(9, "flags") + slot(0x57, 9, 0, 0, 1) + unless("eq", 9, 0, body)
        return whole(body)

    def verdict(self, span):
        verdict = 0
        if not self.is_strong or span["flags"] & 1:
            for thing in self.things:
                verdict = verdict * 31 + span[thing] & (1 << 64) - 1
        return verdict


FILTERS = [Filter(("flags", "color", "comments")), Filter(("flags", "index")), Filter(("flags", "count"), True),
           Filter(("first", "last")), Filter(("characters", "len", "last"), True), Filter(("index", "first"), True),
           Filter(("flags", "color", "link_len", "comments", "index", "count", "len", "characters", "first", "last")),
           Filter(("flags", "color", "comments", "version", "first"), True)]


@functools.lru_cache(maxsize=None)
def lent_of_format(form):
    keys, found = {key for (key, _), _ in form}, dict(form)
    return {"flags": sum(text.FLAG_BITS[key] for key in keys), "color": int(found.get(("color", None), "0"), 16),
            "link_len": len(found.get(("link", None), "")), "comments": sum(key == "comment" for (key, _), _ in form)}


def lent(shown, picture, number):
    """Of each span of a version what a filter may read."""
    out = []
    for index, (ids, form) in enumerate(picture.spans):
        data, link = shown.text_of(ids).encode(), dict(form).get(("link", None), "").encode()
        out.append({**lent_of_format(form), "index": index, "count": len(picture.spans), "version": number,
                    "len": len(data), "characters": len(ids), "first": data[0], "last": data[-1],
                    "text": data, "link": link})
    return out


def machine_says(one, span):
    """The filter's verdict by running its program."""
    numbers = [span[name] for name in ("flags", "color", "comments", "index", "count", "version")]
    given = context(span["text"], span["link"], *numbers)
    return int(Machine(one.data(), given, span["text"], span["link"]).run()[1].removeprefix("verdict "))


# Changes.

class Draft:
    """A change of a peer as it is written, line by line: each operation's counter is above all that it names."""

    def __init__(self, rng, shown, form, node, floor):
        self.rng, self.shown, self.form, self.node = rng, shown, form, node
        self.last, self.lines, self.count, self.new = max(floor, shown.counters.get(node, 0)), [], 0, []

    def room(self):
        return text.OPERATIONS - self.count

    def next_id(self, named):
        jump = self.rng.choice([1, 1, 1, 1, 1, 1, 2, 5]) if self.rng.random() < 0.999 else 1000
        return max([self.last] + [own[0] for own in named if own]) + jump, self.node

    def add(self, ops):
        self.lines.append(ops)
        self.count += text.count_of(ops)
        self.last = ops[-1][1][0]

    def insert(self, parent, codes):
        """A run, or characters on a line each."""
        codes = codes[:self.room()]
        if not codes:
            return
        if self.form > 1:
            ops = text.run_of(self.next_id([parent]), parent, codes)
            self.add(ops)
            self.new += [op[1] for op in ops]
        else:
            for code in codes:
                self.add([("i", self.next_id([parent]), parent, code)])
                parent = self.lines[-1][0][1]
                self.new.append(parent)

    def name_all(self, kind, ids):
        """A removal or a revival of each of these, in the third form as runs where they can be."""
        parts = text.consecutive(ids) if self.form == 3 else [[own] for own in ids]
        for part in parts[:self.room()]:
            self.add(text.id_run_of(kind, self.next_id(part), part[0], len(part)))

    def remove(self, targets):
        self.name_all("d", targets)

    def revive(self, removals):
        self.name_all("v", removals)

    def mark(self, kind, key, value, ends):
        if self.room():
            self.add([(kind, self.next_id([own for _, own in ends]), key, value if kind == "m" else None, ends)])

    def written(self):
        return text.change_lines(self.form, self.node, self.lines)


class Size(NamedTuple):
    """How a history begins, and how often which edits follow."""
    name: str
    characters: int
    marks: int
    weights: dict


SMALL = {"typed": 30, "remove": 26, "undo": 14, "mark": 24, "unmark": 8, "equal": 4, "far": 8, "cursors": 3, "at_ends": 6, "clear": 1}
LARGE = {"typed": 20, "remove": 14, "undo": 9, "mark": 14, "unmark": 14, "equal": 14, "far": 14, "cursors": 6, "at_ends": 8, "clear": 0.4}


def random_size(rng):
    way = rng.random()
    if way < 0.4:
        return Size("small", 0, 0, SMALL)
    if way < 0.7:
        return Size("middle", rng.randint(100, 260), rng.randint(40, 100), LARGE)
    if way < 0.95:
        return Size("long", rng.randint(520, 900), rng.randint(230, 330), LARGE)
    return Size("longest", rng.randint(1500, 2200), rng.randint(500, 650), LARGE)


class Writer:
    """Peers of which each knows the versions up to some one, and its own changes; what they write is taken in."""

    def __init__(self, rng):
        self.rng, self.shown = rng, Shown()
        self.picture = self.shown.picture()
        self.nodes = rng.sample(NODES, rng.choice([1, 2, 3, 3, 5]))
        self.seen, self.arrived, self.greatest = dict.fromkeys(self.nodes, 0), {}, [0]
        self.is_late = rng.choice([0, 0.2, 0.5])
        self.size = random_size(rng)

    # What a peer knows.

    def look(self, node):
        """The characters that a peer knows, in order; sometimes it first learns of all that is there."""
        if self.rng.random() >= self.is_late:
            self.seen[node] = self.shown.changes
        seen, arrived = self.seen[node], self.arrived
        if seen == self.shown.changes:
            self.known = self.picture.order
        else:
            self.known = [own for own in self.picture.order if arrived[own] <= seen or own[1] == node]
        self.there = [own for own in self.known if own not in self.shown.removed]

    def draft(self):
        """A draft with a counter above all that its peer knows, or one as low as it may be."""
        rng, node = self.rng, self.rng.choice(self.nodes)
        self.look(node)
        floor = self.greatest[self.seen[node]] if rng.random() < 0.8 else 0
        return Draft(rng, self.shown, rng.choice([1, 2, 2, 3, 3]), node, floor)

    def codes(self, lengths):
        return [self.rng.choice(CODES) for _ in range(self.rng.choice(lengths))]

    # Edits.

    def typed(self, draft):
        """Characters at the front, at the end, behind any, behind a new one, or beside another child of one parent."""
        rng, way, parent = self.rng, self.rng.randrange(7), None
        if way == 0 and draft.new:
            parent = rng.choice(draft.new)
        elif way <= 1 and self.known:
            parent = self.known[-1]
        elif way <= 2 and self.there:
            parent = self.there[-1]
        elif way <= 4 and self.known:
            parent = rng.choice(self.known)
        elif way <= 5 and self.known:
            parent = self.shown.parents[rng.choice(self.known)]
        draft.insert(parent, self.codes([1, 1, 1, 1, 2, 3, 5, 12]))

    def near(self, among, counts):
        """A few of these side by side: at the front, at the end, or anywhere."""
        count = min(len(among), self.rng.choice(counts))
        first = self.rng.choice([0, len(among) - count] + [self.rng.randint(0, len(among) - count)] * 4)
        return among[first:first + count]

    def remove(self, draft):
        """Visible characters, whole spans, or characters that may have been removed before."""
        way = self.rng.randrange(8)
        if way == 0 and self.known:
            draft.remove(self.near(self.known, [1, 1, 2, 5]))
        elif way <= 2 and self.picture.spans:
            ids = [own for ids, _ in self.near(self.picture.spans, [1, 1, 2]) for own in ids]
            draft.remove([own for own in ids if self.knows(draft.node, own)][:64])
        elif way == 3 and draft.new:
            draft.remove(self.near(draft.new, [1, 2]))
        elif self.there:
            draft.remove(self.near(self.there, [1, 1, 1, 2, 4, 9]))

    def undo(self, draft):
        """Removals that are taken back, of this change too: some that came one after the other, some side by side, or all of a few hidden characters."""
        rng, shown = self.rng, self.shown
        removals = {own: at for own, at in shown.removals.items() if self.knows(draft.node, own)}
        removals.update((op[1], op[2]) for line in draft.lines for op in line if op[0] == "d")
        if not removals:
            return self.typed(draft)
        draft.form = 3
        way, some = rng.randrange(4), self.near(list(removals), [1, 1, 2, 5, 20, 200])
        if way == 0:
            some = rng.sample(list(removals), min(len(removals), rng.choice([1, 2, 4])))
        if way == 1:
            characters = {removals[own] for own in some[:20]}
            some = [own for own, at in removals.items() if at in characters]
        draft.revive(sorted(some) if rng.random() < 0.8 else some)

    def around(self, first, last):
        """Anchors at both sides of visible characters, in one of the ways that cover these."""
        rng, at = self.rng, self.picture.at
        before, behind = ("<", first), (">", last)
        if rng.random() < 0.3:
            others = self.known
            left = bisect.bisect_left(others, at[first], key=at.get)
            right = bisect.bisect_right(others, at[last], key=at.get)
            before = rng.choice([before, (">", others[left - 1]) if left else START])
            behind = rng.choice([behind, ("<", others[right]) if right < len(others) else END])
        return before, behind

    def anchor(self):
        if not self.known or self.rng.random() < 0.15:
            return self.rng.choice([START, END])
        return self.rng.choice("<>"), self.rng.choice(self.known)

    def nothing(self):
        """Anchors that cover nothing visible: around a tombstone, one at the other, or in the wrong order."""
        rng = self.rng
        gone = [own for own in self.known if own in self.shown.removed]
        if gone and rng.random() < 0.6:
            own = rng.choice(gone)
            return ("<", own), (">", own)
        one, other = self.anchor(), self.anchor()
        if self.picture.start(one) < self.picture.start(other):
            one, other = other, one
        return rng.choice([(one, one), (one, other), (END, START)])

    def ends(self, draft):
        """The ends of a mark: of what the change types, over nothing, over all, at tombstones, or over a few."""
        rng, way = self.rng, self.rng.random()
        if draft.new and way < 0.3:
            return (rng.choice("<>"), draft.new[0]), (rng.choice("<>"), draft.new[-1])
        if way < 0.1 or not self.there:
            return self.nothing()
        if way < 0.16:
            return rng.choice([(START, END), self.around(self.there[0], self.there[-1])])
        if way < 0.24:
            return self.anchor(), self.anchor()
        if way < 0.32:
            return rng.choice([(START, self.anchor()), (self.anchor(), END)])
        gone = [own for own in self.near(self.known, [40]) if own in self.shown.removed]
        if way < 0.45 and gone:
            one, other = sorted([rng.choice(gone), rng.choice(self.near(self.known, [40]))], key=self.picture.at.get)
            return (rng.choice("<>"), one), (rng.choice("<>"), other)
        some = self.near(self.there, [1, 1, 2, 3, 5, 9, 30])
        return self.around(some[0], some[-1])

    def key(self, draft):
        name = self.rng.choice([key for key in KEYS if text.form_of_key(key) <= draft.form])
        return name, self.rng.choice(COMMENTS) if name == "comment" else None

    def value(self, key):
        return self.rng.choice(VALUES.get(key[0], ["-"]))

    def mark(self, draft):
        key = self.key(draft)
        draft.mark(self.rng.choice("mmmu"), key, self.value(key), self.ends(draft))

    def unmark(self, draft):
        """An earlier mark's place again: the key is taken away, or has another value."""
        for _ in range(min(4, len(self.shown.marks))):
            _, _, key, _, ends = self.rng.choice(self.shown.marks[-400:])
            known = all(own is None or self.knows(draft.node, own) for _, own in ends)
            if known and text.form_of_key(key[0]) <= draft.form:
                draft.mark(self.rng.choice("uuum"), key, self.value(key), ends)
                return
        self.mark(draft)

    def knows(self, node, own):
        return self.arrived[own] <= self.seen[node] or own[1] == node

    def equal(self, draft):
        """A span is given its neighbor's format, often one of those spans that begin or end 64."""
        rng, spans = self.rng, self.picture.spans
        borders = [at for at in range(64, len(spans), 64)]
        if len(spans) < 2:
            return self.mark(draft)
        at = rng.choice(borders) if borders and rng.random() < 0.4 else rng.randrange(1, len(spans))
        at = min(len(spans) - 1, max(1, at + rng.choice([0, 0, 0, -1, 1])))
        (ids, own), (_, other) = (spans[at], spans[at - 1]) if rng.random() < 0.5 else (spans[at - 1], spans[at])
        if not (self.knows(draft.node, ids[0]) and self.knows(draft.node, ids[-1])):
            return self.mark(draft)
        own, other, ends = dict(own), dict(other), self.around(ids[0], ids[-1])
        for key in sorted(own.keys() | other.keys(), key=place_of_key):
            if own.get(key) != other.get(key):
                draft.form = max(text.form_of_key(key[0]), draft.form)
                draft.mark("m" if key in other else "u", key, other.get(key), ends)

    def far(self, draft):
        """Small edits at several places of the text."""
        rng, there, last = self.rng, self.there, len(self.there) - 1
        if last < 3:
            return self.typed(draft)
        places = rng.sample(range(last + 1), min(rng.choice([2, 2, 3, 5]), last + 1))
        for at in places + rng.choice([[], [0], [last], [0, last]]):
            way = rng.randrange(3)
            if way == 0:
                draft.insert(rng.choice([there[at], there[at - 1] if at else None]), self.codes([1, 1, 2, 4]))
            elif way == 1:
                draft.remove([there[at]])
            else:
                key, until = self.key(draft), there[min(last, at + rng.choice([0, 1, 3]))]
                draft.mark(rng.choice("mmu"), key, self.value(key), self.around(there[at], until))

    def cursors(self, draft):
        """One small edit at many places at once, in any order of them."""
        rng, there = self.rng, self.there
        if len(there) < 24:
            return self.far(draft)
        places = rng.sample(there, min(rng.choice([10, 12, 20, 40]), len(there) // 2))
        way, codes, key = rng.randrange(4), self.codes([1, 1, 2]), self.key(draft)
        for own in places:
            if way in (0, 3):
                draft.insert(own, codes)
            if way in (1, 3):
                draft.remove([own])
            if way == 2:
                draft.mark("m", key, self.value(key), self.around(own, own))

    def at_ends(self, draft):
        """The first and the last visible character, or the text's start and end."""
        rng = self.rng
        for _ in range(rng.choice([1, 1, 2])):
            way, is_first = rng.randrange(3), rng.random() < 0.5
            if way == 0 or not self.there:
                draft.insert(None if is_first or not self.known else self.known[-1], self.codes([1, 1, 3]))
            elif way == 1:
                draft.remove([self.there[0 if is_first else -1]])
            else:
                key, own = self.key(draft), self.there[0 if is_first else -1]
                before, behind = self.around(own, own)
                ends = rng.choice([(before, behind), (START, behind) if is_first else (before, END)])
                draft.mark(rng.choice("mmu"), key, self.value(key), ends)

    def clear(self, draft):
        """All of a short text is removed, or each key is taken away from all, or from a half."""
        rng = self.rng
        if len(self.there) <= 200 and rng.random() < 0.6:
            return draft.remove(self.there)
        draft.form = LATEST
        keys = sorted({op[2] for op in self.shown.marks}, key=place_of_key)
        middle = ("<", rng.choice(self.there)) if self.there else START
        ends = rng.choice([(START, END), (START, END), (START, middle), (middle, END)])
        for key in keys:
            draft.mark("u", key, None, ends)

    def paint(self, draft):
        """A mark over each other character, so that a text of many spans comes of it."""
        draft.form = max(draft.form, self.rng.choice([2, LATEST]))
        places = list(range(0, len(self.there) - 1, 2))
        for at in self.rng.sample(places, min(len(places), self.size.marks, draft.room())):
            key = self.key(draft)
            draft.mark("m", key, self.value(key), (("<", self.there[at]), (">", self.there[at])))

    # Changes.

    def edited(self):
        """A draft of one edit or a few. A text that has lost its spans is painted again sooner or later."""
        draft = self.draft()
        weights = dict(self.size.weights)
        if len(self.picture.spans) < self.size.marks * 2 // 3 and self.there:
            weights["paint"] = 12
        for edit in self.rng.choices(list(weights), weights.values(), k=self.rng.choice([1, 1, 1, 1, 2, 3])):
            getattr(self, edit)(draft)
        if not draft.lines:
            self.typed(draft)
        return draft

    def begun(self):
        """A draft that makes the text longer while it is shorter than it begins with; None where it isn't."""
        missing = self.size.characters - len(self.picture.order)
        if missing <= 0:
            return None
        self.is_late, late = 0, self.is_late
        draft = self.draft()
        self.is_late, draft.form = late, 2
        draft.insert(self.known[-1] if self.known else None, self.codes([min(missing, 256)]))
        return draft

    def change(self):
        """The next change: its draft, and the picture before it and after it."""
        draft, before = self.begun() or self.edited(), self.picture
        self.shown.accept(draft.lines)
        for ops in draft.lines:
            for op in ops:
                if op[0] in "id":
                    self.arrived[op[1]] = self.shown.changes
        self.greatest.append(max(self.greatest[-1], draft.last))
        self.picture = self.shown.picture()
        return draft, before, self.picture
