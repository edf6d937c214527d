"""Changes of all three forms read and taken in, and what `hub spans` and sessions say of them, apart from the code of the hub.

    text.py spans [WORDS..] < CHANGES    prints what `hub spans` prints of them, with these options
    text.py replay [WORDS..] < LINES     prints what `hub replay` prints with these options, where all programs are of PROGRAMS
    text.py check STDIN STDOUT           compares the cases of `spans` and of such sessions, as crates/test_cases has them, with this model
    text.py rows FOLDER..                compares folders of worked rows (NAME, NAME.args, NAME.stdout) with it
    text.py cases FOLDER                 writes random cases of the first two forms, FOLDER/text.stdin and FOLDER/text.stdout

The rules are those of docs/CHANGE_FORMAT.md, docs/PERITEXT.md, docs/REFUSALS.md and docs/SESSIONS.md. Characters are a tree; a format is what
each key's last mark over a character says, looked for among all marks.
"""

import math
import pathlib
import random
import re
import sys
from typing import NamedTuple

from cases import Cases
from machine import run, slot

NAMES = {40: "BadLine", 41: "Truncated", 42: "Limit", 43: "CharRefused", 44: "WrongPeer", 45: "OutOfMemory", 46: "StaleCounter", 47: "UnknownRef",
         48: "DocumentFull", 49: "MarksFull", 50: "HistoryFull", 51: "SubscribersFull", 52: "NoSubscriber", 54: "BadCapacity", 55: "NoVersion",
         60: "BadCommand", 61: "LineTooLong", 62: "TextRefused"}
# The most changes, characters and marks by size; how many bytes are shown at each.
SIZES = {"small": (4096, 32768, 4096), "large": (65536, 262144, 16384)}
BYTES, OPERATIONS = 131072, 256
# How many operations a run of removals or of revivals may mean, and a whole change.
RUN, MEANT = 65535, 262144
# Subscribers in all, closed ones counted, and at one time.
SUBSCRIBERS = {"small": (64, 64), "large": (4096, 256)}
# How many MiB of a document's memory are left for each change.
LEFT_FOR_A_CHANGE = {"small": 3, "large": 10}
COUNTER, NODE, COMMENT, LINK = (1 << 48) - 1, 65535, (1 << 32) - 1, 1024


class Refused(Exception):
    """A refusal, and the line of the change that it names, where it names one."""

    def __init__(self, number, line=None):
        super().__init__(number, line)
        self.number, self.line = number, line


def refusal(number, *places):
    return " ".join([f"{number} {NAMES[number]}"] + [f"{what} {at}" for what, at in places])


# Reading a change.

def number_in(word, base=10):
    digits = "0123456789abcdef"[:base]
    if not word or any(c not in digits for c in word) or len(word) > 1 and word[0] == "0":
        raise Refused(40)
    return int(word, base) if len(word) < 60 else 1 << 70


def id_in(word):
    parts = word.split("@")
    if len(parts) != 2:
        raise Refused(40)
    return number_in(parts[0]), number_in(parts[1])


def parent_in(word):
    return None if word == "-" else id_in(word)


def anchor_in(word):
    if word in ("^", "$"):
        return word, None
    if word[:1] not in ("<", ">"):
        raise Refused(40)
    return word[0], id_in(word[1:])


def code_in(word):
    if len(word) > 6:
        raise Refused(40)
    return number_in(word, 16)


class Key(NamedTuple):
    """A key of one value: the first form of changes that has it, what its value may be, its bit among a context's flags."""
    form: int
    values: str
    flag: int


NOTHING, KIND = "-", "heading:[1-6]|(bullet|number):[0-7]|task:[0-7]:(open|done)|quote|pre|rule"
KEYS = {"strong": Key(1, NOTHING, 1), "em": Key(1, NOTHING, 2), "code": Key(2, NOTHING, 32), "link": Key(1, "[!-~]+", 4),
        "color": Key(1, "[0-9a-f]{6}", 8), "underline": Key(3, NOTHING, 0), "strike": Key(3, NOTHING, 0), "block": Key(3, KIND, 0)}
# How a format is printed. A session that doesn't ask for them is not told the keys of the third form.
ORDER = ["strong", "em", "code", "link", "color", "comment", "underline", "strike", "block"]
FLAG_BITS = {"comment": 16, **{name: key.flag for name, key in KEYS.items()}}


def form_of_key(name):
    """The first form of changes that has a key."""
    return 1 if name == "comment" else KEYS[name].form


def key_in(form, word):
    """A key: its name, and a comment's number."""
    if word in KEYS and KEYS[word].form <= form:
        return word, None
    if not word.startswith("comment:"):
        raise Refused(40)
    return "comment", number_in(word[len("comment:"):])


def value_in(key, word):
    if not re.fullmatch(NOTHING if key[0] == "comment" else KEYS[key[0]].values, word):
        raise Refused(40)
    return word


def fields(words, count):
    if len(words) != count:
        raise Refused(40)
    return words[1:]


def shape_of(form, line):
    """What a line says, of numbers of any size: (kind, own id, named ids, kind's own part)."""
    words = line.split(" ")
    if words[0] == "i":
        own, parent, code = fields(words, 4)
        own, parent, code = id_in(own), parent_in(parent), code_in(code)
        return "i", own, [parent] if parent else [], (parent, [code])
    if words[0] == "d" or words[0] == "v" and form == 3:
        own, target, *count = fields(words, 4 if form == 3 and len(words) == 4 else 3)
        own, target, count = id_in(own), id_in(target), number_in(count[0]) if count else None
        return words[0], own, [target], (target, count)
    if words[0] in ("m", "u"):
        own, key, *value, start, end = fields(words, 6 if words[0] == "m" else 5)
        own, key, ends = id_in(own), key_in(form, key), (anchor_in(start), anchor_in(end))
        value = value_in(key, value[0]) if value else None
        return words[0], own, [at for _, at in ends if at], (key, value, ends)
    if words[0] == "r" and form > 1 and len(words) >= 4:
        own, parent, count = id_in(words[1]), parent_in(words[2]), number_in(words[3])
        codes = [code_in(word) for word in words[4:]]
        if len(codes) != count:
            raise Refused(40)
        return "r", own, [parent] if parent else [], (parent, codes)
    raise Refused(40)


def are_within(shape):
    """Whether the numbers and the link of a line are within their limits."""
    kind, own, named, part = shape
    if any(not (1 <= counter <= COUNTER and 1 <= node <= NODE) for counter, node in [own] + named):
        return False
    if kind == "r":
        return 2 <= len(part[1]) <= OPERATIONS and own[0] + len(part[1]) - 1 <= COUNTER
    if kind in "dv":
        target, count = part
        return count is None or 2 <= count <= RUN and max(own[0], target[0]) + count - 1 <= COUNTER
    if kind in "mu":
        (key, comment), value = part[:2]
        return (key != "comment" or 1 <= comment <= COMMENT) and (key != "link" or kind == "u" or len(value) <= LINK)
    return True


def run_of(own, parent, codes):
    """The inserts of characters of which each stands behind the one before it."""
    counter, node = own
    ids = [(counter + at, node) for at in range(len(codes))]
    return [("i", own, behind, code) for own, behind, code in zip(ids, [parent] + ids, codes)]


def id_run_of(kind, own, first, count):
    """Removals, or revivals, with consecutive ids, of as many consecutive ids."""
    return [(kind, (own[0] + at, own[1]), (first[0] + at, first[1])) for at in range(count)]


def consecutive(ids):
    """Ids in parts, in each of which every next one is the same peer's and greater by one."""
    parts = []
    for own in ids:
        if parts and (parts[-1][-1][0] + 1, parts[-1][-1][1]) == own:
            parts[-1].append(own)
        else:
            parts.append([own])
    return parts


def operations_of(shape):
    """The operations that a line means: ("i", id, parent, code), ("d", id, character), ("v", id, removal), ("m" or "u", id, key, value, ends)."""
    kind, own, _, part = shape
    if kind in "dv":
        return id_run_of(kind, own, part[0], part[1] or 1)
    return [(kind, own) + part] if kind in "mu" else run_of(own, *part)


def count_of(ops):
    """How many of a change's 256 operations a line with these is: a run of removals or of revivals is one."""
    return 1 if ops[0][0] in "dv" else len(ops)


def named(op):
    """The ids that an operation names: of characters, or a revival's removal."""
    if op[0] == "i":
        return [op[2]] if op[2] else []
    return [op[2]] if op[0] in "dv" else [at for _, at in op[4] if at]


def is_character(code):
    return 0 < code < 0xd800 or 0xe000 <= code <= 0x10ffff


def read_line(form, peer, before, line):
    """The operations of a line, behind its change's earlier lines, which count as `before` and mean so many."""
    shape = shape_of(form, line)
    if not are_within(shape):
        raise Refused(42)
    ops, (counted, meant) = operations_of(shape), before
    if counted + count_of(ops) > OPERATIONS or meant + len(ops) > MEANT:
        raise Refused(42)
    if any(op[0] == "i" and not is_character(op[3]) for op in ops):
        raise Refused(43)
    if shape[1][1] != peer:
        raise Refused(44)
    return ops


FORMS = {"change": 1, "change2": 2, "change3": 3}


def read_header(line):
    """The form of a change, the peer's node, and the count of lines."""
    words = line.split(" ")
    if len(words) != 3 or words[0] not in FORMS:
        raise Refused(40)
    node, count = number_in(words[1]), number_in(words[2])
    if not (1 <= node <= NODE and 1 <= count <= OPERATIONS):
        raise Refused(42)
    return FORMS[words[0]], node, count


def at_line(number, read, *arguments):
    try:
        return read(*arguments)
    except Refused as why:
        raise Refused(why.number, number) from None


def read_change(text):
    """The change at the front of a text, a list of operations for each of its lines, and what follows it."""
    header, lf, rest = text.partition("\n")
    if not lf:
        raise Refused(41)
    form, peer, count = at_line(1, read_header, header)
    lines, before = [], (0, 0)
    for number in range(2, count + 2):
        line, lf, after = rest.partition("\n")
        if not lf:
            raise Refused(41)
        lines.append(at_line(number, read_line, form, peer, before, line))
        before, rest = (before[0] + count_of(lines[-1]), before[1] + len(lines[-1])), after
    return lines, rest


# What is accepted, and what it looks like.

def length_of(code):
    return len(chr(code).encode())


class Text:
    def __init__(self, size="small"):
        self.parents, self.codes, self.removed, self.marks, self.counters, self.changes = {}, {}, set(), [], {}, 0
        # The character of each removal, the removals that are taken back, and those of each hidden character that aren't.
        self.removals, self.back, self.standing = {}, set(), {}
        self.limits, self.bytes = SIZES[size], 0

    def fault(self, op):
        counter, node = op[1]
        if counter <= self.counters.get(node, 0) or any(counter <= other for other, _ in named(op)):
            return 46
        if any(at not in (self.removals if op[0] == "v" else self.codes) for at in named(op)):
            return 47
        if op[0] == "i" and len(self.codes) == self.limits[1]:
            return 48
        if self.bytes + self.shown_by(op) > BYTES:
            return 48
        if op[0] in "mu" and len(self.marks) == self.limits[2]:
            return 49
        return None

    def shown_by(self, op):
        """The bytes of the character that an operation shows: of an insert's, or of one that only the removal hides which is taken back."""
        if op[0] == "v":
            character = self.removals[op[2]]
            return length_of(self.codes[character]) if self.standing.get(character) == {op[2]} else 0
        return length_of(op[3]) if op[0] == "i" else 0

    def stand(self, removal):
        """A removal hides its character."""
        character = self.removals[removal]
        self.standing.setdefault(character, set()).add(removal)
        if character not in self.removed:
            self.removed.add(character)
            self.bytes -= length_of(self.codes[character])

    def fall(self, removal):
        """It hides it no more, and another one may."""
        character = self.removals[removal]
        self.standing[character].discard(removal)
        if not self.standing[character]:
            del self.standing[character]
            self.removed.discard(character)
            self.bytes += length_of(self.codes[character])

    def take(self, op):
        """Takes an operation in, and gives what takes it out again."""
        counter, node = op[1]
        last, was_back = self.counters.get(node), op[0] == "v" and op[2] in self.back
        self.counters[node] = counter
        if op[0] == "i":
            self.parents[op[1]], self.codes[op[1]] = op[2], op[3]
            self.bytes += length_of(op[3])
        elif op[0] == "d":
            self.removals[op[1]] = op[2]
            self.stand(op[1])
        elif op[0] == "v":
            self.back.add(op[2])
            self.fall(op[2]) if not was_back else None
        else:
            self.marks.append(op)
        return op, last, was_back

    def take_out(self, op, last, was_back):
        node = op[1][1]
        if last is None:
            del self.counters[node]
        else:
            self.counters[node] = last
        if op[0] == "i":
            del self.parents[op[1]], self.codes[op[1]]
            self.bytes -= length_of(op[3])
        elif op[0] == "d":
            self.fall(op[1])
            del self.removals[op[1]]
        elif op[0] == "v":
            if not was_back:
                self.back.discard(op[2])
                self.stand(op[2])
        else:
            self.marks.pop()

    def accept(self, lines):
        """Takes a change in, whole; else refuses it, at one of its lines."""
        if self.changes == self.limits[0]:
            raise Refused(50)
        taken = []
        for number, ops in enumerate(lines, 2):
            for op in ops:
                why = self.fault(op)
                if why:
                    for one in reversed(taken):
                        self.take_out(*one)
                    raise Refused(why, number)
                taken.append(self.take(op))
        self.changes += 1

    def order(self):
        """All characters, removed ones too: each behind its parent, that with the greatest id nearest to it."""
        behind = {}
        for own in sorted(self.parents):
            behind.setdefault(self.parents[own], []).append(own)
        out, waiting = [], behind.get(None, [])
        while waiting:
            out.append(waiting.pop())
            waiting += behind.get(out[-1], [])
        return out

    def spans(self):
        """The text of each span, and its format: what each key holds."""
        order, out = self.order(), []
        at = {own: place for place, own in enumerate(order)}
        ends = {"^": lambda own: 0, "<": lambda own: at[own], ">": lambda own: at[own] + 1, "$": lambda own: len(order)}
        placed = sorted((op[1], ends[a](x), ends[b](y), op) for op in self.marks for (a, x), (b, y) in [op[4]])
        cuts = {0} | {end for _, start, stop, _ in placed for end in (start, stop)}
        for place, own in enumerate(order):
            if place in cuts:
                last = {op[2]: op for _, start, stop, op in placed if start <= place < stop}
                found = {key: op[3] for key, op in last.items() if op[0] == "m"}
            if own not in self.removed:
                if not out or out[-1][1] != found:
                    out.append(["", found])
                out[-1][0] += chr(self.codes[own])
        return out


def format_text(found, form=3):
    """A format as one is told it who knows the keys of the forms up to this one."""
    parts = []
    for key, number in sorted(found, key=lambda k: (ORDER.index(k[0]), k[1] or 0)):
        if form_of_key(key) > form:
            continue
        text = f"{key}:{number}" if key == "comment" else key
        parts.append(text if found[key, number] == "-" and key != "link" else f"{text}={found[key, number]}")
    return ",".join(parts) or "plain"


def lines_of(spans, form=3):
    return [f"{index} {format_text(found, form)} " + span.replace("\\", "\\\\").replace("\n", "\\n")
            for index, (span, found) in enumerate(spans)]


def printed(text):
    return lines_of(text.spans())


def spans_of(data, size="small"):
    """What `hub spans` prints of this input, and its exit status."""
    try:
        rest = data.decode("utf-8")
    except UnicodeDecodeError:
        return ["refused " + refusal(62)], 1
    text, number = Text(size), 1
    while rest:
        try:
            lines, rest = read_change(rest)
            text.accept(lines)
        except Refused as why:
            places = [("change", number)] + ([("line", why.line)] if why.line else [])
            return ["refused " + refusal(why.number, *places)], 1
        number += 1
    return printed(text), 0


# Sessions.

# Programs that sessions may have here, which are all accepted: the machine of machine.py runs them.
FLAGS = "61101800000000009500000000000000"
CHARACTERS_OF = "61101400000000009500000000000000"
STRONG = "611018000000000057000000010000009500000000000000"
READ_ALL = (slot(0xb7, 0) + b"".join(slot(0x27, 0, 0, 0, 31) + slot(opcode, 2, 1, offset) + slot(0x0f, 0, 2)
                                     for opcode, offset in [(0x61, at) for at in (16, 20, 24, 28, 32, 36, 40, 44)] + [(0x79, 48)])
            + slot(0x95)).hex()
PROGRAMS = {"b7000000010000009500000000000000", "b7000000020000009500000000000000", FLAGS, CHARACTERS_OF, STRONG, READ_ALL}


class Foreign(Exception):
    """What this model doesn't know."""


def items_of(spans, program, number):
    """What a subscriber is sent of a version."""
    out = []
    for index, (span, found) in enumerate(spans):
        keys = {key for key, _ in found}
        context = dict(flags=sum(FLAG_BITS[key] for key in keys), color=int(found.get(("color", None), "0"), 16),
                       link=found.get(("link", None), ""), comments=sum(key == "comment" for key, _ in found),
                       index=index, count=len(spans), number=number)
        status, said = run(bytes.fromhex(program), span.encode(), **context)
        if status:
            sys.exit(f"a program meets a fault: {said}")
        if said != "verdict 0":
            out.append(f"hit {number} {index} {said.split()[1]}")
    return out + [f"end {number} {len(spans)}"]


def number_of(word):
    """A number of a line, which has 64 bits."""
    if int(word) >= 1 << 64:
        raise Refused(60)
    return int(word)


class Session:
    def __init__(self, data, reads=False, jump=None, limits=None, size="small", memory=None):
        # With less than is left for one change none is taken; how much a document takes of more than that isn't modelled.
        self.has_memory = memory is None or memory > LEFT_FOR_A_CHANGE[size]
        self.jump, self.limits, self.used = jump, limits or {}, {"changes": 0, "bytes": 0, "subscribers": 0}
        self.rest, self.text, self.versions, self.subscribers, self.out = data, Text(size), [[]], [], []
        self.reads, self.spellings, self.places = reads, [], SUBSCRIBERS[size]

    def line(self):
        """The next line: None at the end, and else its bytes, and whether it has its line feed."""
        line, lf, rest = self.rest.partition(b"\n")
        if len(line) + len(lf) > 70000:
            raise Refused(61)
        self.rest = rest
        return (line, bool(lf)) if line or lf else None

    def legible(self, line):
        try:
            return line.decode("utf-8") + "\n"
        except UnicodeDecodeError:
            return "\n"

    def use(self, refusal, **more):
        """Counts what the session has accepted, or refuses it where that would be more than it may have."""
        if any(self.used[name] + count > self.limits.get(name, math.inf) for name, count in more.items()):
            raise Refused(refusal)
        return {name: self.used[name] + count for name, count in more.items()}

    def look_at_counters(self, lines):
        """Refuses the first line with a counter that is too far above all accepted ones."""
        greatest = max(self.text.counters.values(), default=0)
        for number, ops in enumerate(lines, 2):
            if self.jump is not None and any(op[1][0] > greatest + self.jump for op in ops):
                raise Refused(42, number)

    def change(self, line):
        gathered = self.legible(line)
        try:
            count = read_header(gathered[:-1])[2]
        except Refused:
            count = 0
        for _ in range(count):
            following = self.line()
            if following is None or not following[1]:
                break
            gathered += self.legible(following[0])
        lines, _ = read_change(gathered)
        self.look_at_counters(lines)
        used = self.use(50, changes=1, bytes=len(gathered.encode()))
        if not self.has_memory:
            raise Refused(45)
        self.text.accept(lines)
        self.used.update(used)
        self.versions.append(self.text.spans())
        self.spellings.append(gathered.splitlines())
        return [f"ok version {self.text.changes}"]

    def subscribe(self, capacity, program, first=None):
        first = len(self.versions) - 1 if first is None else number_of(first)
        if not 1 <= number_of(capacity) <= 1024:
            raise Refused(54)
        if program not in PROGRAMS:
            raise Foreign
        used = self.use(51, subscribers=1)
        if not all(self.places_left()):
            raise Foreign
        if first >= len(self.versions):
            raise Refused(55)
        self.used.update(used)
        self.subscribers.append([first, 0, program])
        return [f"ok sub {len(self.subscribers) - 1}"]

    def open(self, number):
        if number_of(number) >= len(self.subscribers) or not self.subscribers[int(number)]:
            raise Refused(52)
        return self.subscribers[int(number)]

    def pull(self, number, count):
        if not 1 <= number_of(count) <= 1024:
            raise Refused(60)
        subscriber, out = self.open(number), []
        while len(out) < int(count) and subscriber[0] < len(self.versions):
            version, taken, program = subscriber
            due = items_of(self.versions[version], program, version)[taken:][:int(count) - len(out)]
            out += due
            subscriber[1] += len(due)
            if out[-1].startswith("end"):
                subscriber[:2] = version + 1, 0
        is_full = self.reads and self.text.changes == self.text.limits[0]
        return out + [f"ok items {len(out)}" + " full" * (is_full and not out)]

    def close(self, number):
        self.open(number)
        self.subscribers[int(number)] = None
        return [f"ok closed {number}"]

    def latest(self):
        return [f"ok latest {self.text.changes}"]

    def at_version(self, number):
        if number_of(number) > self.text.changes:
            raise Refused(55)
        return int(number)

    def show(self, is_told_all, number, first, count):
        if not 1 <= number_of(count) <= 1024 or number_of(number) < 0 or number_of(first) < 0:
            raise Refused(60)
        spans = lines_of(self.versions[self.at_version(number)], 3 if is_told_all else 2)
        return ["span " + line for line in spans[int(first):int(first) + int(count)]] + [f"ok spans {len(spans)}"]

    def changes(self, first, count):
        if not 1 <= number_of(count) <= 64:
            raise Refused(60)
        told = self.spellings[self.at_version(first):][:int(count)]
        return [line for lines in told for line in lines] + [f"ok changes {len(told)}"]

    def newest(self, node):
        if not 1 <= number_of(node) <= NODE:
            raise Refused(42, 1)
        return [f"ok newest {self.text.counters.get(int(node), 0)}"]

    def listening(self):
        return [subscriber for subscriber in self.subscribers if subscriber]

    def places_left(self):
        return [most - count for most, count in zip(self.places, (len(self.subscribers), len(self.listening())))]

    def left(self):
        """A character takes at least one byte."""
        text = self.text
        changes, characters, marks = [limit - count for limit, count in zip(text.limits, (text.changes, len(text.codes), len(text.marks)))]
        return ["ok left " + " ".join(map(str, (changes, min(characters, BYTES - text.bytes), marks, min(self.places_left()))))]

    def stats(self):
        """A subscriber's queue must have had room for all that was due when it was last pulled, so that it was sent what it was given."""
        text, listening = self.text, self.listening()
        visible = "".join(chr(code) for at, code in text.codes.items() if at not in text.removed)
        told = [("versions", text.changes), ("characters", len(visible)), ("removed", len(text.removed)), ("marks", len(text.marks)), ("subscribers", len(listening)),
                ("subscribed", len(self.subscribers)), ("sessions", 1), ("bytes", len(visible.encode())),
                ("lag", max((text.changes + 1 - version for version, _, _ in listening), default=0))]
        ever, at_once = self.places
        limits = dict(zip(("changes", "characters", "marks"), text.limits), bytes=BYTES, subscribers=ever, open=at_once)
        used = {"changes": text.changes, "characters": len(text.codes), "marks": len(text.marks), "bytes": len(visible.encode()),
                "subscribers": len(self.subscribers), "open": len(listening)}
        parts = {name: count * 1000 // limits[name] for name, count in used.items()}
        told += [("changes-used", parts["changes"]), ("characters-used", max(parts["characters"], parts["bytes"])),
                 ("marks-used", parts["marks"]), ("subscribers-used", max(parts["subscribers"], parts["open"]))]
        told += [(name + "-limit", limits[name]) for name in ("changes", "characters", "bytes", "marks", "subscribers", "open")]
        return ["ok stats " + " ".join(f"{name} {count}" for name, count in told)]

    def is_foreign(self, line):
        """Whether it is the line of an HTTP request, with or without a CR, or the beginning of a handshake of TLS."""
        return re.search(rb" HTTP/1\.[01]\r?\Z", line) is not None or line[:2] == b"\x16\x03"

    def answer(self, line, ended):
        if line.split(b" ")[0] in (b"change", b"change2", b"change3"):
            if not ended:
                raise Refused(41)
            return self.change(line)
        number = "(0|[1-9][0-9]*)"
        forms = [("sub[23]? %s ([^ ]+)(?: from %s)?" % (number, number), self.subscribe),
                 ("pull %s %s" % (number, number), self.pull), ("close %s" % number, self.close)]
        if self.reads:
            forms += [("latest", self.latest), ("left", self.left), ("stats", self.stats), ("show(3?) %s %s %s" % (number, number, number), self.show),
                      ("changes %s %s" % (number, number), self.changes), ("newest %s" % number, self.newest)]
        for form, act in forms:
            found = re.fullmatch(form, line.decode("latin-1"))
            if found and ended:
                return act(*found.groups())
        raise Refused(60)

    def replies(self):
        while True:
            try:
                following = self.line()
                if following is None:
                    return self.out
                if self.is_foreign(following[0]):
                    self.out.append("no " + refusal(60))
                    return self.out
                self.out += self.answer(*following)
            except Refused as why:
                self.out.append("no " + refusal(why.number, *([("line", why.line)] if why.line else [])))
                if why.number == 61:
                    return self.out


# Cases that are there.

def bytes_of(text):
    """Input as a case has it, where a backslash and two digits are a byte."""
    return re.sub(rb"\\([0-9a-f]{2})", lambda found: bytes([int(found[1], 16)]), text.encode())


def read_case(block):
    """The name, the words and the input of a case, by the head of crates/test_cases/src/main.rt."""
    name, words, data = "", [], b""
    for line in block.split("\n"):
        key, _, rest = line.partition(" ")
        if key == "case":
            name = rest
        elif key == "args":
            words += rest.split(" ")
        elif key == "arg":
            words.append(rest)
        elif key == "more":
            count, _, text = rest.partition(" ")
            words[-1] += text * int(count)
        elif key == "line":
            data += bytes_of(rest) + b"\n"
        elif key == "text":
            data += bytes_of(rest)
        elif key == "times":
            count, _, text = rest.partition(" ")
            data += bytes_of(text) * int(count)
        elif key == "count":
            first, last, text = rest.split(" ", 2)
            for n in range(int(first), int(last) + 1):
                data += bytes_of(text.replace("{n-1}", str(n - 1)).replace("{n}", str(n))) + b"\n"
        elif key != "#":
            sys.exit(f"no line of a case: {line}")
    return name, words, data


def options_of(words):
    """What the options of `replay` ask for; None where they are wrong."""
    found, rest = {}, list(words)
    while rest:
        word = rest.pop(0)
        if word == "--read" and "reads" not in found:
            found["reads"] = True
        elif word == "--size" and "size" not in found and rest and rest[0] in SIZES:
            found["size"] = rest.pop(0)
        elif word == "--workers" and rest[:1] and rest[0] in map(str, range(1, 17)):
            rest.pop(0)
        elif word == "--counter-jump" and "jump" not in found and rest and re.fullmatch("[0-9]+", rest[0]) and 1 <= int(rest[0]) < 2 ** 64:
            found["jump"] = int(rest.pop(0))
        elif word == "--memory" and "memory" not in found and rest and re.fullmatch("[0-9]+", rest[0]) and 1 <= int(rest[0]) < 2 ** 32:
            found["memory"] = int(rest.pop(0))
        elif word == "--per-session" and "limits" not in found and rest:
            parts = [re.fullmatch("(changes|subscribers|bytes)=([0-9]+)", part) for part in rest.pop(0).split(",")]
            if not all(part and int(part[2]) < 2 ** 64 for part in parts) or len({part[1] for part in parts}) < len(parts):
                return None
            found["limits"] = {part[1]: int(part[2]) for part in parts}
        else:
            return None
    return found


def answer_of(words, data):
    """What the program is to print, and its exit status; Foreign where this model doesn't know."""
    if words[:1] == ["spans"]:
        options = options_of(words[1:])
        if options is not None and set(options) <= {"size"}:
            return spans_of(data, **options)
        if words[1:2] == ["--size"]:
            return [], 2
        raise Foreign
    if words[:1] == ["replay"]:
        options = options_of(words[1:])
        return ([], 2) if options is None else (Session(data, **options).replies(), 0)
    raise Foreign


def compared(cases):
    """Compares cases (name, words, input, lines, status or None) with the model."""
    same = other = unknown = 0
    for name, words, data, lines, status in cases:
        try:
            found, code = answer_of(words, data)
        except Foreign:
            unknown += 1
            continue
        if found == lines and status in (None, code):
            same += 1
            continue
        other += 1
        print(f"{name}: the case has {status} and")
        print("\n".join("    " + line[:160] for line in lines[:8]))
        print(f"  the model {code} and\n" + "\n".join("    " + line[:160] for line in found[:8]))
    print(f"{same} alike, {other} not, {unknown} of what the model doesn't know")
    return 1 if other else 0


def check(stdin, stdout):
    answers, name = {}, None
    for line in pathlib.Path(stdout).read_text(encoding="utf-8").split("\n"):
        if line.startswith("> "):
            answers[name][1].append(line[2:])
        elif re.fullmatch(r"[^ ]+: \d", line):
            name = line[:-3]
            answers[name] = int(line[-1]), []
    blocks = pathlib.Path(stdin).read_text(encoding="utf-8").rstrip("\n").split("\n\n")
    cases = [read_case(block) for block in blocks if re.search("^case ", block, re.MULTILINE)]
    return compared((name, words, data, *answers[name][::-1]) for name, words, data in cases)


def check_rows(folders):
    """Rows that a list `until` beside their folder names are left out: what it says of them was so once."""
    cases = []
    for folder in map(pathlib.Path, folders):
        until = folder.parent / "until"
        old = {line.split(" ")[0] for line in until.read_text().split("\n")} if until.exists() else set()
        for words in sorted(folder.glob("*.args")):
            name, want = words.with_suffix(""), words.with_suffix(".stdout")
            if want.exists() and f"{folder.name}/{name.name}" not in old:
                lines = want.read_bytes().decode("utf-8").split("\n")[:-1]
                cases.append((f"{folder.name}/{name.name}", words.read_text().split("\n")[:-1], name.read_bytes(), lines, None))
    return compared(cases)


# Random cases.

CODES = [0x61, 0x62, 0x63, 0x7a, 0x20, 0x5c, 0xa, 0xe9, 0x20ac, 0x1f600, 0x10ffff]
VALUES = {"link": ["x", "https://a.b/?q=\\"], "color": ["0000ff", "00ff00", "000000"],
          "block": ["heading:1", "heading:6", "bullet:0", "bullet:7", "number:3", "task:0:open", "task:0:done", "quote", "pre", "rule"]}
# Of which keys random marks of each form are.
EARLY = ["strong", "em", "link", "color", "comment", "comment"]
MARKED = {1: EARLY, 2: EARLY + ["code"] * 4, 3: [*KEYS, "comment", "block", "block"]}


def name_of(own):
    return f"{own[0]}@{own[1]}" if own else "-"


def line_of(op):
    """The line of one operation."""
    if op[0] == "i":
        return f"i {name_of(op[1])} {name_of(op[2])} {op[3]:x}"
    if op[0] in "dv":
        return f"{op[0]} {name_of(op[1])} {name_of(op[2])}"
    key = op[2][0] + (f":{op[2][1]}" if op[2][1] else "")
    ends = [sign + (name_of(at) if at else "") for sign, at in op[4]]
    return " ".join([op[0], name_of(op[1]), key] + ([op[3]] if op[0] == "m" else []) + ends)


def line_of_all(ops):
    """The line of one operation, or of a run."""
    if len(ops) == 1:
        return line_of(ops[0])
    if ops[0][0] in "dv":
        return f"{line_of(ops[0])} {len(ops)}"
    codes = " ".join(f"{op[3]:x}" for op in ops)
    return f"r {name_of(ops[0][1])} {name_of(ops[0][2])} {len(ops)} {codes}"


class Writer:
    """Histories of three peers. Each knows what was accepted, and now and then makes a change that is refused."""

    def __init__(self, rng):
        self.rng, self.text = rng, Text()

    def anchor(self, known):
        rng = self.rng
        if not known or rng.random() < 0.15:
            return rng.choice("^$"), None
        return rng.choice("<>"), rng.choice(known)

    def marked(self, form, known):
        """What a mark, or a removal of one, says behind its id."""
        rng, key = self.rng, self.rng.choice(MARKED[form])
        number = rng.choice([1, 2, COMMENT]) if key == "comment" else None
        kind = "u" if rng.random() < 0.35 else "m"
        value = None if kind == "u" else rng.choice(VALUES.get(key, ["-"]))
        return kind, (key, number), value, (self.anchor(known), self.anchor(known))

    def typed(self, form, known):
        """The parent of a character or a run, and its codes."""
        rng = self.rng
        parent = rng.choice([None, rng.choice(known), known[-1], known[-1]]) if known else None
        length = rng.choice([2, 2, 3, 3, 4, 5, 8]) if form > 1 and rng.random() < 0.7 else 1
        return parent, [rng.choice(CODES) for _ in range(length)]

    def line(self, form, node, last, known):
        """The operations of a line, in which the counters are right."""
        rng = self.rng

        def above(others):
            return max([last] + [counter for counter, _ in others]) + rng.choice([1, 1, 1, 2, 5]), node

        what = rng.choice("iiiidmmmm" if known else "iiim")
        if what == "i":
            parent, codes = self.typed(form, known)
            return run_of(above([parent] if parent else []), parent, codes)
        if what == "d":
            target = rng.choice(known)
            return [("d", above([target]), target)]
        kind, key, value, ends = self.marked(form, known)
        return [(kind, above([at for _, at in ends if at]), key, value, ends)]

    def change(self, form, node):
        known, last, lines = list(self.text.codes), self.text.counters.get(node, 0), []
        for _ in range(self.rng.randrange(1, 5)):
            lines.append(self.line(form, node, last, known))
            last = lines[-1][-1][1][0]
            known += [op[1] for op in lines[-1] if op[0] == "i"]
        return lines

    def spoiled(self, lines):
        """The change with a line that is likely to be refused: an old counter, or a name of what isn't there."""
        rng, at = self.rng, self.rng.randrange(len(lines))
        first, *more = lines[at]
        counter, node = first[1]
        way = rng.randrange(3)
        other = (max(1, counter - 1), 9) if way == 1 else (counter + rng.randrange(3), 1 + rng.randrange(3))
        if way == 0 and counter > 1:
            old = counter - rng.randrange(1, counter), node
            line = run_of(old, first[2], [op[3] for op in lines[at]]) if first[0] == "i" else [(first[0], old) + first[2:]]
        elif first[0] in "id":
            line = [first[:2] + (other,) + first[3:]] + more
        else:
            line = [first[:4] + (((rng.choice("<>"), other), first[4][1]),)]
        return lines[:at] + [line] + lines[at + 1:]


def change_lines(form, node, lines):
    return [f"change{form if form > 1 else ''} {node} {len(lines)}"] + [line_of_all(ops) for ops in lines]


def spelled_out(node, lines):
    """The same change without runs, in the first form where it can be."""
    ops = [op for line in lines for op in line]
    form = 2 if any(op[0] in "mu" and op[2][0] == "code" for op in ops) else 1
    return change_lines(form, node, [[op] for op in ops])


def random_history(rng, changes, is_refused):
    """The lines of a history in both forms, and of the same without runs. If so said, its last change is refused."""
    writer, mixed, plain = Writer(rng), [], []
    for number in range(changes):
        form, node = rng.choice([1, 2, 2]), rng.choice([1, 2, 3])
        lines, is_last = writer.change(form, node), number == changes - 1
        while is_last and is_refused:
            form, node = 2, rng.choice([1, 2, 3])
            lines = writer.spoiled(writer.change(form, node))
            try:
                writer.text.accept(lines)
                return None
            except Refused:
                if any(len(line) > 1 for line in lines):
                    break
        else:
            writer.text.accept(lines)
        mixed += change_lines(form, node, lines)
        plain += spelled_out(node, lines)
    return mixed, plain


def input_of(lines):
    return "".join(line + "\n" for line in lines).encode()


def telling_history(rng):
    """A history with runs, whose text has code and other spans."""
    while True:
        mixed, plain = random_history(rng, rng.randrange(3, 11), False)
        formats = [line.split(" ")[1] for line in spans_of(input_of(mixed))[0]]
        if any(line.startswith("r ") for line in mixed) and 0 < sum("code" in keys for keys in formats) < len(formats):
            return mixed, plain


def histories(cases, rng):
    cases.heading("Random histories of three peers in changes of both forms, each also with every run spelled out, which prints the same. The")
    cases.heading("spans were worked out by tests/models/text.py, which has the text as a plain tree.")
    for at in range(1, 47):
        mixed, plain = telling_history(rng)
        want = spans_of(input_of(mixed))
        if spans_of(input_of(plain)) != want or want[1]:
            sys.exit("a history isn't what it is without runs")
        cases.add(f"history-of-both-forms-{at}", ["spans"], want[0], lines=mixed)
        cases.add(f"history-of-both-forms-{at}-without-runs", ["spans"], want[0], lines=plain)


def refused_histories(cases, rng):
    cases.heading("Random histories whose last change, with a run in it, is refused; without runs another line of it may be named.")
    number, counts = 0, {46: 0, 47: 0}
    while number < 14:
        made = random_history(rng, rng.randrange(1, 4), True)
        if made is None:
            continue
        want, status = spans_of(input_of(made[0]))
        why = int(want[0].split()[1])
        if counts[why] == 7:
            continue
        counts[why] += 1
        number += 1
        cases.add(f"refused-history-of-both-forms-{number}", ["spans"], want, status, lines=made[0])
        want, status = spans_of(input_of(made[1]))
        if int(want[0].split()[1]) != why:
            sys.exit("a change is refused otherwise than without runs")
        cases.add(f"refused-history-of-both-forms-{number}-without-runs", ["spans"], want, status, lines=made[1])


def sessions(cases, rng):
    cases.heading("Sessions of such histories, in which some changes are refused and the others go on, with a program that reads all numbers of")
    cases.heading("the context: its verdict is a sum in which each counts, the flag of code too.")
    for at in range(1, 9):
        writer, lines = Writer(rng), [f"sub 16 {READ_ALL}"]
        for _ in range(rng.randrange(4, 9)):
            form, node = rng.choice([1, 2, 2]), rng.choice([1, 2, 3])
            made = writer.change(form, node)
            made = writer.spoiled(made) if rng.random() < 0.35 else made
            try:
                writer.text.accept(made)
            except Refused:
                pass
            lines += change_lines(form, node, made)
        lines.append("pull 0 1024")
        cases.add(f"session-of-both-forms-{at}", ["replay"], Session(input_of(lines)).replies(), lines=lines)


LINES = ["latest", "latest ", "latest 0", " latest", "Latest", "show", "show 0", "show 0 0", "show 0 0 0", "show 0 0 1025", "show 0  0 1", "show 00 0 1", "show 0 0 1 ",
         "show -1 0 1", "show 0 0 18446744073709551617", "show 18446744073709551616 0 1", "show 0 18446744073709551616 1", "changes", "changes 0", "changes 0 0", "changes 0 65",
         "changes 0 1 1", "changes 00 1", "changes 0 +1", "changes 18446744073709551616 1", "newest", "newest ", "newest 1 1", "newest 01", "newest 18446744073709551616", "newest a",
         "spans 0 0 1", "change"]
RIGHT = ["show 1 0 1", "show 18446744073709551615 0 1", "show 0 18446744073709551615 1024", "changes 1 1", "changes 18446744073709551615 64", "newest 0", "newest 1", "newest 65535",
         "newest 65536", "newest 18446744073709551615"]


def reads(cases, rng):
    cases.heading("Sessions that read of the text, with `--read`: random histories in which some changes are refused, and between them queries of all kinds.")
    cases.heading("The changes that are told were told by their peers before, and the spans are those of the model's text.")
    for at in range(1, 13):
        writer, lines, number = Writer(rng), [], 0
        for _ in range(rng.randrange(3, 9)):
            form, node = rng.choice([1, 2, 2]), rng.choice([1, 2, 3])
            made = writer.change(form, node)
            made = writer.spoiled(made) if rng.random() < 0.25 else made
            try:
                writer.text.accept(made)
                number += 1
            except Refused:
                pass
            lines += change_lines(form, node, made)
            lines += rng.sample(["latest", f"show {number} 0 1024", f"show {rng.randrange(number + 2)} {rng.randrange(4)} {rng.randrange(1, 4)}",
                                 f"changes {rng.randrange(number + 2)} {rng.randrange(1, 65)}", f"newest {rng.randrange(1, 5)}"], 2)
        lines += ["latest", f"show {number} 0 1024", "changes 0 64", "newest 1", "newest 2", "newest 3", "newest 4"]
        cases.add(f"session-read-{at}", ["replay", "--read"], Session(input_of(lines), True).replies(), lines=lines)
    typed = ["change 1 2", "i 1@1 - 61", "i 2@1 1@1 5c"]
    cases.heading("Lines of no form, and of a form with numbers that name nothing, with `--read`; without it each is a line of no form.")
    cases.add("session-read-lines", ["replay", "--read"], Session(input_of(LINES + RIGHT + typed + RIGHT + LINES), True).replies(), lines=LINES + RIGHT + typed + RIGHT + LINES)
    cases.add("session-read-lines-without-read", ["replay"], Session(input_of(LINES + RIGHT + typed + RIGHT)).replies(), lines=LINES + RIGHT + typed + RIGHT)
    cases.add("session-read-a-line-without-its-end", ["replay", "--read"], ["ok latest 0", "no 60 BadCommand"], lines=["latest"], text="latest")
    many = ["change2 1 128"] + [f"r {1 + 256 * at}@1 {'-' if at == 0 else str(256 * at) + '@1'} 256" + " 62" * 256 for at in range(1)]
    marks = [f"m {300 + at}@1 {key} - <{1 + at}@1 <{2 + at}@1" for at, key in zip(range(0, 120), ["strong", "em"] * 60)]
    lines = ["change2 1 1", many[1], "change 1 120"] + marks
    lines += ["show 2 0 1024", "show 2 0 7", "show 2 7 7", "show 2 119 7", "show 2 120 7", "show 2 121 1", "show 1 0 1"]
    cases.add("session-read-many-spans-in-parts", ["replay", "--read"], Session(input_of(lines), True).replies(), lines=lines)


def counted(cases, rng):
    cases.heading("Sessions that read how much there is of the hub and how much it still takes. A subscriber is given all that is due, and is closed before the next one.")
    for at in range(1, 9):
        writer, lines, subscriber = Writer(rng), ["left", "stats"], 0
        for _ in range(rng.randrange(6, 13)):
            form, node = rng.choice([1, 2, 2]), rng.choice([1, 2, 3])
            made = writer.change(form, node)
            made = writer.spoiled(made) if rng.random() < 0.25 else made
            try:
                writer.text.accept(made)
            except Refused:
                pass
            lines += rng.choice([[], [], [f"sub 1024 {FLAGS}", "stats", f"close {subscriber}"], [f"sub 1024 {FLAGS} from 0", "stats", f"pull {subscriber} 1024", "stats", f"close {subscriber}"]])
            subscriber += lines[-1].startswith("close")
            lines += change_lines(form, node, made) + rng.choice([["left"], ["stats"], ["left", "stats"]])
        cases.add(f"session-counted-{at}", ["replay", "--read"], Session(input_of(lines), True).replies(), lines=lines)
    typed = ["change2 1 1", "r 1@1 - 2 61 1f600", "change 1 1", "d 3@1 1@1"]
    lines = ["left", "stats", "hub", "left ", "left 0", "stats ", " stats", "stats all", "Stats", "lefts", "hub 0"]
    cases.heading("Beside them lines of no form. The hub of `replay` has no id. Without `--read` each is a line of no form.")
    cases.add("session-counted-lines", ["replay", "--read"], Session(input_of(lines + typed + lines), True).replies(), lines=lines + typed + lines)
    cases.add("session-counted-lines-without-read", ["replay"], Session(input_of(lines)).replies(), lines=lines)
    lines = [f"sub 1024 {FLAGS}", "close 0"] * 1 + [f"sub 1 {FLAGS}"] * 63
    lines += ["left", "stats", "change 1 200"] + [f"{'i' if at < 100 else 'm'} {at + 1}@1 {'- 61' if at == 0 else f'{at}@1 61' if at < 100 else 'strong - <1@1 $'}" for at in range(200)]
    cases.heading("No subscriber is left, and some changes, characters and marks are used.")
    cases.add("session-counted-full", ["replay", "--read"], Session(input_of(lines + ["left", "stats"]), True).replies(), lines=lines + ["left", "stats"])


def limited(cases, rng):
    cases.heading("Sessions of such histories, in which a change may be too far above all counters, or more than the session may have accepted.")
    for at in range(1, 9):
        writer, lines = Writer(rng), [f"sub 16 {READ_ALL}"]
        for _ in range(rng.randrange(6, 13)):
            form, node = rng.choice([1, 2, 2]), rng.choice([1, 2, 3])
            made = writer.change(form, node)
            made = writer.spoiled(made) if rng.random() < 0.25 else made
            try:
                writer.text.accept(made)
            except Refused:
                pass
            lines += change_lines(form, node, made)
            if rng.random() < 0.3:
                lines.append(f"sub 16 {READ_ALL}")
        lines.append("pull 0 1024")
        limits = rng.sample([f"changes={rng.randrange(2, 7)}", f"bytes={rng.randrange(100, 500)}", f"subscribers={rng.randrange(1, 4)}"], rng.randrange(1, 4))
        words = ["replay", "--counter-jump", str(rng.choice([10, 20, 40])), "--per-session", ",".join(limits)]
        cases.add(f"session-limited-{at}", words, Session(input_of(lines), **options_of(words[1:])).replies(), lines=lines)


def write_cases(folder):
    cases, rng = Cases(), random.Random(2026)
    histories(cases, rng)
    refused_histories(cases, rng)
    sessions(cases, rng)
    reads(cases, random.Random(2027))
    counted(cases, random.Random(2029))
    limited(cases, random.Random(2028))
    cases.write(folder, "text")


def main():
    command, words = (sys.argv[1:2] or [""])[0], sys.argv[2:]
    if command in ("replay", "spans"):
        lines, status = answer_of([command] + words, sys.stdin.buffer.read())
        sys.stdout.write("".join(line + "\n" for line in lines))
        sys.exit(status)
    if command == "check" and len(words) == 2:
        sys.exit(check(*words))
    if command == "rows" and words:
        sys.exit(check_rows(words))
    if command == "cases" and len(words) == 1:
        sys.exit(write_cases(*words))
    sys.exit(__doc__)


if __name__ == "__main__":
    main()
