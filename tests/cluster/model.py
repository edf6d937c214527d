"""What a stream of changes makes, apart from hubs and gateways: which changes are accepted, and what each program is sent.

Which change is refused is by tests/models/document.py, and of revivals by what is added to it here. Spans are kept from change
to change: the order of characters as a list, and for each character the greatest strong mark, or removal of one, over it."""
import hashlib
import itertools
import pathlib
import sys

ROOT = pathlib.Path(__file__).resolve().parent.parent.parent
sys.path.insert(0, str(ROOT / "tests" / "models"))
import document  # noqa: E402

FILTERS = ROOT / "examples" / "filters"
# Programs by their digits: the verdict on a span of a text that is strong or not.
PROGRAMS = {
    "b7000000010000009500000000000000": lambda text, strong: 1,
    (FILTERS / "strong.hex").read_text().strip(): lambda text, strong: int(strong),
    (FILTERS / "question.hex").read_text().strip(): lambda text, strong: int(text.endswith("?")),
}


def id_in(word):
    return None if word == "-" else tuple(map(int, word.split("@")))


def anchor_in(word):
    return word if word in "^$" else (word[0], id_in(word[1:]))


def ops_of(text):
    """The operations of a change of this test's writers; None where a line has no form."""
    ops = []
    for line in text.splitlines()[1:]:
        kind, *words = line.split(" ")
        if kind == "r":
            (counter, node), parent = id_in(words[0]), id_in(words[1])
            for at, code in enumerate(words[3:]):
                ops.append(("i", (counter + at, node), parent, int(code, 16)))
                parent = counter + at, node
        elif kind in "dv":
            (counter, node), (first, of) = id_in(words[0]), id_in(words[1])
            ops += [(kind, (counter + at, node), (first + at, of)) for at in range(int(words[2]) if words[2:] else 1)]
        elif kind in "mu":
            ops.append((kind, id_in(words[0]), *words[1:-2], anchor_in(words[-2]), anchor_in(words[-1])))
        else:
            return None
    return ops


class Rules(document.Document):
    """What is refused, and what is visible at last: all that isn't named by a removal that no revival names."""

    def __init__(self):
        super().__init__()
        self.removals, self.back = {}, set()

    def fault(self, op):
        if op[0] != "v":
            return super().fault(op)
        if op[1][0] <= max(self.counters.get(op[1][1], 0), op[2][0]):
            return 46
        return None if op[2] in self.removals else 47

    def take(self, op):
        if op[0] == "v":
            self.counters[op[1][1]] = op[1][0]
            self.back.add(op[2])
        else:
            super().take(op)
        if op[0] == "d":
            self.removals[op[1]] = op[2]
        if op[0] in "dv":
            self.removed = {of for own, of in self.removals.items() if own not in self.back}


def accepted(rules, ops):
    """Takes a change whole; else its fault, with the rules as they were."""
    before = dict(rules.removals), set(rules.back)
    fault = document.accepted(rules, ops)
    if fault:
        rules.removals, rules.back = before
    return fault


class Text:
    """The spans of each version."""

    def __init__(self):
        self.order, self.codes, self.standing, self.marks, self.greatest = [], {}, {}, [], {}

    def take(self, ops):
        for op in ops:
            if op[0] == "i":
                self.insert(op[1], op[2], op[3])
            elif op[0] == "d":
                self.standing[op[1]] = op[2]
            elif op[0] == "v":
                self.standing.pop(op[2], None)
            else:
                self.mark(op)

    def insert(self, own, parent, code):
        at = self.order.index(parent) + 1 if parent else 0
        while at < len(self.order) and self.order[at] > own:
            at += 1
        self.order.insert(at, own)
        self.codes[own] = chr(code)
        places = {identity: place for place, identity in enumerate(self.order)} if self.marks else {}
        self.greatest[own] = max((op for op in self.marks if self.covers(op, at, places)), key=lambda op: op[1], default=None)

    def boundary(self, anchor, places):
        if isinstance(anchor, str):
            return 0 if anchor == "^" else len(places)
        return places[anchor[1]] + (anchor[0] == ">")

    def covers(self, op, at, places):
        return self.boundary(op[-2], places) <= at < self.boundary(op[-1], places)

    def mark(self, op):
        self.marks.append(op)
        places = {identity: place for place, identity in enumerate(self.order)}
        for own in self.order[self.boundary(op[-2], places):self.boundary(op[-1], places)]:
            if self.greatest[own] is None or op[1] > self.greatest[own][1]:
                self.greatest[own] = op

    def spans(self):
        def strong(own):
            return self.greatest[own] is not None and self.greatest[own][0] == "m"
        removed = set(self.standing.values())
        visible = (own for own in self.order if own not in removed)
        return [("".join(self.codes[own] for own in run), key) for key, run in itertools.groupby(visible, strong)]


def items(number, spans, program):
    hits = [(at, PROGRAMS[program](text, strong)) for at, (text, strong) in enumerate(spans)]
    return [f"hit {number} {at} {verdict}" for at, verdict in hits if verdict] + [f"end {number} {len(spans)}"]


def digest(lines):
    return hashlib.sha256("\n".join(lines).encode()).digest()


def shown(spans):
    """Spans as the lines of `show` have them."""
    return [f"span {at} {'strong' if strong else 'plain'} {text}" for at, (text, strong) in enumerate(spans)]


class Played:
    """A stream's texts, played: the reply to each, the accepted ones, and what each version has."""

    def __init__(self, texts, shows):
        self.replies, self.accepted = [], []
        self.items, self.shown = {program: [] for program in PROGRAMS}, {}
        rules, text = Rules(), Text()
        for change in [None, *texts]:
            if change and not self.accept(rules, text, change):
                continue
            number, spans = len(self.accepted), text.spans()
            for program, told in self.items.items():
                told.append(digest(items(number, spans, program)))
            if number in shows or number % 500 == 0:
                self.shown[number] = shown(spans)
        self.shown[len(self.accepted)] = shown(text.spans())
        whole = [(span, "strong" in found) for span, found in rules.spans()]
        if whole != text.spans():
            raise AssertionError("the two models differ")

    def accept(self, rules, text, change):
        ops = ops_of(change)
        if ops is None:
            self.replies.append("no 40")
            return False
        fault = accepted(rules, ops)
        if fault:
            self.replies.append(f"no {fault[0]}")
            return False
        self.accepted.append(change)
        self.replies.append(f"ok version {len(self.accepted)}")
        text.take(ops)
        return True
