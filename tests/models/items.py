"""What the subscribers of a session are sent, whatever their programs are, and random sessions with edits of all kinds.

The text, its versions and the replies are those of text.py; each program is run on each span of each version."""

import text
from machine import Machine, context

COLORS = ["000000", "0000ff", "202020", "ffff00", "ffffff"]
LINKS = ["x", "!~", "https://a.b", "https://example.org/", "https://www.example.org/a?b", "http://example.com/", "l" * 40]
LETTERS = "aabbcdehorst  ??$.\n\\TODO/:éß€一😀"
KINDS = ["heading:1", "bullet:0", "number:7", "task:0:open", "quote", "rule"]
KEYS = [*text.KEYS, "color", "comment", "comment"]


def lent(spans, number):
    """Of each span of a version the context, the text and the link that a run has."""
    out = []
    for index, (span, found) in enumerate(spans):
        keys, link = {key for key, _ in found}, found.get(("link", None), "").encode()
        color, comments = int(found.get(("color", None), "0"), 16), sum(key == "comment" for key, _ in found)
        flags = sum(text.FLAG_BITS[key] for key in keys)
        out.append((context(span.encode(), link, flags, color, comments, index, len(spans), number), span.encode(), link))
    return out


class Items(text.Session):
    """A session whose programs are all accepted; what each of them does stands in a table by its digits."""

    def __init__(self, programs):
        super().__init__(b"")
        self.programs, self.known, self.lent = programs, {}, {}

    def items(self, version, program):
        """What is sent of a version: a hit for each span whose verdict isn't 0, and its end."""
        if (version, program) not in self.known:
            if version not in self.lent:
                self.lent[version] = lent(self.versions[version], version)
            verdicts = [Machine(self.programs[program], *given).run()[1] for given in self.lent[version]]
            if not all(said.startswith("verdict ") for said in verdicts):
                raise ValueError(f"a program meets a fault: {program}")
            hits = [f"hit {version} {index} {said.split()[1]}" for index, said in enumerate(verdicts) if said != "verdict 0"]
            self.known[version, program] = hits + [f"end {version} {len(verdicts)}"]
        return self.known[version, program]

    def subscribe(self, capacity, program, first=None):
        first = len(self.versions) - 1 if first is None else text.number_of(first)
        if not 1 <= text.number_of(capacity) <= 1024:
            raise text.Refused(54)
        if first >= len(self.versions):
            raise text.Refused(55)
        self.subscribers.append([first, 0, program])
        return [f"ok sub {len(self.subscribers) - 1}"]

    def pull(self, number, count):
        if not 1 <= text.number_of(count) <= 1024:
            raise text.Refused(60)
        subscriber, out = self.open(number), []
        while len(out) < int(count) and subscriber[0] < len(self.versions):
            version, taken, program = subscriber
            items = self.items(version, program)
            due = items[taken:][:int(count) - len(out)]
            out += due
            subscriber[:2] = (version, taken + len(due)) if taken + len(due) < len(items) else (version + 1, 0)
        return out + [f"ok items {len(out)}"]


# Edits.

def form_of(ops):
    """The first form of changes that has a line of these operations."""
    if ops[0][0] in "mu":
        return text.form_of_key(ops[0][2][0])
    return 3 if ops[0][0] == "v" else 2 if len(ops) > 1 else 1


class Editor:
    """Changes of three peers that know all of a text, whatever was accepted of it."""

    def __init__(self, rng, known):
        self.rng, self.known = rng, known

    def visible(self):
        return [own for own in self.known.order() if own not in self.known.removed]

    def letters(self, most):
        return [ord(self.rng.choice(LETTERS)) for _ in range(self.rng.choice([1, 1, 1, 2, 3, 5, most]))]

    def typed(self, own, there):
        """A character or a run at the front, in the middle or at the end."""
        rng = self.rng
        parent = rng.choice([None, there[-1], there[-1], rng.choice(there)]) if there else None
        return text.run_of(own, parent, self.letters(8))

    def removed(self, own, there):
        """A few characters side by side, or one at an end, or at times all of a short text."""
        rng = self.rng
        first = rng.choice([0, len(there) - 1, rng.randrange(len(there))])
        count = rng.choice([1, 1, 1, 2, 4, 9]) if rng.random() < 0.96 else 24
        first = 0 if count == 24 else first
        return [("d", (own[0] + at, own[1]), one) for at, one in enumerate(there[first:first + count])]

    def undone(self, own):
        """Some removals that came one after the other are taken back, or were already."""
        removals, rng = sorted(self.known.removals), self.rng
        first, count = rng.randrange(len(removals)), rng.choice([1, 1, 2, 4, 24])
        part = text.consecutive(removals[first:first + count])[0]
        return text.id_run_of("v", own, part[0], len(part))

    def ends(self, there):
        """The ends of a mark over a few characters, over many, or over all."""
        rng = self.rng
        if rng.random() < 0.1:
            return ("^", None), ("$", None)
        first = rng.randrange(len(there))
        last = min(len(there) - 1, first + rng.choice([0, 0, 1, 2, 3, 5, 8, 20, len(there)]))
        behind = (">", there[last]) if last + 1 == len(there) or rng.random() < 0.5 else ("<", there[last + 1])
        before = ("<", there[first]) if first == 0 or rng.random() < 0.7 else (">", there[first - 1])
        return before, behind

    def value(self, key):
        return self.rng.choice({"color": COLORS, "link": LINKS, "block": KINDS}.get(key, ["-"]))

    def marked(self, own, there):
        """A mark, a mark over an earlier one's place, or the removal of one, so that its spans join again."""
        rng, kind = self.rng, "m"
        key = rng.choice(KEYS)
        key, ends = (key, rng.randrange(1, 5) if key == "comment" else None), self.ends(there)
        if self.known.marks and rng.random() < 0.5:
            earlier = rng.choice(self.known.marks)
            key, ends, kind = earlier[2], earlier[4], rng.choice("muu")
        elif rng.random() < 0.15:
            kind = "u"
        return [(kind, own, key, self.value(key[0]) if kind == "m" else None, ends)]

    def edit(self, own):
        there = self.visible()
        if self.known.removals and self.rng.random() < 0.15:
            return self.undone(own)
        ways = [self.typed] * 4 + [self.removed, self.removed] * bool(there) + [self.marked] * 4 * bool(there)
        return self.rng.choice(ways)(own, there)

    def next_id(self):
        return max(self.known.counters.values(), default=0) + self.rng.choice([1, 1, 1, 3]), self.rng.randrange(1, 4)

    def change(self):
        """The lines of a change of one edit, or of two kinds of edits that don't know of each other."""
        own = self.next_id()
        made = [self.edit(own)]
        if self.rng.random() < 0.25:
            made.append(self.edit((made[0][-1][1][0] + 1, own[1])))
        lines = []
        for ops in made:
            lines += [ops] if ops[0][0] in "iv" else [[op] for op in ops]
        return self.spelled(own[1], lines)

    def spelled(self, node, lines):
        """A change of a form that has all of its lines."""
        return text.change_lines(max(self.rng.choice([1, 2]), *map(form_of, lines)), node, lines)

    def stale(self):
        """A change whose counter was used."""
        node = self.rng.choice(list(self.known.counters) or [1])
        return text.change_lines(1, node, [[("i", (self.known.counters.get(node, 1), node), None, 0x61)]])

    def beginning(self, characters, marks):
        """Changes that make a text of `characters` characters with `marks` marks, each over one character of two; each is to be
        accepted before the next one is asked for."""
        for start in range(0, characters, 256):
            parent, own = (self.visible() or [None])[-1], self.next_id()
            codes = [ord(self.rng.choice(LETTERS)) for _ in range(min(256, characters - start))]
            yield self.spelled(own[1], [text.run_of(own, parent, codes)])
        there = self.visible()
        for start in range(0, marks, 256):
            own, lines = self.next_id(), []
            for at in range(start, min(marks, start + 256)):
                key = self.rng.choice(KEYS)
                key = key, self.rng.randrange(1, 5) if key == "comment" else None
                ends = ("<", there[2 * at % len(there)]), (">", there[2 * at % len(there)])
                lines.append([("m", (own[0] + at - start, own[1]), key, self.value(key[0]), ends)])
            yield self.spelled(own[1], lines)


# Sessions.

class Script:
    """A random session, line by line, and what the model replies to it."""

    def __init__(self, rng, kinds):
        self.rng, self.kinds, self.lines, self.subscribed = rng, kinds, [], []
        self.model = Items({digits: kind.data for digits, kind in kinds.items()})
        self.editor = Editor(rng, self.model.text)

    def say(self, *lines):
        """Adds lines, and gives the last line of the model's reply."""
        self.lines += lines
        self.model.rest = "".join(line + "\n" for line in lines).encode()
        return self.model.replies()[-1]

    def open(self):
        return [number for number, one in enumerate(self.model.subscribers) if one]

    def subscribe(self, digits, first=None):
        rng, latest = self.rng, len(self.model.versions) - 1
        word = "sub2" if self.kinds[digits].reads_link or rng.random() < 0.4 else "sub"
        where = f" from {first}" if first is not None else f" from {rng.randint(0, latest)}" if rng.random() < 0.4 else ""
        self.subscribed.append(digits)
        self.say(f"{word} {rng.choice([1, 2, 3, 8, 64, 1024])} {digits}{where}")

    def pull(self, number):
        self.say(f"pull {number} {self.rng.choice([1, 2, 3, 5, 8, 13, 64, self.rng.randint(1, 64)])}")

    def step(self):
        rng, way = self.rng, self.rng.random()
        if way < 0.45:
            for _ in range(rng.choice([1, 1, 1, 2, 3, 6])):
                self.say(*self.editor.change())
        elif way < 0.55 and len(self.subscribed) < 30:
            self.subscribe(rng.choice(self.subscribed if rng.random() < 0.3 and self.subscribed else list(self.kinds)))
        elif way < 0.58 and self.open():
            self.say(f"close {rng.choice(self.open())}")
        elif way < 0.61:
            self.say(*rng.choice([self.editor.stale(), [f"pull {len(self.subscribed)} 1"], ["pull 0 0"],
                                  [f"sub 1 {next(iter(self.kinds))} from {len(self.model.versions)}"]]))
        else:
            for number in rng.choices(self.open(), k=rng.choice([1, 1, 2, 4])) if self.open() else []:
                self.pull(number)

    def finish(self):
        """All that is due to each subscriber."""
        for number in self.open():
            while not self.say(f"pull {number} 64").startswith("ok items 0"):
                pass


def session(rng, kinds, steps):
    """A session of `steps` steps, over a text of one span to a few hundred."""
    script = Script(rng, kinds)
    characters, marks = rng.choice([(1, 0), (12, 2), (40, 6), (80, 20), (80, 40), (200, 100), (620, 300)])
    for digits in rng.sample(list(kinds), rng.randrange(1, 8)):
        script.subscribe(digits)
    for lines in script.editor.beginning(characters, marks):
        script.say(*lines)
    for _ in range(steps if marks < 300 else steps // 3):
        script.step()
    script.finish()
    return script
