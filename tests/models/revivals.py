"""Changes of the third form, in which removals are taken back: random histories of them, what they show by the definition, and cases.

    revivals.py alone N [SEED]    tries N random histories: text.py, operation by operation, against the definition; no program is run
    revivals.py cases FOLDER      writes cases for crates/test_cases, FOLDER/revivals.stdin and FOLDER/revivals.stdout

By the definition a set of operations has a text, whatever their order: a character is visible if each of its removals is taken back by
some revival. `shown_by` finds it from the set alone, in another way than text.py, which keeps what stands."""

import collections
import random
import sys
from typing import NamedTuple

import text
from cases import Cases
from revival_rows import FULL_LINES, FULL_REPLIES, MEANT_ROWS, PICTURES, REFUSED, REFUSED_HEADERS, SESSIONS, SHOWN
from text import Refused, Session, Text, Writer, change_lines, format_text, id_run_of, printed, spans_of


# By the definition.


def path_to(parents, own):
    """The ids on the way to a character, each negated: so a parent stands before those below it, and the greater id before the lesser."""
    way = []
    while own is not None:
        way.append((-own[0], -own[1]))
        own = parents[own]
    return way[::-1]


def hidden_by(ops):
    """The characters of which a removal isn't taken back."""
    back = {op[2] for op in ops if op[0] == "v"}
    return {op[2] for op in ops if op[0] == "d" and op[1] not in back}


def boundary(places, anchor, count):
    sign, own = anchor
    if own is None:
        return 0 if sign == "^" else 2 * count
    return 2 * places[own] + (sign == ">")


def covers(places, op, place):
    """Whether a mark starts at or before the place's first anchor, and ends at or after its second."""
    start, end = (boundary(places, anchor, len(places)) for anchor in op[4])
    return start <= 2 * place and 2 * place + 1 <= end


def format_of(marks, places, place):
    """What each key holds at a place: the mark with the greatest id decides."""
    greatest = {}
    for op in marks:
        if covers(places, op, place) and (op[2] not in greatest or greatest[op[2]][1] < op[1]):
            greatest[op[2]] = op
    return {key: op[3] for key, op in greatest.items() if op[0] == "m"}


def shown_by(ops):
    """What `hub spans` prints of these operations, in whatever order they are given."""
    parents = {op[1]: op[2] for op in ops if op[0] == "i"}
    codes = {op[1]: op[3] for op in ops if op[0] == "i"}
    order = sorted(parents, key=lambda own: path_to(parents, own))
    places, hidden = {own: place for place, own in enumerate(order)}, hidden_by(ops)
    marks, spans = [op for op in ops if op[0] in "mu"], []
    for own in order:
        if own not in hidden:
            found = format_of(marks, places, places[own])
            if not spans or spans[-1][1] != found:
                spans.append(["", found])
            spans[-1][0] += chr(codes[own])
    escaped = [(format_text(found), span.replace("\\", "\\\\").replace("\n", "\\n")) for span, found in spans]
    return [f"{index} {form} {span}" for index, (form, span) in enumerate(escaped)]


# Random histories.


class Made(NamedTuple):
    """A change as it was made: its form, its peer, and the operations of each line."""

    form: int
    node: int
    lines: list

    def ops(self):
        return [op for line in self.lines for op in line]

    def written(self):
        return change_lines(self.form, self.node, self.lines)


class Reviver(Writer):
    """Peers of which each knows what came up to some change, and what it made itself; they remove, take back and remove again."""

    def __init__(self, rng, size="small", has_all_keys=True):
        super().__init__(rng)
        self.has_all_keys = has_all_keys
        self.text, self.nodes = Text(size), rng.sample([1, 2, 3, 300, 65535], rng.choice([1, 2, 2, 3, 5]))
        self.seen, self.arrived, self.edits = dict.fromkeys(self.nodes, 0), {}, collections.defaultdict(list)
        self.is_late = rng.choice([0, 0.3, 0.6])

    def knows(self, node, own):
        return own[1] == node or self.arrived[own] <= self.seen[node]

    def neighbors(self, own, known, most):
        """How many ids from this one on, each next greater by one, are known."""
        count = 1
        while count < most and (own[0] + count, own[1]) in known:
            count += 1
        return count

    def id_run(self, kind, known, above):
        """One removal or revival, or a run of them."""
        own = self.rng.choice(list(known))
        most = self.neighbors(own, known, 9) if self.rng.random() < 0.6 else 1
        return id_run_of(kind, above([(own[0] + most - 1, own[1])]), own, self.rng.randint(1, most))

    def undone(self, node, characters, removals, above):
        """Each removal that the peer knows of the characters of its last edit that removed, in as few lines as can be."""
        standing = sorted(own for own, at in removals.items() if at in characters and own not in self.text.back)
        lines = []
        while standing:
            count = self.neighbors(standing[0], set(standing), len(standing))
            lines.append(id_run_of("v", above([standing[count - 1]]), standing[0], count))
            del standing[:count]
        return lines

    def made(self):
        """A change of any form. Nothing is taken in."""
        rng, node = self.rng, self.rng.choice(self.nodes)
        if rng.random() >= self.is_late:
            self.seen[node] = self.text.changes
        form = rng.choice([1, 2, 3, 3, 3])
        known = [own for own in self.text.codes if self.knows(node, own)]
        removals = {own: at for own, at in self.text.removals.items() if self.knows(node, own)}
        last, lines = self.text.counters.get(node, 0), []

        def above(others):
            return max([last] + [counter for counter, _ in others]) + rng.choice([1, 1, 1, 2, 5]), node

        for _ in range(rng.randrange(1, 5)):
            what = rng.random()
            if form == 3 and removals and what < 0.16:
                more = [self.id_run("v", removals, above)]
            elif form == 3 and self.edits[node] and what < 0.3:
                more = self.undone(node, rng.choice(self.edits[node][-3:]), removals, above)[:1]
            elif form == 3 and known and what < 0.5:
                more = [self.id_run("d", set(known), above)]
            else:
                more = [self.line(form, node, last, known)]
            for line in more:
                last = line[-1][1][0]
                known += [op[1] for op in line if op[0] == "i"]
                removals.update((op[1], op[2]) for op in line if op[0] == "d")
                lines.append(line)
        return Made(form, node, lines or [self.line(form, node, last, known)])

    def take(self, made):
        """Takes a change in, or raises why it is refused."""
        self.text.accept(made.lines)
        gone = {op[2] for op in made.ops() if op[0] == "d"}
        self.edits[made.node] += [gone] if gone else []
        self.arrived.update((op[1], self.text.changes) for op in made.ops())
        return made

    def line(self, form, node, last, known):
        return super().line(form if self.has_all_keys else min(form, 2), node, last, known)

    def spoiled_line(self, form, line):
        """The line with an id that isn't a removal's, one that isn't there, a counter that is too low, or a run that is too long."""
        rng, (kind, own, target) = self.rng, line[0][:3]
        way = rng.randrange(4 if form == 3 else 3)
        if way == 0:
            node, counter = rng.choice([*self.text.counters.items(), (9, 1)])
            return id_run_of(kind, own, (counter, node), len(line))
        if way == 1:
            return id_run_of(kind, own, (max(1, own[0] - 1), 9), len(line))
        if way == 2:
            return id_run_of(kind, (rng.randint(1, own[0]), own[1]), target, len(line))
        return id_run_of(kind, own, target, len(line) + rng.randrange(1, 4))

    def spoiled_change(self, made):
        """A change of which a line is likely to be refused."""
        at = self.rng.randrange(len(made.lines))
        line = made.lines[at]
        others = [self.spoiled_line(made.form, line)] if line[0][0] in "dv" else self.spoiled([line])
        return made._replace(lines=made.lines[:at] + others + made.lines[at + 1 :])


def random_history(rng, changes, has_all_keys=True):
    """The changes of a history, which are all accepted, and what made them; all keys, or those that the second form has."""
    writer = Reviver(rng, has_all_keys=has_all_keys)
    return [writer.take(writer.made()) for _ in range(changes)], writer


def wide_history(rng, characters):
    """One peer types; all peers remove long stretches as runs, some of them twice, and take long runs of removals back."""
    writer, nodes = Reviver(rng), [1, 2, 3]
    history, parent = [], None
    for first in range(1, characters + 1, 256):
        ops = text.run_of((first, 1), parent, [0x61 + at % 26 for at in range(min(256, characters + 1 - first))])
        history.append(writer.take(Made(2, 1, [ops])))
        parent = ops[-1][1]
    for _ in range(rng.randint(3, 12)):
        node, kind = rng.choice(nodes), "v" if writer.text.removals and rng.random() < 0.5 else "d"
        known = sorted(writer.text.removals if kind == "v" else writer.text.codes)
        first = rng.choice(known)
        count = rng.randint(1, writer.neighbors(first, set(known), len(known)))
        counter = max(writer.text.counters.get(node, 0), first[0] + count - 1) + 1
        history.append(writer.take(Made(3, node, [id_run_of(kind, (counter, node), first, count)])))
    return history, writer


def another_order(rng, history):
    """The changes in another order that respects causality: each behind its peer's earlier ones, and behind those whose ids it names."""
    made_by = {op[1]: at for at, made in enumerate(history) for op in made.ops()}
    needs, last = [], {}
    for at, made in enumerate(history):
        before = {made_by[own] for op in made.ops() for own in text.named(op)} - {at}
        needs.append(before | ({last[made.node]} if made.node in last else set()))
        last[made.node] = at
    done, order = set(), []
    while len(order) < len(history):
        ready = [at for at, before in enumerate(needs) if at not in done and before <= done]
        # Now and then the change that came last of all that may come now, so that orders are far apart.
        order.append(ready[-1] if rng.random() < 0.4 else rng.choice(ready))
        done.add(order[-1])
    return [history[at] for at in order]


def any_history(rng):
    """A history of short changes, or of long runs."""
    if rng.random() < 0.04:
        return wide_history(rng, rng.randint(40, 500))
    return random_history(rng, rng.randint(2, 60) if rng.random() < 0.1 else rng.randint(2, 24))


def written(history):
    return [line for made in history for line in made.written()]


def input_of(lines):
    return "".join(line + "\n" for line in lines).encode()


def runs_of(history, kind):
    return sum(len(line) > 1 and line[0][0] == kind for made in history for line in made.lines)


# Alone.


def fault_alone(seed):
    """What is wrong with the model by itself, or None: after each change its text is that of the definition, in either order."""
    rng = random.Random(seed)
    history, writer = any_history(rng)
    other, ops = another_order(rng, history), []
    stepwise = Text()
    for made in other:
        stepwise.accept(made.lines)
        ops += made.ops()
        if printed(stepwise) != shown_by(ops):
            return f"{seed}: after {stepwise.changes} changes of the other order", history
        visible = set(stepwise.codes) - hidden_by(ops)
        if stepwise.bytes != sum(text.length_of(stepwise.codes[own]) for own in visible):
            return f"{seed}: the count of bytes after {stepwise.changes} changes", history
    rng.shuffle(ops)
    if printed(stepwise) != printed(writer.text) or shown_by(ops) != printed(writer.text):
        return f"{seed}: the two orders", history
    lines, status = spans_of(input_of(written(other)))
    if (lines, status) != (printed(stepwise), 0):
        return f"{seed}: read from its text", history
    return fault_of_a_refusal(seed, rng, writer), history


def fault_of_a_refusal(seed, rng, writer):
    """A refused change leaves the text as it was."""
    before, state = printed(writer.text), (set(writer.text.removed), dict(writer.text.removals), set(writer.text.back), writer.text.bytes)
    made = writer.made()
    try:
        writer.text.accept(writer.spoiled_change(made).lines)
    except Refused:
        after = (set(writer.text.removed), dict(writer.text.removals), set(writer.text.back), writer.text.bytes)
        if printed(writer.text) != before or after != state:
            return f"{seed}: a refused change changed the text"
    return None


def try_alone(count, first=1):
    counts = {"changes": 0, "runs of removals": 0, "runs of revivals": 0, "revivals": 0}
    for seed in range(first, first + count):
        fault, history = fault_alone(seed)
        if fault:
            sys.exit(fault)
        counts["changes"] += len(history)
        counts["runs of removals"] += runs_of(history, "d")
        counts["runs of revivals"] += runs_of(history, "v")
        counts["revivals"] += sum(op[0] == "v" for made in history for op in made.ops())
    print(f"{count} histories, each in two orders: " + ", ".join(f"{value} {name}" for name, value in counts.items()))


# Cases.


def worked(cases, name, lines, want, status=0):
    """A case whose answer was found by hand; the model must agree."""
    found = spans_of(input_of(lines))
    if found != (want, status):
        sys.exit(f"{name}: by hand {want} {status}, and by the model {found}")
    cases.add(name, ["spans"], want, status, lines=lines)


def changes_in(rows):
    """The lines of changes, each given as `FORM NODE: LINE / LINE ..`."""
    lines = []
    for row in rows:
        head, _, body = row.partition(": ")
        word, node = head.split(" ")
        parts = body.split(" / ")
        lines += [f"{word} {node} {len(parts)}", *parts]
    return lines


def pictures(cases):
    cases.heading("Two peers remove one character, and take removals back: what is shown, in each order of their changes. By hand.")
    for name, rows, want in PICTURES:
        worked(cases, name, changes_in(rows), want)
    cases.heading("Removals taken back, by hand.")
    for name, rows, want in SHOWN:
        worked(cases, name, changes_in(rows), want)


def refusals(cases):
    cases.heading("First lines of the third form, by hand.")
    for at, (line, want) in enumerate(REFUSED_HEADERS, 1):
        worked(cases, f"third-form-header-{at}", [line, "i 1@1 - 61"], [f"refused {want} change 1 line 1"], 1)
    cases.heading("Lines with removals and revivals, and what is said of them, by hand.")
    for at, (rows, want, place) in enumerate(REFUSED, 1):
        worked(cases, f"third-form-refused-{at}", changes_in(rows), [f"refused {want} {place}"], 1)
    cases.heading("A run of removals or of revivals counts one of 256 operations, and at most 262,144 are meant; by hand.")
    for name, lines, want, status in MEANT_ROWS:
        worked(cases, name, lines, want, status)


def sessions(cases):
    cases.heading("Sessions with removals that are taken back, by hand.")
    for name, words, lines, want in SESSIONS:
        found, _ = text.answer_of(words, input_of(lines))
        if found != want:
            sys.exit(f"{name}: by hand\n{chr(10).join(want)}\nand by the model\n{chr(10).join(found)}")
        cases.add(name, words, want, lines=lines)


def full(cases):
    """A case whose text is full of characters of four bytes: what is printed was found by hand."""
    cases.heading("A text of as many bytes as may be visible: what a revival shows must have room, and one that shows nothing needs none.")
    cases.heading("By hand: removed are 8 bytes, then typed 5, so that 3 are left; then 1 is removed for the 4 that come back, and so on.")
    cases.add("third-form-back-in-a-full-text", ["replay", "--size", "large"], FULL_REPLIES, lines=["FULL", *FULL_LINES])
    filling = "count 1 128 change2 1 1\\0ar {n}000@1 - 256" + " 1f600" * 256
    cases.blocks[-1] = cases.blocks[-1].replace("line FULL", filling)
    _, words, data = text.read_case(cases.blocks[-1].split("\n", 2)[2])
    if text.answer_of(words, data)[0] != FULL_REPLIES:
        sys.exit("the full text is answered otherwise by the model")


def histories(cases, rng, name, count):
    """Cases `history-of-NAME-..`: of all keys, or of revivals with the keys that the second form has."""
    what = "marks of all keys" if name == "all-keys" else "removals that are taken back"
    cases.heading(f"Random histories with {what}, each in two orders. The printed spans were worked out by")
    cases.heading("tests/models/revivals.py.")
    for at in range(1, count + 1):
        history, writer = random_history(rng, rng.randint(4, 14), name == "all-keys")
        want = shown_by([op for made in history for op in made.ops()])
        for order, lines in (("", written(history)), ("-in-another-order", written(another_order(rng, history)))):
            worked(cases, f"history-of-{name}-{at}{order}", lines, want)
        changes = [*history, writer.spoiled_change(writer.made())]
        lines, status = spans_of(input_of(written(changes)))
        if status:
            cases.add(f"history-of-{name}-{at}-refused", ["spans"], lines, status, lines=written(changes))


def random_sessions(cases, rng, name, count):
    """Cases `session-of-NAME-..`, as `histories` has them."""
    has_all_keys = name == "all-keys"
    cases.heading("Sessions of such histories: each version is shown, what was accepted is told again, and a program reads all numbers.")
    for at in range(1, count + 1):
        writer, lines = Reviver(rng, has_all_keys=has_all_keys), [f"sub 1024 {text.READ_ALL}"]
        for _ in range(rng.randint(4, 9)):
            made = writer.made()
            if rng.random() < 0.25:
                made = writer.spoiled_change(made)
            try:
                writer.take(made)
            except Refused:
                pass
            lines += [*made.written(), f"show {writer.text.changes} 0 1024"]
            lines += [f"show3 {writer.text.changes} 0 1024"] * has_all_keys
        lines += ["changes 0 64", "left", "pull 0 1024", "stats"]
        cases.add(f"session-of-{name}-{at}", ["replay", "--read"], Session(input_of(lines), True).replies(), lines=lines)


def write_cases(folder):
    cases = Cases()
    pictures(cases)
    refusals(cases)
    sessions(cases)
    full(cases)
    histories(cases, random.Random(2030), "revivals", 16)
    random_sessions(cases, random.Random(2031), "revivals", 6)
    cases.write(folder, "revivals")


def main():
    command, words = (sys.argv[1:2] or [""])[0], sys.argv[2:]
    if command == "alone" and 1 <= len(words) <= 2:
        return try_alone(*map(int, words))
    if command == "cases" and len(words) == 1:
        return write_cases(*words)
    return sys.exit(__doc__)


if __name__ == "__main__":
    main()
