"""What changes that touch the whole of a text cost a hub, counted as in hostile_counts.py: texts full of marks, then a change over all of the text,
one that shows nothing, one with two cursors or with 256, and a key."""

from typing import NamedTuple

import hostile_inputs as inputs
from counted import Counted
from hostile_counts import MILLION, alone, beside, most_held

# A wide change of at most 256 operations: beside the same change over strong marks that stand apart, and at most altogether.
MOST_TIMES, MOST = 10, 60
# A key in a text near its limit: at most so many instructions, and so many times those of a text of 500 marks.
A_KEY, KEY_TIMES = 130000, 1.5
# Marks of eight keys beside as many of five.
KEYS_TIMES = 1.5
KIB = 1024
SPANS = 1024
# So many changes that show nothing follow one that does not count: what the text and the first need for a while is less than what these keep.
SILENT = 3072


class Wide(NamedTuple):
    """A text, and the changes over all of it that a client can send next; each takes the first counter that is free."""

    text: inputs.Text
    counter: int

    @classmethod
    def of(cls, text):
        return cls(text, text.newest() + 1)

    @classmethod
    def with_room(cls, text):
        """The text without its last mark, as it has all that a hub takes."""
        return cls.of(text._replace(marks=text.marks[:-1]))

    def marked(self, key):
        """One mark over all of the text."""
        return f"change 1 1\nm {self.counter}@1 {key} - ^ $\n"

    def colored(self, count):
        """One color over the first characters."""
        return f"change 1 1\nm {self.counter}@1 color 00ff00 <1@1 >{count}@1\n"

    def removal_of_ends(self, times=1):
        """The first and the last character are removed; the second time, and each later one, shows nothing."""
        changes = []
        for at in range(times):
            first = self.counter + 2 * at
            changes.append(f"change 1 2\nd {first}@1 1@1\nd {first + 1}@1 {self.text.characters}@1\n")
        return changes

    def typed_at(self, places):
        """One change that types a character behind each of these."""
        lines = [f"i {self.counter + at}@1 {place}@1 61\n" for at, place in enumerate(places)]
        return f"change 1 {len(lines)}\n" + "".join(lines)

    def typed_apart(self, places):
        """The same as a change each."""
        return [f"change 1 1\ni {self.counter + at}@1 {place}@1 61\n" for at, place in enumerate(places)]

    def places(self, count):
        step = self.text.characters // count
        return [step * at + step // 2 + 1 for at in range(count)]


def spaced(key, times=1):
    """Marks of four characters with three between them."""
    marks = [inputs.mark(key(number), 7 * number + 1, 7 * number + 4) for number in range(times * inputs.MARKS)]
    return inputs.Text(7 * len(marks), marks)


def at_one_anchor(key, times=1):
    """Marks that all begin at the start of the text and end at its end."""
    marks = [("m", f"{key(number)} ^ $") for number in range(times * inputs.MARKS)]
    return inputs.Text(7 * len(marks), marks)


def scattered(key, marks, characters=131000):
    """Marks of some characters each, all over a text that is near its limit, in no order."""
    step = characters // marks
    order = sorted(range(marks), key=lambda number: number * 7919 % marks)
    return inputs.Text(characters, [inputs.mark(key(at), step * at + 1, step * at + max(1, step // 2)) for at in order])


def session_of(hub, size, text):
    session = Counted(hub, "--size", size, "--read")
    for change in text.changes():
        if (reply := session.ask(change)).startswith("no "):
            raise SystemExit(f"a text of the size {size} is refused: {reply}")
    return session


def counted_after(hub, size, text, before, requests):
    """Millions of instructions of some requests, which follow a text and some others."""
    session = session_of(hub, size, text)
    for request in before:
        session.ask(request)
    replies, count = session.count(requests)
    if refused := [reply for reply in replies if reply.startswith("no ")]:
        raise SystemExit(f"refused: {refused[0]}")
    session.end()
    return count / MILLION


BOLD = "bold over all of it"
# What is sent over all of a text: its name, what comes before it, and the change itself.
CHANGES = {
    BOLD: lambda wide: ([], [wide.marked("strong")]),
    "removals at both ends that show nothing": lambda wide: (wide.removal_of_ends(2)[:1], wide.removal_of_ends(2)[1:]),
    "a character at 256 places": lambda wide: ([], [wide.typed_at(wide.places(256))]),
}
# The same over strong marks. Those are one span once all of the text is bold: so it is emphasized, and has as many spans as the others have.
BESIDE = CHANGES | {BOLD: lambda wide: ([], [wide.marked("em")])}
# Texts, each by the key of its marks and where these lie.
LAYOUTS = {
    "that touch": lambda key, times: inputs.side_by_side(key, 7, times),
    "apart": spaced,
    "nested": inputs.nested,
    "in windows of 512 characters": lambda key, times: inputs.windows(key, 512, times),
    "at one anchor": at_one_anchor,
}
TEXTS = {
    f"{name} {layout}": (key, LAYOUTS[layout])
    for name, key, layouts in (
        ("comments", inputs.comment, LAYOUTS),
        ("colors", inputs.color, ("that touch", "nested", "at one anchor")),
    )
    for layout in layouts
}


def wide_changes(hub):
    for size, times in (("small", 1), ("large", inputs.LARGE)):
        for what, sent in CHANGES.items():
            others = {}
            for layout in LAYOUTS.values():
                wide = Wide.with_room(layout(inputs.strong, times))
                others[layout] = counted_after(hub, size, wide.text, *BESIDE[what](wide))
            for name, (key, layout) in TEXTS.items():
                wide = Wide.with_room(layout(key, times))
                count = counted_after(hub, size, wide.text, *sent(wide))
                title = f"{size}, {times * inputs.MARKS:,} {name}, {what}, beside strong marks"
                figure = beside("12", title, count, others[layout], "million", MOST_TIMES, 1)
                yield figure._replace(limit=min(figure.limit, MOST), aim=f"{figure.aim}, and {MOST} million")


def of_last_marks(hub, size, text):
    """Millions of instructions of the last change of a text's marks."""
    *before, last = text.changes()
    session = Counted(hub, "--size", size)
    for change in before:
        session.ask(change)
    count = session.count([last])[1]
    session.end()
    return count / MILLION


def one_anchor(hub):
    for size, times in (("small", 1), ("large", inputs.LARGE)):
        counts = [of_last_marks(hub, size, text) for text in (at_one_anchor(inputs.strong, times), spaced(inputs.strong, times))]
        yield beside("13", f"{size}: the last 256 of {times * inputs.MARKS:,} marks at one anchor, beside apart", counts[0], counts[1], "million", 2)


def two_cursors(hub):
    for name, key in (("strong marks", inputs.strong), ("comments", inputs.comment)):
        text = spaced(key, inputs.LARGE)
        wide, ends = Wide.of(text), (8, text.characters - 8)
        one = counted_after(hub, "large", text, [], [wide.typed_at(ends)])
        two = counted_after(hub, "large", text, [], wide.typed_apart(ends))
        yield beside("14", f"large, {len(text.marks):,} {name}: two cursors in one change, beside two changes", one, two, "million", 1.5)


def kept(hub, text, changes):
    """Bytes of the heap that changes keep each, with their versions: of the later half, as what is held at once at first may be more."""
    given, half = "".join(text.changes()).encode(), len(changes) // 2
    most = [most_held(hub, ["replay"], given + "".join(changes[:count]).encode()) for count in (half, len(changes))]
    return (most[1] - most[0]) / (len(changes) - half)


def kept_by_wide_changes(hub):
    text = spaced(inputs.strong)
    wide = Wide.of(text)
    silent = kept(hub, text, wide.removal_of_ends(SILENT + 2)[1:])
    yield alone("15", f"{len(text.marks):,} marks: a change that shows nothing keeps", silent, "bytes", KIB)
    pairs = [(8 + 7 * at, text.characters - 8 - 7 * at) for at in range(1024)]
    one = [Wide(text, wide.counter + 2 * at).typed_at(pair) for at, pair in enumerate(pairs)]
    two = ["".join(Wide(text, wide.counter + 2 * at).typed_apart(pair)) for at, pair in enumerate(pairs)]
    yield beside("15", "two cursors in one change keep, beside two changes", kept(hub, text, one) / KIB, kept(hub, text, two) / KIB, "KiB", 1.5)


def of_keys(hub, marks, follows, key=inputs.strong):
    """The instructions of a key in a text of so many marks: of keys that follow one another, or with another character between each two."""
    wide = Wide.of(scattered(key, marks))
    middle = wide.text.characters // 2
    places = [middle, *range(wide.counter, wide.counter + 8)] if follows else range(middle, middle + 9)
    typed = wide.typed_apart(places)
    return counted_after(hub, "large", wide.text, typed[:1], typed[1:]) * MILLION / 8


def keys(hub):
    for kind, follows in (("a key", True), ("a key apart from the last one", False)):
        counts = []
        for marks in (500, 4096, 16376):
            counts.append(of_keys(hub, marks, follows))
            what = f"{kind} at 131,000 characters under {marks:,} marks"
            figure = beside("16", what, counts[-1], counts[0], "", KEY_TIMES)
            yield figure._replace(limit=min(figure.limit, A_KEY), aim=f"{figure.aim} those of 500, and {A_KEY:,}")


def eight_keys(hub):
    """Marks of all keys of one value, beside as many of the five that changes of the second form have."""
    most = inputs.LARGE * inputs.MARKS - 8
    counts = []
    for key in (inputs.one_of_eight, inputs.one_of_five_older):
        wide = Wide.of(scattered(key, most))
        typed = of_keys(hub, most, True, key) / MILLION
        counts.append((typed, of_last_marks(hub, "large", wide.text), counted_after(hub, "large", wide.text, *BESIDE[BOLD](wide))))
    for what, value, other in zip(("a key", "the last marks", "all of it is made em"), *counts):
        yield beside("21", f"large, {most:,} marks of eight keys, beside those of five: {what}", value, other, "million", KEYS_TIMES)


def shown_after(hub):
    for name, (key, layout) in TEXTS.items():
        wide = Wide.with_room(layout(key, inputs.LARGE))
        newest = len(wide.text.changes())
        before = counted_after(hub, "large", wide.text, [], [f"show {newest} 0 {SPANS}\n"])
        after = counted_after(hub, "large", wide.text, [wide.marked("strong")], [f"show {newest + 1} 0 {SPANS}\n"])
        yield beside("17", f"large, {name}: `show` of {SPANS:,} spans after a wide change, beside before it", after, before, "million", 1.5, 1)


ROWS = {
    "wide_changes": wide_changes,
    "one_anchor": one_anchor,
    "two_cursors": two_cursors,
    "kept_by_wide_changes": kept_by_wide_changes,
    "keys": keys,
    "eight_keys": eight_keys,
    "shown_after": shown_after,
}
