"""What removals that are taken back cost a hub, counted as in hostile_counts.py: undo of a long removal, runs beside a change that colors the same
stretch, and keys in texts without any."""

import hostile_inputs as inputs
import wide_counts
from hostile_counts import FOUR_MILLISECONDS, MILLION, Note, alone, beside

# A user undoes the removal of some pages: one change of one line.
UNDONE, MOST_UNDONE = 20000, 5 * FOUR_MILLISECONDS / MILLION
# The longest run, beside one mark over the same characters.
STRETCH, RUN_TIMES = 65535, 10
# Instructions of a key, by whether it follows the last one and how many marks there are, before there were revivals; and how many times these
# one may take now.
BEFORE = {
    (True, 500): 73905.5, (True, 4096): 55018.5, (True, 16376): 62564.5,
    (False, 500): 56020.0, (False, 4096): 59769.5, (False, 16376): 70583.75,
}
KEY_TIMES = 1.02


def undo(hub):
    cases = (
        ("a plain text", "small", inputs.Text(20480, [])),
        ("4,096 colors", "small", wide_counts.spaced(inputs.color)),
        ("4,096 comments that touch", "small", inputs.side_by_side(inputs.comment, 7)),
        ("131,072 characters", "large", inputs.Text(131072, [])),
    )
    for what, size, text in cases:
        removed, back = inputs.removed_and_back(text, UNDONE)
        count = wide_counts.counted_after(hub, size, text, [removed], [back])
        yield alone("18", f"{size}, {what}: undo of {UNDONE:,} removed characters, one line", count, "million", MOST_UNDONE)


def of_long_runs(hub, text):
    """Millions of instructions of a color over the longest run, of its removal and of the revival of that, in the large size."""
    removed, back = inputs.removed_and_back(text, STRETCH)
    colored = wide_counts.Wide.of(text).colored(STRETCH)
    return [wide_counts.counted_after(hub, "large", text, before, [request]) for before, request in (([], colored), ([], removed), ([removed], back))]


def long_runs(hub):
    text = wide_counts.Wide.with_room(wide_counts.spaced(inputs.color, inputs.LARGE)).text
    colored, *counts = of_long_runs(hub, text)
    for name, count in zip(("removals", "revivals"), counts):
        yield beside("19", f"large, 16,384 colors: a run of {STRETCH:,} {name}, beside a color over them", count, colored, "million", RUN_TIMES)
    # A color over a text without marks makes one span, however long it is.
    colored, removed, back = of_long_runs(hub, inputs.Text(STRETCH + 1, []))
    yield Note("", f"  of a plain text {removed:.0f} and {back:.0f} million; a color over it {colored:.2f}")


def keys_without_revivals(hub):
    for (follows, marks), before in BEFORE.items():
        kind = "a key" if follows else "a key apart from the last one"
        count = wide_counts.of_keys(hub, marks, follows)
        yield beside("20", f"{kind} under {marks:,} marks, beside what it took before there were revivals", count, before, "", KEY_TIMES)


ROWS = {"undo": undo, "long_runs": long_runs, "keys_without_revivals": keys_without_revivals}
