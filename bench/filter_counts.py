#!/usr/bin/env python3
"""Counts the instructions that a key and its pulls take, in all threads, by valgrind: filter_counts.py HUB [AFTER]

HUB is a built program, AFTER another one; then there are both figures and their ratio. Other work on the machine changes no figure.

A key is a change that inserts one character, and behind it each subscriber pulls. Three figures of each row: "a key, pulled", all of it; "the
pulls", that less the same key in a session without subscribers; "the runs", the pulls less those of the same subscribers over a text of one
span. No program here has a hit, so the only items are one `end` for each version and subscriber, which the last figure has taken out, as it has
the lines `pull` and their replies: what is left is what all spans but one cost, in contexts, runs and what stands in their place. Each figure is
the difference of a session with some keys more and one without them, by their number. An aim stands at the figure that it speaks of."""

import pathlib
import subprocess
import sys
from collections.abc import Callable
from functools import lru_cache
from typing import NamedTuple

from counted import install
from hostile_counts import instructions, of_each_more
from hostile_inputs import Text, mark
from sessions import QUESTION, slot

FILTERS = pathlib.Path(__file__).resolve().parent.parent / "examples" / "filters"
# Those that say nothing of the texts below; first_byte.c has a hit on every span.
SILENT = ("strong", "long", "comments", "question", "command", "luminance", "link_text", "hash", "todo", "link_host", "link_differs")
SUBSCRIBERS, SPANS, LENGTH = 20, 300, 20
KEYS_BEFORE, KEYS = 2, 8
KINDS = ("em -", "color 202020", "link https://example.net/k", "comment:1 -", "code -")
# Answers 0 on the first 512 spans: `ldxw r0, [r1+40]`, `rsh r0, 9`, `exit`.
OF_THE_INDEX = b"".join([slot(0x61, 0x10, 40, 0), slot(0x77, 0, 0, 9), slot(0x95, 0, 0, 0)]).hex()


def compiled(count):
    """`count` lines `sub` of the compiled filters, in turn."""
    lines = []
    for at in range(count):
        name = SILENT[at % len(SILENT)]
        word = "sub2" if name.startswith("link_") and name != "link_text" else "sub"
        lines.append(f"{word} 1024 {(FILTERS / f'{name}.hex').read_text().strip()}\n")
    return lines


def of_index(count):
    return [f"sub 1024 {OF_THE_INDEX}\n"] * count


def text_of_spans(count):
    """A text of spans of 20 letters `a`, of which each has another format than those beside it; the first and the last are plain."""
    return Text(count * LENGTH, [mark(KINDS[at % len(KINDS)], at * LENGTH + 1, (at + 1) * LENGTH) for at in range(1, count - 1)])


# Behind which character a key goes, by the number of characters.
FRONT, MIDDLE, END = (lambda length: 0), (lambda length: (length + LENGTH) // 2), (lambda length: length)


def keys(text, behind, count):
    """Changes that type `count` characters, each behind the one before it."""
    places = [behind(text.characters)] + [text.newest() + at for at in range(1, count)]
    ids = [text.newest() + at for at in range(1, count + 1)]
    return [f"change 1 1\ni {own}@1 {f'{place}@1' if place else '-'} 61\n" for own, place in zip(ids, places)]


class Row(NamedTuple):
    """What is counted: the subscribers' lines, the text's spans, where the keys are typed, and an aim: the figure and the most that it
    is to be, as a part of before."""
    what: str
    subscribers: tuple
    spans: int
    behind: Callable
    aim: tuple | None


def refuse_hits(hub, lines, spans):
    """Stops where a session has other items than the ends of versions of `spans` spans."""
    told = subprocess.run([hub, "replay"], input="".join(lines).encode(), stdout=subprocess.PIPE, check=True).stdout.decode().splitlines()
    if any(line.startswith("hit ") or line.startswith("end ") and not line.endswith(f" {spans}") for line in told):
        sys.exit(f"a session of {spans} spans isn't what is counted here")


@lru_cache(maxsize=None)
def of_a_key(hub, subscribers, spans, behind):
    """The instructions of a key and the pulls behind it."""
    text, pulls = text_of_spans(spans), "".join(f"pull {number} 64\n" for number in range(len(subscribers)))
    typed = [key + pulls for key in keys(text, behind, KEYS_BEFORE + KEYS)]
    given = [*text.changes(), *subscribers, pulls, *typed[:KEYS_BEFORE]]
    refuse_hits(hub, given + typed[KEYS_BEFORE:], spans)
    return of_each_more(instructions, hub, ["replay"], given, typed[KEYS_BEFORE:])


def figures(hub, row):
    whole = of_a_key(hub, row.subscribers, row.spans, row.behind)
    pulls = whole - of_a_key(hub, (), row.spans, row.behind)
    yield "a key, pulled", whole
    yield "  the pulls", pulls
    if row.spans > 1:
        yield "  the runs", pulls - of_a_key(hub, row.subscribers, 1, row.behind) + of_a_key(hub, (), 1, row.behind)


TWENTY = f"{SUBSCRIBERS} subscribers of compiled filters, {SPANS} spans"
ROWS = (
    Row(f"{TWENTY}, a key at the end", tuple(compiled(SUBSCRIBERS)), SPANS, END, ("  the runs", 1 / 20)),
    Row(f"{TWENTY}, in the middle", tuple(compiled(SUBSCRIBERS)), SPANS, MIDDLE, None),
    Row(f"{TWENTY}, at the front", tuple(compiled(SUBSCRIBERS)), SPANS, FRONT, None),
    Row(f"{SUBSCRIBERS} that list the index, {SPANS} spans, a key at the end", tuple(of_index(SUBSCRIBERS)), SPANS, END, ("a key, pulled", 1.02)),
    Row(f"one that lists the index, {SPANS} spans, a key at the end", tuple(of_index(1)), SPANS, END, ("a key, pulled", 1.02)),
    Row("one subscriber of question.c, one span, a key at the end", (f"sub 1024 {QUESTION}\n",), 1, END, ("a key, pulled", 1.05)),
)


def show(hubs):
    print("\nInstructions of a key and of its pulls, by valgrind")
    print(f"{'':<64} {'before' if hubs[1:] else 'now':>14}" + (f" {'after':>14} {'after/before':>14}" if hubs[1:] else ""))
    for row in ROWS:
        print(row.what)
        for named in zip(*(figures(hub, row) for hub in hubs)):
            name, values = named[0][0], [value for _, value in named]
            line = f"  {name:<62}" + "".join(f" {value:14,.0f}" for value in values)
            if hubs[1:]:
                line += f" {values[1] / values[0]:14.3f}"
            if row.aim and row.aim[0] == name:
                line += f"  aim: at most {row.aim[1]:g} of before"
                line += (" (met)" if values[1] <= row.aim[1] * values[0] else " (MISSED)") if hubs[1:] else ""
            print(line, flush=True)


def main():
    if len(sys.argv) not in (2, 3):
        sys.exit(__doc__)
    install()
    show(sys.argv[1:])


if __name__ == "__main__":
    main()
