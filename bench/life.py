#!/usr/bin/env python3
"""Measures a document's whole life in one hub of the large size: life.py HUB [--changes N] [--keep FOLDER]

65,536 changes of four characters to 131,072 bytes, the limit, where each then takes the place of as much, with 500 marks, by one session of
`replay`. At each tenth it prints the memory of the hub, and how many instructions the last changes took each, counted by valgrind in a second hub
that is sent the same: other work on the machine changes no figure. --keep leaves callgrind's profile of each tenth in a folder. Exit status: 0 where
memory and the last tenth are within their aims, else 1."""

import argparse
import os
import random
import sys

from counted import Counted
from hostile_counts import MILLION, alone, beside, heading
from lives import WIDTH, Life
from sessions import Replay

CHANGES, BYTES, COUNTED, TENTHS = 65536, 131072, 2048, 10
MOST_TIMES, MOST_MEMORY = 4, 2048


def tell(life, memory, count):
    print(f"{life.changes:>6} changes, {life.replica.visible:>7} characters of {life.replica.inserted:>6}, {life.marks:>3} marks: "
          f"{memory:8.1f} MiB, {count / MILLION:8.3f} million instructions a change", flush=True)


def measure_life(hub, changes, keep):
    """The memory and the instructions of a change at each tenth."""
    life = Life(random.Random(1), BYTES)
    plain, counted, tenths = Replay(hub, size="large"), Counted(hub, "--size", "large"), []

    def next_change():
        request = "\n".join(life.change(1)) + "\n"
        plain.ask(request)
        return request

    for tenth in range(1, TENTHS + 1):
        end = changes * tenth // TENTHS
        while life.changes < end - COUNTED:
            counted.ask(next_change())
        requests = [next_change() for _ in range(COUNTED)]
        replies, count = counted.count(requests, keep and os.path.join(keep, f"life.{tenth}"))
        if replies[-1] != f"ok version {end}":
            sys.exit(f"change {end} was answered {replies[-1]!r}")
        tenths.append((plain.memory("VmRSS"), count / COUNTED))
        tell(life, *tenths[-1])
    plain.end()
    counted.end()
    return tenths


def main():
    parser = argparse.ArgumentParser(description="Measures a document's whole life in one hub of the large size.")
    parser.add_argument("hub")
    parser.add_argument("--changes", type=int, default=CHANGES)
    parser.add_argument("--keep", metavar="FOLDER")
    asked = parser.parse_args()
    print(f"\nA document's life: {asked.changes:,} changes of {WIDTH} characters, of which up to {BYTES:,} are visible, --size large")
    tenths = measure_life(os.path.abspath(asked.hub), asked.changes, asked.keep)
    (_, first), (memory, last) = tenths[0], tenths[-1]
    figures = [
        beside("", "a change at the end, beside one at a tenth", last / MILLION, first / MILLION, "million", MOST_TIMES),
        alone("", "memory at the end", memory, "MiB", MOST_MEMORY),
    ]
    print(heading(), *[figure.line() for figure in figures], sep="\n")
    return 0 if all(figure.is_met() for figure in figures) else 1


if __name__ == "__main__":
    sys.exit(main())
