#!/usr/bin/env python3
"""Tries the editor of examples/editor in browsers:
try_editor.py [HUB] [--only PART].. [--rounds N] [--operations N] [--quick] [--seed N] [--pictures FOLDER]

HUB is the executable, by default $HUB or `hub`; it serves the editor itself. It takes Chromium and its driver (Debian: chromium,
chromium-driver), and a built examples/editor. The parts: `cases`, each thing by itself: marks at their ends, undo, composition, paste, drag,
a hub that is full or gone; `limits`, those of both sizes, what undo can't put back, and a session's share; `kept`, what isn't sent, over
another hub, a reload and a closed tab; `undo`, which copies nothing and loses nothing: of a whole text ten times over, by two editors, by
clients outside browsers, and in a day of writing (with --quick less of it); `node`, the client outside a browser; `store`, a hub that keeps
its changes and is ended and started again; `rounds`, in which three editors and a peer of peer.py edit one text at random, one of the
editors cut off for a while, after each of which all four show the hub's text; and `speed`, the time from a key to the screen in a full
text, which is printed. Nothing passes or fails by a time: what doesn't come is waited for, and told."""
import argparse
import os
import pathlib
import random
import time
from concurrent.futures import ThreadPoolExecutor

import cases
import kept
import limits
import outside
import undo
from browser import number_in, program
from editors import Editor, place

ROUNDS_A_HUB = 5
PARTS = ["cases", "limits", "kept", "undo", "node", "store", "rounds", "speed"]
KEYS = ["strong", "em", "code", "comment:7", "link", "color", "underline", "strike", "block"]
VALUES = {"link": "https://p.q/", "color": "b42318", "block": "heading:2"}


# Random rounds.

def peer_at_random(peer, rng, count):
    for _ in range(count):
        peer.follow()
        length = len(peer.replica.layout().visible)
        first = rng.randrange(length + 1)
        end = min(length, first + 1 + rng.randrange(8))
        kind = rng.random()
        if kind < 0.5 or first == end:
            peer.insert(first, rng.choice(["p", "qr", "peer ", "\n", "\U0001f40d"]))
        elif kind < 0.65:
            peer.remove(first, end)
        elif kind < 0.7:
            if peer.removed:
                peer.restore()
        else:
            key = rng.choice(KEYS)
            if rng.random() < 0.25:
                peer.unmark(first, end, key)
            else:
                peer.mark(first, end, key, VALUES.get(key, "-"))
        time.sleep(rng.random() * 0.04)


def editor_at_random(editor, rng, count):
    """So many edits in the page; behind each 25 of them a word is composed, by the browser."""
    errors = []
    for first in range(0, count, 25):
        errors += editor.do("return round(...arguments)", rng.randrange(1 << 31), min(25, count - first) - 1, 60)
        editor.do("select(arguments[0])", rng.randrange(2000))
        cases.compose(editor, "n", "\u306b", "\u306bh")
        time.sleep(rng.random() * 0.3)
        editor.protocol("Input.insertText", text=rng.choice(["\u65e5\u672c", "\u306b", ""]))
    return errors


def one_round(here, rng, operations):
    """All edit at once; one of the editors is cut off for a part of the time."""
    count = operations // (len(here.editors) + 1)
    away = rng.randrange(len(here.editors))
    with ThreadPoolExecutor(len(here.editors) + 1) as pool:
        begin = rng.randrange(100, 1000)
        here.editors[away].do("setTimeout(cut, arguments[0]); setTimeout(mend, arguments[1])", begin, begin + rng.randrange(300, 3000))
        jobs = [pool.submit(editor_at_random, editor, random.Random(rng.random()), count) for editor in here.editors]
        jobs.append(pool.submit(peer_at_random, here.peer, random.Random(rng.random()), count))
        for job in jobs:
            errors = job.result()
            assert not errors, errors
    here.compare()


def try_rounds(hub, editors, rng, rounds, operations):
    begun, done = time.monotonic(), 0
    while done < rounds:
        with place(hub, editors) as here:
            for _ in range(min(ROUNDS_A_HUB, rounds - done)):
                one_round(here, rng, operations)
                done += 1
            _, latest = here.session.ask("latest")
            used = here.editors[0].run("return [hub.replica.characters.size, hub.replica.marks.length]")
            print(f"round {done}: {latest} versions, {used[0]} characters, {used[1]} marks, all alike, {time.monotonic() - begun:.0f} s", flush=True)


def main():
    parser = argparse.ArgumentParser(description=__doc__, formatter_class=argparse.RawDescriptionHelpFormatter)
    parser.add_argument("hub", nargs="?", default=os.environ.get("HUB", "hub"))
    parser.add_argument("--only", action="append", choices=PARTS)
    parser.add_argument("--rounds", type=int, default=20)
    parser.add_argument("--operations", type=int, default=500)
    parser.add_argument("--quick", action="store_true")
    parser.add_argument("--seed", type=int, default=random.randrange(1 << 31))
    parser.add_argument("--pictures", type=pathlib.Path)
    arguments = parser.parse_args()
    parts = arguments.only or PARTS
    print(f"seed {arguments.seed}", flush=True)
    with program("chromedriver", "--port=0") as driver:
        address = f"http://127.0.0.1:{number_in(driver, 'successfully on port ([0-9]+)')}"
        editors = [Editor(address) for _ in range(3)]
        try:
            if "cases" in parts:
                cases.try_all(arguments.hub, editors, arguments.pictures)
            if "limits" in parts:
                limits.try_all(arguments.hub, editors[0], str(cases.FILTERS / "question.hex"), arguments.pictures)
            if "kept" in parts:
                kept.try_all(arguments.hub, editors[0], arguments.pictures)
            if "undo" in parts:
                undo.try_all(arguments.hub, editors, random.Random(arguments.seed), arguments.quick)
            if "node" in parts:
                outside.try_node(arguments.hub)
            if "store" in parts:
                cases.try_kept(arguments.hub, editors)
            if "rounds" in parts:
                try_rounds(arguments.hub, editors, random.Random(arguments.seed), arguments.rounds, arguments.operations)
            if "speed" in parts:
                cases.measure(arguments.hub, editors[0])
        finally:
            for editor in editors:
                editor.quit()


if __name__ == "__main__":
    main()
