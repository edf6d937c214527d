#!/usr/bin/env python3
"""Tries peers of a hub that has an operation with the greatest counter, which no later one is above: try_greatest.py [HUB] [SEED]

HUB is the executable, by default $HUB or `hub`. A hostile session sends such operations, first and between others; peers that were there
before and new ones go on with all that can still be done, and say of each edit that can't be done that it can't."""
import random
import threading
from concurrent.futures import ThreadPoolExecutor

from peer import GREATEST, NoCounter, Peer, Session, word_of
from try_peer import SEED, Hub, shown

FIRST = ["change 9 1", f"i {GREATEST}@9 - 51"]
EDITS = 150
KEYS = ["strong", "code", "color", "comment:1"]


def cannot(act, *arguments):
    """Whether an edit can't be done for want of a counter."""
    try:
        act(*arguments)
    except NoCounter:
        return True
    return False


def same_as_hub(peers, session):
    """Compares what peers have with the latest version. Returns its number."""
    _, latest = session.ask("latest")
    lines = shown(session, latest, 1024)
    for peer in peers:
        peer.follow()
        assert peer.replica.span_lines() == lines, f"node {peer.node} has another text, seed {SEED}"
    return latest


def try_first():
    """The character `Q` with the greatest counter is the text's first; each peer types behind it and marks what it types."""
    with Hub(4, "--read") as hub:
        session, old = Session(hub.port), Peer(hub.port, 1)
        session.ask(*FIRST)
        peers = [old, Peer(hub.port), Peer(hub.port, 2)]
        for at, peer in enumerate(peers):
            peer.follow()
            peer.insert(1, f"<{at}>")
            peer.insert(len(peer.replica.text()), "end" * 100)
            peer.mark(1, 4, "strong")
            peer.mark(0, 2, "color", "0000ff")
            peer.mark(0, 1, "link", "x")
            peer.remove(4, 6)
        assert old.follow() and old.replica.text() == "Q<2>>>d" + "end" * 299, old.replica.text()
        for peer in peers:
            peer.follow()
            before = peer.replica.text()
            assert cannot(peer.insert, 0, "x") and cannot(peer.remove, 0, 1) and peer.replica.text() == before
            peer.insert(2, "y")
            assert peer.replica.text() == before[:2] + "y" + before[2:]
        old.follow()
        assert cannot(old.remove, 0, len(old.replica.text())) and old.replica.text() == "Q"
        same_as_hub(peers, session)
        for one in [*peers, session]:
            one.close()


def try_marks_and_nodes():
    """Marks with the greatest counter decide where they cover, and elsewhere peers mark; a node whose counters are used up is left."""
    with Hub(3, "--read") as hub:
        session, peer = Session(hub.port), Peer(hub.port, 1)
        peer.insert(0, "abcdef")
        b, c = (word_of(peer.replica.layout().visible[at]) for at in (1, 2))
        session.ask("change 8 1", f"m {GREATEST}@8 strong - <{b} >{c}")
        session.ask("change 7 1", f"m {GREATEST}@7 em - ^ $")
        session.ask("change2 1 1", f"u {GREATEST}@1 code $ ^")
        peer.follow()
        peer.insert(6, "g")
        peer.mark(0, 7, "strong")
        assert cannot(peer.unmark, 0, 3, "strong") and cannot(peer.unmark, 2, 3, "strong") and cannot(peer.unmark, 0, 7, "em")
        peer.mark(0, 7, "em")
        peer.mark(3, 5, "code")
        want = ["0 em a", "1 strong,em bc", "2 strong,em,code de", "3 strong,em fg"]
        assert peer.node != 1 and peer.replica.span_lines() == want, peer.replica.span_lines()
        new = Peer(hub.port)
        new.unmark(4, 5, "code")
        same_as_hub([peer, new], session)
        for one in (session, peer, new):
            one.close()


def attack(session, peer, rng):
    """Sends an operation with a counter that is the greatest or near it, of some node, at a random place."""
    order, counter = peer.replica.layout().order, GREATEST - rng.choice([0, 0, 1, 2, 300])
    node = rng.choice([peer.node, rng.randint(1, 65535)])
    at = rng.choice([own for own in [None, *order] if own is None or own[0] < counter])
    named = [own for own in order if own[0] < counter]
    if rng.random() < 0.6 or not named:
        line = f"i {counter}@{node} {word_of(at)} 51"
    else:
        first, last = (word_of(rng.choice(named)) for _ in range(2))
        line = rng.choice([f"m {counter}@{node} strong - <{first} >{last}", f"u {counter}@{node} code <{first} <{last}",
                           f"m {counter}@{node} color ff0000 >{first} $", f"d {counter}@{node} {first}"])
    if session.ask(f"newest {node}")[1] < counter:
        session.ask(f"change2 {node} 1", line)


def try_edit(peer, rng):
    """One edit at random, which does what it says, as far as it can. Returns whether it could."""
    layout, before = peer.replica.layout(), peer.replica.text()
    first = rng.randint(0, len(before))
    end = min(len(before), first + rng.choice([1, 3, 9]))
    what = rng.choice(["insert", "insert", "remove", "mark", "unmark"]) if first < end else "insert"
    if what == "insert":
        text = rng.choice(["a", "bc", "def" * 20])
        refused = cannot(peer.insert, first, text)
        assert peer.replica.text() == before[:first] + ("" if refused else text) + before[first:]
    elif what == "remove":
        stays = "".join(peer.replica.characters[own] for own in layout.visible[first:end] if own[0] == GREATEST)
        refused = cannot(peer.remove, first, end)
        assert refused == bool(stays) and peer.replica.text() == before[:first] + stays + before[end:]
    else:
        key = rng.choice(KEYS)
        value = None if what == "unmark" else "00ff00" if key == "color" else "-"
        refused = cannot(peer.unmark, first, end, key) if value is None else cannot(peer.mark, first, end, key, value)
        after = peer.replica.layout().formats
        assert refused or all(format.get(key) == value for format in after[first:end]), f"{what} {key}, seed {SEED}"
        assert after[:first] + after[end:] == layout.formats[:first] + layout.formats[end:], f"{what} {key}, seed {SEED}"
    return not refused


def try_alone():
    """One peer edits at random between such operations."""
    rng, done = random.Random(SEED), 0
    with Hub(2, "--read") as hub:
        session, peer = Session(hub.port), Peer(hub.port, 5)
        session.ask(*FIRST)
        for _ in range(EDITS):
            if rng.random() < 0.2:
                attack(session, peer, rng)
            peer.follow()
            done += try_edit(peer, rng)
        same_as_hub([peer], session)
        for one in (session, peer):
            one.close()
    print(f"{done} of {EDITS} edits could be done")


def type_at_random(peer, rng, others):
    others.wait()
    for _ in range(EDITS):
        length = len(peer.replica.layout().visible)
        first = rng.randint(0, length)
        if first == length or rng.random() < 0.6:
            cannot(peer.insert, first, "abc")
        else:
            cannot(rng.choice([peer.remove, lambda first, end: peer.mark(first, end, "strong")]), first, first + 1)
        if rng.random() < 0.5:
            peer.follow()


def try_at_once():
    """Three peers edit at once, while such operations come."""
    with Hub(4, "--read") as hub, ThreadPoolExecutor(3) as pool:
        peers, session, others = [Peer(hub.port, node) for node in (1, 2, 2)], Session(hub.port), threading.Barrier(4)
        typing = [pool.submit(type_at_random, peer, random.Random(f"{SEED} {at}"), others) for at, peer in enumerate(peers)]
        others.wait()
        rng = random.Random(SEED)
        for _ in range(20):
            node = rng.choice([1, 2, *range(100, 110)])
            if session.ask(f"newest {node}")[1] < GREATEST:
                session.ask(f"change {node} 1", f"i {GREATEST}@{node} - 51")
        for one in typing:
            one.result()
        print(f"{same_as_hub(peers, session)} versions, all alike")
        for one in [*peers, session]:
            one.close()


def main():
    print(f"seed {SEED}")
    try_first()
    try_marks_and_nodes()
    try_alone()
    try_at_once()


if __name__ == "__main__":
    main()
