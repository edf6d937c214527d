#!/usr/bin/env python3
"""Tries `hub serve --read` with peers of peer.py: try_peer.py [HUB] [SEED]

HUB is the executable, by default $HUB or `hub`. Peers type at once at random and all end with the hub's own text and formatting; the
spans that `hub spans` prints of all accepted changes are what `show3` shows; what each line of reading refuses is tried, and that watch.py ends
once the hub is full."""
import os
import pathlib
import random
import subprocess
import sys
import threading
from concurrent.futures import ThreadPoolExecutor

from peer import KEYS, Peer, Refused, Replica, Session, changes_in

HUB = sys.argv[1] if len(sys.argv) > 1 else os.environ.get("HUB", "hub")
SEED = int(sys.argv[2]) if len(sys.argv) > 2 else random.randrange(1 << 32)
ROUNDS = 60
PIECES = ["a", "b c", "Lunch at 12?", "\n", "\\", "\\n", "\r", "\t", "\x01", "\x85", "\u2028", "é", "é", "€", "\ud7ff", "\ue000",
          "\ufeff", "\U0001f600", "\U0010ffff", "no 1", "ok 1", "x" * 300]
VALUES = {"link": ["https://a.b/?q=\\n", "-", "x"], "color": ["0000ff", "cc0000"], "block": ["heading:1", "bullet:7", "task:0:done", "rule"]}


class Hub:
    """A hub of `sessions` sessions, as a process."""

    def __init__(self, sessions, *options):
        words = [HUB, "serve", *options, "--port", "0", "--sessions", str(sessions), "--workers", "2"]
        self.process = subprocess.Popen(words, stdout=subprocess.PIPE, text=True)
        self.port = int(self.process.stdout.readline().split(" ")[1])

    def __enter__(self):
        return self

    def __exit__(self, failed, *_):
        """The hub ends once all its sessions are closed."""
        if failed:
            self.process.terminate()
        assert self.process.wait(timeout=600) == 0 or failed


def shown(session, version, at_once):
    """The span lines of a version, asked for `at_once` at a time."""
    lines, count = session.ask(f"show3 {version} 0 {at_once}")
    while len(lines) < count:
        some, _ = session.ask(f"show3 {version} {len(lines)} {at_once}")
        assert some
        lines += some
    assert all(line.startswith("span ") for line in lines)
    return [line.removeprefix("span ") for line in lines]


def spans_of(changes):
    """What `hub spans` prints of changes."""
    text = "".join(line + "\n" for change in changes for line in change)
    done = subprocess.run([HUB, "spans"], input=text.encode(), stdout=subprocess.PIPE, check=True)
    return done.stdout.decode().split("\n")[:-1]


def edit(peer, rng):
    """One edit at random."""
    length = len(peer.replica.layout().visible)
    what = rng.choice(["insert", "insert", "mark", "mark", "unmark", "remove", "restore"]) if length else "insert"
    if what == "restore":
        return peer.restore() if peer.removed else None
    first = rng.randrange(length + (what == "insert"))
    if what == "insert":
        return peer.insert(first, rng.choice(PIECES))
    end = min(length, first + rng.choice([1, 1, 3, 8, 290]))
    if what == "remove":
        return peer.remove(first, end)
    key = rng.choice([*KEYS, "comment:1", "comment:4294967295"])
    if what == "mark":
        return peer.mark(first, end, key, rng.choice(VALUES.get(key, ["-"])))
    return peer.unmark(first, end, key)


def type_at_random(peer, rng, others):
    """Edits at random, at times without having seen what others did."""
    others.wait()
    for _ in range(ROUNDS):
        edit(peer, rng)
        if rng.random() < 0.3:
            peer.follow()


def try_at_once(nodes):
    """Peers of these nodes edit at once. Returns how many changes were accepted."""
    with Hub(len(nodes) + 1, "--read") as hub, ThreadPoolExecutor(len(nodes)) as pool:
        peers, others, session = [Peer(hub.port, node) for node in nodes], threading.Barrier(len(nodes)), Session(hub.port)
        typing = [pool.submit(type_at_random, peer, random.Random(f"{SEED} {at}"), others) for at, peer in enumerate(peers)]
        for one in typing:
            one.result()
        _, latest = session.ask("latest")
        lines = shown(session, latest, random.Random(SEED).choice([1, 7, 1024]))
        for peer in peers:
            peer.follow()
            assert peer.replica.version == latest
            assert peer.replica.span_lines() == lines, f"node {peer.node} has another text, seed {SEED}"
        changes = try_versions(session, latest)
        assert spans_of(changes) == lines, f"hub spans prints another text, seed {SEED}"
        for one in [*peers, session]:
            one.close()
    return latest


def try_versions(session, latest):
    """Takes the changes one by one, and compares the replica with each version that the hub shows. Returns the changes."""
    replica, changes = Replica(), []
    assert shown(session, 0, 1) == []
    for version in range(latest):
        lines, count = session.ask(f"changes {version} 1")
        assert count == 1 and len(changes_in(lines)) == 1
        changes += changes_in(lines)
        replica.take(changes[-1])
        assert replica.span_lines() == shown(session, version + 1, 1024), f"version {version + 1}, seed {SEED}"
    some = [line for start in range(0, latest, 64) for line in session.ask(f"changes {start} 64")[0]]
    assert changes_in(some) == changes
    return changes


def number_of(session, *request):
    """The number of a refusal, or what was answered."""
    try:
        return session.ask(*request)
    except Refused as why:
        return why.number


def try_replies():
    """What the lines of reading answer and refuse, by docs/SESSIONS.md."""
    change = ["change2 1 3", "r 1@1 - 3 61 62 63", "m 4@1 strong - <1@1 <3@1", "i 7@1 3@1 5c"]
    empty = {"latest": ([], 0), "show 0 0 1": ([], 0), "changes 0 64": ([], 0), "newest 1": ([], 0), "show 1 0 1": 55, "changes 1 1": 55}
    full = {"latest": ([], 1), "show 1 0 1024": (["span 0 strong ab", "span 1 plain c\\\\"], 2), "show 1 1 1": (["span 1 plain c\\\\"], 2),
            "show 1 2 1": ([], 2), "show 1 99999999999999999999 1": 60, "show 1 18446744073709551615 1": ([], 2), "show 0 0 5": ([], 0),
            "changes 0 1": (change, 1), "changes 0 64": (change, 1), "changes 1 64": ([], 0), "newest 1": ([], 7), "newest 2": ([], 0),
            "newest 65535": ([], 0)}
    refused = {60: ["latest ", "latest 1", "show 1 0", "show 1 0 0", "show 1 0 1025", "show 2 0 0", "show 01 0 1", "show 1 0 1 1",
                    "show -1 0 1", "changes 0", "changes 0 0", "changes 0 65", "changes 2 65", "changes 00 1", "newest", "newest 01",
                    "newest x", "Latest", "spans", " latest"],
               55: ["show 2 0 1", "show 2 0 1024", "changes 2 1", "changes 2 64", "show 18446744073709551615 0 1"],
               42: ["newest 0", "newest 65536", "newest 18446744073709551615"]}
    full.update({line: number for number, lines in refused.items() for line in lines})
    with Hub(2, "--read") as hub:
        session = Session(hub.port)
        for line, want in empty.items():
            assert number_of(session, line) == want, line
        assert number_of(session, *change) == ([], 1)
        for line, want in full.items():
            assert number_of(session, line) == want, f"{line}: {number_of(session, line)}"
        try_words(Peer(hub.port, 2))
        session.close()


def try_words(peer):
    """What a peer does with words that the hub refuses or that aren't of a line, and where what is typed at a mark's end stands."""
    before = peer.replica.version
    for wrong in [lambda: peer.insert(0, "\0"), lambda: peer.insert(0, "a\udc80"), lambda: peer.insert(9, "a"), lambda: peer.remove(2, 2),
                  lambda: peer.mark(0, 1, "link", "a b"), lambda: peer.mark(0, 1, "link", "a\nlatest"), lambda: peer.mark(0, 1, "bold"),
                  lambda: peer.mark(0, 1, "color", "red"), lambda: peer.mark(0, 1, "comment:0"), lambda: peer.mark(0, 1, "em\n"),
                  lambda: peer.mark(0, 1, "block"), lambda: peer.mark(0, 1, "block", "heading:7"), lambda: peer.mark(0, 1, "strike", "x")]:
        try:
            wrong()
        except ValueError:
            continue
        raise AssertionError("done")
    assert not peer.follow() and peer.replica.version == before
    for end in ("strong", "em", "code", "color", "underline", "strike"):
        peer.mark(0, 1, end, "0000ff" if end == "color" else "-")
    peer.mark(0, 2, "link", "https://a.b")
    peer.mark(1, 2, "comment:5")
    peer.insert(1, "x")
    peer.insert(3, "y")
    want = ["0 strong,em,code,link=https://a.b,color=0000ff,underline,strike ax", "1 strong,link=https://a.b,comment:5 b", "2 strong y", "3 plain c\\\\"]
    assert peer.replica.span_lines() == want, peer.replica.span_lines()
    peer.remove(2, 3)
    peer.insert(2, "z")
    try_restoring(peer)
    want = ["0 strong,em,code,link=https://a.b,color=0000ff,underline,strike ax", "1 strong zy", "2 plain c\\\\"]
    assert peer.replica.span_lines() == want, peer.replica.span_lines()
    peer.close()


def try_kinds():
    """The kinds of lines, on a hub of their own."""
    with Hub(1, "--read") as hub:
        peer = Peer(hub.port, 1)
        try_lines(peer)
        peer.close()


def try_lines(peer):
    """Each line of three is given a kind. What is typed at a line's front is in its kind, also where the line's first characters were
    removed, and so is what is typed at the text's end. A removed line feed leaves both lines' kinds."""
    peer.insert(0, "ab\ncd\nef")
    peer.remove(3, 4)
    for first, end, kind in [(0, 3, "heading:1"), (3, 5, "bullet:0"), (5, 7, "quote")]:
        peer.mark(first, end, "block", kind)
    for place, text in [(0, "x"), (4, "y"), (len("xab\nyd\nef"), "z")]:
        peer.insert(place, text)
    want = ["0 block=heading:1 xab\\n", "1 block=bullet:0 yd\\n", "2 block=quote efz"]
    assert peer.replica.span_lines() == want, peer.replica.span_lines()
    peer.remove(3, 4)
    peer.unmark(6, 9, "block")
    want = ["0 block=heading:1 xab", "1 block=bullet:0 yd\\n", "2 plain efz"]
    assert peer.replica.span_lines() == want, peer.replica.span_lines()


def try_restoring(peer):
    """What is removed and restored, twice, is one line each, also where another one has removed some of it meanwhile; a character that is
    removed again stays so."""
    before = peer.replica.span_lines()
    for _ in range(2):
        peer.insert(1, "abcdefgh")
        whole, (first, node) = peer.replica.span_lines(), peer.replica.layout().visible[1]
        peer.remove(1, 9)
        assert peer.replica.span_lines() == before
        own = peer.replica.newest[node] - 7
        newest = peer.session.ask("newest 3")[1]
        counter = max(newest, first + 8) + 1
        peer.session.ask("change3 3 1", f"d {counter}@3 {first + 2}@{node} 4")
        peer.follow()
        peer.restore()
        change = list(peer.replica.changes.values())[-1]
        assert change[0] == f"change3 {node} 2" and peer.replica.span_lines() == whole, change
        assert {" ".join(line.split(" ")[2:]) for line in change[1:]} == {f"{own}@{node} 8", f"{counter}@3 4"}, change
        peer.remove(1, 9)
        peer.session.ask("change3 3 1", f"v {counter + 4}@3 {own}@{node} 8")
        peer.follow()
        assert peer.replica.span_lines() == before and peer.replica.standing(peer.removed[-1])


def try_command():
    """The command peer.py."""
    said = "insert 0 Hm\\n\\\\\nmark 0 2 em\ntext\nspans\nremove 0 1\nspans\nremove 9 10\nwait 2\nbold\ninsert 0 \0\nrestore\ntext\nrestore\n"
    want = ("version 1\nversion 2\nHm\\n\\\\\n0 em Hm\n1 plain \\n\\\\\nversion 3\n0 em m\n1 plain \\n\\\\\ncannot: no range of a text of "
            "3 characters\nversion 3\ncannot: no such command; peer.py --help tells them\ncannot: U+0000 can't be inserted\n"
            "version 4\nHm\\n\\\\\ncannot: nothing was removed, or all is restored\n")
    with Hub(2, "--read") as hub:
        command = [sys.executable, pathlib.Path(__file__).with_name("peer.py"), str(hub.port)]
        done = subprocess.run(command, input=said.encode(), stdout=subprocess.PIPE, check=True)
        assert done.stdout.decode() == want, done.stdout.decode()
        failed = subprocess.run([*command, "--node", "0"], input=b"", stderr=subprocess.PIPE, check=False)
        assert failed.returncode == 1 and failed.stderr.startswith(b"peer.py: no 42 Limit"), failed.stderr


def try_without_reading():
    """A hub without --read doesn't know these lines."""
    with Hub(1) as hub:
        session = Session(hub.port)
        for line in ["latest", "show 0 0 1", "changes 0 1", "newest 1", "newest 0"]:
            assert number_of(session, line) == 60, line
        session.close()


def try_watching():
    """watch.py prints the items that a full hub still gives, and ends."""
    clients = pathlib.Path(__file__).resolve().parent
    with Hub(2, "--read") as hub:
        session = Session(hub.port)
        for number in range(1, 4097):
            session.ask("change 1 1", f"i {number}@1 - 61")
        command = [sys.executable, clients / "watch.py", str(hub.port), clients.parent / "filters" / "question.hex", "--from", "4094"]
        done = subprocess.run(command, stdout=subprocess.PIPE, stderr=subprocess.PIPE, check=True, timeout=600)
        assert done.stdout == b"ok sub 0\nend 4094 1\nend 4095 1\nend 4096 1\n", done.stdout
        assert done.stderr == b"the hub is full, so that no item comes any more\n", done.stderr
        session.close()


def main():
    print(f"seed {SEED}")
    try_replies()
    try_kinds()
    try_command()
    try_watching()
    try_without_reading()
    for nodes in [(1, 2, 3), (65535, 7, 8), (4, 4, 4)]:
        print(f"nodes {nodes}: {try_at_once(nodes)} versions, all alike")


if __name__ == "__main__":
    main()
