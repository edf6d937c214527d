"""Clients of a server that is killed and started again on its port: subscribers get each item once, and peers lose nothing."""

import pathlib
import random
import shutil
import subprocess
import sys
import tempfile
import threading
import time

from document import Document, printed
from hubs import ROOT, Client, Server, Wrong, expect, ops_in, same
from peer import Peer
from writers import Author, Ledger, writer

CLIENTS = ROOT / "examples" / "clients"
# A program that answers 1 on each span, and one that answers 1 on each strong one.
PROGRAMS = {"b7000000010000009500000000000000": lambda line: True,
            "611018000000000057000000010000009500000000000000": lambda line: line.split(" ")[1].split(",")[0] == "strong"}
PEERS = 3


class Again:
    """A store's servers, one after another on one port."""

    def __init__(self, hub, store):
        self.hub, self.store, self.port = hub, store, 0
        self.server = None
        self.begin()

    def begin(self):
        """Starts a server; where the port isn't free again yet, tries once more."""
        while True:
            self.server = Server(self.hub, self.store, port=self.port)
            port = self.server.listen()
            if port is not None:
                self.port = port
                return
            status, _, said = self.server.wait()
            if "in use" not in said:
                raise Wrong(f"it began with {self.server.first!r}, status {status}, and said {said!r}")
            time.sleep(0.1)

    def kill(self):
        self.server.kill()

    def changes(self):
        client = Client(self.port)
        found = client.changes()
        client.close()
        return found


def versions_of(texts):
    """The spans of all versions, by the model."""
    document, versions = Document(), [[]]
    for text in texts:
        for op in ops_in(text):
            document.take(op)
        versions.append(printed(document))
    return versions


def items_of(versions, is_hit):
    """The items of all versions."""
    lines = []
    for version, spans in enumerate(versions):
        lines += [f"hit {version} {at} 1" for at, span in enumerate(spans) if is_hit(span)]
        lines.append(f"end {version} {len(spans)}")
    return lines


class Watcher:
    """A subscriber from the beginning on, as a process of watch.py."""

    def __init__(self, port, folder, program):
        file = pathlib.Path(folder) / f"{program[:8]}.hex"
        file.write_text(program)
        words = [sys.executable, CLIENTS / "watch.py", str(port), str(file), "--from", "0"]
        self.process = subprocess.Popen(words, stdout=subprocess.PIPE, stderr=subprocess.DEVNULL, text=True)
        self.items, self.connections, self.is_over = [], 0, False
        self.changed = threading.Condition()
        self.reading = threading.Thread(target=self.read)
        self.reading.start()

    def read(self):
        for line in self.process.stdout:
            with self.changed:
                if line.startswith("ok sub "):
                    self.connections += 1
                else:
                    self.items.append(line.strip())
                self.changed.notify_all()
        with self.changed:
            self.is_over = True
            self.changed.notify_all()

    def wait_for(self, is_there):
        with self.changed:
            self.changed.wait_for(lambda: is_there() or self.is_over)
            expect(not self.is_over, "watch.py has ended")

    def end(self):
        self.process.kill()
        self.reading.join()
        self.process.communicate()


def write_some(hub, before, rng):
    """Two writers write until the server is killed. Returns the changes that are there afterwards, once it was started again."""
    document, ledger = Document(), Ledger()
    for text in before:
        for op in ops_in(text):
            document.take(op)
    threads = [writer(hub.port, ledger, Author(random.Random(rng.random()), node, document), 1) for node in (1, 2)]
    for thread in threads:
        thread.start()
    ledger.wait_for(rng.randint(0, 12))
    time.sleep(rng.random() * 0.02)
    hub.kill()
    for thread in threads:
        thread.join()
    hub.begin()
    found = hub.changes()
    ledger.judge(found, before)
    return found


def try_subscribers(hub, folder, rng, kills):
    again = Again(hub, pathlib.Path(folder) / "watched.hub")
    watchers = {program: Watcher(again.port, folder, program) for program in PROGRAMS}
    try:
        found = []
        for kill in range(kills):
            for watcher in watchers.values():
                watcher.wait_for(lambda: watcher.connections > kill)
            found = write_some(again, found, rng)
        versions = versions_of(found)
        for program, watcher in watchers.items():
            want = items_of(versions, PROGRAMS[program])
            watcher.wait_for(lambda: watcher.items[-1:] == want[-1:] or len(watcher.items) > len(want))
            same(watcher.items, want, "the items of a subscriber")
    finally:
        for watcher in watchers.values():
            watcher.end()
        again.kill()
    return f"{len(PROGRAMS)} subscribers over {kills} kills and {len(found)} versions: each item once"


class Typist:
    """A peer that inserts words until it is told to stop, each of them unlike all others."""

    def __init__(self, port, node):
        self.peer, self.rng = Peer(port, node), random.Random(node)
        self.words, self.is_over, self.fault = [], False, None

    def type_words(self):
        try:
            while not self.is_over:
                word = f"<{self.peer.node}.{len(self.words)}>"
                self.words.append(word)
                visible = len(self.peer.replica.layout().visible)
                self.peer.insert(visible, word)
                if self.rng.random() < 0.2:
                    self.peer.mark(0, visible + 1, self.rng.choice(["strong", "em"]))
                time.sleep(self.rng.random() * 0.02)
        except Exception as fault:  # pylint: disable=broad-except
            self.fault = fault

    def begin(self):
        self.is_over = False
        self.thread = threading.Thread(target=self.type_words)
        self.thread.start()

    def end(self):
        self.is_over = True
        self.thread.join()
        if self.fault:
            raise self.fault


def judge(again, typists):
    """All peers have the hub's text, in which each word stands once."""
    client = Client(again.port)
    version = client.latest()
    spans = client.spans(version)
    for typist in typists:
        while typist.peer.replica.version < version or typist.peer.is_behind:
            typist.peer.follow()
        same(typist.peer.replica.span_lines(), spans, f"the spans of peer {typist.peer.node}")
    text = typists[0].peer.replica.text()
    words = [word for typist in typists for word in typist.words]
    for word in words:
        same(text.count(word), 1, f"how often {word} stands in the text")
    same(len(text), sum(len(word) for word in words), "the characters of the text")
    client.close()
    return len(words)


def try_peers(hub, folder, rng, kills):
    """Peers type while the server is killed. At last an older copy of its store is put back, and peers send again what it lacks."""
    store = pathlib.Path(folder) / "typed.hub"
    again = Again(hub, store)
    try:
        typists = [Typist(again.port, node) for node in range(1, PEERS + 1)]
        for _ in range(kills):
            for typist in typists:
                typist.begin()
            time.sleep(rng.random() * 0.4)
            again.kill()
            again.begin()
            for typist in typists:
                typist.end()
            words = judge(again, typists)
        again.kill()
        shutil.copytree(folder, pathlib.Path(folder) / "older", ignore=lambda *_: ["older"])
        again.begin()
        for typist in typists:
            typist.begin()
        time.sleep(0.5)
        for typist in typists:
            typist.end()
        words = judge(again, typists)
        again.kill()
        for name in (store.name, f"{store.name}-wal"):
            if (pathlib.Path(folder) / "older" / name).exists():
                shutil.copy(pathlib.Path(folder) / "older" / name, folder)
        again.begin()
        lacks = sum(1 for typist in typists for change in typist.peer.own) - len(again.changes())
        settle(typists)
        expect(judge(again, typists) == words, "a word is gone")
    finally:
        again.kill()
    return f"{PEERS} peers over {kills} kills: {words} words, each once; {lacks} changes sent again to an older copy of the store"


def settle(typists):
    """Peers follow, which tells them that their sessions have ended, until none waits for another one."""
    for typist in typists:
        typist.peer.follow()
    while any(typist.peer.is_behind for typist in typists):
        for typist in typists:
            typist.peer.follow()


def parts(hub, folder, times, rng):
    kills = max(3, min(times, 500) // 25)
    yield try_subscribers(hub, tempfile.mkdtemp(dir=folder), rng, kills)
    yield try_peers(hub, tempfile.mkdtemp(dir=folder), rng, kills)
