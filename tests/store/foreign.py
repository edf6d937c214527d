"""The log of one store beside the file of another, or of another time: refused, and never another text."""

import pathlib
import random
import shutil
import tempfile

from document import Document
from hubs import Server, expect, kept, log_of, replayed_changes, same, serving
from refusals import DAMAGED
from writers import Author, Ledger, writer

FEW, SOME = 30, 400


class Store:
    """A store that grows by servers that end well or are killed."""

    def __init__(self, hub, folder, node, rng):
        self.hub, self.path = hub, pathlib.Path(tempfile.mkdtemp(dir=folder)) / "kept.hub"
        self.author = Author(random.Random(rng.random()), node, Document())
        self.texts = []

    def grow(self, count, is_killed):
        """Adds so many changes; those of a server that is killed stay in the log."""
        with serving(self.hub, self.path, *([] if is_killed else ["--sessions", "1"])) as server:
            ledger = Ledger()
            thread = writer(server.port, ledger, self.author, 8, count)
            thread.start()
            thread.join()
            expect(len(ledger.acknowledged) == count, f"{len(ledger.acknowledged)} changes of {count}")
            if not is_killed:
                server.process.wait()
        self.texts += [ledger.acknowledged[number] for number in sorted(ledger.acknowledged)]

    def beside(self, log, folder):
        """A copy of its file, beside which another log stands."""
        to = pathlib.Path(tempfile.mkdtemp(dir=folder)) / "copy.hub"
        shutil.copy(self.path, to)
        log_of(to).write_bytes(log)
        return to


def said_of(hub, store):
    server = Server(hub, store)
    if server.listen() is not None:
        server.kill()
        return server.first, "", None
    status, printed, said = server.wait()
    return server.first + printed, said, status


def is_foreign(hub, store, what):
    """It is refused, says why where its pages fit together, and stays as it was."""
    before = store.read_bytes()
    line, said, status = said_of(hub, store)
    same((line.split(" change ")[0].strip(), status), (DAMAGED, 1), what)
    expect(said in ("", f"hint: {store}-wal is the log of another file\n"), f"{what}: {said!r}")
    same(store.read_bytes(), before, f"{what}: the file")


def exchanged(hub, folder, rng):
    """Pairs whose logs are exchanged, and whose files have changes."""
    for what, first, second in (("two stores", FEW, SOME), ("stores as long", FEW, FEW)):
        stores = [Store(hub, folder, node, rng) for node in (1, 2)]
        for store, count in zip(stores, (first, second)):
            store.grow(count, False)
            store.grow(FEW, True)
            same(kept(store.path), store.texts, f"{what}: the changes")
        for store, other in (stores, reversed(stores)):
            is_foreign(hub, store.beside(log_of(other.path).read_bytes(), folder), what)
            same(replayed_changes(hub, store.beside(log_of(store.path).read_bytes(), folder), len(store.texts))[0], store.texts, f"{what}: its own log")


def earlier(hub, folder, rng):
    """A log of before the file's last changes."""
    store = Store(hub, folder, 1, rng)
    store.grow(FEW, True)
    log = log_of(store.path).read_bytes()
    store.grow(FEW, False)
    is_foreign(hub, store.beside(log, folder), "an earlier log")


def never_another(hub, folder, times, rng):
    """Random pairs: refused, or the changes of the file with none but its own."""
    refused = 0
    for _ in range(times):
        stores = [Store(hub, folder, node, rng) for node in (1, rng.choice([1, 2]))]
        for store in stores:
            store.grow(rng.randrange(1, FEW), False)
            store.grow(rng.randrange(1, FEW), True)
        for store, other in (stores, reversed(stores)):
            copy = store.beside(log_of(other.path).read_bytes(), folder)
            texts, line, status = replayed_changes(hub, copy, len(store.texts) + len(other.texts))
            if texts is None:
                same((line.split(" change ")[0], status), (DAMAGED, 1), "what a session answers")
                refused += 1
            else:
                expect(texts == store.texts[: len(texts)], "a store with another's log has another text")
        for store in stores:
            shutil.rmtree(store.path.parent)
    return refused


def parts(hub, folder, times, rng):
    exchanged(hub, folder, rng)
    earlier(hub, folder, rng)
    yield "logs that were exchanged, and an earlier one: refused, and each with its own log is taken"
    count = max(1, times // 10)
    yield f"{count} random pairs whose logs are exchanged: {never_another(hub, folder, count, rng)} of {2 * count} files refused, none with another text"
