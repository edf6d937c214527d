"""Power that fails at random moments: what a server showed is on the disk by then, though all that wasn't synced is lost or torn.

The calls of a server on its files and what it sends are noted in one order (disk.c). The files as they are after a power cut are made of
what was written: all that was synced, and of each later write all, nothing or some bytes."""

import pathlib
import random
import re
import shutil
import struct
import tempfile

from document import Document
from hubs import Disk, expect, kept, log_of, ops_in, replayed_changes, same, serving
from writers import Author, Ledger, reader, writer

HEAD = struct.Struct("=4Q")
SHOWN = re.compile(rb"^(?:ok version|ok latest|end) (\d+)", re.M)
WRITERS, CHANGES = 4, 300


class Torn:
    """A file of which some is synced."""

    def __init__(self, content):
        self.synced, self.now = bytearray(content), bytearray(content)
        self.pending = []

    def write(self, place, data):
        self.pending.append((place, data))
        put(self.now, place, data)

    def cut(self, length):
        self.pending.append((length, None))
        resize(self.now, length)

    def sync(self):
        self.synced, self.pending = bytearray(self.now), []

    def after(self, rng):
        """The bytes after a power cut; without a random source nothing that wasn't synced is there."""
        content = bytearray(self.synced)
        for place, data in self.pending if rng else []:
            way = rng.choice(["all", "none", "some"])
            if data is None:
                if way != "none":
                    resize(content, place)
            elif way == "all":
                put(content, place, data)
            elif way == "some":
                for first in range(0, len(data), step := rng.choice([1, 8, 512])):
                    if rng.random() < 0.5:
                        put(content, place + first, data[first : first + step])
        return bytes(content)


def resize(content, length):
    del content[length:]
    content.extend(bytes(length - len(content)))


def put(content, place, data):
    if len(content) < place + len(data):
        resize(content, place + len(data))
    content[place : place + len(data)] = data


def entries(journal):
    at = 0
    while at < len(journal):
        kind, file, place, length = HEAD.unpack_from(journal, at)
        at += HEAD.size
        data = None
        if chr(kind) in "wr":
            data = journal[at : at + length]
            at += length
        yield chr(kind), file, place, data


def noted(hub, disk, store, before, rng, ends):
    """Writers write with a reader beside them, while all calls are noted. Returns the journal, and the changes that are there then."""
    document = Document()
    for text in before:
        for op in ops_in(text):
            document.take(op)
    with tempfile.TemporaryFile() as journal:
        words = ["--sessions", str(WRITERS + 1)] if ends else []
        environment = disk.environment(store, JOURNAL=journal.fileno())
        with serving(hub, store, *words, environment=environment, inherited=[journal.fileno()]) as server:
            ledger = Ledger()
            authors = [Author(random.Random(rng.random()), node, document) for node in range(1, WRITERS + 1)]
            threads = [writer(server.port, ledger, author, rng.choice([1, 3]), CHANGES) for author in authors]
            threads.append(reader(server.port, ledger))
            for thread in threads:
                thread.start()
            for thread in threads[:-1]:
                thread.join()
            ledger.stop()
            threads[-1].join()
            if ends:
                server.process.wait()
        found = kept(store)
        ledger.judge(found, before)
        journal.seek(0)
        return journal.read(), found


def look(hub, files, found, shown, rng):
    """Looks at the files after a power cut."""
    with tempfile.TemporaryDirectory() as folder:
        store = pathlib.Path(folder) / "kept.hub"
        for path, file in ((store, files[1]), (log_of(store), files[2])):
            path.write_bytes(file.after(rng))
        texts, refusal, _ = replayed_changes(hub, store, len(found))
        expect(texts is not None, f"it was refused: {refusal}")
        expect(texts == found[: len(texts)], "another text")
        expect(len(texts) >= shown, f"version {shown} was shown, and {len(texts)} changes are left")
        same(kept(store), texts, "what sqlite3 finds")
        return len(texts) > shown


def cut_power(hub, journal, contents, found, times, rng):
    """Cuts the power at random moments of a journal. Returns how often more was there than was shown."""
    files = {1: Torn(contents[0]), 2: Torn(contents[1])}
    count, shown, more = sum(1 for _ in entries(journal)), 0, 0
    moments = set(rng.sample(range(count), min(times, count)))
    for number, (kind, file, place, data) in enumerate(entries(journal)):
        if kind == "w":
            files[file].write(place, data)
        elif kind == "t":
            files[file].cut(place)
        elif kind == "s":
            files[file].sync()
        else:
            shown = max([shown, *(int(found) for found in SHOWN.findall(data))])
        if number in moments:
            more += look(hub, files, found, shown, rng if rng.random() < 0.75 else None)
    return more, shown


def parts(hub, folder, times, rng):
    disk = Disk(folder)
    store = pathlib.Path(tempfile.mkdtemp(dir=folder)) / "kept.hub"
    before = []
    for what, ends in (("a new store", True), ("an earlier one", False)):
        contents = [path.read_bytes() if path.exists() else b"" for path in (store, log_of(store))]
        journal, found = noted(hub, disk, store, before, rng, ends)
        more, shown = cut_power(hub, journal, contents, found, times, rng)
        expect(shown == len(found), f"{shown} versions were shown, and {len(found)} are there")
        yield f"{times} power cuts over {what}, {len(found) - len(before)} changes: none lost that was shown; more was there {more} times"
        before = found
    shutil.rmtree(store.parent)
