"""Servers that are killed at random moments: what was acknowledged is there after each restart, and nothing that wasn't sent."""

import pathlib
import random
import shutil
import tempfile
import time

from document import Document
from hubs import Client, Server, Wrong, expect, kept, ops_in, printed_by_tool, same, serving, spans_of
from writers import Author, Ledger, reader, writer

# A store is left for a new one once it has so many changes: some stores live long enough that their logs are copied into their files.
LIVES = [20, 100, 400, 1500, 2600]
FEW, SOME = 200, 0.05


class Life:
    """A store, from a server's life to the next one's."""

    def __init__(self, hub, folder, writers, rng):
        self.hub, self.writers, self.rng = hub, writers, rng
        self.folder = tempfile.mkdtemp(dir=folder)
        self.store = pathlib.Path(self.folder) / "kept.hub"
        self.most = rng.choice(LIVES)
        self.before, self.ledger = [], Ledger()
        self.besides, self.is_made = 0, False

    def is_over(self):
        return len(self.before) >= self.most

    def look(self):
        """Holds what is there now against what was sent, first as sqlite3 has it, and then as a server has it."""
        ledger, self.ledger = self.ledger, Ledger()
        stored = kept(self.store, self.is_made)
        with serving(self.hub, self.store) as server:
            self.is_made = True
            client = Client(server.port)
            found = client.changes()
            expect(found == stored, "the server has other changes than sqlite3 finds")
            self.besides += ledger.judge(found, self.before)
            for version in self.versions(len(found)):
                same(client.spans(version), spans_of(found[:version]), f"the spans of version {version}")
            client.close()
        if len(found) < FEW or self.rng.random() < SOME:
            same(printed_by_tool(self.store, self.hub), spans_of(found), "what hub spans prints of what sqlite3 prints")
        self.before = found

    def versions(self, latest):
        """The versions whose spans are compared: the latest one and two others, of a long text only sometimes, since the model is slow."""
        found = {latest, self.rng.randint(min(len(self.before), latest), latest), self.rng.randint(0, latest)}
        return sorted(version for version in found if version < FEW or self.rng.random() < SOME)

    def authors(self):
        document = Document()
        for text in self.before:
            for op in ops_in(text):
                document.take(op)
        return [Author(random.Random(self.rng.random()), node, document) for node in range(1, self.writers + 1)]

    def kill_at_start(self):
        """Kills a server that may not have begun yet."""
        server = Server(self.hub, self.store)
        time.sleep(self.rng.random() * self.rng.choice([0.005, 0.05]))
        server.kill()

    def run(self, ends):
        """Writers write until the server is killed, or until each has written some and the server ends. Returns how many changes were
        acknowledged."""
        ledger, rng = self.ledger, self.rng
        words = ["--sessions", str(self.writers + 1)] if ends else []
        with serving(self.hub, self.store, *words) as server:
            depth = rng.choice([1, 1, 4])
            count = rng.randint(1, 8) if ends else None
            threads = [writer(server.port, ledger, author, depth, count) for author in self.authors()]
            threads.append(reader(server.port, ledger))
            for thread in threads:
                thread.start()
            ledger.wait_for(count * self.writers if ends else rng.randint(0, 40))
            if ends:
                for thread in threads[:-1]:
                    thread.join()
                ledger.stop()
                threads[-1].join()
                status, printed, said = server.wait()
                same((status, printed, said), (0, "", ""), "the end of a server")
            else:
                time.sleep(rng.random() * rng.choice([0, 0.002, 0.02]))
                server.kill()
                for thread in threads:
                    thread.join()
        if ledger.refusals:
            raise Wrong(f"a change was answered {ledger.refusals[0]!r}")
        return len(ledger.acknowledged)


def try_kills(hub, folder, writers, times, rng):
    """So many kills, over as many stores as that takes."""
    kills, ends, acknowledged, besides, stores = 0, 0, 0, 0, 0
    life = None
    while kills < times:
        if life is None or life.is_over():
            if life is not None:
                besides += life.besides
                shutil.rmtree(life.folder)
            life, stores = Life(hub, folder, writers, rng), stores + 1
        what = rng.choice(["start", "end"] + ["run"] * 6)
        if what == "start":
            life.kill_at_start()
        else:
            acknowledged += life.run(what == "end")
        kills, ends = kills + (what != "end"), ends + (what == "end")
        life.look()
    return (f"{kills} kills and {ends} ends with {writers} writer{'s' * (writers > 1)} over {stores} stores: {acknowledged} changes "
            f"acknowledged, none lost; {besides + life.besides} more that were under way")


def parts(hub, folder, times, rng):
    for writers in (1, 16):
        yield try_kills(hub, folder, writers, times, rng)
