"""A disk that fails at each call in turn, once and for good: no acknowledged change is lost, and none shows that isn't stored."""

import contextlib
import errno
import os
import pathlib
import random
import shutil
import subprocess
import tempfile

from document import Document
from hubs import Client, Disk, Ended, Server, Wrong, expect, kept, ops_in, same, serving, spans_of
from writers import Author, Ledger, reader, writer

KINDS = ["write", "half", "sync", "truncate", "open"]
WRITERS, CHANGES = 2, 5
FAILED = "no 66 StoreFailed"


class Run:
    """A server on a disk that fails, from its start to its end."""

    def __init__(self, hub, disk, folder, before, rng):
        self.hub, self.disk, self.before, self.rng = hub, disk, before, rng
        self.folder = tempfile.mkdtemp(dir=folder)
        self.store = pathlib.Path(self.folder) / "kept.hub"
        self.ledger, self.calls, self.failures = Ledger(), 0, 0

    def take(self, files):
        """Takes the files of a store that was made before."""
        for name in ("kept.hub", "kept.hub-wal"):
            if (files / name).exists():
                shutil.copy(files / name, self.folder)

    def run(self, kind, at, goes_on):
        """Runs a server whose call number `at` fails. Returns its status and what it said."""
        with tempfile.TemporaryFile() as told:
            options = {"FAILS": kind, "AT": at, "TOLD": told.fileno(), "ERROR": errno.EIO, **({"ON": 1} if goes_on else {})}
            environment = self.disk.environment(self.store, **options)
            words = ["--sessions", str(WRITERS + 1)]
            server = Server(self.hub, self.store, *words, environment=environment, inherited=[told.fileno()])
            if server.listen() is not None:
                self.write(server)
            status, printed, said = server.wait()
            told.seek(0)
            letters = told.read()
        self.calls, self.failures = len(letters), letters.count(b"f")
        return server.first, status, printed, said

    def write(self, server):
        """Writers and a reader, until all is written or the server ends their sessions."""
        document = document_of(self.before)
        threads = []
        with contextlib.suppress(OSError):
            for node in range(1, WRITERS + 1):
                author = Author(random.Random(self.rng.random()), node, document)
                threads.append(writer(server.port, self.ledger, author, 1, CHANGES))
            threads.append(reader(server.port, self.ledger))
        for thread in threads:
            thread.start()
        for thread in threads[:WRITERS]:
            thread.join()
        # A server whose store failed ends the reader's session too, though that goes on asking.
        if not self.ledger.refusals:
            self.ledger.stop()
        for thread in threads[WRITERS:]:
            thread.join()

    def judge(self, first, status, printed, said):
        """Judges how the server began and ended."""
        ledger = self.ledger
        if not first.startswith("port "):
            is_failure = status == 3 and first == ""
            is_refusal = status == 1 and first in ("refused 66 StoreFailed\n",)
            expect(is_failure or is_refusal, f"it began with {first!r}, status {status}")
            expect(said, "it did not say why it ended")
            expect(self.failures, "it did not begin though no call failed")
            return "no start"
        same(printed, "", "what it printed at its end")
        expect(set(ledger.refusals) <= {FAILED}, f"a change was answered {ledger.refusals}")
        if ledger.refusals or len(ledger.acknowledged) < WRITERS * CHANGES:
            expect(self.failures, "a change was refused though no call failed")
            same(status, 3, f"the status of a server whose store failed, which said {said!r}")
            expect(said, "it did not say why it ended")
            return "a change refused"
        expect((status, said) == (0, "") or (status == 3 and said and self.failures), f"status {status}, and it said {said!r}")
        return "all changes" if status == 0 else "all changes, and no clean end"

    def look(self):
        """Holds what is there afterwards, on a disk that doesn't fail."""
        stored = kept(self.store, is_made=bool(self.before or self.ledger.acknowledged))
        with serving(self.hub, self.store) as server:
            client = Client(server.port)
            found = client.changes()
            expect(found == stored, "the server has other changes than sqlite3 finds")
            besides = self.ledger.judge(found, self.before)
            same(client.spans(len(found)), spans_of(found), "the spans")
            client.close()
        shutil.rmtree(self.folder)
        return besides


def document_of(texts):
    document = Document()
    for text in texts:
        for op in ops_in(text):
            document.take(op)
    return document


def earlier(hub, disk, folder, rng):
    """A store with changes, of which some are in its file and some in its log."""
    run = Run(hub, disk, folder, [], rng)
    run.judge(*run.run("none", 0, False))
    run.before, run.ledger = kept(run.store), Ledger()
    with serving(hub, run.store) as server:
        run.write(server)
    return pathlib.Path(run.folder), kept(run.store)


def try_kind(hub, disk, folder, kind, files, before, rng):
    """Each call of a kind fails, alone and with all after it, in a server on new files or on such as were there before."""
    calls, ends = 0, {}
    for goes_on in (False, True):
        for at in range(1, 100000):
            run = Run(hub, disk, folder, before, rng)
            if files:
                run.take(files)
            way = f"{kind} {at} {'and all after it' if goes_on else 'alone'}"
            try:
                end = run.judge(*run.run(kind, at, goes_on))
                run.look()
            except (Wrong, Ended, OSError) as fault:
                raise Wrong(f"{way} on {'earlier' if files else 'new'} files: {fault}") from fault
            if not run.failures:
                break
            calls, ends[end] = max(calls, at), ends.get(end, 0) + 1
    return calls, ends


def replayed(hub, store, texts, environment):
    """A session of `replay` whose calls fail. Returns how it ended, and how many calls failed."""
    with tempfile.TemporaryFile() as told:
        environment = {**os.environ, **environment, "DISK_TOLD": str(told.fileno())}
        words, given = [hub, "replay", "--store", store], "".join(texts).encode()
        done = subprocess.run(words, input=given, capture_output=True, check=False, env=environment, pass_fds=[told.fileno()])
        told.seek(0)
        return done, told.read().count(b"f")


def judge_session(store, texts, done, failures):
    """What was acknowledged is a beginning of what was sent, and is kept. Returns how many changes that are."""
    lines = done.stdout.decode().splitlines()
    accepted = sum(line.startswith("ok ") for line in lines)
    told = f"status {done.returncode}, {lines}"
    expect(lines[:accepted] == [f"ok version {number}" for number in range(1, accepted + 1)], told)
    expect(set(lines[accepted:]) <= {FAILED}, told)
    expect(done.returncode == (3 if failures else 0) and bool(done.stderr) == bool(failures), told)
    found = kept(store, is_made=accepted > 0)
    expect(found == texts[: len(found)] and len(found) >= accepted, f"{told}, and {len(found)} are kept")
    return accepted


def try_session(hub, disk, folder, kind, rng):
    """Each call of a kind fails in a session of `replay`. Returns how many sessions that were, and in how many changes were refused."""
    runs, cut = 0, 0
    for goes_on in (False, True):
        for at in range(1, 100000):
            store = pathlib.Path(tempfile.mkdtemp(dir=folder)) / "kept.hub"
            author = Author(random.Random(rng.random()), 1, Document())
            texts = [author.change() for _ in range(2 * CHANGES)]
            environment = disk.environment(store, FAILS=kind, AT=at, **({"ON": 1} if goes_on else {}))
            done, failures = replayed(hub, store, texts, environment)
            try:
                accepted = judge_session(store, texts, done, failures)
            except Wrong as fault:
                raise Wrong(f"{kind} {at} {'and all after it' if goes_on else 'alone'} in a session: {fault}") from fault
            shutil.rmtree(store.parent)
            if not failures:
                break
            runs, cut = runs + 1, cut + (accepted < len(texts))
    return runs, cut


def parts(hub, folder, times, rng):
    del times
    disk = Disk(folder)
    files, before = earlier(hub, disk, folder, rng)
    for kind in KINDS:
        for where in (None, files):
            calls, ends = try_kind(hub, disk, folder, kind, where, before if where else [], rng)
            told = ", ".join(f"{end} {count}" for end, count in sorted(ends.items()))
            yield f"each {kind} fails, {'earlier' if where else 'new'} files, {calls} calls: {told or 'none'}"
        runs, cut = try_session(hub, disk, folder, kind, rng)
        yield f"each {kind} fails in a session of replay: {runs} sessions, {cut} of them with changes refused"
