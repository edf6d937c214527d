"""Files of which a bit was flipped, or that were cut: refused, or, where only the end of the log was harmed, a beginning of the changes. A
log that has lost more than its last commit is refused, and opened without what is lost where that is accepted."""

import collections
import pathlib
import shutil
import tempfile

from document import Document
from hubs import expect, kept, log_of, ops_in, replayed_changes, said_in, same, serving
from wal import Log
from writers import Author, Ledger, writer

IN_FILE, IN_LOG = 300, 150


def made(hub, folder, rng):
    """A store whose server ended, so that all changes were in its file, and whose next one was killed with changes in the log; and what
    sqlite3 finds in it."""
    store = pathlib.Path(tempfile.mkdtemp(dir=folder)) / "kept.hub"
    write(hub, store, rng, IN_FILE, "--sessions", "1")
    write(hub, store, rng, IN_LOG)
    return store, kept(store)


def write(hub, store, rng, count, *words):
    """One writer makes so many changes, and then the server ends by itself or is killed."""
    document = Document()
    for text in kept(store, is_made=False):
        for op in ops_in(text):
            document.take(op)
    with serving(hub, store, *words) as server:
        ledger = Ledger()
        thread = writer(server.port, ledger, Author(rng, 1, document), 8, count)
        thread.start()
        thread.join()
        expect(len(ledger.acknowledged) == count, f"of {count} changes {len(ledger.acknowledged)} were acknowledged")
        if words:
            server.process.wait()


class Damage:
    """What is done to a copy of a store."""

    def __init__(self, store, texts):
        self.store, self.texts = store, texts
        self.file, self.log = store.read_bytes(), log_of(store).read_bytes()
        self.used = len(self.log.rstrip(b"\0"))
        self.found = collections.Counter()
        self.fewest = len(texts)

    def told(self):
        found = ", ".join(f"{what} {count}" for what, count in sorted(self.found.items()))
        return f"{found}; at least {self.fewest} changes"

    def flip(self, rng, in_log):
        data = bytearray(self.log if in_log else self.file)
        data[rng.randrange(self.used if in_log else len(data))] ^= 1 << rng.randrange(8)
        return bytes(data)

    def cut(self, rng, in_log):
        return (self.log if in_log else self.file)[: rng.randrange(self.used if in_log else len(self.file))]

    def judge(self, hub, what, in_log, data):
        """Holds what a hub finds in the damaged copy against what was stored."""
        with tempfile.TemporaryDirectory() as folder:
            copy = pathlib.Path(folder) / "copy.hub"
            copy.write_bytes(self.file if in_log else data)
            log_of(copy).write_bytes(data if in_log else self.log)
            before = copy.read_bytes()
            lost = Log(data).lost() if in_log else 0
            texts, refusal, status = replayed_changes(hub, copy, len(self.texts))
            if texts is None:
                self.refused(refusal, status, before == copy.read_bytes())
                self.found[f"{what}: refused"] += 1
                expect(not in_log or lost, f"{what}: refused, and no commit but the last is lost")
                if lost:
                    self.accept(hub, copy, what, lost)
                return
            expect(not lost, f"{what}: {lost} commits are lost without a word")
            expect(texts == self.texts[: len(texts)], f"{what}: another text")
            if texts == self.texts:
                self.found[f"{what}: all changes"] += 1
            else:
                expect(in_log, f"{what}: {len(texts)} changes of {len(self.texts)}")
                expect(len(texts) >= IN_FILE, f"{what}: {len(texts)} changes, and {IN_FILE} are in the file")
                self.found[f"{what}: an earlier state"] += 1
                self.fewest = min(self.fewest, len(texts))
            expect(kept(copy) == texts, f"{what}: sqlite3 finds other changes")

    def accept(self, hub, copy, what, lost):
        """Opens a copy whose log has lost so many commits, and says so; the next start has nothing to say."""
        with tempfile.TemporaryFile() as told:
            texts, refusal, _ = replayed_changes(hub, copy, len(self.texts), options=["--accept-loss"], errors=told)
            said = said_in(told)
        expect(texts is not None, f"{what}: {refusal!r} although the loss is accepted")
        same(said, f"hub: {log_of(copy)} was damaged: at least {lost} commits are lost\n", f"{what}: what is said")
        expect(IN_FILE <= len(texts) < len(self.texts), f"{what}: {len(texts)} changes")
        same(texts, self.texts[: len(texts)], f"{what}: the changes before the damage")
        same(replayed_changes(hub, copy, len(texts))[0], texts, f"{what}: the changes at the next start")
        same(kept(copy), texts, f"{what}: what sqlite3 finds then")
        self.fewest = min(self.fewest, len(texts))

    @staticmethod
    def refused(line, status, is_untouched):
        expect((line.split(" change ")[0], status) == ("refused 65 StoreDamaged", 1), f"{line!r}, status {status}")
        expect(is_untouched, "a file that is refused isn't as it was")


def parts(hub, folder, times, rng):
    store, texts = made(hub, folder, rng)
    expect(len(texts) == IN_FILE + IN_LOG, f"{len(texts)} changes are stored")
    damage = Damage(store, texts)
    for number in range(times):
        in_log = number % 2 == 1
        where = "the log" if in_log else "the file"
        if number % 5 == 4:
            damage.judge(hub, f"{where} cut", in_log, damage.cut(rng, in_log))
        else:
            damage.judge(hub, f"a bit of {where}", in_log, damage.flip(rng, in_log))
    yield f"{times} damaged stores of {len(texts)} changes, {IN_LOG} of them in the log: {damage.told()}"
    damage.found.clear()
    cuts = [(True, 0), (True, 41), (False, 0), (False, 1), (False, 4096), (False, len(damage.file) - 1)]
    for in_log, length in cuts:
        data = (damage.log if in_log else damage.file)[:length]
        damage.judge(hub, f"{'the log' if in_log else 'the file'} cut to {length} bytes", in_log, data)
    yield damage.told()
    yield from by_hand(hub, damage)
    shutil.rmtree(store.parent)


def changed(data, at, *values):
    """A log some of whose bytes are others."""
    data = bytearray(data)
    for place, value in enumerate(values, at):
        expect(data[place] != value, f"byte {place} is {value} already")
        data[place] = value
    return bytes(data)


def by_hand(hub, damage):
    """The header, a frame's parts, a block of zeros, and the tail, each damaged in turn."""
    damage.found.clear()
    whole, log = damage.log, Log(damage.log)
    read, behind = log.found()
    expect((behind, log.lost()) == (0, 0) and read > 20, f"a log of {read} commits, {behind} of them behind a wrong frame")
    at = 32 + 3 * (24 + 4096)
    cases = {"the magic number": changed(whole, 0, whole[0] ^ 1), "the size of pages": changed(whole, 10, whole[10] ^ 0x20),
             "a salt of the header": changed(whole, 17, whole[17] ^ 1), "the header's sum": changed(whole, 31, whole[31] ^ 1),
             "the first block": bytes(4096) + whole[4096:], "a frame's page number": changed(whole, at + 3, whole[at + 3] ^ 1),
             "a frame's first salt byte": changed(whole, at + 8, whole[at + 8] ^ 0xFF),
             "a frame's sum": changed(whole, at + 16, whole[at + 16] ^ 1), "a page": changed(whole, at + 24 + 99, whole[at + 24 + 99] ^ 1),
             "a block in the midst": whole[:8192] + bytes(4096) + whole[12288:]}
    for what, data in cases.items():
        expect(Log(data).lost() > 1, f"{what}: nothing is lost")
        damage.judge(hub, what, True, data)
    yield f"logs of {read} commits, damaged by hand: {damage.told()}"
    damage.found.clear()
    frames = Log(whole)
    salts = whole[16:24]
    used = next(index for index in range(frames.count()) if frames.frame(index)[8:16] != salts)
    last = 32 + (used - 1) * (24 + 4096)
    for what, data in {"the last page": changed(whole, last + 24, whole[last + 24] ^ 1), "the last frame's sum": changed(whole, last + 23, whole[last + 23] ^ 1),
                       "the last frame": whole[:last] + bytes(24 + 4096) + whole[last + 24 + 4096 :]}.items():
        damage.judge(hub, what, True, data)
    yield f"and only at their ends: {damage.told()}"
