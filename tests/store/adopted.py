"""Files without sums on their pages, as sqlite3 writes them: refused, and adopted on request."""

import pathlib
import random
import subprocess
import tempfile

from document import Document
from hubs import Client, expect, kept, log_of, replayed_changes, same, serving, spans_of
from refusals import BUSY, DAMAGED, FIRST, SECOND, built, is_refused, other_tables, rows_of, tables_of, wrong_changes
from writers import Author

MOST = 300


def adopt(hub, old, new, *words):
    """What `hub adopt` prints and says, and its status."""
    done = subprocess.run([hub, "adopt", old, new, *words], stdin=subprocess.DEVNULL, capture_output=True, check=False)
    return done.stdout.decode(), done.returncode, done.stderr.decode()


def dumped(store, to):
    """A new file of what sqlite3 dumps of a store that no server has open."""
    text = subprocess.run(["sqlite3", store, ".dump"], check=True, stdout=subprocess.PIPE).stdout
    subprocess.run(["sqlite3", to], input=text, check=True, stdout=subprocess.DEVNULL)


def identity(hub, store):
    with serving(hub, store) as server:
        client = Client(server.port)
        (line,) = client.ask("hub")
        client.close()
    return line


def makes_none(hub, old, new, line, status=1):
    """FROM isn't adopted, stays as it was, and no file TO is there."""
    before = old.read_bytes() if old.exists() else None
    printed, found, said = adopt(hub, old, new)
    same((printed, found), (line, status), f"what adopt answers, which said {said!r}")
    same(old.read_bytes() if old.exists() else None, before, "FROM")
    expect(not new.exists() and not log_of(new).exists(), "adopt left a file TO")
    return said


def one(hub, folder):
    """A dump isn't taken, its adoption is, and is the same hub."""
    store, plain, new = folder / "one.hub", folder / "plain.hub", folder / "new.hub"
    with serving(hub, store) as server:
        client = Client(server.port)
        (name,) = client.ask("hub")
        for number, text in enumerate((FIRST, SECOND), 1):
            same(client.ask(text[:-1]), [f"ok version {number}"], "a change")
        client.close()
    dumped(store, plain)
    expect(plain.read_bytes()[20] == 0, "the dump has room for sums")
    is_refused(hub, plain, DAMAGED)
    said = subprocess.run([hub, "replay", "--store", plain], stdin=subprocess.DEVNULL, capture_output=True, check=False).stderr.decode()
    same(said, f"hint: {plain} has no sums on its pages; `hub adopt {plain} NEW` makes a store of it\n", "what is said of it")
    before = plain.read_bytes()
    same(adopt(hub, plain, new), ("adopted 2\n", 0, ""), "what adopt answers")
    same(plain.read_bytes(), before, "FROM")
    same(new.read_bytes()[20:24], b"\x08\x40\x20\x20", "bytes 20 to 23 of TO")
    same(new.stat().st_mode & 0o777, 0o600, "the mode of TO")
    same(kept(new), [FIRST, SECOND], "the changes of TO")
    same(identity(hub, new), name, "the hub of TO")
    before = new.read_bytes()
    printed, status, said = adopt(hub, plain, new)
    same((printed, status, new.read_bytes()), ("", 3, before), "an adoption over a file that is there")
    same(said, f"hub: the store failed: {new} could not be opened: File exists (os error 17)\n", "what is said of it")
    with serving(hub, new) as server:
        makes_none(hub, new, folder / "used.hub", BUSY + "\n")
        client = Client(server.port)
        same(client.changes(), [FIRST, SECOND], "the changes of a store that was asked for meanwhile")
        client.close()
    same(adopt(hub, new, folder / "again.hub"), ("adopted 2\n", 0, ""), "an adoption of a store with sums")
    same(kept(folder / "again.hub"), [FIRST, SECOND], "the changes of that")


def not_taken(hub, folder):
    """What no server takes is no more adopted, and nothing is made of it."""
    tables, row = tables_of(hub, folder)
    old, new = folder / "old.hub", folder / "none.hub"
    count = 0
    cases = [(what, statements, (), DAMAGED) for what, statements in other_tables(tables, row)]
    cases += [(what, [*tables, rows_of(row)], texts, f"{DAMAGED} change {number}") for number, what, texts in wrong_changes()]
    for what, statements, texts, line in cases:
        built(old, statements, texts, has_sums=False)
        try:
            makes_none(hub, old, new, line + "\n")
        except Exception as fault:
            raise type(fault)(f"{what}: {fault}") from fault
        old.unlink()
        log_of(old).unlink(missing_ok=True)
        count += 1
    for data in (b"", b"hello\n" * 1000, bytes(8192)):
        old.write_bytes(data)
        makes_none(hub, old, new, DAMAGED + "\n")
        old.unlink()
        log_of(old).unlink(missing_ok=True)
        count += 1
    said = makes_none(hub, folder / "missing.hub", new, "", 3)
    missing = folder / "missing.hub"
    same(said, f"hub: the store failed: {missing} could not be opened: No such file or directory (os error 2)\n", "what is said of it")
    return count + 1


def histories(hub, folder, times, rng):
    """Random histories, dumped and adopted."""
    sizes = []
    for number in range(times):
        store, plain, new = (folder / f"{number}{name}" for name in (".hub", ".plain", ".new"))
        author = Author(random.Random(rng.random()), 1 + number, Document())
        texts = [author.change() for _ in range(rng.randrange(MOST))]
        subprocess.run([hub, "replay", "--store", store], input="".join(texts).encode(), check=True, stdout=subprocess.DEVNULL)
        same(kept(store), texts, "the changes of a store")
        dumped(store, plain)
        printed, status, said = adopt(hub, plain, new)
        same((printed, status), (f"adopted {len(texts)}\n", 0), f"what adopt answers, which said {said!r}")
        same(kept(new), texts, "the changes of TO")
        same(replayed_changes(hub, new, len(texts))[0], texts, "the changes that a hub finds in TO")
        with serving(hub, new) as server:
            client = Client(server.port)
            same(client.spans(len(texts)), spans_of(texts), "the spans of TO")
            client.close()
        sizes.append(len(texts))
    return sum(sizes)


def parts(hub, folder, times, rng):
    folder = pathlib.Path(tempfile.mkdtemp(dir=folder))
    one(hub, folder)
    yield f"a dump, and what is said of it; {not_taken(hub, folder)} files that aren't adopted"
    count = max(1, times // 10)
    yield f"{count} random histories of {histories(hub, folder, count, rng)} changes, dumped and adopted"
