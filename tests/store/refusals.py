"""What is refused at the start: a store in use, one of another size or format, other databases, changes that can't be."""

import contextlib
import pathlib
import sqlite3
import stat
import subprocess
import tempfile

from hubs import Client, Server, copied, expect, kept, log_of, replayed_changes, same, serving
from summed import new_with_room, write_sums

DAMAGED, BUSY = "refused 65 StoreDamaged", "refused 67 StoreBusy"
FIRST = "change 1 2\ni 1@1 - 61\ni 2@1 1@1 62\n"
SECOND = "change 2 1\nd 3@2 1@1\n"


def started(hub, store):
    """What a server prints and says that does not begin, and its status."""
    server = Server(hub, store)
    if server.listen() is not None:
        server.kill()
        return server.first, None, ""
    status, printed, said = server.wait()
    return server.first + printed, status, said


def is_refused(hub, store, line):
    """A server and a session on a store are refused by this line, and the file stays as it was."""
    before = store.read_bytes()
    printed, status, _ = started(hub, store)
    same((printed, status), (line + "\n", 1), "what a server answers")
    words = [hub, "replay", "--store", store]
    done = subprocess.run(words, input=b"change 7 1\ni 1@7 - 61\n", stdout=subprocess.PIPE, stderr=subprocess.DEVNULL, check=False)
    same((done.stdout.decode(), done.returncode), (line + "\n", 1), "what a session answers")
    same(store.read_bytes(), before, "the file of a store that was refused")


def in_use(hub, store):
    """A second server, and a session, on a store that a server has."""
    with serving(hub, store) as server:
        client = Client(server.port)
        same(client.ask(FIRST[:-1]), ["ok version 1"], "a change")
        is_refused(hub, store, BUSY)
        with contextlib.closing(sqlite3.connect(store, timeout=0)) as database:
            try:
                database.execute("select * from change").fetchall()
                raise AssertionError("sqlite3 read a store in use")
            except sqlite3.OperationalError as why:
                same(str(why), "database is locked", "what sqlite3 is told")
        same(client.ask(SECOND[:-1]), ["ok version 2"], "a change after it")
        client.close()
    same(kept(store), [FIRST, SECOND], "the changes")


def its_mode(hub, folder):
    """Files that a server makes are its user's alone, also where others may read what is there."""
    store = folder / "mode.hub"
    with serving(hub, store):
        pass
    for path in (store, log_of(store)):
        same(stat.S_IMODE(path.stat().st_mode), 0o600, f"the mode of {path.name}")
    same(sorted(path.name for path in folder.iterdir()), ["mode.hub", "mode.hub-wal"], "the files of a store")


def its_name(hub, folder):
    """A hub has one identity for the life of its store."""
    store, names = folder / "name.hub", set()
    for _ in range(3):
        with serving(hub, store) as server:
            client = Client(server.port)
            names.add(tuple(client.ask("hub")))
            client.close()
    (name,) = names.pop()
    expect(not names, "a hub has several identities")
    with tempfile.TemporaryDirectory() as to, contextlib.closing(sqlite3.connect(copied(store, to))) as database:
        same([f"ok hub {found}" for (found,) in database.execute("select id from hub")], [name], "the identity in the store")


def read_and_written(hub, folder):
    """A store that plain sqlite3 has read is as before, whether its log was copied into its file or not; one that it wrote is refused."""
    store = folder / "plain.hub"
    for number, text in enumerate((FIRST, SECOND), 1):
        with serving(hub, store) as server:
            client = Client(server.port)
            same(client.ask(text[:-1]), [f"ok version {number}"], "a change")
            client.close()
        with contextlib.closing(sqlite3.connect(store)) as database:
            same(database.execute("select count(*) from change").fetchall(), [(number,)], "what sqlite3 counts")
    same(replayed_changes(hub, store, 2)[0], [FIRST, SECOND], "the changes after sqlite3 has read them")
    with contextlib.closing(sqlite3.connect(store)) as database:
        database.execute("update change set text = replace(text, '62', '63') where number = 1")
        database.commit()
    is_refused(hub, store, DAMAGED)


def built(path, statements, texts=(), has_sums=True):
    """A database that sqlite3 makes, with rows of changes, and with sums on its pages or without."""
    if has_sums:
        new_with_room(path)
    with contextlib.closing(sqlite3.connect(path)) as database:
        database.execute("pragma journal_mode = wal")
        for statement in statements:
            database.execute(statement)
        for row in texts:
            database.execute("insert into change (number, text) values (?, ?)", row)
        database.commit()
    if has_sums:
        write_sums(path)


def tables_of(hub, folder):
    """The statements that make a store like one that a server made."""
    store = folder / "like.hub"
    with serving(hub, store):
        pass
    with tempfile.TemporaryDirectory() as to, contextlib.closing(sqlite3.connect(copied(store, to))) as database:
        tables = [sql for (sql,) in database.execute("select sql from sqlite_master order by rowid")]
        (row,) = database.execute("select * from hub").fetchall()
    return tables, row


def rows_of(row):
    return f"insert into hub values ({', '.join(repr(value) for value in row)})"


def other_tables(tables, row):
    """Databases that are no stores of this hub, each with what is wrong."""
    good = [*tables, rows_of(row)]
    yield "another table", ["create table note (text)"]
    yield "one table more", [*good, "create table note (text)"]
    yield "an index more", [*good, "create index by_text on change (text)"]
    yield "a view more", [*good, "create view two as select * from change"]
    yield "no row of hub", tables
    yield "two rows of hub", [*good, rows_of(row)]
    yield "another format", [*tables, rows_of((row[0] + 1, *row[1:]))]
    yield "another size", [*tables, rows_of((row[0], "large", *row[2:]))]
    yield "a size that no hub has", [*tables, rows_of((row[0], "Small", *row[2:]))]
    yield "no identity", [*tables, rows_of((*row[:2], "", *row[3:]))]
    yield "an identity of other digits", [*tables, rows_of((*row[:2], row[2][:-1] + "G", *row[3:]))]
    yield "columns that aren't strict", [table.replace(" STRICT", "") for table in tables] + [rows_of(row)]


def wrong_changes():
    """Rows that are no accepted changes of a hub, the number of the first one that isn't, and what is wrong."""
    yield 1, "an empty text", [(1, "")]
    yield 2, "a number left out", [(1, FIRST), (3, SECOND)]
    yield 1, "numbers from 2 on", [(2, FIRST), (3, SECOND)]
    yield 2, "a change twice", [(1, FIRST), (2, FIRST)]
    yield 1, "an unknown character", [(1, SECOND), (2, FIRST)]
    yield 2, "a zero in front", [(1, FIRST), (2, "change 2 1\nd 03@2 1@1\n")]
    yield 2, "no line feed at the end", [(1, FIRST), (2, SECOND[:-1])]
    yield 2, "a line more", [(1, FIRST), (2, SECOND + "\n")]
    yield 1, "two changes in one row", [(1, FIRST + SECOND)]


def its_size(hub, folder):
    """A store says its hub's size. A large hub takes one that says small, as all did once, and a small hub none that says large."""
    store = folder / "large.hub"
    for size, words, found in (("large", ["--size", "large"], "large"), ("small", [], "small")):
        store = folder / f"{size}.hub"
        with serving(hub, store, *words) as server:
            client = Client(server.port)
            same(client.ask(FIRST[:-1]), ["ok version 1"], "a change")
            client.close()
        with tempfile.TemporaryDirectory() as to, contextlib.closing(sqlite3.connect(copied(store, to))) as database:
            same(database.execute("select size from hub").fetchall(), [(found,)], "the size in the store")
        with serving(hub, store, "--size", "large") as server:
            client = Client(server.port)
            same(client.changes(), [FIRST], f"what a large hub finds in a store that says {found}")
            client.close()
    is_refused(hub, folder / "large.hub", DAMAGED)
    same(replayed_changes(hub, folder / "small.hub", 1)[0], [FIRST], "what a small hub finds in a small store that a large one had")


def good_ones(hub, store, tables, row):
    """Stores that sqlite3 builds with sums are taken, so that what is refused is refused for what is said."""
    built(store, [*tables, rows_of(row)], [(1, FIRST), (2, SECOND)])
    same(replayed_changes(hub, store, 2)[0], [FIRST, SECOND], "the changes of a store that sqlite3 built")
    store.unlink()
    log_of(store).unlink(missing_ok=True)


def parts(hub, folder, times, rng):
    del times, rng
    folder = pathlib.Path(tempfile.mkdtemp(dir=folder))
    in_use(hub, folder / "used.hub")
    (folder / "mode").mkdir()
    its_mode(hub, folder / "mode")
    read_and_written(hub, folder)
    its_name(hub, folder)
    its_size(hub, folder)
    yield "a store in use, or read or written by sqlite3; the mode of its files; its hub's identity and size"
    tables, row = tables_of(hub, folder)
    store = folder / "other.hub"
    good_ones(hub, store, tables, row)
    count = 0
    for what, statements in other_tables(tables, row):
        built(store, statements)
        try_refused(hub, store, what, DAMAGED)
        count += 1
    for number, what, texts in wrong_changes():
        built(store, [*tables, rows_of(row)], texts)
        try_refused(hub, store, what, f"{DAMAGED} change {number}")
        count += 1
    for what, data in (("a text", b"hello\n" * 1000), ("two bytes", b"xy"), ("zeros", bytes(8192)), ("a header alone", b"SQLite format 3\0")):
        store.write_bytes(data)
        try_refused(hub, store, what, DAMAGED)
        count += 1
    yield f"{count} files that are no stores of this hub: all refused, and as they were"


def try_refused(hub, store, what, line):
    try:
        is_refused(hub, store, line)
    except Exception as fault:
        raise type(fault)(f"{what}: {fault}") from fault
    store.unlink()
    log_of(store).unlink(missing_ok=True)
