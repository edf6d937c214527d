"""A file or a log that is removed, moved or replaced while it is served: no change is acknowledged any more, and why is said."""

import pathlib
import shutil
import tempfile

from hubs import Client, Server, expect, kept, log_of, same, serving
from refusals import FIRST, SECOND


def removed(path):
    path.unlink()


def moved(path):
    path.rename(path.with_name(path.name + ".moved"))


def replaced(path):
    copy = path.with_name(path.name + ".copy")
    shutil.copy(path, copy)
    copy.replace(path)


def is_told(hub, store, path, harm):
    """The change after it is answered 66, and the server ends and says why."""
    server = Server(hub, store)
    expect(server.listen() is not None, f"it began with {server.first!r}")
    client = Client(server.port)
    same(client.ask(FIRST[:-1]), ["ok version 1"], "a change")
    harm(path)
    what = f"{harm.__name__} {path.name}"
    same(client.ask(SECOND[:-1]), ["no 66 StoreFailed"], f"{what}: a change")
    client.close()
    status, printed, said = server.wait()
    same((status, printed), (3, ""), f"{what}: how it ended")
    same(said, f"hub: the store failed: {store} could not be written: it or its log was removed, moved or replaced\n", f"{what}: what it said")


def by_a_link(hub, folder):
    """A store that is opened by a link is where the link leads; a link that leads elsewhere later changes nothing."""
    real, link = folder / "real.hub", folder / "link.hub"
    link.symlink_to(real)
    real.touch(0o600)
    with serving(hub, link) as server:
        client = Client(server.port)
        same(client.ask(FIRST[:-1]), ["ok version 1"], "a change")
        link.unlink()
        link.symlink_to(folder / "other.hub")
        same(client.ask(SECOND[:-1]), ["ok version 2"], "a change after the link was changed")
        client.close()
    same(kept(real), [FIRST, SECOND], "the changes where the link led")


def parts(hub, folder, times, rng):
    del times, rng
    count = 0
    for harm in (removed, moved, replaced):
        for name in ("file", "log"):
            place = pathlib.Path(tempfile.mkdtemp(dir=folder))
            store = place / "kept.hub"
            is_told(hub, store, store if name == "file" else log_of(store), harm)
            count += 1
    by_a_link(hub, pathlib.Path(tempfile.mkdtemp(dir=folder)))
    yield f"{count} files and logs that were removed, moved or replaced under a server: the next change is answered 66; a link that was changed"
