"""A full disk: the server says so and ends, and all that was acknowledged is there, on the full disk and once there is room."""

import contextlib
import os
import pathlib
import random
import subprocess

from document import Document
from hubs import Client, Server, Wrong, expect, kept, same, spans_of
from writers import Author, Ledger, reader, writer

SIZES = [8, 64, 200, 300, 400, 600, 900]
MORE = 16384
WRITERS = 3


@contextlib.contextmanager
def small_disk(folder, size):
    """A file system in memory of so many KiB."""
    place = pathlib.Path(folder) / "disk"
    place.mkdir(exist_ok=True)
    subprocess.run(["mount", "-t", "tmpfs", "-o", f"size={size}k", "tmpfs", place], check=True)
    try:
        yield place
    finally:
        subprocess.run(["umount", place], check=True)
        place.rmdir()


FULL = ("database or disk is full", "No space left on device (os error 28)")


def is_told(store, said):
    """One line tells the store's path, what was done, and that the disk is full."""
    lines = [f"hub: the store failed: {store} could not be {done}: {why}\n" for done in ("opened", "written", "closed") for why in FULL]
    return said in lines


def fill(hub, store, rng):
    """Writers write until the disk is full. Returns the ledger, and whether the server began."""
    ledger = Ledger()
    server = Server(hub, store)
    began = server.listen() is not None
    if began:
        authors = [Author(random.Random(rng.random()), node, Document()) for node in range(1, WRITERS + 1)]
        threads = [writer(server.port, ledger, author, 1) for author in authors]
        threads.append(reader(server.port, ledger))
        for thread in threads:
            thread.start()
        for thread in threads:
            thread.join()
    status, _, said = server.wait()
    same(status, 3, f"the status on a full disk; it said {said!r}")
    expect(is_told(store, said), f"it said {said!r}")
    expect(set(ledger.refusals) <= {"no 66 StoreFailed"}, f"a change was answered {ledger.refusals}")
    return ledger, began


def look(hub, store, ledger, has_room):
    """Looks at what is there. Without room a server may not begin, and then it says so."""
    stored = kept(store, is_made=bool(ledger.acknowledged))
    server = Server(hub, store)
    if server.listen() is None:
        status, _, said = server.wait()
        expect(not has_room, f"with room it began with {server.first!r}, status {status}, and said {said!r}")
        same((status, is_told(store, said)), (3, True), f"a start on a full disk, which said {said!r}")
        return None
    client = Client(server.port)
    found = client.changes()
    expect(found == stored, "the server has other changes than sqlite3 finds")
    ledger.judge(found, [])
    same(client.spans(len(found)), spans_of(found), "the spans")
    if has_room:
        change = f"change 99 1\ni {2**40}@99 - 61"
        same(client.ask(change), [f"ok version {len(found) + 1}"], "a change once there is room")
    client.close()
    server.kill()
    return len(found)


def may_mount(folder):
    """Whether a disk can be mounted here: only root can, and not in every container."""
    try:
        with small_disk(folder, SIZES[0]):
            return True
    except (OSError, subprocess.CalledProcessError):
        return False


def parts(hub, folder, times, rng):
    del times
    if os.geteuid() != 0 or not may_mount(folder):
        yield "a full disk isn't tried: none can be mounted here"
        return
    told = []
    for size in SIZES:
        with small_disk(folder, size) as place:
            store = place / "kept.hub"
            try:
                ledger, began = fill(hub, store, rng)
                full = look(hub, store, ledger, False)
                subprocess.run(["mount", "-o", f"remount,size={MORE}k", place], check=True)
                count = look(hub, store, ledger, True)
            except Wrong as fault:
                raise Wrong(f"{size} KiB: {fault}") from fault
            told.append(f"{size} KiB {len(ledger.acknowledged) if began else 'no start'}"
                        + (f" (restarted full, {count})" if full is not None else ""))
    yield "full disks, with the changes acknowledged on each, all there: " + ", ".join(told)
