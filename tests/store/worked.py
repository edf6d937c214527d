"""The worked cases of sessions, with a store: the replies are the same to the letter, and the store has what was accepted."""

import pathlib
import subprocess
import tempfile

from cases import cases_of
from hubs import ROOT, expect, kept, replayed, replayed_changes, same


def run(hub, store, words, given):
    done = subprocess.run([hub, "replay", *words, "--store", store], input=given, stdout=subprocess.PIPE, check=False)
    return done.returncode, done.stdout.decode()


def spans(hub, texts, size):
    done = subprocess.run([hub, "spans", *size], input="".join(texts).encode(), stdout=subprocess.PIPE, check=True)
    return done.stdout.decode().split("\n")[:-1]


def try_case(hub, store, words, given, printed):
    """One case on a new store. Returns how many changes are in it."""
    same(run(hub, store, words, given), (0, printed), "a session with a store")
    size = words[words.index("--size") :][:2] if "--size" in words else []
    count = sum(line.startswith("ok version ") for line in printed.splitlines())
    texts = kept(store)
    same(len(texts), count, "changes in the store")
    expect(replayed_changes(hub, store, count, options=size)[0] == texts, "another hub has other changes")
    status, lines = replayed(hub, store, *(f"show3 {count} {first} 1024" for first in range(0, 1 << 13, 1 << 10)), options=size)
    found = [line.removeprefix("span ") for line in lines if line.startswith("span ")]
    same((status, found), (0, spans(hub, texts, size)[: 1 << 13]), "the spans of a hub that starts from it")
    return count


def parts(hub, folder, times, rng):
    del times, rng
    # A hub with a store has an id, and the hub of the cases has none.
    cases = [case for case in cases_of(ROOT / "crates" / "test_cases", "replay") if b"hub" not in case[2].splitlines()]
    changes = 0
    expect(cases, "there are no cases")
    for name, words, given, printed in cases:
        with tempfile.TemporaryDirectory(dir=folder) as place:
            try:
                changes += try_case(hub, pathlib.Path(place) / "kept.hub", words, given, printed)
            except Exception as fault:
                raise type(fault)(f"{name}: {fault}") from fault
    yield f"{len(cases)} worked cases of sessions, each on a new store: the same replies, and {changes} changes in the stores"
