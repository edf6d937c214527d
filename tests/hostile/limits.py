#!/usr/bin/env python3
"""Tries what a hostile client does to others where a hub limits its sessions: limits.py HUB [SEED]

HUB is the built program. With `--counter-jump` the change with the greatest counter is refused, and peers of examples/clients type on as
if it hadn't been sent. With `--per-session` a session that has nothing left hinders no other."""
import pathlib
import sys

ROOT = pathlib.Path(__file__).resolve().parent.parent.parent
sys.path[:0] = [str(ROOT / "examples" / "clients")]
from peer import GREATEST, Peer, Refused, Session  # noqa: E402
from try_peer import Hub, shown  # noqa: E402

CHANGES, SUBSCRIBERS, BYTES = 4096, 64, 1 << 20
PROGRAM = "b7000000010000009500000000000000"


def refused(session, why, *request):
    """Whether a request is refused for this reason."""
    try:
        session.ask(*request)
    except Refused as found:
        return str(found) == why
    return False


def pulled(session, subscriber):
    """How many items a pull gives; peers pull nothing, so `ask` knows no items."""
    session.socket.sendall(f"pull {subscriber} 8\n".encode())
    while not (line := session.line()).startswith(("ok ", "no ")):
        assert line.startswith(("hit ", "end ")), line
    return int(line.removeprefix("ok items "))


def try_counter():
    """The greatest counter is refused first and between the changes of two peers, who then have it at their choice no more than before."""
    with Hub(3, "--read", "--counter-jump", "1000") as hub:
        hostile, old = Session(hub.port), Peer(hub.port, 1)
        change = ["change 9 1", f"i {GREATEST}@9 - 51"]
        assert refused(hostile, "no 42 Limit line 2", *change)
        old.insert(0, "abc")
        assert refused(hostile, "no 42 Limit line 2", *change)
        assert refused(hostile, "no 42 Limit line 2", "change3 9 1", "d 4@9 1@1 65535")
        new = Peer(hub.port)
        new.follow()
        new.insert(3, "def" * 200)
        new.mark(0, 3, "strong")
        old.follow()
        old.insert(0, "x")
        new.follow()
        assert old.replica.text() == new.replica.text() == "xabc" + "def" * 200
        _, latest = hostile.ask("latest")
        assert new.replica.span_lines() == shown(hostile, latest, 1024)
        assert hostile.ask("newest 9")[1] == 0
        for one in (hostile, old, new):
            one.close()


def try_share():
    """One session sends all changes and subscriptions that a hub takes in all; others have theirs."""
    limits = f"changes={CHANGES // 16},subscribers={SUBSCRIBERS // 16},bytes={BYTES // 16}"
    with Hub(3, "--read", "--per-session", limits) as hub:
        greedy, peer = Session(hub.port), Peer(hub.port, 2)
        accepted = 0
        for counter in range(1, CHANGES + 1):
            try:
                greedy.ask("change 1 1", f"i {counter}@1 - 61")
                accepted += 1
            except Refused as why:
                assert str(why) == "no 50 HistoryFull"
        assert accepted == CHANGES // 16, accepted
        for _ in range(SUBSCRIBERS // 16):
            greedy.ask(f"sub 8 {PROGRAM}")
        assert refused(greedy, "no 51 SubscribersFull", f"sub 8 {PROGRAM}")
        peer.follow()
        peer.insert(0, "here")
        other = Session(hub.port)
        other.ask(f"sub 8 {PROGRAM}")
        assert pulled(other, SUBSCRIBERS // 16) == 2
        assert pulled(greedy, 0) == 4, "what a session has it keeps"
        for one in (greedy, peer, other):
            one.close()


def main():
    try_counter()
    try_share()
    print("as expected")


if __name__ == "__main__":
    main()
