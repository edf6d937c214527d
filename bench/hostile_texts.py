#!/usr/bin/env python3
"""Measures what the inputs of hostile_inputs.py cost a hub, each beside the aim for it: hostile_texts.py HUB [ROWS..]; with no row all.

Changes are in processor time of the hub, and so are their ratios; waits are by the clock, so other work on the machine shows in them. What can be
counted without either is in tests/hostile/count.py."""

import os
import pathlib
import shutil
import statistics
import subprocess
import sys
import tempfile
import threading
import time

import hostile_inputs as inputs
from hostile_counts import MIB, Figure, Note, Server, alone, beside, greatest_counter, heading, large_texts, never_read, processor_time, shares
from sessions import NEVER, Client, Replay

HERE = pathlib.Path(__file__).resolve().parent
CHANGES = 7
VERSIONS = 24
SPANS = 8000
PULLS = 5
# About what 20 million instructions take on the machine of docs/BENCHMARKS.md.
REVIEWED = 3
# Removed characters that come back in one change, and the most milliseconds for that.
UNDONE, MOST_UNDONE = 20000, 20
# Of the client beside a writer that never pauses: this number of requests of each kind, or as many as there are in this number of seconds.
REQUESTS, SECONDS = 200, 40
# First come, first served: the change that has the lock, the one whose turn was before, and one that was answered but not yet read. A pull takes
# the lock some six times.
BEFORE_A_CHANGE, BEFORE_A_PULL = 3, 12


# Rows 1 to 4: texts.


class Marked:
    """A session whose text has marks, and the changes of one character that come then."""

    def __init__(self, hub, text, later):
        self.session = Replay(hub)
        for change in text.changes():
            self.session.ask(change)
        self.later = text.removals(later)

    def change(self):
        """Makes the next change. Returns how many milliseconds the hub worked on it."""
        before = processor_time(self.session.child.pid)
        self.session.ask(self.later.pop(0))
        return (processor_time(self.session.child.pid) - before) * 1000


def of_a_change(hub, text):
    """The median of some changes, in milliseconds of processor time."""
    marked = Marked(hub, text, CHANGES)
    taken = [marked.change() for _ in range(CHANGES)]
    marked.session.end()
    return statistics.median(taken)


def kept_a_version(hub, text):
    """MiB that each of some versions more keeps."""
    marked = Marked(hub, text, VERSIONS)
    marked.change()
    before = marked.session.memory("VmRSS")
    for _ in range(VERSIONS - 1):
        marked.change()
    kept = (marked.session.memory("VmRSS") - before) / (VERSIONS - 1)
    marked.session.end()
    return kept


def timed(hub, row, what, text, other, least=0.0):
    """A figure of a change, beside the same marks without the pattern."""
    return beside(row, f"{what}: a change", of_a_change(hub, text), of_a_change(hub, other), "ms", 3, least)


def measure_comments(hub):
    text, other = (inputs.side_by_side(key, 7) for key in (inputs.comment, inputs.strong))
    yield timed(hub, "1", "4,096 comments side by side, beside strong marks", text, other)
    yield alone("2", "300 comment threads among 3,796 other marks: a change", of_a_change(hub, inputs.under_review()), "ms", REVIEWED)
    text, other = (inputs.of_two_runs(key) for key in (inputs.comment, inputs.strong))
    yield timed(hub, "2b", "1,024 comments of two runs below 2,048 strong marks, beside strong marks", text, other)


def measure_nested(hub):
    cases = (
        ("2c", "comments in windows of 512 characters", inputs.windows, inputs.comment),
        ("2c", "strong marks and comments nested", inputs.nested, inputs.strong_or_comment),
        ("2c", "five kinds nested", inputs.nested, inputs.one_of_five),
        ("2c", "nested colors", inputs.nested, inputs.color),
        ("3", "nested links of 1,024 bytes", inputs.nested, inputs.link),
    )
    for row, what, place, key in cases:
        yield timed(hub, row, f"{what}, beside marks of one character", place(key), inputs.of_one_character(key), 4)


def measure_links(hub):
    cases = (
        ("a link of 1,024 bytes cut by 4,095 marks, beside no link", inputs.cut(inputs.link(0)), inputs.cut("em -")),
        ("4,096 nested links, beside colors", inputs.nested(inputs.link), inputs.nested(inputs.color)),
        ("4,096 links of one character, beside colors", inputs.of_one_character(inputs.link), inputs.of_one_character(inputs.color)),
    )
    for what, text, other in cases:
        yield beside("3", f"{what}: kept a version", kept_a_version(hub, text), kept_a_version(hub, other), "MiB", 1.25)


def time_of_yjs(row):
    """Milliseconds of yjs's `toDelta` of the same text, or None where yjs isn't installed."""
    words = ["node", "--single-threaded", str(HERE / "peer_texts.mjs"), row]
    if not shutil.which("node"):
        return None
    there = {"NODE_PATH": "/usr/share/nodejs", **os.environ}
    ran = subprocess.run(words, stdout=subprocess.PIPE, stderr=subprocess.DEVNULL, env=there, check=False)
    return float(ran.stdout) / 1000 if ran.returncode == 0 else None


def measure_all_kinds(hub):
    for longest, row, times in ((200, "version_short_marks", 1), (4000, "version_long_marks", 5)):
        what = f"4,096 marks of all kinds, up to {longest:,} characters: a change"
        ours, theirs = of_a_change(hub, inputs.all_kinds(longest)), time_of_yjs(row)
        if theirs is None:
            yield Note("4", f"{what}: {ours:.2f} ms; yjs, whose toDelta it is to stand beside, isn't installed here (node-yjs)")
        else:
            yield beside("4", f"{what}, beside yjs's toDelta", ours, theirs, "ms", times)


# Rows 5, 6 and 8: sessions.


def pulls_beside(hub, workers, program, subscribers):
    """How many milliseconds a client waits for pulls of one item each, and the hub works for each until it does nothing more, beside
    `subscribers` subscribers of another session that never pull: medians."""
    server, text = Server(hub, 3, "--workers", str(workers)), inputs.spans_of_one_character(SPANS)
    writer, idle, puller = (Client(server.port) for _ in range(3))
    for change in text.changes():
        writer.ask(change)
    for _ in range(subscribers):
        idle.ask(f"sub 1024 {program}\n")
    number = puller.ask(f"sub 64 {NEVER}\n")[0][-1].split()[2]
    puller.ask(f"pull {number} 64\n")
    waits, works = [], []
    for change in text.removals(PULLS):
        writer.ask(change)
        server.settle()
        before = processor_time(server.child.pid)
        waits.append(puller.ask(f"pull {number} 64\n")[1] * 1000)
        server.settle()
        works.append((processor_time(server.child.pid) - before) * 1000)
    for client in (idle, puller, writer):
        client.end()
    server.child.wait()
    return statistics.median(waits), statistics.median(works)


def measure_subscribers(hub):
    cases = (("adds", inputs.adding_program(), 1), ("stack", inputs.stack_program(), 1), ("stack", inputs.stack_program(), 16))
    for what, program, workers in cases:
        text = f"60 idle subscribers of 4,096 slots ({what}, --workers {workers}): another's `pull 64`"
        without, among = (pulls_beside(hub, workers, program, subscribers) for subscribers in (0, 60))
        yield beside("5", f"{text}, its wait", among[0], without[0], "ms", 2)
        yield Figure("5", "  the hub's work, also behind the reply", among[1], "ms", without[1], without[1] + 2, "at most 2 ms more: a bounded batch")


def measure_readers(hub):
    yield from never_read(hub, 20)


class Writer(threading.Thread):
    """Writes changes without pause, and counts those that were answered."""

    def __init__(self, port, changes):
        super().__init__(daemon=True)
        self.client, self.changes, self.answered = Client(port), changes, 0
        self.sender = threading.Thread(target=self.send, daemon=True)

    def send(self):
        try:
            self.client.connection.sendall("".join(self.changes).encode())
        except OSError:
            pass

    def run(self):
        self.sender.start()
        try:
            while self.client.replies.readline().startswith(b"ok "):
                self.answered += 1
        except ConnectionResetError:
            pass


def measure_writer(hub):
    """What another client's change and pull wait for while one writes changes without pause in a text in which each is costly."""
    server, text = Server(hub, 2), inputs.side_by_side(inputs.comment, 7)
    other = Client(server.port)
    for change in text.changes():
        other.ask(change)
    other.ask(f"sub 64 {NEVER}\n")
    other.ask("pull 0 64\n")
    writer = Writer(server.port, text.removals(3000))
    writer.start()
    passed, pulled, waits, version, start = [], [], [], len(text.changes()), time.monotonic()
    for at in range(REQUESTS):
        if time.monotonic() > start + SECONDS:
            break
        before = writer.answered
        reply, wait = other.ask(f"change2 2 1\ni {2 * text.newest() + at}@2 - 61\n")
        passed.append(int(reply[-1].split()[2]) - version - at - 1 - before)
        waits.append(wait * 1000)
        before = writer.answered
        waits.append(other.ask("pull 0 64\n")[1] * 1000)
        pulled.append(writer.answered - before)
    is_writing = writer.answered < len(writer.changes)
    server.child.kill()
    server.child.wait()
    if not is_writing:
        yield Note("8", "the writer had ended before the other client's requests were answered")
    yield alone("8", "one writes without pause: its changes that come before another's, the most", max(passed), "changes", BEFORE_A_CHANGE)
    yield alone("8", "  and before a pull's reply, the most", max(pulled), "changes", BEFORE_A_PULL)
    yield Note("", f"  {len(waits)} waits: median {statistics.median(waits):.1f} ms, longest {max(waits):.1f} ms")


# Row 18: undo.


def measure_undo(hub):
    """Of a client's key for undo: the hub's work on one change that shows so many characters again."""
    text = inputs.Text(20480, [])
    removed, back = inputs.removed_and_back(text, UNDONE)
    taken = []
    for _ in range(CHANGES):
        session = Replay(hub)
        for change in (*text.changes(), removed):
            session.ask(change)
        before = processor_time(session.child.pid)
        session.ask(back)
        taken.append((processor_time(session.child.pid) - before) * 1000)
        session.end()
    yield alone("18", f"undo of {UNDONE:,} removed characters, one line: a change", statistics.median(taken), "ms", MOST_UNDONE)


# Row 7: commands.


def run_held(hub, words, given):
    """What a command holds at most, in MiB, and how many seconds it works."""
    with tempfile.TemporaryFile() as file:
        file.write(given)
        file.seek(0)
        child, most = subprocess.Popen([hub, *words], stdin=file, stdout=subprocess.DEVNULL), 0
        worked = 0.0
        while child.poll() is None:
            try:
                worked = processor_time(child.pid)
                status = pathlib.Path(f"/proc/{child.pid}/status").read_text()
                most = max(most, *(int(line.split()[1]) for line in status.splitlines() if line.startswith("VmHWM")), 0)
            except OSError:
                break
            time.sleep(0.0005)
        child.wait()
    return most / 1024, worked


def measure_commands(hub):
    size, source, fault = 256 * MIB, b"\n" * (64 * MIB), inputs.fault_before(32 * MIB)
    cases = (
        ("check", inputs.too_long_program(size), "256 MiB of digits", 3),
        ("dis", inputs.too_long_program(size), "256 MiB of digits", 3),
        ("asm", source, "64 MiB of line feeds", 1.5 * len(source) / MIB + 2),
        ("asm", fault, "32 MiB behind a fault in line 1", 1.5 * len(fault) / MIB + 2),
        ("spans", inputs.refused_change_before(size), "256 MiB behind a wrong first line", 3),
    )
    for command, given, what, limit in cases:
        held, worked = run_held(hub, [command], given)
        yield alone("7", f"{command} of {what}, with the 2 MiB of the program: held", held, "MiB", limit)
        yield Note("", f"  works {worked:.2f} s")


ROWS = {
    "comments": measure_comments,
    "nested": measure_nested,
    "links": measure_links,
    "all_kinds": measure_all_kinds,
    "subscribers": measure_subscribers,
    "readers": measure_readers,
    "commands": measure_commands,
    "writer": measure_writer,
    "greatest": greatest_counter,
    "shares": shares,
    "large": large_texts,
    "undo": measure_undo,
}


def main():
    hub, *wanted = sys.argv[1:]
    print("\nInputs that could make a hub slow or fat\n" + heading())
    for name, measure in ROWS.items():
        if not wanted or name in wanted:
            for figure in measure(hub):
                print(figure.line(), flush=True)


if __name__ == "__main__":
    main()
