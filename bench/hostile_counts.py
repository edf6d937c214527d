"""What the inputs of hostile_inputs.py cost a hub, as far as it can be counted without a clock: instructions and bytes of the heap by valgrind, and
what a server's process holds. Each figure stands beside its aim."""

import os
import pathlib
import re
import socket
import subprocess
import sys
import time
from typing import NamedTuple

import hostile_inputs as inputs
from counted import Counted
from sessions import NEVER, Client

PEER = pathlib.Path(__file__).resolve().parent.parent / "examples" / "clients" / "peer.py"
MIB = 1 << 20
MILLION = 1000000
# How many changes and versions more are counted.
CHANGES = 1
VERSIONS = 4
# How many changes after the first one are counted in texts of both sizes, and how many times as many instructions one may take in the large one.
LATER, MOST_TIMES = 3, 6
SUBSCRIBERS = 60
SPANS = 8000
# About 4 ms on the machine of docs/BENCHMARKS.md, where this code runs 3 instructions in a cycle of 2.5 GHz.
FOUR_MILLISECONDS = 30 * MILLION
# Once and five times what yjs takes for the same two texts: this code's instructions by its ratios to yjs in docs/BENCHMARKS.md.
AS_YJS_SHORT, FIVE_TIMES_YJS_LONG = 10 * MILLION, 2 * MILLION
# One batch more of a bounded number of steps after a pull's own work: 262,144 steps at some 20 instructions.
ONE_BATCH = 6 * MILLION
A_SESSION_HOLDS = 0.25
# For the C library: so that what a process holds is what it uses, each larger block is given back once it is freed.
GIVING_BACK = {"MALLOC_MMAP_THRESHOLD_": "16384", "MALLOC_TRIM_THRESHOLD_": "0", "MALLOC_ARENA_MAX": "1"}


class Figure(NamedTuple):
    """A row of the table: its number, what was measured, how much, what that stands beside (or None), and the most that it is to be."""

    row: str
    what: str
    value: float
    unit: str
    beside: float | None
    limit: float
    aim: str

    def is_met(self):
        return self.value <= self.limit

    def line(self):
        ratio = f"{self.value / self.beside:9.2f} times" if self.beside else ""
        beside = f"{self.beside:12.2f}" if self.beside is not None else ""
        met = "met" if self.is_met() else "MISSED"
        return f"{self.row:<3} {self.what:<78} {self.value:12.2f} {beside:>12} {self.unit:<9} {ratio:>15}  {met:<7} {self.aim}"


class Note(NamedTuple):
    """A row of which nothing can be measured yet, and why."""

    row: str
    why: str

    def is_met(self):
        return True

    def line(self):
        return f"{self.row:<3} {self.why}"


def heading():
    return f"{'row':<3} {'what':<78} {'measured':>12} {'beside':>12} {'':<9} {'ratio':>15}  {'':<7} aim"


def beside(row, what, value, other, unit, times, least=0.0):
    """A figure that is to be at most `times` times another one, or at most another limit where that is greater."""
    aim = f"at most {times:g} times" + (f", or {least:g} {unit}" if least else "")
    return Figure(row, what, value, unit, other, max(times * other, least), aim)


def alone(row, what, value, unit, limit):
    return Figure(row, what, value, unit, None, limit, f"at most {limit:g} {unit}")


# The instruments.


def run_under(tool, hub, words, given):
    """Runs the hub under a tool of valgrind, and returns what it printed and what the tool said."""
    ran = subprocess.run(["valgrind", *tool, hub, *words], input=given, stdout=subprocess.PIPE, stderr=subprocess.PIPE)
    if ran.returncode not in (0, 1) or re.search(rb"^no ", ran.stdout, re.MULTILINE):
        sys.exit(f"{words}: status {ran.returncode}, {ran.stdout[-200:]!r} {ran.stderr[-400:]!r}")
    return ran.stdout, ran.stderr


def number_said(said, pattern):
    found = re.search(pattern, said)
    if not found:
        sys.exit(f"valgrind said {said[-400:]!r}")
    return int(found[1].replace(b",", b""))


def instructions(hub, words, given):
    """The instructions of a run, in all of its threads."""
    tool = ["--tool=cachegrind", "--cache-sim=no", "--cachegrind-out-file=/dev/null"]
    return number_said(run_under(tool, hub, words, given)[1], rb"I +refs: +([\d,]+)")


def most_held(hub, words, given):
    """The most bytes that a run has of the heap at once."""
    tool = ["--tool=dhat", "--dhat-out-file=/dev/null"]
    return number_said(run_under(tool, hub, words, given)[1], rb"t-gmax: +([\d,]+)")


def of_each_more(measure, hub, words, given, more):
    """What each of some further requests costs, as the difference of a run with them and a run without."""
    before = "".join(given).encode()
    after = before + "".join(more).encode()
    return (measure(hub, words, after) - measure(hub, words, before)) / len(more)


def of_a_change(hub, text):
    """Millions of instructions of a change that removes one character of a text, with its version."""
    return of_each_more(instructions, hub, ["replay"], text.changes(), text.removals(CHANGES)) / MILLION


def kept_a_version(hub, text):
    """MiB of the heap that a version more of a text keeps."""
    return of_each_more(most_held, hub, ["replay"], text.changes(), text.removals(VERSIONS)) / MIB


def processor_time(process):
    """How long all threads of a process have run, in seconds."""
    return time.clock_gettime((~process << 3) | 2)


# The rows.


def count_changes(hub, row, what, text, other, least=0.0):
    return beside(row, f"{what}: a change", of_a_change(hub, text), of_a_change(hub, other), "million", 3, least)


def side_by_side(hub):
    text, other = (inputs.side_by_side(key, 7) for key in (inputs.comment, inputs.strong))
    return [count_changes(hub, "1", "4,096 comments side by side, beside strong marks", text, other)]


def under_review(hub):
    value = of_a_change(hub, inputs.under_review())
    return [alone("2", "300 comment threads among 3,796 other marks: a change", value, "million", 20)]


def two_runs(hub):
    text, other = (inputs.of_two_runs(key) for key in (inputs.comment, inputs.strong))
    return [count_changes(hub, "2b", "1,024 comments of two runs below 2,048 strong marks, beside strong marks", text, other)]


def nested(hub):
    cases = (
        ("2c", "comments in windows of 512 characters", inputs.windows, inputs.comment),
        ("2c", "strong marks and comments nested", inputs.nested, inputs.strong_or_comment),
        ("2c", "five kinds nested", inputs.nested, inputs.one_of_five),
        ("2c", "nested colors", inputs.nested, inputs.color),
        ("3", "nested links of 1,024 bytes", inputs.nested, inputs.link),
    )
    least = FOUR_MILLISECONDS / MILLION
    return [
        count_changes(hub, row, f"{what}, beside marks of one character", place(key), inputs.of_one_character(key), least)
        for row, what, place, key in cases
    ]


def links(hub):
    cases = (
        ("a link of 1,024 bytes cut by 4,095 marks, beside no link", inputs.cut(inputs.link(0)), inputs.cut("em -")),
        ("4,096 nested links, beside colors", inputs.nested(inputs.link), inputs.nested(inputs.color)),
        ("4,096 links of one character, beside colors", inputs.of_one_character(inputs.link), inputs.of_one_character(inputs.color)),
    )
    figures = []
    for what, text, other in cases:
        figures.append(beside("3", f"{what}: kept a version", kept_a_version(hub, text), kept_a_version(hub, other), "MiB", 1.05))
    return figures


def all_kinds(hub):
    cases = ((200, AS_YJS_SHORT), (4000, FIVE_TIMES_YJS_LONG))
    figures = []
    for longest, limit in cases:
        what, value = f"4,096 marks of all kinds, up to {longest:,} characters: a change", of_a_change(hub, inputs.all_kinds(longest))
        figures.append(alone("4", what, value, "million", limit / MILLION))
    return figures


def of_changes_at(hub, size, text):
    """Millions of instructions in a hub of this size, of the first change that removes a character of a text, and of each one after it."""
    session = Counted(hub, "--size", size)
    for change in text.changes():
        if (reply := session.ask(change)).startswith("no "):
            sys.exit(f"a text of the size {size} is refused: {reply}")
    first, *later = text.removals(1 + LATER)
    counts = session.count([first])[1] / MILLION, session.count(later)[1] / LATER / MILLION
    session.end()
    return counts


def large_texts(hub):
    """The texts above at both sizes: four times as many marks in as much more text, and twice as many characters again where half are removed."""
    cases = (
        ("comments side by side", lambda times: inputs.side_by_side(inputs.comment, 7, times)),
        ("comment threads among other marks", inputs.under_review),
        ("comments of two runs below strong marks", lambda times: inputs.of_two_runs(inputs.comment, times)),
        ("comments in windows of 512 characters", lambda times: inputs.windows(inputs.comment, 512, times)),
        ("strong marks and comments nested", lambda times: inputs.nested(inputs.strong_or_comment, times)),
        ("five kinds nested", lambda times: inputs.nested(inputs.one_of_five, times)),
        ("nested colors", lambda times: inputs.nested(inputs.color, times)),
        ("nested links of 1,024 bytes", lambda times: inputs.nested(inputs.link, times)),
        ("a link of 1,024 bytes cut by strong marks", lambda times: inputs.cut(inputs.link(0), times)),
        ("marks of all kinds, up to 200 characters", lambda times: inputs.all_kinds(200, times)),
        ("marks of all kinds, up to 4,000 characters", lambda times: inputs.all_kinds(4000, times)),
        ("colors where every other character is removed", lambda times: inputs.half_removed(inputs.color, times)),
    )
    for what, text in cases:
        small, large = of_changes_at(hub, "small", text(1)), of_changes_at(hub, "large", text(inputs.LARGE))
        for which, few, many in zip(("the first change", "each after it"), small, large):
            yield beside("11", f"--size large, {what}, beside small: {which}", many, few, "million", MOST_TIMES)


def of_a_pull(hub, subscribers, program, workers):
    """Millions of instructions of a change and the pull of its one item, beside subscribers that never pull."""
    text = inputs.spans_of_one_character(SPANS)
    given = text.changes() + [f"sub 1024 {program}\n"] * subscribers + [f"sub 64 {NEVER}\n", f"pull {subscribers} 64\n"]
    more = [change + f"pull {subscribers} 64\n" for change in text.removals(1)]
    return of_each_more(instructions, hub, ["replay", "--workers", str(workers)], given, more) / MILLION


def idle_subscribers(hub):
    cases = (("adds, 1 worker", inputs.adding_program(), 1), ("stores and loads, 4 workers", inputs.stack_program(), 4))
    figures = []
    for what, program, workers in cases:
        without, value = (of_a_pull(hub, subscribers, program, workers) for subscribers in (0, SUBSCRIBERS))
        limit, text = without + ONE_BATCH / MILLION, f"60 idle subscribers of 4,096 slots ({what}): another's change and pull"
        figures.append(Figure("5", text, value, "million", without, limit, f"at most {ONE_BATCH / MILLION:g} million more"))
    return figures


class Server:
    """A server of `sessions` sessions, which a client may leave in the midst of a reply."""

    def __init__(self, hub, sessions, *words, environment=None):
        words = [hub, "serve", "--port", "0", "--sessions", str(sessions), *words]
        there = os.environ | (environment or {})
        self.child = subprocess.Popen(words, stdout=subprocess.PIPE, stderr=subprocess.DEVNULL, env=there)
        self.port = int(self.child.stdout.readline().split()[1])

    def connect(self):
        return socket.create_connection(("127.0.0.1", self.port))

    def forget_most_held(self):
        """Lets what it holds now be the most that it held."""
        pathlib.Path(f"/proc/{self.child.pid}/clear_refs").write_text("5")

    def most_held(self):
        """The most that it held since then, in MiB."""
        with open(f"/proc/{self.child.pid}/status") as status:
            return next(int(line.split()[1]) / 1024 for line in status if line.startswith("VmHWM"))

    def is_idle(self):
        """Whether all its threads wait for something."""
        tasks = pathlib.Path(f"/proc/{self.child.pid}/task").glob("*/stat")
        try:
            return all(task.read_text().rpartition(")")[2].split()[0] == "S" for task in tasks)
        except OSError:
            # A thread has just ended.
            return False

    def settle(self):
        """Waits until it does nothing more."""
        before = -1
        while before != (before := processor_time(self.child.pid)) or not self.is_idle():
            time.sleep(0.2)


def send_all(connection, requests):
    """Sends requests, and waits for the reply of each, which is one line."""
    replies = connection.makefile("rb")
    for request in requests:
        connection.sendall(request.encode())
        if not replies.readline().startswith(b"ok "):
            sys.exit("a request was refused")


def held_by_readers(hub, text, request, count):
    """MiB that each of some clients makes a server hold which send a request and never read its reply."""
    server = Server(hub, count + 1, "--read", environment=GIVING_BACK)
    writer = server.connect()
    send_all(writer, text.changes())
    clients = [server.connect() for _ in range(count)]
    for client in clients:
        client.setsockopt(socket.SOL_SOCKET, socket.SO_RCVBUF, 4096)
        send_all(client, ["newest 1\n"])
    server.settle()
    server.forget_most_held()
    before = server.most_held()
    for client in clients:
        client.sendall(request.encode())
    server.settle()
    held = (server.most_held() - before) / count
    for connection in (*clients, writer):
        connection.close()
    server.child.wait()
    return held


def never_read(hub, count=4):
    nested_comments, linked = inputs.nested(inputs.comment), inputs.of_one_character(inputs.link)
    shown = f"show {len(nested_comments.changes())} {inputs.MARKS - 512} 1024\n"
    changed = f"changes {len(linked.changes()) - 16} 64\n"
    cases = (("`show` of nested comments", nested_comments, shown), ("`changes` of 4,096 links", linked, changed))
    return [
        alone("6", f"{count} clients that never read {what}: held a session", held_by_readers(hub, text, request, count), "MiB", A_SESSION_HOLDS)
        for what, text, request in cases
    ]


def large_inputs(hub):
    size, source = 16 * MIB, b"\n" * (2 * MIB)
    cases = (
        ("check", inputs.too_long_program(size), "16 MiB of digits", 1),
        ("check", inputs.program_before_blanks(size), "a program and 16 MiB of line feeds", 1),
        ("check --explain", inputs.too_long_program(size), "16 MiB of digits", 1),
        ("dis", inputs.too_long_program(size), "16 MiB of digits", 1),
        ("asm", source, "2 MiB of line feeds", 1.5 * len(source) / MIB),
        ("spans", inputs.refused_change_before(size), "16 MiB behind a wrong first line", 1),
    )
    return [alone("7", f"{command} of {what}: held", most_held(hub, command.split(), given) / MIB, "MiB", limit) for command, given, what, limit in cases]


def assembler_lines(hub):
    counts = [instructions(hub, ["asm"], inputs.exits(count)) for count in (1024, 2048)]
    told = [instructions(hub, ["asm"], inputs.fault_before(size)) for size in (MIB, 2 * MIB)]
    return [
        alone("7", "asm: a line `exit`", (counts[1] - counts[0]) / 1024, "", 1000),
        alone("7", "asm with a fault in line 1: each byte behind it", (told[1] - told[0]) / MIB, "", 10),
    ]


# Rows 9 and 10: what stays for others.


def has_option(hub, option):
    return option in subprocess.run([hub, "serve", "--help"], stdout=subprocess.PIPE, text=True, check=True).stdout


def answer(client, request):
    """The last line of a reply, a refusal too."""
    client.connection.sendall(request.encode())
    return client.replies.readline().decode().strip()


def greatest_taken(hub, *options):
    """What a hub answers to a change with the greatest counter, and how many of two peers, an older and a new one, can't type after it."""
    server, failed = Server(hub, 3, "--read", *options), 0
    words = [sys.executable, str(PEER), str(server.port)]
    old = subprocess.Popen(words, stdin=subprocess.PIPE, stdout=subprocess.PIPE, text=True)
    old.stdin.write("insert 0 abc\n")
    old.stdin.flush()
    old.stdout.readline()
    hostile = Client(server.port)
    said = answer(hostile, inputs.greatest_counter())
    new = subprocess.Popen(words, stdin=subprocess.PIPE, stdout=subprocess.PIPE, text=True)
    for peer in (old, new):
        failed += not peer.communicate("insert 2 xyz\ntext\n")[0].startswith("version ")
    hostile.end()
    server.child.wait()
    return said, failed


def greatest_counter(hub):
    said, failed = greatest_taken(hub)
    yield alone("9", f"a change of 38 bytes with the greatest counter ({said}): peers that can't type on, of 2", failed, "peers", 0)
    if has_option(hub, "--counter-jump"):
        said, failed = greatest_taken(hub, "--counter-jump", "1000000")
        yield alone("9", f"  with --counter-jump 1000000 ({said})", failed + (not said.startswith("no 42 ")), "", 0)
    else:
        yield Note("9", "not built: hub serve has no --counter-jump")


def shares(hub):
    if not has_option(hub, "--per-session"):
        yield Note("10", "not built: hub serve has no --per-session")
        return
    server, program = Server(hub, 2, "--per-session", "changes=8,subscribers=2,bytes=100000"), f"sub 64 {NEVER}\n"
    greedy, other = Client(server.port), Client(server.port)
    said = [answer(greedy, f"change 1 1\ni {at}@1 - 61\n") for at in range(1, 10)] + [answer(greedy, program) for _ in range(3)]
    wanted = ["ok version"] * 8 + ["no 50"] + ["ok sub"] * 2 + ["no 51"]
    wrong = sum(not line.startswith(want) for line, want in zip(said, wanted, strict=True))
    wrong += not answer(other, "change 2 1\ni 1@2 - 61\n").startswith("ok ")
    wrong += not answer(other, program).startswith("ok ")
    for client in (greedy, other):
        client.end()
    server.child.wait()
    yield alone("10", "one session past its share of changes and subscribers, and another: wrong replies", wrong, "replies", 0)


ROWS = {
    "side_by_side": side_by_side,
    "under_review": under_review,
    "two_runs": two_runs,
    "nested": nested,
    "links": links,
    "all_kinds": all_kinds,
    "large_texts": large_texts,
    "idle_subscribers": idle_subscribers,
    "never_read": never_read,
    "large_inputs": large_inputs,
    "assembler_lines": assembler_lines,
    "greatest_counter": greatest_counter,
    "shares": shares,
}
