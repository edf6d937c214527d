#!/usr/bin/python3
"""Measures hubs that follow one log (examples/cluster) beside one hub: cluster.py HUB

Changes a second through one gateway, and to a hub without one; what 60 subscribers are sent by one host, and by three. A host is
a gateway with its hub, bound to a processor of its own; Redis and the clients have another one. Where other work is on these
processors too, the clock says less than the processor time that each host took, so both are printed. Needs redis-server and
python3-redis."""
import contextlib
import os
import pathlib
import select
import shutil
import socket
import statistics
import subprocess
import sys
import tempfile
import threading
import time

import sessions

ROOT = pathlib.Path(__file__).resolve().parent.parent
GATEWAY = ROOT / "examples" / "cluster" / "gateway.py"
CHANGES, SUBSCRIBERS, HOSTS, ROUNDS = 1024, 60, 3, 5
# Versions that subscribers take, each with so many strong spans.
VERSIONS, MARKS = 1024, 100
TICKS = os.sysconf("SC_CLK_TCK")
PROCESSORS = sorted(os.sched_getaffinity(0))
AUTOGROUP = pathlib.Path("/proc/self/autogroup")


class Process:
    """A process bound to a processor, with all that it starts, in a session of its own: Linux shares a processor out among sessions, so
    that hosts take nothing from each other's share. Each goes before other work as far as this program does."""

    def __init__(self, words, processor, **options):
        before = AUTOGROUP.read_text().split()[-1] if AUTOGROUP.exists() else "0"

        def bind():
            os.sched_setaffinity(0, {processor})
            os.setsid()
            if before != "0":
                AUTOGROUP.write_text(before)
        self.child = subprocess.Popen([str(word) for word in words], preexec_fn=bind, **options)

    def seconds(self):
        """Processor time of the process and its children that run."""
        total = 0
        for path in pathlib.Path("/proc").glob("[0-9]*/stat"):
            with contextlib.suppress(OSError):
                fields = path.read_text().rpartition(")")[2].split()
                if int(path.parent.name) == self.child.pid or int(fields[1]) == self.child.pid:
                    total += int(fields[11]) + int(fields[12])
        return total / TICKS

    def end(self):
        self.child.terminate()
        self.child.wait()
        if self.child.stdout:
            self.child.stdout.close()


def free_port():
    with socket.socket() as probe:
        probe.bind(("127.0.0.1", 0))
        return probe.getsockname()[1]


def told(port):
    """What a Redis server says of its replication; nothing where it isn't reached."""
    command = ["redis-cli", "-p", str(port), "INFO", "replication"]
    return subprocess.run(command, capture_output=True, check=False).stdout


class Cluster:
    """Redis with replicas, and gateways."""

    def __init__(self, hub, folder):
        self.hub, self.folder, self.ports, self.running = hub, folder, [], []

    def redis(self, replicas):
        for number in range(replicas + 1):
            self.ports.append(free_port())
            words = ["redis-server", "--port", self.ports[-1], "--save", "", "--dir", self.folder, "--repl-diskless-sync-delay", "0"]
            words += ["--replicaof", "127.0.0.1", self.ports[0]] if number else []
            self.running.append(Process(words, PROCESSORS[-1], stdout=subprocess.DEVNULL))
            wanted = b"master_link_status:up" if number else b"role:master"
            while wanted not in told(self.ports[-1]):
                time.sleep(0.05)

    def gateway(self, number, replicas):
        words = [GATEWAY, "--hub", self.hub, "--folder", self.folder / f"host{number}", "--listen", "127.0.0.1:0",
                 "--redis", f"redis://127.0.0.1:{self.ports[0]}", "--replicas", replicas, "--patience", "120"]
        process = Process(words, processor_of(number), stdout=subprocess.PIPE, stderr=subprocess.DEVNULL)
        self.running.append(process)
        return process, int(process.child.stdout.readline().split()[1])

    def end(self):
        for process in reversed(self.running):
            process.end()
        self.running, self.ports = [], []


def processor_of(number):
    """Hosts have the processors from the first on; Redis and the clients have the last one."""
    return PROCESSORS[number % len(PROCESSORS)]


def ask(port, request):
    """The lines of one reply."""
    with socket.create_connection(("127.0.0.1", port)) as link:
        link.sendall(request)
        lines = link.makefile("rb")
        reply = [lines.readline()]
        while not reply[-1].startswith((b"ok ", b"no ")):
            reply.append(lines.readline())
        return reply


# Changes.

def write(port, writers):
    """Changes a second of writers that wait for each reply, and the median wait."""
    waits, failed = [], []

    def one(node):
        with socket.create_connection(("127.0.0.1", port)) as link:
            link.setsockopt(socket.IPPROTO_TCP, socket.TCP_NODELAY, 1)
            lines = link.makefile("rb")
            for counter in range(1, CHANGES // writers + 1):
                parent = f"{counter - 1}@{node}" if counter > 1 else "-"
                begun = time.perf_counter()
                link.sendall(sessions.typed(node, counter, parent, 1).encode())
                if not lines.readline().startswith(b"ok version "):
                    failed.append(node)
                waits.append(time.perf_counter() - begun)
    threads = [threading.Thread(target=one, args=(node,)) for node in range(1, writers + 1)]
    begun = time.perf_counter()
    for thread in threads:
        thread.start()
    for thread in threads:
        thread.join()
    took = time.perf_counter() - begun
    if failed:
        sys.exit("a change was refused")
    return CHANGES / took, statistics.median(waits)


def alone(hub, folder, writers):
    """The same to a hub with a store, without a gateway."""
    words = [hub, "serve", "--port", "0", "--store", folder / "alone.db"]
    process = Process(words, processor_of(0), stdout=subprocess.PIPE)
    try:
        return write(int(process.child.stdout.readline().split()[1]), writers)
    finally:
        process.end()


def through(hub, folder, writers, replicas):
    cluster = Cluster(hub, folder)
    try:
        cluster.redis(replicas)
        _, port = cluster.gateway(0, replicas)
        ask(port, b"latest\n")
        return write(port, writers)
    finally:
        cluster.end()


def in_folder(measure, *words):
    with tempfile.TemporaryDirectory(prefix="hub-bench-") as folder:
        return measure(words[0], pathlib.Path(folder), *words[1:])


def measure_changes(hub):
    print(f"\n{CHANGES:,} changes of a character, by writers that wait for each reply; hubs with a store (median of 3)")
    for writers in (1, 16):
        runs = []
        for _ in range(3):
            runs.append([in_folder(alone, hub, writers), in_folder(through, hub, writers, 0), in_folder(through, hub, writers, 1)])
        for what, found in zip(("a hub", "a gateway, no replica", "a gateway, --replicas 1"), zip(*runs)):
            sessions.row(f"{writers} writer(s), {what}", statistics.median(rate for rate, _ in found), "changes/s")
            sessions.row("  median wait", statistics.median(wait for _, wait in found) * 1e6, "us")


# Subscribers.

class Subscriber:
    """One that takes items up to the end of a version. There is little between it and its socket: all of them have one processor."""

    def __init__(self, port, last):
        self.link = socket.create_connection(("127.0.0.1", port))
        self.link.sendall(f"sub 1024 {sessions.STRONG} from {last - VERSIONS}\n".encode())
        self.request = b"pull %s 1024\n" % self.link.recv(100).split()[2]
        self.end, self.items, self.tail = b"end %d " % last, 0, b"\n"

    def ask(self):
        self.tail = b"\n"
        self.link.sendall(self.request)

    def hear(self):
        """Takes what has come, and asks for more. Returns whether all is there."""
        piece = self.link.recv(1 << 18)
        self.items += piece.count(b"\n")
        self.tail = (self.tail + piece)[-200:]
        if not self.tail.endswith(b"\n") or b"\nok items " not in self.tail:
            return False
        self.items -= 1
        if self.end not in self.tail:
            self.ask()
            return False
        self.link.close()
        return True


def take(ports, last):
    """What all subscribers take of these hosts, and how long that lasts."""
    subscribers = [Subscriber(ports[at % len(ports)], last) for at in range(SUBSCRIBERS)]
    waiting, poll = {each.link.fileno(): each for each in subscribers}, select.epoll()
    begun = time.perf_counter()
    for place, each in waiting.items():
        poll.register(place, select.EPOLLIN)
        each.ask()
    while waiting:
        for place, _ in poll.poll():
            if waiting[place].hear():
                del waiting[place]
    return sum(each.items for each in subscribers), time.perf_counter() - begun


def wait_for(hosts, last):
    for _, port in hosts:
        while ask(port, b"latest\n")[-1].split()[2] != b"%d" % last:
            time.sleep(0.1)


def measure_subscribers(hub):
    folder = pathlib.Path(tempfile.mkdtemp(prefix="hub-bench-"))
    cluster = Cluster(hub, folder)
    changes = sessions.text_of(sessions.CHARACTERS) + sessions.marks(MARKS, lambda k: "strong -")
    changes += [f"change 1 1\nu {sessions.CHARACTERS + MARKS + 1 + k}@1 em ^ $\n" for k in range(VERSIONS)]
    print(f"\n{SUBSCRIBERS} subscribers that take {VERSIONS} versions of {2 * MARKS + 1} spans, with {MARKS} hits and an end in each")
    try:
        cluster.redis(0)
        hosts = [cluster.gateway(number, 0) for number in range(HOSTS)]
        with socket.create_connection(("127.0.0.1", hosts[0][1])) as link:
            threading.Thread(target=link.sendall, args=("".join(changes).encode(),)).start()
            lines = link.makefile("rb")
            for _ in changes:
                if not lines.readline().startswith(b"ok version "):
                    sys.exit("a change was refused")
        wait_for(hosts, len(changes))
        os.sched_setaffinity(0, {PROCESSORS[-1]})
        rates = {HOSTS: [], 1: []}
        for count in [HOSTS, 1] * ROUNDS:
            # A hub takes 64 subscribers in its life, so each run has new hubs over the same stores.
            for process, _ in hosts:
                process.end()
                cluster.running.remove(process)
            hosts = [cluster.gateway(number, 0) for number in range(HOSTS)]
            wait_for(hosts, len(changes))
            ports = [port for _, port in hosts[:count]]
            before = [process.seconds() for process, _ in hosts]
            items, took = take(ports, len(changes))
            spent = max(process.seconds() - was for (process, _), was in zip(hosts, before))
            rates[count].append((items / took, items / spent))
        for count, found in rates.items():
            sessions.row(f"{count} host(s), median of {ROUNDS}", statistics.median(rate for rate, _ in found), "items/s")
            sessions.row("  by the processor time of the host that took most", statistics.median(rate for _, rate in found), "items/s")
        pairs = list(zip(rates[HOSTS], rates[1]))
        sessions.row("three hosts beside one, by the clock", statistics.median(three[0] / one[0] for three, one in pairs), "times")
        sessions.row("  by processor time", statistics.median(three[1] / one[1] for three, one in pairs), "times")
    finally:
        cluster.end()
        shutil.rmtree(folder)


if __name__ == "__main__":
    measure_changes(os.path.abspath(sys.argv[1]))
    measure_subscribers(os.path.abspath(sys.argv[1]))
