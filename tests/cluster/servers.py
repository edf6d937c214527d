"""Redis servers and gateways on this machine, over ports that are free."""
import contextlib
import json
import signal
import socket
import subprocess

import hosts
import network


def expect(what, got, want):
    if got != want:
        raise AssertionError(f"{what}: {got!r:.500} where {want!r:.500} is wanted")


def free_port():
    with socket.socket() as probe:
        probe.bind(("127.0.0.1", 0))
        return probe.getsockname()[1]


class Redis:
    def __init__(self, folder, options):
        self.port, self.folder, self.options, self.process = free_port(), folder, options, None
        self.url = f"redis://127.0.0.1:{self.port}"
        # What it writes with `--appendonly yes`.
        self.file = folder / "appendonlydir" / "appendonly.aof.1.incr.aof"

    def start(self, primary=None):
        words = ["redis-server", "--port", self.port, "--save", "", "--dir", self.folder, "--repl-diskless-sync-delay", "0"]
        words += [*self.options, *(["--replicaof", "127.0.0.1", primary.port] if primary else [])]
        self.process = subprocess.Popen([str(word) for word in words], stdout=subprocess.DEVNULL,
                                        preexec_fn=network.end_with_parent)
        hosts.wait_for("Redis", lambda: self.ask("PING") == "PONG")
        if primary:
            hosts.wait_for("the replica", lambda: "master_link_status:up" in self.ask("INFO", "replication"))
        return self

    def ask(self, *words):
        command = ["redis-cli", "-p", str(self.port), *map(str, words)]
        return subprocess.run(command, capture_output=True, text=True, check=False).stdout.strip()

    def texts(self, key="hub:text"):
        """The texts of a stream's entries."""
        found = json.loads(self.ask("--json", "XRANGE", key, "-", "+"))
        return [dict(zip(words[::2], words[1::2]))["text"] for _, words in found]

    def kill(self):
        self.process.kill()
        self.process.wait()

    def size(self):
        """The size of its file, once all is written that it answered."""
        hosts.wait_for("Redis's file", lambda: "aof_buffer_length:0\n" in self.ask("INFO", "persistence").replace("\r", ""))
        return self.file.stat().st_size

    def lose(self, size):
        """A power cut: what was written to the file behind so many bytes is gone. Then it is started again."""
        self.kill()
        with open(self.file, "r+b") as file:
            file.truncate(size)
        self.start()


class Gateway:
    def __init__(self, hub, folder, servers, *words):
        self.folder, self.log = folder, folder.with_suffix(".log")
        self.words = ["--hub", hub, "--folder", folder, "--listen", "127.0.0.1:0", "--name", folder.name, *words]
        for server in servers:
            self.words += ["--redis", server.url]
        with open(self.log, "a") as log:
            self.process = subprocess.Popen(self.command(), stdout=subprocess.PIPE, stderr=log, preexec_fn=network.end_with_parent)
        self.port = int(self.process.stdout.readline().split()[1])

    def command(self):
        return [str(word) for word in [hosts.GATEWAY, *self.words]]

    def say(self, text):
        """A session of these lines; all that is answered up to its end."""
        with socket.create_connection(("127.0.0.1", self.port)) as link:
            with contextlib.suppress(OSError):
                link.sendall(text.encode("latin-1"))
                link.shutdown(socket.SHUT_WR)
            told = b""
            with contextlib.suppress(ConnectionResetError):
                while piece := link.recv(1 << 16):
                    told += piece
            return told.decode("latin-1")

    def opened(self):
        """Waits until its hub is there, however long that takes: a session waits `--patience` seconds for it."""
        hosts.wait_for("the hub", lambda: self.say("latest\n"))
        return self

    def changes(self, name="text"):
        """The latest version and all changes, once the hub has all entries."""
        first = f"document {name}\n"
        hosts.wait_for("the stream's entries", lambda: self.say(f"{first}stats\n").endswith(" behind 0\n"))
        return self.say(f"{first}latest\nchanges 0 64\n").removeprefix(f"ok {first}")

    def aside(self):
        """How many stores were put aside."""
        return len(list(self.folder.glob("*.lost-*.db")))

    def said(self, words):
        return words in self.log.read_text()

    def kill(self, number=signal.SIGKILL):
        self.process.send_signal(number)
        self.process.wait()
        self.process.stdout.close()


def change(node, counter, code="61"):
    return f"change {node} 1\ni {counter}@{node} - {code}\n"


def told(*changes):
    """What `latest` and `changes` answer where these are all changes."""
    return f"ok latest {len(changes)}\n{''.join(changes)}ok changes {len(changes)}\n"


class Place:
    """A folder with the files of servers and gateways, which are ended with it."""

    def __init__(self, hub, folder):
        self.hub, self.folder, self.count, self.running = hub, folder, 0, []

    def path(self, name):
        self.count += 1
        return self.folder / f"{self.count}-{name}"

    def redis(self, primary=None, *options):
        path = self.path("redis")
        path.mkdir()
        server = Redis(path, options).start(primary)
        self.running.append(server)
        return server

    def gateway(self, servers, *words, folder=None):
        gateway = Gateway(self.hub, folder or self.path("gateway"), servers, *words)
        self.running.append(gateway)
        return gateway

    def end(self):
        for each in self.running:
            if each.process.poll() is None:
                each.kill()
        self.running = []
