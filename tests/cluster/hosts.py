"""Three hosts, each with a gateway and its hub; a Redis server on the first and its replica on the second."""
import pathlib
import subprocess
import sys
import time

ROOT = pathlib.Path(__file__).resolve().parent.parent.parent
GATEWAY = ROOT / "examples" / "cluster" / "gateway.py"
PORT = 6379


def children(parent):
    """The processes that another one started."""
    found = []
    for path in pathlib.Path("/proc").glob("[0-9]*/stat"):
        try:
            fields = path.read_text().rpartition(")")[2].split()
        except OSError:
            continue
        if int(fields[1]) == parent and fields[0] != "Z":
            found.append(int(path.parent.name))
    return found


class Redis:
    def __init__(self, network, folder, number):
        self.network, self.number, self.process = network, number, None
        self.folder = folder / f"redis{number}"
        self.folder.mkdir()

    def start(self, primary=None):
        words = ["redis-server", "--port", PORT, "--bind", "0.0.0.0", "--protected-mode", "no", "--save", "",
                 "--repl-diskless-sync-delay", "0", "--repl-ping-replica-period", "1", "--repl-timeout", "6",
                 "--dir", self.folder]
        words += ["--replicaof", self.network.address(primary), PORT] if primary else []
        self.process = self.network.start(self.number, words, stdout=subprocess.DEVNULL)

    def ask(self, *words):
        """What it answers, asked on its own host; an empty text where it can't be asked."""
        command = ["ip", "netns", "exec", self.network.spaces[self.number], "redis-cli", "-p", str(PORT), *words]
        return subprocess.run(command, capture_output=True, text=True, check=False).stdout.strip()

    def is_linked(self):
        return "master_link_status:up" in self.ask("INFO", "replication")

    def kill(self):
        self.process.kill()
        self.process.wait()


class Host:
    """A host's gateway, with its files and what it says."""

    def __init__(self, network, folder, number, hub, options):
        self.network, self.number, self.hub, self.options = network, number, hub, options
        self.folder = folder / f"host{number}"
        self.folder.mkdir()
        self.journal, self.log = self.folder / "journal", open(self.folder / "log", "a")
        self.process, self.starts = None, 0

    def start(self):
        address = self.network.address(self.number)
        words = [GATEWAY, "--hub", self.hub, "--folder", self.folder / "texts", "--listen", f"{address}:4711",
                 "--name", f"host{self.number}", "--journal", self.journal, "--patience", "8", *self.options]
        for number in (1, 2):
            words += ["--redis", f"redis://{self.network.address(number)}:{PORT}"]
        self.process = self.network.start(self.number, words, stdout=self.log, stderr=self.log)
        self.starts += 1

    def hubs(self):
        return children(self.process.pid)

    def is_running(self):
        return self.process.poll() is None

    def kill(self):
        self.process.kill()
        self.process.wait()

    def end(self):
        """Ends the gateway as an init system does; it ends its hubs."""
        self.process.terminate()
        self.process.wait()

    def replies(self):
        """What the hub answered to each entry, by the entry's place in the stream; what it answered otherwise is a fault."""
        found = {}
        for line in self.journal.read_text().splitlines():
            _, place, reply = line.split(" ", 2)
            if found.setdefault(int(place), reply) != reply:
                raise AssertionError(f"host {self.number}: entry {place} was answered {found[int(place)]}, then {reply}")
        return found


def wait_for(what, holds):
    """Waits for something that comes; a wait of minutes is told."""
    tries = 0
    while not holds():
        tries += 1
        if tries % 300 == 0:
            print(f"still waiting for {what}", file=sys.stderr, flush=True)
        time.sleep(0.2)
