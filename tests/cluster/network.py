"""Hosts in network namespaces of this machine, all on one wire that can be cut between two of them."""
import ctypes
import itertools
import os
import signal
import subprocess

CLONE_NEWNET = 0x40000000
PR_SET_PDEATHSIG = 1
LIBC = ctypes.CDLL(None, use_errno=True)


def run(*words):
    subprocess.run([str(word) for word in words], check=True)


def end_with_parent():
    LIBC.prctl(PR_SET_PDEATHSIG, signal.SIGKILL)


class Network:
    """Hosts 1 to `count`, with addresses 10.77.0.1 and so on, and beside them the clients' place, which is number 0."""

    def __init__(self, count):
        self.prefix, self.numbers = f"hub{os.getpid()}-", range(count + 1)
        self.spaces = [f"{self.prefix}{number}" for number in self.numbers]
        self.wire = f"{self.prefix}wire"

    def __enter__(self):
        run("ip", "netns", "add", self.wire)
        run("ip", "-n", self.wire, "link", "add", "wire0", "type", "bridge")
        run("ip", "-n", self.wire, "link", "set", "wire0", "up")
        for number, space in enumerate(self.spaces):
            port = f"port{number}"
            run("ip", "netns", "add", space)
            run("ip", "link", "add", port, "netns", self.wire, "type", "veth", "peer", "name", "eth0", "netns", space)
            run("ip", "-n", self.wire, "link", "set", port, "master", "wire0", "up")
            run("ip", "-n", space, "addr", "add", f"{self.address(number)}/24", "dev", "eth0")
            run("ip", "-n", space, "link", "set", "eth0", "up")
            run("ip", "-n", space, "link", "set", "lo", "up")
        return self

    def __exit__(self, *_):
        for space in [*self.spaces, self.wire]:
            subprocess.run(["ip", "netns", "del", space], check=False)

    def address(self, number):
        return f"10.77.0.{number or 100}"

    def isolate(self, pair, is_on):
        for number in pair:
            run("bridge", "-n", self.wire, "link", "set", "dev", f"port{number}", "isolated", "on" if is_on else "off")

    def cut(self, pair):
        """Nothing comes through between two hosts, and neither is told; one pair at a time."""
        self.isolate(pair, True)

    def heal(self, pair):
        self.isolate(pair, False)

    def start(self, number, words, **options):
        """A process on a host, which ends with this one."""
        words = ["ip", "netns", "exec", self.spaces[number], *map(str, words)]
        return subprocess.Popen(words, stdin=subprocess.DEVNULL, preexec_fn=end_with_parent, **options)

    def enter(self):
        """Takes the calling thread to the clients' place."""
        space = os.open(f"/run/netns/{self.spaces[0]}", os.O_RDONLY)
        if LIBC.setns(space, CLONE_NEWNET):
            raise OSError(ctypes.get_errno(), "setns")
        os.close(space)

    def pairs(self):
        return list(itertools.combinations(self.numbers, 2))
