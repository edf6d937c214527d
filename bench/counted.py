"""Counts the instructions of some requests in the midst of a session, in all threads: the hub runs under valgrind's callgrind, which counts nothing
until it is told to, so that what comes before takes minutes and not hours. Other work on the machine changes no figure."""

import glob
import re
import shutil
import subprocess
import sys
import tempfile


def install():
    """Debian's valgrind, where it isn't there."""
    if not shutil.which("valgrind"):
        subprocess.run(["apt-get", "install", "-y", "-q", "valgrind"], check=True, stdout=subprocess.DEVNULL)


class Counted:
    """A session with `hub replay`."""

    def __init__(self, hub, *words):
        install()
        self.folder, self.parts = tempfile.TemporaryDirectory(), 0
        tool = ["valgrind", "--tool=callgrind", "--instr-atstart=no", f"--callgrind-out-file={self.folder.name}/part"]
        with open(f"{self.folder.name}/said", "w") as said:
            self.child = subprocess.Popen([*tool, hub, "replay", *words], stdin=subprocess.PIPE, stdout=subprocess.PIPE, stderr=said)

    def ask(self, request):
        """Sends a request, and answers the last line of its reply."""
        self.child.stdin.write(request.encode())
        self.child.stdin.flush()
        while line := self.child.stdout.readline():
            if line.startswith((b"ok ", b"no ")):
                return line.decode().strip()
        with open(f"{self.folder.name}/said") as said:
            sys.exit(f"the session ended: {said.read()[-1000:]}")

    def tell(self, *words):
        """Gives callgrind an order, and waits until it is done."""
        done = subprocess.run(["vgdb", f"--pid={self.child.pid}", "--wait=60", *words], stdout=subprocess.PIPE, stderr=subprocess.PIPE, check=False)
        if done.returncode != 0:
            sys.exit(f"callgrind doesn't listen: {done.stderr.decode()[-400:]}")

    def count(self, requests, kept=None):
        """The replies to some requests, and how many instructions they took. The profile is kept in a file, if one is named."""
        self.tell("instrumentation", "on")
        replies = [self.ask(request) for request in requests]
        self.tell("instrumentation", "off")
        self.tell("dump")
        self.parts += 1
        path, = glob.glob(f"{self.folder.name}/part.{self.parts}")
        with open(path) as part:
            total = re.search(r"^totals: (\d+)", part.read(), re.MULTILINE)
        if kept:
            shutil.copy(path, kept)
        return replies, int(total[1])

    def end(self):
        self.child.stdin.close()
        self.child.stdout.close()
        status = self.child.wait()
        self.folder.cleanup()
        if status != 0:
            sys.exit("the session failed")
