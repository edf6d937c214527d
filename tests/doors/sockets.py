"""The socket file of `--unix`, `--host`, and `--log`."""
import datetime
import os
import pathlib
import re
import shutil
import socket
import stat
import subprocess
import sys
import tempfile

from doors import PROGRAM, UNKNOWN, Stream, Web, closing, connected, expect, server

NOBODY = 65534
# Another user, who tries to open what stands at the path, and in folders beside it, without a pause. It prints what could be opened.
INTRUDER = """
import os, pathlib, socket, sys
folder = pathlib.Path(sys.argv[1])
os.setgid(65534), os.setgroups([]), os.setuid(65534)
print("begun", flush=True)
os.set_blocking(0, False)
seen = 0
while True:
    try:
        if os.read(0, 1) == b"":
            break
    except BlockingIOError:
        pass
    for root, folders, files in os.walk(folder):
        for name in files:
            seen += 1
            try:
                socket.socket(socket.AF_UNIX).connect(os.path.join(root, name))
                print("opened", os.path.join(root, name), flush=True)
            except OSError:
                pass
print("seen", seen)
"""


def ended(hub, *words):
    """The status and standard error of a server that doesn't begin."""
    run = subprocess.run([str(hub), "serve", *map(str, words)], stdin=subprocess.DEVNULL, capture_output=True, text=True)
    expect(run.stdout, "", f"standard output of {words}")
    if not run.stderr.strip():
        raise AssertionError(f"{words} says nothing on standard error")
    return run.returncode


def mode(path):
    return stat.S_IMODE(path.lstat().st_mode)


def try_mode(hub):
    """The file is its owner's alone, whatever the umask, and nothing else is left beside it."""
    for umask in (0o000, 0o022, 0o077, 0o777):
        with server(hub, doors=["unix"], umask=umask) as here:
            expect((stat.S_ISSOCK(here.path.lstat().st_mode), mode(here.path)), (True, 0o600), f"umask {umask:o}")
            expect(sorted(one.name for one in here.folder.iterdir()), ["errors", "hub.sock"])
            client = Stream(here.path)
            expect(client.ask("close 0"), UNKNOWN)
            client.close()
    return "the mode of a socket file"


def try_intruder(hub, times=50):
    """At no moment can another user open it, where anyone may look into its folder and no umask takes a mode away."""
    if os.geteuid() != 0:
        return "no other user: only root can be one"
    with tempfile.TemporaryDirectory() as name:
        folder = pathlib.Path(name)
        folder.chmod(0o755)
        words = [sys.executable, "-c", INTRUDER, str(folder)]
        with subprocess.Popen(words, stdin=subprocess.PIPE, stdout=subprocess.PIPE, text=True) as intruder:
            expect(intruder.stdout.readline(), "begun\n")
            for _ in range(times):
                words = [str(hub), "serve", "--unix", str(folder / "hub.sock")]
                with subprocess.Popen(words, stdout=subprocess.PIPE, preexec_fn=lambda: os.umask(0)) as process:
                    process.stdout.readline()
                    client = Stream(folder / "hub.sock")
                    expect(client.ask("close 0"), UNKNOWN)
                    client.close()
                    process.kill()
            said, _ = intruder.communicate("")
        expect(re.sub("[0-9]+", "n", said), "seen n\n", "what another user could open")
    return f"another user, at {times} starts: {said.strip()} files, none opened"


def try_order(hub):
    """The calls by which it is made: bound in a folder of mode 0700, given its mode there, and moved."""
    if not shutil.which("strace"):
        return "no strace: the calls aren't looked at"
    with tempfile.TemporaryDirectory() as name:
        path, calls = pathlib.Path(name, "hub.sock"), pathlib.Path(name, "calls")
        words = ["strace", "-f", "-o", str(calls), "-e", "trace=mkdir,mkdirat,bind,chmod,fchmod,fchmodat,rename,renameat,renameat2"]
        with subprocess.Popen([*words, str(hub), "serve", "--sessions", "1", "--unix", str(path)], stdout=subprocess.PIPE) as process:
            process.stdout.readline()
            Stream(path).close()
            expect(process.wait(), 0)
        made = [line.split(None, 1)[1] for line in calls.read_text().splitlines() if name in line]
        kinds = [re.match("[a-z]+", line)[0] for line in made]
        kinds = [re.sub("at2?$", "", kind) for kind in kinds]
        expect(kinds, ["mkdir", "bind", "chmod", "rename"], "the calls")
        bound = re.search(r'"([^"]+)"', made[1])[1]
        folder = str(pathlib.Path(bound).parent)
        if folder == name or f'"{folder}"' not in made[0] or "0700" not in made[0]:
            raise AssertionError(f"made by {made}")
        if f'"{bound}"' not in made[2] or "0600" not in made[2] or f'"{bound}"' not in made[3] or f'"{path}"' not in made[3]:
            raise AssertionError(f"made by {made}")
    return "the calls that make a socket file"


def try_socket_files(hub):
    """What stands at the path: a socket in use is refused, a stale one replaced, any other kind of file left alone."""
    with server(hub, doors=["unix"]) as here:
        client = Stream(here.path)
        expect(client.ask("change 1 1", "i 1@1 - 61"), "ok version 1")
        expect(ended(hub, "--unix", here.path), 3, "one in use")
        other = Stream(here.path)
        expect([one.ask("change 1 1", f"i {at}@1 - 61") for at, one in [(2, client), (3, other)]], ["ok version 2", "ok version 3"])
        here.process.kill()
        here.process.wait()
        expect(stat.S_ISSOCK(here.path.lstat().st_mode), True, "a socket file whose server was killed")
        words = [str(hub), "serve", "--unix", str(here.path), "--sessions", "1"]
        with subprocess.Popen(words, stdout=subprocess.PIPE) as again:
            expect(again.stdout.readline().decode(), f"unix {here.path}\n")
            expect(mode(here.path), 0o600)
            expect(Stream(here.path).ask("change 1 1", "i 1@1 - 61"), "ok version 1")
            expect(again.wait(), 0)
    with tempfile.TemporaryDirectory() as name:
        folder = pathlib.Path(name)
        (folder / "file").write_text("text")
        (folder / "folder").mkdir()
        (folder / "folder" / "inner").write_text("inner")
        os.mkfifo(folder / "fifo")
        (folder / "link").symlink_to(folder / "file")
        (folder / "loose").symlink_to(folder / "nothing")
        before = sorted((str(one), one.lstat().st_mode, one.lstat().st_ino) for one in folder.rglob("*"))
        for one in ("file", "folder", "fifo", "link", "loose"):
            expect(ended(hub, "--unix", folder / one), 3, one)
        for one in (folder / "none" / "hub.sock", folder / "file" / "hub.sock", folder / ("x" * 200)):
            expect(ended(hub, "--unix", one), 3, one)
        expect(sorted((str(one), one.lstat().st_mode, one.lstat().st_ino) for one in folder.rglob("*")), before, "what was there")
        expect((folder / "file").read_text() + (folder / "folder" / "inner").read_text(), "textinner")
    return "what may stand at a socket file's path"


# Hosts.

def is_open(address):
    try:
        connected(address).close()
        return True
    except OSError:
        return False


def try_hosts(hub):
    """`--host` says at which address the ports are, and nothing listens at another one."""
    with server(hub) as here:
        for port in (here.port, here.web):
            expect([is_open(("127.0.0.1", port)), is_open(("127.0.0.2", port)), is_open(("::1", port))], [True, False, False])
    with server(hub, "--host", "127.0.0.2") as here:
        for port in (here.port, here.web):
            expect([is_open(("127.0.0.1", port)), is_open(("127.0.0.2", port))], [False, True])
        expect(Stream(("127.0.0.2", here.port)).ask("close 0"), UNKNOWN)
        expect(Web(("127.0.0.2", here.web)).ask("close 0"), UNKNOWN)
    with server(hub, "--host", "0.0.0.0") as here:
        expect([is_open((host, here.port)) for host in ("127.0.0.1", "127.0.0.3")], [True, True])
    said = "and IPv6"
    try:
        with socket.create_server(("::1", 0), family=socket.AF_INET6):
            pass
        with server(hub, "--host", "::1") as here:
            expect([is_open(("::1", here.port)), is_open(("127.0.0.1", here.port))], [True, False])
            expect(Web(("::1", here.web)).ask("close 0"), UNKNOWN)
    except OSError:
        said = "no IPv6 here"
    for host in ("here", "", "127.0.0.1:1", "256.0.0.1"):
        expect(ended(hub, "--port", 0, "--host", host), 2, f"--host {host}")
    for door in ("--port", "--web"):
        expect(ended(hub, door, 0, "--host", "203.0.113.7"), 3, f"{door} at an address that isn't this machine's")
    expect(ended(hub), 2, "no door")
    with socket.create_server(("127.0.0.1", 0)) as taken:
        for door in ("--port", "--web"):
            expect(ended(hub, door, taken.getsockname()[1]), 3, f"{door} of a port in use")
    return f"addresses, {said}"


# The log.

SECRET = "Zaphod-42"


def secrets():
    """Requests with a secret text: as characters, a link, a line that is none, a program."""
    codes = " ".join(f"{ord(character):x}" for character in SECRET)
    return [(["change2 1 1", f"r 1@1 - {len(SECRET)} {codes}"], "ok version 1"),
            (["change 1 1", f"m 20@1 link https://{SECRET}/ <1@1 >2@1"], "ok version 2"),
            ([SECRET], "no 60 BadCommand"),
            ([f"sub 1024 {PROGRAM}"], "ok sub 0"),
            (["show 2 0 1024"], "ok spans 2"),
            ([f"show 2 0 {SECRET}"], "no 60 BadCommand"),
            (["changes 0 64"], "ok changes 2")]


def stamp_of(line):
    """The time at a line's begin, in the form of RFC 3339 and of UTC."""
    return datetime.datetime.strptime(line.partition(" ")[0], "%Y-%m-%dT%H:%M:%SZ").replace(tzinfo=datetime.timezone.utc)


def try_log(hub):
    """`--log` has a line at each session's begin and end, with the time, the door, the peer's address and the version, and nothing of
    what was said; without it there is none."""
    codes = " ".join(f"{ord(character):x}" for character in SECRET)
    for words in (["--log"], []):
        for door in ("port", "web", "unix"):
            before = datetime.datetime.now(datetime.timezone.utc)
            with server(hub, "--read", "--sessions", 1, *words, doors=[door]) as here:
                client, = here.clients()
                address = "local" if door == "unix" else "{}:{}".format(*client.connection.getsockname()[:2])
                for lines, want in secrets():
                    expect(client.ask(*lines), want, lines)
                if door == "web":
                    client.send(closing(1000))
                    expect(client.ending(), 1000)
                else:
                    expect(client.end(), "")
                client.close()
                expect(here.process.wait(), 0)
                said = here.said()
                if not words:
                    expect(said, "", "standard error without --log")
                    continue
                for word in (SECRET, codes, SECRET.lower(), PROGRAM, PROGRAM[:16], "6162"):
                    if word in said:
                        raise AssertionError(f"the log tells {word}: {said!r}")
                lines = said.splitlines()
                expect(len(lines), 2, f"lines of a log {said!r}")
                for line in lines:
                    if not before.replace(microsecond=0) <= stamp_of(line) <= datetime.datetime.now(datetime.timezone.utc):
                        raise AssertionError(f"the time of {line!r} isn't the clock's")
                begun, over = (re.sub("[0-9]+ bytes", "n bytes", line.partition(" ")[2]) for line in lines)
                counts = [int(count) for count in re.findall("([0-9]+) bytes", lines[1])]
                expect(begun, f"hub: session 1 begins: {door} {address}, version 0")
                expect(over, f"hub: session 1 ends: {door} {address}, version 2, 7 requests, 2 refused, n bytes in, n bytes out")
                expect(counts, [client.sent, client.received], f"bytes in and out of {door}")
    return "the log of sessions"


PARTS = [try_mode, try_intruder, try_order, try_socket_files, try_hosts, try_log]
