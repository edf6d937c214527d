"""Editors in browsers, which a hub serves itself, a peer, and a session that looks."""
import contextlib
import pathlib
import socket
import subprocess
import sys

from browser import Browser, number_in, until

ROOT = pathlib.Path(__file__).resolve().parent.parent.parent
sys.path.insert(0, str(ROOT / "examples" / "clients"))
import peer  # noqa: E402
from peer import Peer  # noqa: E402

IN_PAGE = (ROOT / "tests" / "editor" / "in_page.js").read_text(encoding="utf-8")
EDITOR, PEER = ROOT / "examples" / "editor", 9


class Session(peer.Session):
    """A session that looks."""

    def counts(self, *names):
        """Some counts of `stats`."""
        self.socket.sendall(b"stats\n")
        words = self.line().split(" ")
        return [int(words[words.index(name) + 1]) for name in names]


class Editor(Browser):
    """An editor in a browser."""

    def enter(self, address, node):
        until(lambda: self.begins(f"{address}/?node={node}"), "no editor is served")
        until(lambda: self.says("state") == "connected", lambda: f"the editor is {self.says('state')}: {self.says('trouble')}")
        self.run(IN_PAGE)

    def begins(self, url):
        """Opens a page; a hub that is slow, on a busy machine, may answer a part of it with 408."""
        self.open(url)
        return self.run("return 'hubView' in window")

    def do(self, script, *arguments):
        """Runs a script that uses what in_page.js has."""
        return self.run("const {accept, select, find, knowsCaret, type, key, paste, drop, copy, press, link, round, unlike, cut, deafen, mend, watch, times, "
                        f"pause}} = trial; return (async () => {{ {script} }})()", *arguments)

    def lines(self):
        return self.run("return hub.replica.lines()")

    def text(self):
        return self.run("return hub.replica.text")

    def is_level(self, latest):
        """Whether all that was typed here is sent, and all that others did is here, also on the screen. A word that is composed is typed
        once it is done."""
        return self.run("return hub.waiting === 0 && hub.state === 'connected' && hub.replica.version === arguments[0] && "
                        "!hubView.composing && trial.unlike() === ''", latest)

    def __str__(self):
        return self.run("return `node ${hub.node}, ${hub.state} (${hub.why}), version ${hub.replica.version}, ${hub.waiting} wait, "
                        "${hubView.composing ? 'composing' : 'not composing'}, ${trial.unlike()}`")


def free_port():
    """A port that nothing uses: a page's origin, which the hub is given, has it."""
    with socket.create_server(("127.0.0.1", 0)) as server:
        return server.getsockname()[1]


class Place:
    """A hub with some editors that it serves, a peer, and a session that looks."""

    def __init__(self, hub, editors, *options, web=None):
        self.command, self.options, self.web = hub, options, web or free_port()
        self.address = f"http://127.0.0.1:{self.web}"
        self.editors = editors
        self.begin()
        for node, editor in enumerate(editors, 1):
            editor.enter(self.address, node)

    def begin(self):
        doors = ["--port", "0", "--web", str(self.web), "--files", str(EDITOR), "--origin", self.address]
        words = [self.command, "serve", "--read", *doors, *self.options]
        self.hub = subprocess.Popen(words, stdout=subprocess.PIPE, text=True)
        self.port = number_in(self.hub.stdout, "^port ([0-9]+)$")
        assert number_in(self.hub.stdout, "^web ([0-9]+)$") == self.web
        self.session, self.peer = Session(self.port), Peer(self.port, PEER)

    def compare(self):
        """Waits until all have taken all changes, and compares what they show with what the hub shows."""
        until(self.is_level, lambda: "; ".join(str(editor) for editor in self.editors))
        _, latest = self.session.ask("latest")
        want, count = [], 1
        while len(want) < count:
            lines, count = self.session.ask(f"show3 {latest} {len(want)} 1024")
            want += lines
        self.peer.wait(latest)
        assert [f"span {line}" for line in self.peer.replica.span_lines()] == want, "the peer's text is another one"
        for at, editor in enumerate(self.editors):
            lines = editor.lines()
            assert lines == want, f"editor {at} has {first_unlike(lines, want)}"
        return want

    def is_level(self):
        _, latest = self.session.ask("latest")
        return all(editor.is_level(latest) for editor in self.editors) and self.session.ask("latest")[1] == latest

    def kill(self):
        """Ends the hub as a loss of power would; `begin` starts it again."""
        for one in (self.session, self.peer):
            one.close()
        self.hub.kill()
        self.hub.wait()
        self.hub.stdout.close()


@contextlib.contextmanager
def place(hub, editors, *options, web=None):
    made = Place(hub, editors, *options, web=web)
    try:
        yield made
    finally:
        made.kill()


def first_unlike(found, want):
    at = next((at for at, (one, other) in enumerate(zip(found, want)) if one != other), min(len(found), len(want)))
    return f"{found[at:at + 2]} and not {want[at:at + 2]}, at {at} of {len(found)} and {len(want)}"
