"""The client outside a browser: a program of node."""
import shutil
import subprocess
import tempfile

from browser import until
from editors import ROOT, place

# Node 22 has a WebSocket, and from 20.10 on node has one by this option.
OPTION = "--experimental-websocket"
SCRIPT = """
import { Hub } from "%s";
const hub = new Hub(process.argv[2]);
hub.addEventListener("version", () => hub.edit(edit => edit.insert(hub.replica.root, "Hm")), { once: true });
hub.addEventListener("version", () => { if (hub.replica.text === "Hm, yes" && !hub.waiting) process.exit(); });
"""


def options():
    """Those by which this machine's node has a WebSocket; None where it has none."""
    node = shutil.which("node")
    for some in ([], [OPTION]) if node else ():
        said = subprocess.run([node, *some, "-p", "typeof WebSocket"], stdout=subprocess.PIPE, stderr=subprocess.DEVNULL, text=True).stdout
        if said.strip() == "function":
            return some
    return None


def try_node(hub):
    """A program of node edits the text, and takes what another peer does."""
    if (some := options()) is None:
        print("node: not run, no node of this machine has a WebSocket", flush=True)
        return
    with tempfile.NamedTemporaryFile("w", suffix=".mjs") as script, place(hub, []) as here:
        script.write(SCRIPT % (ROOT / "examples" / "js" / "hub.js"))
        script.flush()
        words = ["node", "--no-warnings", *some, script.name, f"ws://127.0.0.1:{here.web}/session"]
        with subprocess.Popen(words) as process:
            until(lambda: here.session.ask("latest")[1] == 1, "node types nothing")
            here.peer.follow()
            here.peer.insert(2, ", yes")
            until(lambda: process.poll() is not None, "node doesn't take what the peer types")
            assert process.returncode == 0, process.returncode
        assert here.session.ask("show 2 0 64")[0] == ["span 0 plain Hm, yes"]
    print(f"try_node {' '.join(some)}: as expected", flush=True)
