"""What a page hasn't sent is kept by the browser until its writer has it, at both sizes of a hub: over another hub at the same address, a
reload and a closed tab."""
import pathlib
import subprocess
import tempfile

from browser import until
from editors import ROOT, place
from limits import BACK, chord, compare, kept, press

CHANGES = ROOT / "examples" / "clients" / "changes.py"


def typed_while_away(here, editor, text):
    """What is typed while the hub is ended."""
    here.kill()
    until(lambda: editor.says("state") == "offline", lambda: str(editor))
    editor.do("select(1e9)")
    press(editor, *text)
    # The browser has it once its database says so.
    until(lambda: stored(editor) == [text], lambda: f"{stored(editor)} is kept")


def stored(editor):
    """The texts of all records."""
    return editor.run("""return (async () => {
        const given = request => new Promise(resolve => { request.onsuccess = () => resolve(request.result); });
        const database = await given(indexedDB.open("hub")), store = database.transaction("unsent").objectStore("unsent");
        const records = await given(store.getAll());
        database.close();
        return records.map(({pieces}) => pieces.map(runs => runs.map(run => run.text).join("")).join("|")).sort();
    })()""")


def tabs(editor):
    return editor.call("GET", "/window/handles")


def new_tab(editor, address, node, closes=True):
    """Another tab, in place of this one or beside it."""
    old = editor.call("GET", "/window")
    made = editor.call("POST", "/window/new", {"type": "tab"})["handle"]
    if closes:
        editor.call("DELETE", "/window")
    editor.call("POST", "/window", {"handle": made})
    editor.enter(address, node)
    return old


def waits(editor):
    """For how many other tabs the page waits, to show what they leave behind."""
    return editor.run("return (async () => (await navigator.locks.query()).pending.length)()")


def buttons(editor):
    return editor.run("return [...document.querySelectorAll('#unsent button')].map(one => one.textContent)")


def joined(hub, size, here, folder):
    """A store with the text of a hub, its changes joined."""
    changes = subprocess.run([CHANGES, str(here.port)], stdout=subprocess.PIPE, check=True).stdout
    fewer = subprocess.run([hub, "join", "--size", size], input=changes, stdout=subprocess.PIPE, check=True).stdout
    store = pathlib.Path(folder) / "joined"
    said = subprocess.run([hub, "replay", "--size", size, "--store", store], input=fewer, stdout=subprocess.PIPE, check=True).stdout
    assert all(line.startswith(b"ok version ") for line in said.splitlines()), said
    return store


def try_joined(hub, editor, size, pictures):
    """A joined hub under an open page."""
    with tempfile.TemporaryDirectory() as folder, place(hub, [editor], "--size", size) as here:
        press(editor, *"abc")
        compare(here, "abc")
        press(editor, *"\ue012\ue012de")
        compare(here, "adebc")
        store = joined(hub, size, here, folder)
        typed_while_away(here, editor, "what I typed")
        assert kept(editor, 0) == [], "what is still to be sent is shown as if it weren't"
        here.options = ["--size", size, "--store", str(store)]
        here.begin()
        until(lambda: editor.says("state") == "stopped", lambda: str(editor))
        assert "has another text" in editor.says("trouble") and kept(editor, 1) == ["what I typed"], editor.says("trouble")
        assert buttons(editor) == ["Copy", "Discard"]
        editor.enter(here.address, 2)
        assert kept(editor, 1) == ["what I typed"] and editor.text() == "adebc", editor.text()
        if pictures:
            editor.take_picture(pictures / f"kept-{size}.png")
        new_tab(editor, here.address, 3)
        assert kept(editor, 1) == ["what I typed"]
        editor.click("#unsent button")
        until(lambda: buttons(editor)[0] == "Copied", lambda: editor.says("notice"))
        until(lambda: stored(editor) == [], lambda: f"{stored(editor)} is kept")
        editor.do("select(1e9)")
        chord(editor, "v")
        compare(here, "adebcwhat I typed")
        editor.enter(here.address, 4)
        assert kept(editor, 0) == []


def try_discarded(hub, editor, size):
    """The same hub again after a tab was closed while it was away; what is thrown away is gone. What the hub took before is not shown, nor
    what another tab is still to send."""
    with tempfile.TemporaryDirectory() as folder, place(hub, [editor], "--size", size, "--store", f"{folder}/text") as here:
        press(editor, *"one")
        compare(here, "one")
        typed_while_away(here, editor, " two")
        editor.call("POST", "/url", {"url": "about:blank"})
        here.begin()
        new_tab(editor, here.address, 2)
        assert kept(editor, 1) == [" two"] and editor.text() == "one", editor.text()
        other = new_tab(editor, here.address, 3, closes=False)
        assert kept(editor, 1) == [" two"]
        editor.click("#unsent button:last-of-type")
        assert kept(editor, 0) == []
        until(lambda: stored(editor) == [], lambda: f"{stored(editor)} is kept")
        # A tab whose hub isn't reached keeps what it is to send; another tab doesn't show it, and it is sent at last.
        editor.do("cut()")
        until(lambda: editor.says("state") == "offline", lambda: str(editor))
        editor.do("select(1e9)")
        press(editor, *"!?")
        until(lambda: stored(editor) == ["!?"], lambda: f"{stored(editor)} is kept")
        third = editor.call("GET", "/window")
        editor.call("POST", "/window", {"handle": other})
        editor.enter(here.address, 4)
        until(lambda: waits(editor) == 1, "it doesn't wait until the other tab is gone")
        assert kept(editor, 0) == []
        editor.call("DELETE", "/window")
        editor.call("POST", "/window", {"handle": third})
        editor.do("mend()")
        compare(here, "one!?")
        until(lambda: stored(editor) == [], lambda: f"{stored(editor)} is kept")


def try_accepted(hub, editor, size):
    """What the hub took, while the page didn't hear so and was left, isn't shown as not sent; what it didn't take is."""
    with place(hub, [editor], "--size", size) as here:
        press(editor, *"a")
        compare(here, "a")
        editor.do("deafen(); select(1e9); await paste('bc')")
        until(lambda: here.session.ask("latest")[1] == 2, "the hub doesn't hear the page")
        press(editor, *"de")
        until(lambda: stored(editor) == ["bcde"], lambda: f"{stored(editor)} is kept")
        new_tab(editor, here.address, 2)
        assert kept(editor, 1) == ["de"] and editor.text() == "abc", editor.text()
        editor.click("#unsent button:last-of-type")
        until(lambda: stored(editor) == [], lambda: f"{stored(editor)} is kept")


def try_put_back(hub, editor, size):
    """The same of what an undo put back, and the hub doesn't hear of."""
    with place(hub, [editor], "--size", size) as here:
        press(editor, *"abc")
        compare(here, "abc")
        editor.do("select(0, 3)")
        press(editor, BACK)
        compare(here, "c")
        editor.do("cut()")
        until(lambda: editor.says("state") == "offline", lambda: str(editor))
        chord(editor, "z")
        until(lambda: stored(editor) == ["ab"], lambda: f"{stored(editor)} is kept")
        new_tab(editor, here.address, 2)
        assert kept(editor, 1) == ["ab"] and editor.text() == "c", editor.text()
        editor.click("#unsent button:last-of-type")
        until(lambda: stored(editor) == [], lambda: f"{stored(editor)} is kept")
        editor.do("select(0, 2)")
        press(editor, BACK)
        compare(here, "")
        _, latest = here.session.ask("latest")
        editor.do("deafen()")
        chord(editor, "z")
        until(lambda: here.session.ask("latest")[1] == latest + 1, "the hub doesn't hear the page")
        until(lambda: stored(editor) == ["c"], lambda: f"{stored(editor)} is kept")
        new_tab(editor, here.address, 3)
        assert kept(editor, 0) == [] and editor.text() == "c", editor.text()


def try_all(hub, editor, pictures):
    for size in ("small", "large"):
        try_joined(hub, editor, size, pictures)
        try_discarded(hub, editor, size)
        try_accepted(hub, editor, size)
        try_put_back(hub, editor, size)
        print(f"try_joined, try_discarded, try_accepted, try_put_back, {size}: as expected", flush=True)
