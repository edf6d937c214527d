"""Undo and redo, which take removals back: nothing is copied, so nothing is lost and no characters are used up.

`quick` is a minute of it; the whole has more rounds and a longer day."""
import json
import random
import shutil
import subprocess
import time
from concurrent.futures import ThreadPoolExecutor

import outside
from browser import until
from editors import ROOT, place
from limits import (BACK, DELETE, SIZES, VISIBLE_BYTES, add_text, chord, compare, in_lines, is_asked, is_sent, press, quiet, remove_text,
                    replace_all, room, select_all, version, waste)

# Milliseconds after which a removal is a step of its own, as in examples/js/replica.js.
JOINED = 500

# What two do to one character, offline but for `sync`, and what all show at last: a removal of what is removed does nothing.
CASES = [
    ("one removes and undoes", "1d 1u", True),
    ("both remove, and one sees that and undoes", "1d 2d sync 1u", True),
    ("one undoes before it sees the other's removal", "1d 1u 2d", False),
    ("both remove, and both undo behind that", "1d 2d sync 1u 2u", True),
    ("both remove and undo, and none sees the other", "1d 1u 2d 2u", True),
    ("both remove, undo in the other order", "1d 2d 2u 1u", True),
    ("one removes, undoes and redoes", "1d 1u 1r", False),
    ("one removes offline what the other removed and undid", "1d 1u 2d sync", False),
    ("one undoes what the other has seen", "1d sync 1u", True),
    ("the other removes nothing, and the first undoes", "2d sync 1d sync 2u", True),
    ("both undo, and one redoes", "1d 2d sync 1u 2u sync 1r", False),
    ("one undoes, the other removes it again, the first undoes no more", "1d sync 1u sync 2d sync", False),
    ("the other removes it again and undoes that", "1d sync 1u sync 2d sync 2u", True),
]


def characters(here):
    """How many characters there are, removed ones too."""
    return sum(here.session.counts("characters", "removed"))


def last_change(here):
    latest = version(here)
    return here.session.ask(f"changes {latest - 1} 1")[0]


def wait(editor, text):
    """Waits until all is sent, and the page has a text."""
    until(lambda: is_sent(editor) and editor.text() == text, lambda: f"{editor}: {editor.text()[:40]!r}, {editor.says('notice')}")


def undo(editor):
    editor.run("hubView.focus()")
    chord(editor, "z")


def redo(editor):
    editor.run("hubView.focus()")
    chord(editor, "y")


def try_ten_times(here, size):
    """Where no character more is taken: all is selected, deleted and put back ten times over, with a change of one line each."""
    editor, most = here.editors[0], min(size.characters, VISIBLE_BYTES)
    text = in_lines(most)
    waste(here, size.characters - most)
    add_text(here, text)
    compare(here, text)
    assert room(editor)[0] == 0 and characters(here) == size.characters, room(editor)
    begun = version(here)
    for turn in range(10):
        replace_all(editor, DELETE)
        wait(editor, "")
        # A line has at most 65,535 of them.
        assert not is_asked(editor) and last_change(here)[0] == f"change3 1 {-(-most // 65535)}", last_change(here)
        undo(editor)
        wait(editor, text)
        assert last_change(here)[0] == f"change3 1 {-(-most // 65535)}" and last_change(here)[1].startswith("v "), last_change(here)
        assert version(here) == begun + 2 * turn + 2 and characters(here) == size.characters and not is_asked(editor)
    compare(here, text)
    said = f"Room for 0 characters, {VISIBLE_BYTES - most:,} bytes of visible text and {size.changes - version(here):,} changes."
    assert editor.says("room") == said, editor.says("room")
    for _ in range(3):
        redo(editor)
        undo(editor)
    compare(here, text)
    quiet(editor)
    press(editor, "x")
    assert editor.says("notice") == "The text is full: it takes no more characters; removed ones count too.", editor.says("notice")


def try_own(here, _):
    """What the person typed and pasted: undo of that removes it, and redo puts it back; in place of a selection it is one edit."""
    editor = here.editors[0]
    text = in_lines(20000)
    editor.do("select(0); await paste(arguments[0])", text)
    compare(here, text)
    used = characters(here)
    for _ in range(5):
        undo(editor)
        compare(here, "")
        redo(editor)
        compare(here, text)
        assert last_change(here)[0] == "change3 1 1" and last_change(here)[1].endswith(" 20000"), last_change(here)
    assert characters(here) == used
    select_all(editor)
    editor.do("await paste('new')")
    compare(here, "new")
    for _ in range(3):
        undo(editor)
        compare(here, text)
        redo(editor)
        compare(here, "new")
    undo(editor)
    compare(here, text)
    assert characters(here) == used + 3, (used, characters(here))
    # A word that is dragged to another place.
    editor.do("select(1, 4); scrollTo(0, 0); await drop(7)")
    compare(here, text[3:6] + text[:3] + text[6:])
    undo(editor)
    compare(here, text)
    # A key that takes one character at a time is a change of the first form, as before; its undo is one line.
    editor.do("select(4)")
    press(editor, BACK, BACK, BACK)
    compare(here, text[3:])
    assert last_change(here)[0].startswith("change 1 "), last_change(here)
    while editor.text() != text:
        undo(editor)
    compare(here, text)


def try_full(here, size):
    """An undo that there is no room for, first by what the page knows, then by what only the hub knows, is told and kept."""
    editor = here.editors[0]
    if size.name == "small":
        # As many characters as there can be have no more bytes than may be visible.
        return
    text = in_lines(100000)
    add_text(here, text)
    compare(here, text)
    replace_all(editor, DELETE)
    compare(here, "")
    others = in_lines(40000).upper()
    first = add_text(here, others)
    compare(here, others)
    before = version(here)
    undo(editor)
    said = editor.says("notice")
    assert said == "100,000 characters can't be put back. The text is full: it takes 91,072 more bytes until something is removed.", said
    remove_text(here, first, 20000)
    compare(here, others[20000:])
    undo(editor)
    compare_lengths(here, 120000)
    replace_all(editor, DELETE)
    compare(here, "")
    quiet(editor)
    editor.do("cut()")
    until(lambda: editor.says("state") == "offline", lambda: str(editor))
    add_text(here, in_lines(60000))
    undo(editor)
    editor.do("select(1)")
    press(editor, "q")
    assert len(editor.text()) == 120001, len(editor.text())
    editor.do("mend()")
    told = []
    until(lambda: told.append(editor.says("notice")) or told[-1], lambda: str(editor))
    assert told[-1] == "120,000 characters can't be put back: the text is full. Try again once something is removed.", told[-1]
    compare_lengths(here, 60001)
    assert editor.says("trouble") == "" and version(here) > before
    editor.run("hubView.focus()")
    chord(editor, "a")
    press(editor, DELETE)
    compare(here, "")
    for _ in range(2):
        undo(editor)
    compare_lengths(here, 60000)
    undo(editor)
    assert "120,000 characters can't be put back" in editor.says("notice"), editor.says("notice")


def compare_lengths(here, length):
    editor = here.editors[0]
    until(lambda: is_sent(editor) and len(editor.text()) == length, lambda: f"{editor}: {len(editor.text())}, {editor.says('notice')}")
    here.compare()


# Two browsers.

def sync(here):
    for editor in here.editors:
        editor.do("mend(); dispatchEvent(new Event('online'))")
    here.compare()


def away(here):
    for editor in here.editors:
        editor.do("cut()")
        until(lambda: editor.says("state") == "offline", lambda: str(editor))


def try_case(here, steps, is_shown):
    """A character of its own, `x`, which both have before."""
    one = here.editors[0]
    one.do("select(0)")
    press(one, "x")
    here.compare()
    for editor in here.editors:
        editor.run("hub.done = []; hub.undone = []")
    away(here)
    for step in steps.split():
        if step == "sync":
            sync(here)
            away(here)
            continue
        editor, act = here.editors[int(step[0]) - 1], step[1]
        if act == "d" and "x" in editor.text():
            editor.do("find('x'); await key('Backspace')")
        elif act == "u":
            editor.do("await key('z', {ctrlKey: true})")
        elif act == "r":
            editor.do("await key('y', {ctrlKey: true})")
    sync(here)
    assert ("x" in one.text()) == is_shown, (steps, one.text())
    if is_shown:
        one.do("find('x'); await key('Backspace')")
        here.compare()


def try_cases(hub, editors):
    with place(hub, editors[:2]) as here:
        for name, steps, is_shown in CASES:
            try_case(here, steps, is_shown)
    print(f"{len(CASES)} cases of two that remove, undo and redo one character: as expected", flush=True)


def at_random(here, editor, rng, count):
    """Edits of which four of ten are undo or redo."""
    errors = []
    for _ in range(0, count, 20):
        errors += editor.do("return round(...arguments)", rng.randrange(1 << 31), 20, 40, 0.4)
        if rng.random() < 0.3:
            editor.do("cut(); setTimeout(mend, arguments[0])", rng.randrange(200, 2000))
    return errors


def try_rounds(hub, editors, rng, rounds, operations):
    """Two browsers that undo and redo what they did, others' removals of it between, offline for a part of the time."""
    begun = time.monotonic()
    for done in range(1, rounds + 1):
        with place(hub, editors[:2]) as here, ThreadPoolExecutor(2) as pool:
            jobs = [pool.submit(at_random, here, editor, random.Random(rng.random()), operations) for editor in here.editors]
            for job in jobs:
                errors = job.result()
                assert not errors, errors
            for editor in here.editors:
                editor.do("await pause(2100); mend(); dispatchEvent(new Event('online'))")
            here.compare()
            used = here.editors[0].run("return [hub.replica.characters.size, hub.replica.visible.length]")
            print(f"undo, round {done}: {version(here)} versions, {used[0]} characters, {used[1]} of them visible, all alike, "
                  f"{time.monotonic() - begun:.0f} s", flush=True)


def try_day(hub, editors, rng, size, hours, keys):
    """A day of writing, while another one corrects; at each hour all is selected, deleted and put back."""
    with place(hub, editors[:2], "--size", size.name) as here:
        editor, other = here.editors
        for hour in range(hours):
            editor.do("select(1e9); await paste(arguments[0])", f"Hour {hour}.\n" + in_lines(keys))
            for one in (editor, other):
                errors = one.do("return round(...arguments)", rng.randrange(1 << 31), keys // 20, 20, 0.1)
                assert not errors, errors
            here.compare()
            lines, used, begun = editor.lines(), characters(here), version(here)
            # Else it may be one step with a removal just before it.
            editor.do("await pause(arguments[0])", 2 * JOINED)
            replace_all(editor, DELETE)
            compare(here, "")
            undo(editor)
            until(lambda: is_sent(editor) and editor.lines() == lines, lambda: f"{editor}: {editor.says('notice')}")
            here.compare()
            assert characters(here) == used and version(here) <= begun + 4, (version(here) - begun, used - characters(here))
        count = here.editors[0].run("return [hub.replica.characters.size, hub.replica.visible.length]")
        print(f"a day of {hours} hours, {size.name}: {version(here)} versions, {count[0]} characters, {count[1]} of them visible; "
              "nothing was lost", flush=True)


# Three clients outside browsers, which are faster.

def try_outside(hub, rng, rounds, steps):
    """Three clients in a program of node."""
    if (some := outside.options()) is None:
        print("undo outside a browser: not run, no node of this machine has a WebSocket", flush=True)
        return
    client, script = ROOT / "examples" / "js" / "hub.js", ROOT / "tests" / "editor" / "in_node.mjs"
    counts = dict.fromkeys(("versions", "change", "change2", "change3", "v"), 0)
    for _ in range(rounds):
        seed = rng.randrange(1 << 31)
        with place(hub, []) as here:
            words = [shutil.which("node"), "--no-warnings", *some, script, client, f"ws://127.0.0.1:{here.web}/session", str(seed), str(steps)]
            found = json.loads(subprocess.run(words, stdout=subprocess.PIPE, check=True).stdout)
            want = here.compare()
            for one in found["told"]:
                assert not one["why"] and one["lines"] == want and one["isSound"], (seed, one["why"], one["isSound"], found["said"])
            counts["versions"] += version(here)
            for change in here.peer.replica.changes.values():
                counts[change[0].split(" ")[0]] += 1
                counts["v"] += sum(line.startswith("v ") for line in change)
    print(f"undo outside a browser: {rounds} rounds of three clients, {counts['versions']} versions, {counts['change3']} of the third form, "
          f"{counts['v']} lines of revivals; all alike", flush=True)


def try_all(hub, editors, rng, is_quick):
    for size in SIZES:
        for part in (try_ten_times, try_own, try_full):
            with place(hub, editors[:1], "--size", size.name) as here:
                part(here, size)
            print(f"{part.__name__}, {size.name}: as expected", flush=True)
    try_cases(hub, editors)
    rounds, steps, hours, keys = (2, 100, 4, 300) if is_quick else (40, 400, 12, 4000)
    try_outside(hub, rng, 3 * rounds, 3 * steps)
    try_rounds(hub, editors, rng, rounds, steps)
    for size in SIZES:
        try_day(hub, editors, rng, size, hours, min(keys, size.characters // 24))
