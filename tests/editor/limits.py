"""Limits, at both sizes of a hub: those of the text, of changes and marks, of what undo can put back, and a session's share.

The limits are those of docs/LIMITS.md, and what is said at them is worked out from them by hand."""
import string
from typing import NamedTuple

from browser import until
from editors import place

CONTROL, NOTHING, ENTER, BACK, DELETE = "\ue009", "\ue000", "\ue007", "\ue003", "\ue017"
TAB, SPACE, ESCAPE = "\ue004", "\ue00d", "\ue00c"
KEYBOARD, OTHER, VISIBLE_BYTES, RUN = ".ProseMirror", 8, 131072, 256


class Size(NamedTuple):
    name: str
    characters: int
    marks: int
    changes: int


SIZES = [Size("small", 32768, 4096, 4096), Size("large", 262144, 16384, 65536)]


# What another session does.

def newest(here):
    return here.session.ask(f"newest {OTHER}")[1]


def add_text(here, text):
    """A text behind what another session added last, or at the beginning. Returns the counter of its first character."""
    first = counter = newest(here) + 1
    parent = "-"
    for at in range(0, len(text), RUN):
        codes = [f"{ord(one):x}" for one in text[at:at + RUN]]
        form = f"r {counter}@{OTHER} {parent} {len(codes)}" if len(codes) > 1 else f"i {counter}@{OTHER} {parent}"
        here.session.ask(f"change2 {OTHER} 1", " ".join([form, *codes]))
        counter += len(codes)
        parent = f"{counter - 1}@{OTHER}"
    return first


def remove_text(here, first, count):
    """Removes what add_text added."""
    counter = newest(here)
    for at in range(0, count, RUN):
        lines = [f"d {counter + 1 + each}@{OTHER} {first + at + each}@{OTHER}" for each in range(min(RUN, count - at))]
        here.session.ask(f"change {OTHER} {len(lines)}", *lines)
        counter += len(lines)


def waste(here, count):
    """Uses up the room of so many characters, none of them visible."""
    while count:
        part = min(count, 65536)
        remove_text(here, add_text(here, "w" * part), part)
        count -= part


def add_marks(here, count):
    """So many mark operations that cover nothing."""
    counter = newest(here)
    for at in range(0, count, RUN):
        lines = [f"u {counter + 1 + each}@{OTHER} em ^ ^" for each in range(min(RUN, count - at))]
        here.session.ask(f"change {OTHER} {len(lines)}", *lines)
        counter += len(lines)


def add_changes(here, count):
    """So many changes that leave the text as it is: a large hub takes more of them than marks."""
    add_marks(here, count % 2)
    counter = newest(here)
    for at in range(count // 2):
        own = f"{counter + 2 * at + 1}@{OTHER}"
        here.session.ask(f"change {OTHER} 1", f"i {own} - 77")
        here.session.ask(f"change {OTHER} 1", f"d {counter + 2 * at + 2}@{OTHER} {own}")


def in_lines(count):
    """A text of so many characters, one byte each, in lines of 64 with their line feeds."""
    line = string.ascii_letters + string.digits + ".\n"
    return (line * (count // len(line) + 1))[:count]


# What the person does, and what the page says.

def press(editor, *keys):
    """Keys that go to what has the focus: the text, or the question."""
    actions = [{"type": kind, "value": key} for key in keys for kind in ("keyDown", "keyUp")]
    editor.call("POST", "/actions", {"actions": [{"type": "key", "id": "keyboard", "actions": actions}]})


def chord(editor, key):
    actions = [("keyDown", CONTROL), ("keyDown", key), ("keyUp", key), ("keyUp", CONTROL)]
    actions = [{"type": kind, "value": value} for kind, value in actions]
    editor.call("POST", "/actions", {"actions": [{"type": "key", "id": "keyboard", "actions": actions}]})


def is_asked(editor):
    return editor.run("return document.getElementById('question').open")


def question(editor):
    until(lambda: is_asked(editor), lambda: f"nothing is asked: {editor}, {editor.says('notice')}")
    return editor.says("asked"), editor.says("why")


def quiet(editor):
    editor.run("document.getElementById('notice').textContent = ''")


def is_sent(editor):
    return editor.run("return hub.waiting === 0 && hub.pending.length === 0")


def compare(here, text):
    """The text, as all have it."""
    editor = here.editors[0]
    until(lambda: is_sent(editor) and editor.text() == text, lambda: f"{editor}: {editor.text()[:40]!r}, {editor.says('notice')}")
    here.compare()
    assert editor.text() == text


def version(here):
    return here.session.ask("latest")[1]


def room(editor):
    return editor.run("return [hub.room.characters, hub.room.bytes, hub.room.marks, hub.room.changes]")


def select_all(editor):
    """Selects all; the page hears of that only afterwards."""
    editor.run("hubView.focus()")
    chord(editor, "a")
    until(lambda: editor.do("return knowsCaret() && !hubView.state.selection.empty"), "the page doesn't hear what is selected")


def replace_all(editor, key):
    select_all(editor)
    press(editor, key)


# What is removed and couldn't be put back, since no changes are left. Characters are always left for it: nothing is copied.

def leave_changes(here, size, left, done):
    """Of the changes that there can be so many are left, behind so many."""
    add_changes(here, size.changes - done - left)


def takes(changes, left):
    return f"that takes {changes} change{'' if changes == 1 else 's'}, and the document takes {left} more."


def try_removal(here, size, pictures):
    """Where the hub takes three more changes: a line is removed, unasked; the rest could only be put back without that line, and the page
    asks; no, by two keys; yes, by the keyboard alone; then undo changes nothing, and says why."""
    editor = here.editors[0]
    text = in_lines(20000)
    add_text(here, text)
    leave_changes(here, size, 3, 79)
    compare(here, text)
    assert room(editor)[1] == VISIBLE_BYTES - 20000 and room(editor)[3] == 3 and "and 3 changes" in editor.says("room"), room(editor)
    # A line with its end, which positions count twice.
    editor.do("select(1, 66)")
    press(editor, DELETE)
    text = text[64:]
    compare(here, text)
    assert not is_asked(editor)
    before = version(here)
    asked = "Remove 19,936 characters?", f"Undo couldn't put all that you removed back: {takes(2, 1)}"
    for answer in ([ESCAPE], [ENTER], [SPACE]):
        replace_all(editor, DELETE)
        assert question(editor) == asked, question(editor)
        if pictures and answer == [ESCAPE]:
            editor.take_picture(pictures / f"question-{size.name}.png")
        press(editor, *answer)
        assert not is_asked(editor) and version(here) == before
        compare(here, text)
    for act in (lambda: replace_all(editor, "x"), lambda: (select_all(editor), chord(editor, "x"))):
        act()
        assert question(editor) == asked, question(editor)
        press(editor, ESCAPE)
    compare(here, text)
    assert version(here) == before
    replace_all(editor, DELETE)
    question(editor)
    here.peer.follow()
    here.peer.insert(9000, "[stays]")
    until(lambda: editor.run("return hub.replica.version") == before + 1, lambda: str(editor))
    press(editor, TAB, ENTER)
    assert question(editor) == ("Remove 19,943 characters?", f"Undo couldn't put all that you removed back: {takes(2, 0)}"), question(editor)
    press(editor, TAB, ENTER)
    compare(here, "")
    assert room(editor)[3] == 0 and version(here) == size.changes, room(editor)
    quiet(editor)
    chord(editor, "z")
    said = editor.says("notice")
    assert said == "19,943 characters can't be put back. This document is full: it takes no more changes.", said
    press(editor, "a")
    compare(here, "")


def try_redo(here, size):
    """A redo that removes what undo couldn't put back again asks, and an undo that removes what redo couldn't."""
    editor = here.editors[0]
    text = in_lines(20000)
    add_text(here, text)
    leave_changes(here, size, 3, 79)
    compare(here, text)
    # Positions count the end of a line twice.
    editor.do("select(1, arguments[0])", 1 + 12000 + 12000 // 64)
    press(editor, DELETE)
    compare(here, text[12000:])
    chord(editor, "z")
    compare(here, text)
    before = version(here)
    for answer in ([ESCAPE], [TAB, ENTER]):
        chord(editor, "y")
        assert question(editor) == ("Redo, and remove 12,000 characters?", f"Undo couldn't put them back: {takes(1, 0)}"), question(editor)
        press(editor, *answer)
        compare(here, text if answer == [ESCAPE] else text[12000:])
        assert version(here) == before + (answer != [ESCAPE])
    quiet(editor)
    chord(editor, "z")
    said = editor.says("notice")
    assert said == "12,000 characters can't be put back. This document is full: it takes no more changes.", said
    compare(here, text[12000:])


def try_pasted(here, size):
    """An undo that removes what redo couldn't put back asks; once that is done, redo changes nothing, and says why."""
    editor = here.editors[0]
    text = in_lines(20000)
    leave_changes(here, size, 80, 0)
    here.compare()
    editor.do("select(0); await paste(arguments[0])", text)
    compare(here, text)
    before = version(here)
    assert before == size.changes - 1
    editor.run("hubView.focus()")
    chord(editor, "z")
    assert question(editor) == ("Undo, and remove 20,000 characters?", f"Redo couldn't put them back: {takes(1, 0)}"), question(editor)
    press(editor, ENTER)
    compare(here, text)
    assert version(here) == before
    chord(editor, "z")
    question(editor)
    press(editor, TAB, ENTER)
    compare(here, "")
    chord(editor, "y")
    assert editor.says("notice").startswith("20,000 characters can't be put back."), editor.says("notice")
    compare(here, "")
    assert version(here) == size.changes


def try_few_changes(here, size):
    """The last changes but two: one character is removed unasked, the next one asks. Who says so isn't asked again for one. At the last
    change all is told."""
    editor = here.editors[0]
    text = in_lines(2560)
    add_text(here, text)
    leave_changes(here, size, 3, 10)
    compare(here, text)
    assert room(editor)[3] == 3 and "and 3 changes" in editor.says("room"), (room(editor), editor.says("room"))
    editor.do("select(2)")
    press(editor, BACK)
    compare(here, text[1:])
    assert not is_asked(editor)
    press(editor, DELETE)
    assert question(editor) == ("Remove 1 character?", f"Undo couldn't put all that you removed back: {takes(2, 1)}"), question(editor)
    editor.click("#waive")
    editor.click("#remove")
    compare(here, text[2:])
    press(editor, DELETE)
    compare(here, text[3:])
    assert not is_asked(editor) and room(editor)[3] == 0
    quiet(editor)
    press(editor, "f")
    assert editor.says("notice") == "This document is full: it takes no more changes.", editor.says("notice")
    replace_all(editor, DELETE)
    assert editor.says("notice") == "This document is full: it takes no more changes." and not is_asked(editor), editor.says("notice")
    compare(here, text[3:])
    assert version(here) == size.changes


# What is added.

def try_not_full(here, size):
    """A text of 40,000 characters and 4,200 changes, where that is no limit: nothing is said, and undo does what it did."""
    editor = here.editors[0]
    text = in_lines(40000)
    add_text(here, text)
    compare(here, text)
    assert editor.says("room") == editor.says("notice") == "", (editor.says("room"), editor.says("notice"))
    assert room(editor) == [size.characters - 40000, VISIBLE_BYTES - 40000, size.marks, size.changes - 157], room(editor)
    add_changes(here, 4200 - 157)
    editor.do("select(1)")
    press(editor, "x", "y")
    compare(here, "xy" + text)
    assert editor.says("room") == editor.says("trouble") == editor.says("notice") == ""
    # 2,021 of the 4,043 changes before have a character.
    assert room(editor)[0] == size.characters - 42023, room(editor)
    assert room(editor)[3] <= size.changes - 4201, room(editor)
    replace_all(editor, DELETE)
    compare(here, "")
    assert not is_asked(editor)
    chord(editor, "z")
    compare(here, "xy" + text)


def try_full_characters(here, size):
    """As many characters as there can be, removed ones counted."""
    editor = here.editors[0]
    waste(here, size.characters - 32)
    add_text(here, in_lines(25))
    here.compare()
    editor.do("select(1e9)")
    assert "Room for 7 characters" in editor.says("room"), editor.says("room")
    press(editor, *"vwx")
    compare(here, in_lines(25) + "vwx")
    editor.do("await paste('12345')")
    assert editor.says("notice") == "The text is full: it takes 4 more characters; removed ones count too.", editor.says("notice")
    press(editor, *"yz!?")
    compare(here, in_lines(25) + "vwxyz!?")
    quiet(editor)
    press(editor, "0")
    assert editor.says("notice") == "The text is full: it takes no more characters; removed ones count too.", editor.says("notice")
    compare(here, in_lines(25) + "vwxyz!?")


def try_full_bytes(here, size):
    """As many bytes as are visible at once: what is removed makes room for others, but not where they are as many characters as there
    can be (small)."""
    editor = here.editors[0]
    text = "\U0001f600" * (VISIBLE_BYTES // 4 - 1)
    add_text(here, text)
    here.compare()
    assert room(editor)[:2] == [size.characters - 32767, 4], room(editor)
    if size.name == "small":
        return
    editor.do("select(1e9)")
    press(editor, *"abc")
    compare(here, text + "abc")
    editor.do("await paste('\u00e9')")
    assert editor.says("notice") == "The text is full: it takes 1 more byte until something is removed.", editor.says("notice")
    press(editor, "d")
    compare(here, text + "abcd")
    quiet(editor)
    press(editor, "e")
    assert editor.says("notice") == "The text is full: it takes no more bytes until something is removed.", editor.says("notice")
    editor.do("select(1e9); const {to} = hubView.state.selection; select(to - 4, to)")
    press(editor, "f")
    compare(here, text + "f")
    chord(editor, "z")
    compare(here, text + "abcd")
    press(editor, BACK, BACK, BACK, BACK)
    editor.do("await paste('\U0001f601')")
    compare(here, text + "\U0001f601")
    assert room(editor)[1] == 0, room(editor)


def try_full_marks(here, size):
    editor = here.editors[0]
    add_text(here, "abc def")
    add_marks(here, size.marks - 1)
    here.compare()
    assert room(editor)[2] == 1, room(editor)
    editor.do("find('abc'); press('[data-command=strong]')")
    until(lambda: is_sent(editor), lambda: str(editor))
    assert [line.split(" ", 2)[2] for line in here.compare()] == ["strong abc", "plain  def"]
    editor.do("find('def'); press('[data-command=em]')")
    assert editor.says("notice") == "The text takes no more marks; it can still be typed.", editor.says("notice")
    press(editor, "x")
    compare(here, "abc x")


# A session's share.

def try_share(hub, editor, size):
    """A share of changes, or of bytes, that is used up is told, with what to do; what wasn't sent isn't lost, and a page that is loaded
    anew goes on."""
    for share in ("changes=3", "bytes=80"):
        with place(hub, [editor], "--size", size.name, "--per-session", share) as here:
            # A change of one key is `change 1 1`, `i 1@1 - 61` and line feeds: 22 to 24 bytes, so three are within 80, and a fourth isn't.
            for turn in range(3):
                press(editor, "abc"[turn])
                compare(here, "abc"[:turn + 1])
            press(editor, "d")
            until(lambda: editor.says("state") == "stopped", lambda: str(editor))
            said = editor.says("trouble")
            assert said.startswith("This page's share of changes is used up: reload the page to go on."), said
            assert kept(editor, 1) == ["d"], kept_now(editor)
            assert here.session.ask("latest")[1] == 3
            editor.enter(here.address, 2)
            assert kept(editor, 1) == ["d"] and editor.text() == "abc", (editor.text(), kept_now(editor))
            editor.click("#unsent button:last-of-type")
            editor.do("select(1e9)")
            press(editor, "e")
            compare(here, "abce")


def kept(editor, count):
    """The texts that the page shows as not sent, once they are so many."""
    until(lambda: editor.run("return unsent.isShown && unsent.records.length") == count, lambda: f"{kept_now(editor)} is shown")
    return kept_now(editor)


def kept_now(editor):
    return editor.run("return [...document.querySelectorAll('#unsent pre')].map(one => one.textContent)")


def subscribers(here):
    """How many are open, and how many there were."""
    return here.session.counts("subscribers", "subscribed")


def try_filters(hub, editor, size, program):
    """A share of filters is told; a page that connects anew subscribes each once, and one that is left has none."""
    with place(hub, [editor], "--size", size.name, "--per-session", "subscribers=1") as here:
        editor.keys("#program", program)
        until(lambda: editor.says("filters"), lambda: editor.says("notice"))
        assert subscribers(here) == [1, 1]
        editor.keys("#program", program)
        until(lambda: editor.says("notice"), "nothing is said")
        said = editor.says("notice")
        assert said == "This page's share of filters is used up: reload the page to add more.", said
        editor.do("cut()")
        until(lambda: subscribers(here) == [0, 1], lambda: f"{subscribers(here)} subscribers")
        editor.do("mend()")
        until(lambda: subscribers(here) == [1, 2], lambda: f"{subscribers(here)} subscribers")
        editor.enter(here.address, 1)
        until(lambda: subscribers(here) == [0, 2], lambda: f"{subscribers(here)} subscribers")
    with place(hub, [editor], "--size", size.name) as here:
        for _ in range(64 if size.name == "small" else 256):
            here.session.ask("sub 1 b7000000010000009500000000000000")
        editor.keys("#program", program)
        until(lambda: editor.says("notice"), "nothing is said")
        assert editor.says("notice") == "The hub takes no more filters.", editor.says("notice")


def try_all(hub, editor, program, pictures):
    alone = [try_redo, try_pasted, try_few_changes, try_full_characters, try_full_bytes, try_full_marks]
    for size in SIZES:
        with place(hub, [editor], "--size", size.name) as here:
            try_removal(here, size, pictures)
        print(f"try_removal, {size.name}: as expected", flush=True)
        for part in alone + ([try_not_full] if size.name == "large" else []):
            with place(hub, [editor], "--size", size.name) as here:
                part(here, size)
            print(f"{part.__name__}, {size.name}: as expected", flush=True)
        try_share(hub, editor, size)
        try_filters(hub, editor, size, program)
        print(f"try_share, try_filters, {size.name}: as expected", flush=True)
