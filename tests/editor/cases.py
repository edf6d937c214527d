"""Each thing that an editor does, by itself."""
import itertools
import re
import statistics
import tempfile

from browser import until
from editors import PEER, ROOT, place
from peer import changes_in

FILTERS = ROOT / "examples" / "filters"
CONTROL, NOTHING, ENTER, BACK, DELETE, LEFT, HOME, END = "\ue009", "\ue000", "\ue007", "\ue003", "\ue017", "\ue012", "\ue011", "\ue010"
KEYBOARD, KEYS, OTHER = ".ProseMirror", 200, 8
CHARACTERS, MARKS, CHANGES = 32768, 4096, 4096


def spans(here):
    """The spans that all show."""
    return [line.split(" ", 2)[2] for line in here.compare()]


def clear(here, text):
    """Another text in place of the one that is there."""
    editor = here.editors[0]
    editor.do("select(0, 1e9); await key('Backspace'); accept(); await paste(arguments[0])", text)
    here.compare()
    editor.run("hub.done = []; hub.undone = []")


def press(editor, *keys):
    editor.keys(KEYBOARD, CONTROL + "".join(keys) + NOTHING)


def step(editor, *keys):
    """Presses keys one by one: the page hears of a caret that moved only afterwards."""
    for one in keys:
        editor.keys(KEYBOARD, one)
        until(lambda: editor.do("return knowsCaret()"), "the page doesn't hear of the caret")


def pictures():
    """The examples of docs/PERITEXT.md: changes, and the spans that they print."""
    changes, printed = [], None
    for line in [*(ROOT / "docs" / "PERITEXT.md").read_text(encoding="utf-8").splitlines(), ""]:
        if printed is not None and not line.startswith(" " * 13):
            yield changes, printed
            changes, printed = [], None
        if re.match("    (change[23]?|[imudrv]) [0-9]", line):
            changes.append(line.strip())
        elif line.startswith("    prints"):
            printed = [] if "nothing" in line else [line[13:]]
        elif printed is not None:
            printed.append(line[13:])


def try_pictures(hub, editor):
    """What the editor and the peer show of each example, change by change, is what is printed there."""
    examples = list(pictures())
    for changes, printed in examples:
        with place(hub, [editor]) as here:
            for change in changes_in(changes):
                here.session.ask(*change)
            assert here.compare() == [f"span {line}" for line in printed], (changes, printed)
    assert examples
    print(f"{len(examples)} examples of docs/PERITEXT.md: as printed", flush=True)


def try_ends(here):
    """What is typed at the end of strong, em, code, a line and a color has it, of a link and a comment it hasn't; before them never."""
    editor = here.editors[0]
    for name, format, grows in [("strong", "strong", True), ("em", "em", True), ("code", "code", True), ("color", "color=b42318", True),
                                ("underline", "underline", True), ("strike", "strike", True), ("link", "link=https://a.b/", False), ("comment", None, False)]:
        clear(here, "zabc")
        editor.do("find('ab')")
        if name == "link":
            editor.do("link('https://a.b/')")
        else:
            editor.do("press(arguments[0])", "[data-color='b42318']" if name == "color" else f"[data-command={name}]")
        found = [line.split(" ")[0] for line in spans(here)][1]
        format = format or found
        editor.do("find('zabc', 3); select(hubView.state.selection.to)")
        editor.keys(KEYBOARD, "x")
        editor.do("find('z'); select(hubView.state.selection.to)")
        editor.keys(KEYBOARD, "y")
        want = ["plain zy", f"{format} abx", "plain c"] if grows else ["plain zy", f"{format} ab", "plain xc"]
        assert spans(here) == want, (spans(here), want)
    clear(here, "zabc")
    editor.do("find('ab'); link('https://a.b/'); find('abc', 2); select(hubView.state.selection.to)")
    editor.keys(KEYBOARD, BACK + "x")
    assert spans(here) == ["plain z", "link=https://a.b/ a", "plain xc"], spans(here)
    editor.do("find('a', 0); find('zaxc', 2); link('')")
    assert spans(here) == ["plain zaxc"], spans(here)
    clear(here, "zabc")
    editor.do("find('abc'); link('https://a.b/'); find('zabc', 1); select(hubView.state.selection.to + 1); link('https://c.d/')")
    assert spans(here) == ["plain z", "link=https://c.d/ abc"], spans(here)


def try_typing(here):
    """Marks that are turned on and off between keys; lines that are split and joined; a word that is typed over."""
    editor = here.editors[0]
    clear(here, "")
    editor.keys(KEYBOARD, "a")
    press(editor, "b")
    editor.keys(KEYBOARD, "bc")
    press(editor, "b")
    press(editor, "i")
    editor.keys(KEYBOARD, "de")
    assert spans(here) == ["plain a", "strong bc", "em de"], spans(here)
    step(editor, LEFT, LEFT, ENTER)
    assert spans(here) == ["plain a", "strong bc\\n", "em de"], spans(here)
    editor.keys(KEYBOARD, BACK)
    assert spans(here) == ["plain a", "strong bc", "em de"], spans(here)
    step(editor, ENTER, LEFT, DELETE)
    assert spans(here) == ["plain a", "strong bc", "em de"], spans(here)
    editor.do("find('bc')")
    editor.keys(KEYBOARD, "x")
    assert spans(here) == ["plain a", "strong x", "em de"], spans(here)
    changes, _ = here.session.ask("changes 0 64")
    removed = [line.split(" ")[2] for line in changes if line.startswith("d ")]
    assert len(removed) == len(set(removed)), "a character is removed twice"


def try_kinds(here):
    """What is typed or pasted in a line has the line's kind, which the page neither gives nor takes away."""
    editor = here.editors[0]
    clear(here, "ab\ncd")
    here.peer.follow()
    here.peer.mark(0, 3, "block", "heading:1")
    here.peer.mark(3, 5, "block", "quote")
    here.compare()
    editor.do("find('ab', 0)")
    editor.keys(KEYBOARD, "x")
    editor.do("find('xab'); select(hubView.state.selection.to)")
    editor.keys(KEYBOARD, "y")
    editor.do("find('cd'); select(hubView.state.selection.to); await paste('', '<p><b>z</b></p>')")
    assert spans(here) == ["block=heading:1 xaby\\n", "block=quote cd", "strong,block=quote z"], spans(here)
    editor.do("find('xaby'); press('[data-command=underline]'); find('ab'); press('[data-command=strike]')")
    want = ["underline,block=heading:1 x", "underline,strike,block=heading:1 ab", "underline,block=heading:1 y", "block=heading:1 \\n"]
    assert spans(here)[:4] == want, spans(here)
    here.peer.follow()
    for key in ("block", "underline", "strike"):
        here.peer.unmark(0, 8, key)
    assert spans(here) == ["plain xaby\\ncd", "strong z"], spans(here)


def try_undo(here):
    """Undo and redo take back and do again what this page did, and no other."""
    one, two = here.editors[:2]
    clear(here, "base")
    one.do("find('base', 0)")
    one.keys(KEYBOARD, "one ")
    here.compare()
    two.do("find('base', 0)")
    two.keys(KEYBOARD, "two ")
    assert spans(here) == ["plain one two base"], spans(here)
    press(one, "z")
    assert spans(here) == ["plain two base"], spans(here)
    press(one, "y")
    assert spans(here) == ["plain one two base"], spans(here)
    one.do("find('two base'); press('[data-command=strong]')")
    here.compare()
    two.do("find('base'); press('[data-command=strong]')")
    assert spans(here) == ["plain one ", "strong two ", "plain base"], spans(here)
    one.do("find('two'); await key('Backspace')")
    assert spans(here) == ["plain one ", "strong  ", "plain base"], spans(here)
    press(one, "z")
    assert spans(here) == ["plain one ", "strong two ", "plain base"], spans(here)
    press(one, "z")
    assert spans(here) == ["plain one two base"], spans(here)
    press(two, "z")
    assert spans(here) == ["plain one two ", "strong base"], spans(here)
    press(one, "z")
    press(one, "z")
    assert spans(here) == ["plain two ", "strong base"], spans(here)


def selected(editor):
    return editor.run("const {doc, selection: {from, to}} = hubView.state; return doc.textBetween(from, to, '\\n')")


def try_selection(here):
    """What others type at a selection's ends stays out of it, and behind a caret; what they remove or mark leaves it where it is."""
    editor, peer = here.editors[0], here.peer
    clear(here, "one two three")
    editor.do("find('two')")
    for first, text in [(4, "x"), (8, "y"), (0, "\n"), (16, "z")]:
        peer.follow()
        peer.insert(first, text)
        here.compare()
        assert selected(editor) == "two" and editor.run("return getSelection().toString()") == "two", selected(editor)
    peer.mark(0, 17, "strong")
    peer.remove(6, 7)
    here.compare()
    assert selected(editor) == "wo", selected(editor)
    editor.keys(KEYBOARD, "T")
    assert spans(here) == ["strong \\none xTy threez"], spans(here)
    peer.follow()
    peer.insert(7, "a")
    here.compare()
    editor.keys(KEYBOARD, "b")
    assert spans(here) == ["strong \\none xTbay threez"], spans(here)


def compose(editor, *texts):
    """What a person composes, step by step, and isn't done with."""
    for text in texts:
        editor.protocol("Input.imeSetComposition", text=text, selectionStart=len(text), selectionEnd=len(text))


def take_all(here, editor):
    _, latest = here.session.ask("latest")
    until(lambda: editor.run("return hub.replica.version") == latest, lambda: f"the page doesn't take what others type: {editor}")


def try_composition(here):
    """A word that is composed is one edit; others' edits wait until it is done."""
    editor = here.editors[0]
    clear(here, "ab")
    _, before = here.session.ask("latest")
    editor.do("find('ab', 1); select(hubView.state.selection.to)")
    for text in ["n", "\u306b", "\u306bh", "\u306b\u307b"]:
        compose(editor, text)
        here.peer.follow()
        here.peer.insert(0, "x")
        take_all(here, editor)
        assert editor.run("return hubView.dom.textContent") == f"a{text}b"
    editor.protocol("Input.insertText", text="\u65e5\u672c")
    until(lambda: editor.text() == "xxxxa\u65e5\u672cb", editor.text)
    assert spans(here) == ["plain xxxxa\u65e5\u672cb"], spans(here)
    assert here.session.ask("latest")[1] == before + 5, "what was composed is more than one change"


def try_composition_among_others(here):
    """Where a word is composed others remove what stands before it, mark and split the line; one that is given up is no change; one that is
    composed over a selection, or with a mark that was turned on, is as a typed one."""
    one, two = here.editors[:2]
    clear(here, "one two three")
    one.do("find('two', 3); select(hubView.state.selection.to)")
    compose(one, "x", "xy")
    here.peer.follow()
    here.peer.mark(0, 4, "strong")
    here.peer.remove(4, 7)
    two.do("find('three', 0)")
    two.keys(KEYBOARD, ENTER)
    take_all(here, one)
    compose(one, "xyz")
    one.protocol("Input.insertText", text="XYZ")
    until(lambda: "XYZ" in one.text(), one.text)
    assert spans(here) == ["strong one ", "plain XYZ \\nthree"], spans(here)
    _, before = here.session.ask("latest")
    compose(one, "q", "qr", "")
    one.do("await pause(500)")
    assert spans(here) == ["strong one ", "plain XYZ \\nthree"] and here.session.ask("latest")[1] == before, spans(here)
    one.do("find('XYZ')")
    compose(one, "n", "\u306b")
    one.protocol("Input.insertText", text="\u4e8c")
    until(lambda: "\u4e8c" in one.text(), one.text)
    one.do("press('[data-command=em]')")
    compose(one, "k")
    one.protocol("Input.insertText", text="\u6728")
    until(lambda: "\u6728" in one.text(), one.text)
    assert spans(here) == ["strong one ", "plain \u4e8c", "em \u6728", "plain  \\nthree"], spans(here)
    press(one, "z")
    press(one, "z")
    assert spans(here) == ["strong one ", "plain XYZ \\nthree"], spans(here)


def try_composition_lost(here):
    """Where a browser loses what is composed, since the document is changed there, what is typed next is sent, and others' is shown."""
    editor = here.editors[0]
    for change, typed, left in [("tr.insertText('ZZ', 2, 9)", "q", "oZZq three"), ("tr.split(4)", ENTER, "one\n tN\nwo three")]:
        clear(here, "one two three")
        editor.do("select(6)")
        compose(editor, "n", "N")
        editor.run(f"const {{tr}} = hubView.state; hubView.dispatch({change})")
        editor.protocol("Input.insertText", text="")
        here.peer.follow()
        here.peer.insert(13, "!")
        editor.keys(KEYBOARD, typed)
        here.compare()
        assert editor.text() == left + "!", editor.text()
        clear(here, "one")
        editor.do("select(4)")
        compose(editor, "n", "N")
        editor.run("hubView.dom.firstChild.replaceWith(hubView.dom.firstChild.cloneNode(true))")
        here.peer.follow()
        here.peer.insert(0, "?")
        here.compare()
        assert editor.text() == "?oneN", editor.text()


def try_clipboard(here):
    """Rich text that is copied, pasted and dragged; markup of others that the text can't have."""
    editor = here.editors[0]
    clear(here, "one two")
    editor.do("find('two'); press('[data-command=strong]')")
    _, before = here.session.ask("latest")
    text, html = editor.do("find('one two'); return copy()")
    assert text == "one two" and "<strong>two</strong>" in html, (text, html)
    editor.do("select(1e9); await key('Enter'); await paste(...arguments)", text, html)
    here.compare()
    changes, _ = here.session.ask(f"changes {here.session.ask('latest')[1] - 1} 1")
    assert any(line.startswith("r ") for line in changes), changes
    assert spans(here) == ["plain one ", "strong two\\n", "plain one ", "strong two"] or \
        spans(here) == ["plain one ", "strong two", "plain \\none ", "strong two"], spans(here)
    clear(here, "")
    editor.do("await paste('', arguments[0])", "<h1>Head</h1><script>1</script><p onclick=x>a <b>b</b> <a href='javascript:x'>c</a>"
              "<a href='bad link'>d</a></p><table><tr><td>e<td><i>f</i></table><img src=x>")
    found = spans(here)
    assert "strong b" in found and "link=javascript:x c" in found and "em f" in found, found
    assert editor.run("return document.querySelectorAll('.ProseMirror script, .ProseMirror [onclick], .ProseMirror a[href], "
                      ".ProseMirror img:not(.ProseMirror-separator)').length") == 0
    clear(here, "abc def")
    editor.do("find('abc'); await drop(8)")
    assert spans(here) == ["plain  defabc"], spans(here)
    editor.do("find('def'); press('[data-command=strong]'); find('def'); await drop(1, false)")
    assert spans(here) == ["strong def", "plain  ", "strong def", "plain abc"], spans(here)
    press(editor, "z")
    assert spans(here) == ["plain  ", "strong def", "plain abc"], spans(here)
    assert here.session.ask("latest")[1] > before


def try_characters(here):
    """Characters that a page could take for something else, and half of one."""
    editor = here.editors[0]
    clear(here, "\U0001f600\U0001f601")
    here.peer.follow()
    here.peer.insert(1, "<img src=x>&lt;\r\n\u2028\u202e\t  \\n")
    here.compare()
    editor.do("select(1e9)")
    editor.keys(KEYBOARD, "end")
    assert spans(here) == ["plain \U0001f600<img src=x>&lt;\r\\n\u2028\u202e\t  \\\\n\U0001f601end"], spans(here)
    editor.run("const {state} = hubView, type = state.schema.marks.strong; hubView.dispatch(state.tr.addMark(2, 5, type.create()))")
    assert spans(here)[1].startswith("strong <i"), spans(here)
    editor.run("hubView.dispatch(hubView.state.tr.insertText('x', 2))")
    assert "\ufffd" in spans(here)[0], spans(here)


def shown(editor, selector, of):
    return editor.run(f"return [...document.querySelectorAll(arguments[0])].map(one => {of})", selector)


def subscribe(editor, name):
    editor.keys("#program", str(FILTERS / name))
    until(lambda: name in editor.says("filters"), lambda: editor.says("notice"))


def try_hits(here):
    """What two filters hit is told by each, also where both hit the same: by a kind of line, beside the color, and by a name."""
    editor = here.editors[0]
    clear(here, "Who comes? All.")
    editor.do("find('Who comes?'); press('[data-command=strong]')")
    here.compare()
    subscribe(editor, "question.hex")
    subscribe(editor, "strong.hex")
    until(lambda: len(shown(editor, ".hit", "one.title")) == 2, lambda: editor.says("items"))
    assert sorted(shown(editor, ".hit", "[one.title, one.textContent]")) == \
        [["question.hex", "Who comes?"], ["strong.hex", "Who comes?"]]
    lines = "getComputedStyle(one).textDecorationStyle + getComputedStyle(one).textUnderlineOffset"
    names = dict(shown(editor, "#filters b", f"[one.textContent, {lines}]"))
    assert dict(shown(editor, ".hit", f"[one.title, {lines}]")) == names and len(set(names.values())) == 2, names
    editor.do("find('comes?', 6); select(hubView.state.selection.to)")
    editor.keys(KEYBOARD, BACK + "!")
    here.compare()
    until(lambda: shown(editor, ".hit", "one.title") == ["strong.hex"], lambda: editor.says("items"))
    for left in (1, 0):
        editor.click("#filters button")
        until(lambda: len(shown(editor, "#filters button", "1")) == left, lambda: editor.says("filters"))
    assert shown(editor, ".hit", "one.title") == [] and editor.says("filters") == ""


def try_away(here):
    """A hub that can't be reached for a while; a session that makes changes in an editor's name; a filter goes on."""
    editor = here.editors[0]
    clear(here, "Who comes? ")
    subscribe(editor, "question.hex")
    editor.do("cut()")
    until(lambda: editor.says("state") == "offline", lambda: editor.says("state"))
    editor.do("select(1e9)")
    editor.keys(KEYBOARD, "I do.")
    here.peer.follow()
    here.peer.insert(0, "Ann? ")
    _, mine = here.session.ask("newest 1")
    here.session.ask("change 1 1", f"i {mine + 3}@1 - 2a")
    assert "Type on" in editor.says("trouble")
    may_go = "return dispatchEvent(new Event('beforeunload', {cancelable: true}))"
    assert editor.run(may_go) is False, "a page that is left loses what isn't sent, and doesn't ask"
    editor.do("mend()")
    assert spans(here) == ["plain *Ann? Who comes? I do."], spans(here)
    assert editor.run("return hub.node") != 1 and editor.run(may_go) is True
    editor.keys(KEYBOARD, "?")
    here.compare()
    until(lambda: "".join(shown(editor, ".hit", "one.textContent")) == "*Ann? Who comes? I do.?", "other spans are shown as hit")
    assert f"node {PEER}" in shown(editor, ".peer", "one.dataset.node")
    editor.click("#filters button")


def add_marks(here, count):
    """So many mark operations that cover nothing, by another session."""
    _, counter = here.session.ask(f"newest {OTHER}")
    for first in range(0, count, 256):
        lines = [f"u {counter + at}@{OTHER} em ^ ^" for at in range(1, 1 + min(256, count - first))]
        counter += len(lines)
        here.session.ask(f"change {OTHER} {len(lines)}", *lines)


def add_characters(here, count, code="61"):
    """So many characters at the text's start, by another session."""
    _, counter = here.session.ask(f"newest {OTHER}")
    for first in range(0, count, 256):
        size = min(256, count - first)
        form = f"r {counter + 1}@{OTHER} - {size}" if size > 1 else f"i {counter + 1}@{OTHER} -"
        here.session.ask(f"change2 {OTHER} 1", " ".join([form, *[code] * size]))
        counter += size


def add_changes(here, count):
    _, counter = here.session.ask(f"newest {OTHER}")
    for at in range(1, 1 + count):
        here.session.ask(f"change {OTHER} 1", f"u {counter + at}@{OTHER} em ^ ^")


def try_full_marks(here):
    """Marks that the hub takes no more of are told, also those made while it was away, and nothing that was typed is lost."""
    editor = here.editors[0]
    clear(here, "abc")
    add_marks(here, MARKS - 1 - editor.run("return hub.replica.marks.length"))
    here.compare()
    editor.do("cut(); find('abc'); press('[data-command=strong]')")
    editor.do("select(1e9)")
    editor.keys(KEYBOARD, "d")
    assert "strong" in editor.lines()[0]
    add_marks(here, 1)
    editor.do("mend()")
    until(lambda: "no more marks" in editor.says("notice"), lambda: f"{editor} {editor.says('notice')}")
    assert spans(here) == ["plain abcd"], spans(here)
    editor.run("document.getElementById('notice').textContent = ''")
    editor.do("find('abc'); press('[data-command=em]')")
    assert "no more marks" in editor.says("notice") and spans(here) == ["plain abcd"], editor.says("notice")


def try_full_characters(here):
    """The same of characters: of what is typed, pasted, and typed while the hub was away."""
    editor, other = here.editors[:2]
    clear(here, "abc")
    add_characters(here, CHARACTERS - 4 - editor.run("return hub.replica.characters.size"))
    here.compare()
    assert "Room for 4 characters" in editor.says("room"), editor.says("room")
    editor.do("select(1e9); await paste('12345')")
    assert "The text is full" in editor.says("notice"), editor.says("notice")
    editor.run("document.getElementById('notice').textContent = ''")
    editor.keys(KEYBOARD, "xyz")
    here.compare()
    other.do("cut(); select(1e9)")
    other.keys(KEYBOARD, "!")
    editor.keys(KEYBOARD, "vw")
    until(lambda: "The text is full" in editor.says("notice"), lambda: editor.says("notice"))
    until(lambda: editor.run("return hub.waiting") == 0, lambda: str(editor))
    other.do("mend()")
    until(lambda: "The text is full" in other.says("trouble"), lambda: f"{other} {other.says('trouble')}")
    assert "isn't in the hub's text" in other.says("trouble") and other.text().endswith("abcxyz!v"), other.text()[-9:]
    assert other.run("return document.querySelector('#unsent pre').textContent") == "!", "what wasn't sent isn't shown"
    other.run("document.querySelector('#unsent button:last-of-type').click()")
    here.editors = [editor]
    here.compare()
    assert editor.text().endswith("abcxyzv")
    editor.do("find('xyzv', 0)")
    editor.keys(KEYBOARD, BACK)
    here.compare()
    assert editor.text().endswith("abxyzv")
    press(editor, "z")
    here.compare()
    assert editor.text().endswith("abcxyzv")


def try_greatest(hub, editor):
    """A text of 32,768 characters of four bytes each."""
    with place(hub, [editor]) as here:
        add_characters(here, CHARACTERS, "1f600")
        here.compare()
        assert editor.run("return new TextEncoder().encode(hub.replica.text).length") == 131072
        for at in ("1e9", "20001"):
            editor.do(f"select({at}); await key('Backspace'); accept()")
        here.compare()
        assert editor.run("return new TextEncoder().encode(hub.replica.text).length") == 131064


def try_full_changes(here):
    """The same of changes, some of them of others while an editor types."""
    editor, other = here.editors
    clear(here, "")
    add_changes(here, CHANGES - 1 - here.session.ask("latest")[1])
    here.compare()
    other.do("cut()")
    other.keys(KEYBOARD, "c")
    editor.keys(KEYBOARD, "a")
    until(lambda: editor.run("return hub.waiting") == 0, lambda: str(editor))
    editor.keys(KEYBOARD, "b")
    until(lambda: "no more changes" in editor.says("notice"), lambda: editor.says("notice"))
    other.do("mend()")
    until(lambda: "no more changes" in other.says("trouble"), lambda: f"{other} {other.says('trouble')}")
    assert sorted(other.text()) == ["a", "c"], other.text()
    other.run("document.querySelector('#unsent button:last-of-type').click()")
    here.editors = [editor]
    assert spans(here) == ["plain a"], spans(here)


def try_anew(hub, editor):
    """A hub that was started anew is told, and the text can still be read and copied."""
    with place(hub, [editor]) as here:
        clear(here, "abc")
        web = here.web
    until(lambda: editor.says("state") == "offline", lambda: str(editor))
    with place(hub, [], web=web):
        until(lambda: "started anew" in editor.says("trouble"), lambda: f"{editor} {editor.says('trouble')}")
    assert editor.text() == "abc" and editor.run("return hubView.editable") is False


def try_kept(hub, editors):
    """A hub that keeps its changes is ended and started again: what was typed meanwhile, and what it may not have answered, is there once."""
    with tempfile.TemporaryDirectory() as folder, place(hub, editors[:2], "--store", f"{folder}/changes") as here:
        one, two = here.editors
        clear(here, "ab")
        for at, editor in enumerate([one, two]):
            editor.do("select(arguments[0])", 2 + at)
        for turn in range(5):
            one.keys(KEYBOARD, f"1{turn}")
            two.keys(KEYBOARD, f"2{turn}")
            here.kill()
            one.keys(KEYBOARD, "x")
            here.begin()
            here.compare()
        assert one.text() == "a10x11x12x13x14xb2021222324", one.text()
    print("try_kept: as expected", flush=True)


def take_pictures(here, folder):
    """The editor at two widths, with what another editor typed and a filter."""
    one, two = here.editors[:2]
    clear(here, "")
    one.do("await paste('', arguments[0])", """<p><b>Lunch at 12?</b> See <a href="https://example.org/menu">the menu</a>, or ask <code>hub spans</code>.</p>
        <p>Who comes? <i>All of us</i>, it seems.</p>
        <p>The room is <span data-color="b42318">upstairs</span>, behind the <span data-color="1a7f37">garden</span>. How do we get there?</p>""")
    one.do("find('Who comes', 3); press('[data-command=comment]'); find('menu', 0)")
    subscribe(one, "question.hex")
    subscribe(one, "strong.hex")
    here.compare()
    two.do("find('seems', 0)")
    two.keys(KEYBOARD, "really ")
    here.compare()
    until(lambda: len(shown(one, ".hit", "one.title")) >= 3 and len(shown(one, ".peer", "one.dataset.node")) == 1, "no hit")
    for width, height in [(1200, 600), (400, 760)]:
        one.protocol("Emulation.setDeviceMetricsOverride", width=width, height=height, deviceScaleFactor=1, mobile=width < 1000)
        one.do("await pause(300)")
        wide = one.run("return document.documentElement.scrollWidth")
        assert wide <= width, f"the page is {wide} wide on a screen of {width}"
        one.take_picture(folder / f"editor-{width}.png")
    one.protocol("Emulation.clearDeviceMetricsOverride")


def try_all(hub, editors, pictures):
    parts = [try_ends, try_typing, try_kinds, try_selection, try_undo, try_composition, try_composition_among_others, try_composition_lost,
             try_clipboard, try_characters, try_hits, try_away]
    with place(hub, editors[:2]) as here:
        for part in parts:
            part(here)
            print(f"{part.__name__}: as expected", flush=True)
    for part in (try_full_marks, try_full_characters, try_full_changes):
        with place(hub, editors[:2]) as here:
            part(here)
            print(f"{part.__name__}: as expected", flush=True)
    try_greatest(hub, editors[0])
    try_anew(hub, editors[0])
    print("try_greatest, try_anew: as expected", flush=True)
    try_pictures(hub, editors[0])
    if pictures:
        with place(hub, editors[:2]) as here:
            take_pictures(here, pictures)


# Speed.

LINES = ["The hub sends each version to its subscribers, span by span. ", "What two people type at one place stays together. ",
         "A mark that ends before the next character grows. ", "Each filter ends within as many steps as it has slots. "]


def fill(here, characters, marks):
    """A text of so many characters, in lines of some hundred, with so many marks on its words."""
    counter, parent, text = 0, "-", ""
    sentences = itertools.cycle(LINES)
    while len(text) < characters:
        text += next(sentences) if len(text) % 7 else next(sentences)[:-1] + "\n"
    text = text[:characters]
    for first in range(0, characters, 256):
        codes = [f"{ord(one):x}" for one in text[first:first + 256]]
        here.session.ask("change2 8 1", f"r {counter + 1}@8 {parent} {len(codes)} {' '.join(codes)}")
        counter += len(codes)
        parent = f"{counter}@8"
    keys = itertools.cycle(["strong -", "em -", "code -", "link https://example.org/", "color 0a55c4", "comment:3 -"])
    for first in range(0, marks, 250):
        lines = []
        for at in range(first, min(first + 250, marks)):
            start = 1 + at * (characters // marks)
            lines.append(f"m {counter + 1 + len(lines)}@8 {next(keys)} <{start}@8 <{start + 9}@8")
        here.session.ask(f"change2 8 {len(lines)}", *lines)
        counter += len(lines)


def tap(editor, key):
    """Presses a key by Chromium's protocol: the driver would first look for the element, in the time that is measured."""
    for kind in ("keyDown", "keyUp"):
        editor.protocol("Input.dispatchKeyEvent", type=kind, key=key, text=key if kind == "keyDown" else "")


def measure(hub, editor):
    """Prints the time from a key to the screen in a text of 32,768 characters with 1,000 marks."""
    with place(hub, [editor]) as here:
        fill(here, 32768 - KEYS, 1000)
        here.compare()
        editor.do("select(16000); watch()")
        for _ in range(KEYS):
            tap(editor, "x")
        here.compare()
        until(lambda: editor.do("return times.length") == KEYS, "a key isn't shown")
        times = sorted(editor.do("return times"))
        size = editor.run("return [hub.replica.characters.size, hub.replica.marks.length]")
        print(f"a key to the screen, {size[0]} characters, {size[1]} marks: median {statistics.median(times):.1f} ms, "
              f"99 of 100 within {times[len(times) * 99 // 100 - 1]:.1f} ms", flush=True)
