// What the tests do in a page of examples/editor: the editing of a person, at random and by command, and what is shown.
"use strict";
window.trial = (() => {
  const view = hubView, TextSelection = view.state.selection.constructor;
  const soon = () => new Promise(resolve => setTimeout(resolve));
  const pause = time => new Promise(resolve => setTimeout(resolve, time));

  function random(seed) {
    return () => {
      seed = (seed + 0x6d2b79f5) | 0;
      let value = Math.imul(seed ^ (seed >>> 15), 1 | seed);
      value = (value + Math.imul(value ^ (value >>> 7), 61 | value)) ^ value;
      return ((value ^ (value >>> 14)) >>> 0) / 4294967296;
    };
  }

  /** Selects by positions of the document, none of them within a character of two units, where no browser has a caret. */
  function select(anchor, head = anchor) {
    const { doc } = view.state, most = doc.content.size;
    const at = position => {
      const found = doc.resolve(Math.min(Math.max(position, 0), most)), unit = found.nodeAfter?.text?.charCodeAt(0) ?? 0;
      return unit >> 10 === 0x37 ? doc.resolve(found.pos - 1) : found;
    };
    view.focus();
    view.dispatch(view.state.tr.setSelection(TextSelection.between(at(anchor), at(head))));
  }

  /** Selects a part of the text, which stands in it once. */
  function find(part, end = part.length) {
    let found = null;
    view.state.doc.descendants((node, start) => {
      const at = node.isTextblock ? node.textContent.indexOf(part) : -1;
      if (at >= 0) found = start + 1 + at;
    });
    if (found === null) throw new Error(`no ${part} in ${view.state.doc.textContent}`);
    select(found, found + end);
  }

  /** Whether the document's caret is where the browser has it. */
  function knowsCaret() {
    const { focusNode, focusOffset } = getSelection();
    return view.posAtDOM(focusNode, focusOffset) === view.state.selection.head;
  }

  /** Types as the browser does, into the document that it shows. Over several lines ProseMirror takes the key itself. */
  async function type(text) {
    const { $from, $to } = view.state.selection;
    if (!$from.sameParent($to)) await key("Backspace");
    document.execCommand("insertText", false, text);
    await soon();
  }

  async function key(name, more = {}) {
    const event = new KeyboardEvent("keydown", { key: name, bubbles: true, cancelable: true, ...more });
    if (view.dom.dispatchEvent(event) && name === "Backspace") document.execCommand("delete");
    else if (!event.defaultPrevented && name === "Delete") document.execCommand("forwardDelete");
    await soon();
  }

  async function paste(text, html = "") {
    const clipboardData = new DataTransfer();
    if (text) clipboardData.setData("text/plain", text);
    if (html) clipboardData.setData("text/html", html);
    view.dom.dispatchEvent(new ClipboardEvent("paste", { clipboardData, bubbles: true, cancelable: true }));
    await soon();
  }

  /** Drags the selection to a position that is seen on the screen: to move it, or a copy of it. */
  async function drop(position, move = true) {
    const dataTransfer = new DataTransfer(), { top, bottom, left } = view.coordsAtPos(position);
    const at = { clientX: left + 0.5, clientY: (top + bottom) / 2, ctrlKey: !move, bubbles: true, cancelable: true };
    if (top < 0 || bottom > innerHeight || view.state.selection.empty) return;
    view.dragging = { slice: view.state.selection.content(), move };
    view.dom.dispatchEvent(new DragEvent("drop", { ...at, dataTransfer }));
    view.dragging = null;
    await soon();
  }

  function copy() {
    const clipboardData = new DataTransfer();
    view.dom.dispatchEvent(new ClipboardEvent("copy", { clipboardData, bubbles: true, cancelable: true }));
    return [clipboardData.getData("text/plain"), clipboardData.getData("text/html")];
  }

  const press = selector => document.querySelector(`button${selector}`).click();

  function link(target) {
    press("[data-command=link]");
    document.getElementById("target").value = target;
    if (target) document.getElementById("ask").requestSubmit();
    else press("#unlink");
  }

  /** Answers the page's question, if there is one, by removing. */
  function accept() {
    if (document.getElementById("question").open) press("#remove");
  }

  /** A random edit; so great a share more of undo and redo. */
  async function edit(next, undoing) {
    if (undoing > 0 && next() < undoing) return key(next() < 0.65 ? "z" : "y", { ctrlKey: true });
    const pick = list => list[Math.floor(next() * list.length)], most = view.state.doc.content.size;
    const at = Math.floor(next() * (most + 1)), kind = next(), end = at + Math.floor(next() * 12) - 3;
    if (kind < 0.36) { select(at); await type(pick(["a", "be", "cat ", "\u00e9", "\u{1f600}", "the end. "])); }
    else if (kind < 0.42) { select(at, end); await type(pick(["X", "new "])); }
    else if (kind < 0.50) { select(at); await key(pick(["Backspace", "Delete"])); }
    else if (kind < 0.57) { select(at, end); await key("Backspace"); }
    else if (kind < 0.61) { select(at); await key("Enter"); }
    else if (kind < 0.78) { select(at, end); press(pick(["strong", "em", "code", "underline", "strike", "comment"].map(name => `[data-command=${name}]`))); }
    else if (kind < 0.82) { select(at, end); press(pick(["b42318", "0a55c4", "1a7f37"].map(name => `[data-color="${name}"]`))); }
    else if (kind < 0.85) { select(at, end); if (!view.state.selection.empty) link(pick(["https://a.b/", "https://c.d/e", ""])); }
    else if (kind < 0.88) { select(at); await paste("one\ntwo"); }
    else if (kind < 0.91) { select(at); await paste("", "<p>p <b>strong</b> <a href='https://a.b/'>link</a></p><p><i>em</i></p>"); }
    else if (kind < 0.925) { select(at, end); await drop(Math.floor(next() * (most + 1)), next() < 0.7); }
    else if (kind < 0.96) await key("z", { ctrlKey: true });
    else await key("y", { ctrlKey: true });
  }

  async function round(seed, count, rest, undoing = 0) {
    const next = random(seed), errors = [];
    const listen = event => errors.push(String((event.error ?? event.reason)?.stack ?? event.message));
    addEventListener("error", listen);
    addEventListener("unhandledrejection", listen);
    for (let at = 0; at < count; at += 1) {
      await edit(next, undoing);
      if (next() < 0.1) await pause(rest);
    }
    removeEventListener("error", listen);
    removeEventListener("unhandledrejection", listen);
    return errors;
  }

  // The page without its network: the connection is lost, maybe with a reply, and none can be opened.
  const { WebSocket } = window;
  class NoSocket {
    constructor() { setTimeout(() => this.onclose()); }
    close() {}
  }

  function cut() {
    window.WebSocket = NoSocket;
    hub.session.socket.close();
  }

  /** The page sends a change, but never hears that it was accepted. */
  function deafen() {
    const { session } = hub;
    window.WebSocket = NoSocket;
    session.hear = text => { if (!text.startsWith("ok version")) Object.getPrototypeOf(session).hear.call(session, text); };
  }

  function mend() { window.WebSocket = WebSocket; }

  const words = ({ type: { name }, attrs }) => name === "comment" ? `comment:${attrs.number}` :
    attrs.href ? `link=${attrs.href}` : attrs.color ? `color=${attrs.color}` : attrs.kind ? `block=${attrs.kind}` : name;

  /** What the document has that the replica hasn't, or the DOM that the document hasn't; "" where they are alike. */
  function unlike() {
    const items = [], { doc } = view.state;
    doc.forEach((paragraph, _, at) => {
      if (at > 0) items.push(["\n", null]);
      paragraph.forEach(({ text, marks }) => { for (const one of text) items.push([one, marks.map(words).sort().join()]); });
    });
    const visible = hub.replica.visible, seen = one => one.text === "\r" ? "\u240d" : one.text;
    if (visible.length !== items.length) return `${items.length} characters in the document, and ${visible.length}`;
    const wrong = visible.findIndex((one, at) => seen(one) !== items[at][0] || one.text !== "\n" && items[at][1] !==
      (one.format.words === "plain" ? "" : one.format.words.split(",").sort().join()));
    if (wrong >= 0) return `at ${wrong} ${items[wrong]} in the document, and ${visible[wrong].text} ${visible[wrong].format.words}`;
    const shown = [...view.dom.children].map(line => line.textContent).join("\n"), text = visible.map(seen).join("");
    return shown === text ? "" : `shown is ${JSON.stringify(shown)}`;
  }

  /** Notes the time of each key, in milliseconds from when it was pressed to the frame that shows it. */
  const times = [];
  function watch() {
    addEventListener("keydown", ({ timeStamp }) => requestAnimationFrame(() => {
      const { port1, port2 } = new MessageChannel();
      port1.onmessage = () => times.push(performance.now() - timeStamp);
      port2.postMessage(null);
    }), true);
  }

  return { accept, select, find, knowsCaret, type, key, paste, drop, copy, press, link, round, unlike, cut, deafen, mend, watch, times,
    pause };
})();
