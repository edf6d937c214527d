// An editor of a hub's text: a ProseMirror view with the plugin of ../js/prosemirror-hub.js, a toolbar, and what is
// told to the person.

import { EditorState, TextSelection } from "prosemirror-state";
import { EditorView } from "prosemirror-view";
import { Cannot, Hub, checkMark, many, noun, sessionsOf } from "../js/hub.js";
import { colorOf, hubPlugin, schema } from "../js/prosemirror-hub.js";
import { Unsent, countOf, textOfRecord } from "../js/unsent.js";

const the = name => document.getElementById(name);
const COMMAND_BUTTONS = document.querySelectorAll("button[data-command]");
const COLOR_BUTTONS = document.querySelectorAll("button[data-color]");
const TIME = { dateStyle: "medium", timeStyle: "short" };
const FILTERS = 6, ITEMS = 8, FEW_CHARACTERS = 2000, FEW_CHANGES = 200, TOLD = 8000;
const asked = Number(new URLSearchParams(location.search).get("node"));
const hub = new Hub(sessionsOf(location), { node: asked >= 1 && asked <= 65535 ? asked : null });
const unsent = new Unsent(hub);
let items = [];

// Commands: each answers whether it applies.

/** The marks of a kind that all of the selection has; at a caret, those that what is typed gets. */
function marksOver({ doc, selection: { from, to, empty, $from }, storedMarks }, type) {
  const kind = marks => marks.filter(mark => mark.type === type);
  if (empty) return kind(storedMarks ?? $from.marks());
  let common = null;
  doc.nodesBetween(from, to, node => {
    if (node.isText) common = kind(node.marks).filter(mark => common === null || mark.isInSet(common));
  });
  return common ?? [];
}

function toggle(name, attrs = {}) {
  const { state } = view, { from, to, empty } = state.selection, type = schema.marks[name], mark = type.create(attrs);
  const has = marksOver(state, type).some(other => other.eq(mark)), { tr } = state;
  if (empty) view.dispatch(has ? tr.removeStoredMark(type) : tr.addStoredMark(mark));
  else view.dispatch(has ? tr.removeMark(from, to, mark) : tr.addMark(from, to, mark));
  return true;
}

function setLink(href) {
  const { tr, selection: { from, to } } = view.state, { link } = schema.marks;
  checkMark("link", href || null);
  view.dispatch(href ? tr.addMark(from, to, link.create({ href })) : tr.removeMark(from, to, link));
}

/** The selection, or at a caret within a link all of that link. */
function selectLink() {
  const { state } = view, { empty, $from } = state.selection, { link } = schema.marks;
  if (!empty || !link.isInSet($from.marks())) return;
  const mark = link.isInSet($from.marks()), { parent } = $from, has = at => mark.isInSet(parent.child(at).marks);
  let first = $from.index(), end = first + 1, from = $from.start();
  while (first > 0 && has(first - 1)) first -= 1;
  while (end < parent.childCount && has(end)) end += 1;
  for (let at = 0; at < first; at += 1) from += parent.child(at).nodeSize;
  let to = from;
  for (let at = first; at < end; at += 1) to += parent.child(at).nodeSize;
  view.dispatch(state.tr.setSelection(TextSelection.create(state.doc, from, to)));
}

/** Comments have numbers alone; a new one gets the next. */
function comment() {
  const { state } = view, { from, to } = state.selection, here = marksOver(state, schema.marks.comment);
  if (here.length) return void view.dispatch(here.reduce((tr, mark) => tr.removeMark(from, to, mark), state.tr));
  const used = hub.replica.marks.filter(({ key }) => key.startsWith("comment:")).map(({ key }) => Number(key.slice(8)));
  const number = used.reduce((most, one) => one < 2 ** 32 - 1 ? Math.max(most, one) : most, 0) + 1;
  view.dispatch(state.tr.addMark(from, to, schema.mark("comment", { number: String(number) })));
}

function split() {
  const { state } = view, { tr } = state;
  tr.deleteSelection();
  view.dispatch(tr.split(tr.selection.from).setStoredMarks(state.storedMarks).scrollIntoView());
  return true;
}

/** Removes the selection, or joins this line with the one before or behind it; else the browser removes a character. */
function erase(isForward) {
  const { tr, doc, selection: { empty, $from } } = view.state;
  const isAtEnd = isForward ? $from.parentOffset === $from.parent.content.size : $from.parentOffset === 0;
  if (!empty) tr.deleteSelection();
  else if (!isAtEnd) return false;
  else if ($from.index(0) !== (isForward ? doc.childCount - 1 : 0)) tr.join(isForward ? $from.after() : $from.before());
  view.dispatch(tr.scrollIntoView());
  return true;
}

function attempt(act) {
  try {
    return act();
  } catch (why) {
    if (!(why instanceof Cannot)) throw why;
    tell(why.message);
    return true;
  }
}

const COMMANDS = {
  strong: () => toggle("strong"), em: () => toggle("em"), code: () => toggle("code"),
  underline: () => toggle("underline"), strike: () => toggle("strike"),
  link: askLink, comment, undo: () => hub.undo(), redo: () => hub.redo(),
};
const KEYS = {
  b: "strong", i: "em", e: "code", u: "underline", X: "strike", k: "link", y: "redo", z: "undo", Z: "redo",
};

function run(name) {
  attempt(COMMANDS[name]);
  if (the("ask").hidden) view.focus();
  showState();
}

function onKey(event) {
  const isShortcut = (event.ctrlKey || event.metaKey) && !event.altKey;
  if (isShortcut && KEYS[event.key]) {
    run(KEYS[event.key]);
    return true;
  }
  if (isShortcut || event.altKey) return false;
  return { Enter: split, Backspace: () => erase(false), Delete: () => erase(true) }[event.key]?.() ?? false;
}

// The view.

const view = new EditorView(the("text"), {
  state: EditorState.create({ schema, plugins: [hubPlugin(hub)] }),
  attributes: { role: "textbox", "aria-multiline": "true", "aria-label": "the text", spellcheck: "false" },
  handleKeyDown: (_, event) => attempt(() => onKey(event)),
  dispatchTransaction(transaction) {
    this.updateState(this.state.apply(transaction));
    showSelection();
  },
});

function isSet(name) { return marksOver(view.state, schema.marks[name]).length > 0; }

function showSelection() {
  if (!globalThis.hubView) return;
  const { empty } = view.state.selection;
  for (const button of COMMAND_BUTTONS) {
    const { command } = button.dataset;
    if (schema.marks[command]) button.setAttribute("aria-pressed", isSet(command));
    button.disabled = !hub.isEditable || empty && (command === "comment" || command === "link" && !isSet("link")) ||
      command === "undo" && !hub.done.length || command === "redo" && !hub.undone.length;
  }
  const [color] = marksOver(view.state, schema.marks.color);
  for (const button of COLOR_BUTTONS) {
    button.setAttribute("aria-pressed", color?.attrs.color === button.dataset.color);
    button.disabled = !hub.isEditable;
  }
}

/** What is told passes by itself, but for the state. */
let passing = null;
function tell(words) {
  the("notice").textContent = words;
  clearTimeout(passing);
  passing = setTimeout(() => { the("notice").textContent = ""; }, TOLD);
}

function showState() {
  const words = { connecting: hub.why || "connecting", connected: hub.waiting ? "sending" : "connected" };
  const troubles = { offline: `${hub.why} Type on: your changes are sent once it can be.`, stopped: hub.why };
  const { room: { characters, bytes, changes: all } } = hub, changes = Math.max(all - hub.changesFor(0), 0);
  document.body.dataset.state = hub.state;
  the("state").textContent = words[hub.state] ?? hub.state;
  the("node").textContent = hub.node === null ? "" : `node ${hub.node}, version ${hub.replica.version}`;
  the("node").style.color = hub.node === null ? "" : colorOf(hub.node);
  the("trouble").textContent = troubles[hub.state] ?? "";
  const isLittle = hub.isEditable && (Math.min(characters, bytes) < FEW_CHARACTERS || changes < FEW_CHANGES);
  const room = `${many(characters)} characters, ${many(bytes)} bytes of visible text and ${many(changes)} changes`;
  the("room").textContent = isLittle ? `Room for ${room}.` : "";
  showSelection();
}

// The question before what is removed can't be put back.

let question = null;

function askPerson(event) {
  event.preventDefault();
  question = event.detail;
  the("asked").textContent = question.title;
  the("why").textContent = question.why;
  the("waive").checked = false;
  if (!the("question").open) the("question").showModal();
}

function answer(isAccepted) {
  const asked = question;
  question = null;
  if (isAccepted && the("waive").checked) hub.waived = asked.removed;
  the("question").close();
  view.focus();
  if (isAccepted) attempt(asked.accept);
  showState();
}

hub.addEventListener("question", askPerson);
the("keep").addEventListener("click", () => answer(false));
the("remove").addEventListener("click", () => answer(true));
the("question").addEventListener("cancel", event => { event.preventDefault(); answer(false); });

// What was typed and isn't in the hub's text.

async function copyText(text, dom) {
  try {
    await navigator.clipboard.writeText(text);
    return true;
  } catch {
    // Pages that aren't of https or of this machine have no such clipboard.
    getSelection().selectAllChildren(dom);
    return document.execCommand("copy");
  }
}

function button(text, act) {
  const dom = Object.assign(document.createElement("button"), { type: "button", textContent: text });
  dom.addEventListener("click", () => act().catch(why => tell(why.message)));
  return dom;
}

function elementOfRecord(record) {
  const [dom, words, shown] = ["div", "p", "pre"].map(tag => document.createElement(tag));
  const text = textOfRecord(record), when = new Date(record.time).toLocaleString([], TIME);
  words.textContent = `What you typed and the hub doesn't have, ${noun(countOf(record), "character")}, ${when}:`;
  shown.textContent = text;
  const copy = button("Copy", async () => {
    if (!await copyText(text, shown)) throw new Cannot("This page may not copy: select the text and press Ctrl-C.");
    await unsent.forget(record);
    copy.textContent = "Copied";
  });
  words.append(copy, button("Discard", () => unsent.discard(record)));
  dom.append(words, shown);
  return dom;
}

unsent.addEventListener("records", () => the("unsent").replaceChildren(...unsent.records.map(elementOfRecord)));
unsent.addEventListener("failed", ({ detail }) => tell(`This browser doesn't keep what isn't sent: ${detail}`));

// The form for a link, and filters.

function askLink() {
  selectLink();
  if (view.state.selection.empty) return;
  const [link] = marksOver(view.state, schema.marks.link);
  the("ask").hidden = false;
  the("target").value = link?.attrs.href ?? "https://";
  the("target").focus();
  the("target").select();
}

function endLink(act) {
  attempt(act);
  the("ask").hidden = true;
  view.focus();
}

the("ask").addEventListener("submit", event => {
  event.preventDefault();
  endLink(() => setLink(the("target").value.trim()));
});
the("ask").addEventListener("keydown", event => { if (event.key === "Escape") endLink(() => {}); });
the("unlink").addEventListener("click", () => endLink(() => setLink("")));

async function subscribe(file) {
  const places = Array.from({ length: FILTERS }, (_, at) => at);
  const place = places.find(one => hub.filters.every(filter => filter.place !== one));
  if (place === undefined) throw new Cannot(`At most ${FILTERS} filters.`);
  const program = (await file.slice(0, 100000).text()).replace(/[ \t\r\n]/g, "");
  Object.assign(await hub.subscribe(file.name, program), { place });
  showFilters();
}

/** An element that looks as the hits of a filter do: each has its color and its kind of line. */
function lookOf(place, tag, text) {
  const dom = Object.assign(document.createElement(tag), { textContent: text });
  dom.dataset.place = place;
  return dom;
}

function showFilters() {
  the("filters").replaceChildren(...hub.filters.map(filter => {
    const dom = document.createElement("span"), close = document.createElement("button");
    Object.assign(close, { type: "button", ariaLabel: "close " + filter.name, textContent: "\u00d7" });
    close.addEventListener("click", () => hub.unsubscribe(filter).then(showFilters));
    dom.append(lookOf(filter.place, "b", filter.name), close);
    return dom;
  }));
  the("items").replaceChildren(...items.map(([place, item]) => lookOf(place, "div", item)));
}

the("program").addEventListener("change", () => {
  const [file] = the("program").files;
  if (file) subscribe(file).catch(why => tell(why.message));
  the("program").value = "";
});

for (const button of [...COMMAND_BUTTONS, ...COLOR_BUTTONS]) {
  button.addEventListener("mousedown", event => event.preventDefault());
  if (button.dataset.command) button.addEventListener("click", () => run(button.dataset.command));
  else {
    button.style.setProperty("--swatch", "#" + button.dataset.color);
    button.addEventListener("click", () => {
      attempt(() => toggle("color", { color: button.dataset.color }));
      view.focus();
    });
  }
}
hub.addEventListener("items", ({ detail: { filter, items: whole } }) => {
  items = [...items, ...whole.map(item => [filter.place, `${filter.name}: ${item}`])].slice(-ITEMS);
  showFilters();
});
hub.addEventListener("notice", ({ detail }) => tell(detail));
for (const type of ["state", "version", "text", "edited"]) hub.addEventListener(type, showState);
addEventListener("beforeunload", event => { if (hub.waiting && !unsent.isOver) event.preventDefault(); });
Object.assign(globalThis, { hub, hubView: view, unsent });
// Until then the text can't be edited, and so it can't have the focus.
hub.addEventListener("version", () => { if (document.activeElement === document.body) view.focus(); }, { once: true });
showState();
