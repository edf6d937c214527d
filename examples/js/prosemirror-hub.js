// A ProseMirror document that is a hub's text: a paragraph for each line; strong, em, code, underline, strike, links,
// colors, comments and the kinds of lines are marks. What is edited in the view becomes changes of the hub, and what
// others change becomes transactions, which keep the selection. Undo is the hub's (hub.js): it takes back this page's own
// changes alone.

import { Fragment, Mark, Schema, Slice } from "prosemirror-model";
import { Plugin, PluginKey, TextSelection } from "prosemirror-state";
import { AddMarkStep, RemoveMarkStep, ReplaceStep } from "prosemirror-transform";
import { Decoration, DecorationSet } from "prosemirror-view";
import { Cannot, KEYS, bytesOf, formatOf } from "./hub.js";
import { inGroups } from "./removals.js";

const [LINK, COLOR, KIND] = ["link", "color", "block"].map(key => KEYS.get(key).value), COMMENT = /^[1-9][0-9]{0,9}$/;
const COMPOSED = 60, QUIET = 5000, HERE = 60000;

/** Only http and https are followed. */
function address(link) {
  try {
    const url = new URL(link);
    return ["http:", "https:"].includes(url.protocol) ? url.href : null;
  } catch { return null; }
}

/** An element with data, for a mark that HTML has no tag for. A page's policy may forbid markup with a style. */
function element(tag, data, style = {}, title = "") {
  const dom = document.createElement(tag);
  Object.assign(dom.dataset, data);
  Object.assign(dom.style, style);
  if (title) dom.title = title;
  return dom;
}

function linkElement({ attrs: { href } }) {
  const dom = element("a", { href }, {}, href);
  if (address(href)) Object.assign(dom, { href: address(href), target: "_blank", rel: "noopener noreferrer" });
  return dom;
}

const given = (form, name, of) => dom => form.test(of(dom) ?? "") && { [name]: of(dom) };

export const schema = new Schema({
  nodes: {
    doc: { content: "paragraph+" },
    paragraph: { content: "text*", parseDOM: [{ tag: "p" }, { tag: "div" }], toDOM: () => ["p", 0] },
    text: {},
  },
  marks: {
    link: {
      attrs: { href: {} }, inclusive: false, toDOM: linkElement,
      parseDOM: [{ tag: "a", getAttrs: given(LINK, "href", dom => dom.dataset.href ?? dom.getAttribute("href")) }],
    },
    comment: {
      attrs: { number: {} }, inclusive: false, excludes: "",
      parseDOM: [{ tag: "span[data-comment]", getAttrs: given(COMMENT, "number", dom => dom.dataset.comment) }],
      toDOM: ({ attrs: { number } }) => element("span", { comment: number }, {}, `comment ${number}`),
    },
    color: {
      attrs: { color: {} },
      parseDOM: [{ tag: "span[data-color]", getAttrs: given(COLOR, "color", dom => dom.dataset.color) }],
      toDOM: ({ attrs: { color } }) => element("span", { color }, { color: "#" + color }),
    },
    strong: { parseDOM: [{ tag: "strong" }, { tag: "b" }], toDOM: () => ["strong", 0] },
    em: { parseDOM: [{ tag: "em" }, { tag: "i" }], toDOM: () => ["em", 0] },
    code: { parseDOM: [{ tag: "code" }], toDOM: () => ["code", 0] },
    underline: { parseDOM: [{ tag: "u" }], toDOM: () => ["u", 0] },
    strike: { parseDOM: [{ tag: "s" }, { tag: "del" }], toDOM: () => ["s", 0] },
    block: {
      attrs: { kind: {} },
      parseDOM: [{ tag: "span[data-block]", getAttrs: given(KIND, "kind", dom => dom.dataset.block) }],
      toDOM: ({ attrs: { kind } }) => element("span", { block: kind }, {}),
    },
  },
});

// Formats and marks.

const marksOfFormats = new WeakMap(), formatsOfMarks = new WeakMap();

function markOf(key, value) {
  if (key.startsWith("comment:")) return schema.mark("comment", { number: key.slice("comment:".length) });
  return schema.mark(key, { link: { href: value }, color: { color: value }, block: { kind: value } }[key]);
}

/** The marks of a format. */
export function marksOf(format) {
  if (!marksOfFormats.has(format)) {
    const marks = format.keys.map(key => markOf(key, format.get(key)));
    marksOfFormats.set(format, Mark.setFrom(marks));
  }
  return marksOfFormats.get(format);
}

function pairOf({ type: { name }, attrs }) {
  return name === "comment" ? [`comment:${attrs.number}`, "-"] : [name, attrs.href ?? attrs.color ?? attrs.kind ?? "-"];
}

/** The format of marks. */
function formatOfMarks(marks) {
  if (!formatsOfMarks.has(marks)) formatsOfMarks.set(marks, formatOf(marks.map(pairOf)));
  return formatsOfMarks.get(marks);
}

// Characters and positions.

/** A character as the document has it: the browser would read a carriage return as a space. */
function seen(text) { return text === "\r" ? "\u240d" : text; }

/** What stands in the document in place of a character, until it is made what the text is. */
function wrong(text) { return { text, size: text === "\n" ? 2 : text.length, isVisible: false, format: null }; }

/** The characters of a document between two positions, with their formats. */
function itemsBetween(doc, from, to) {
  const items = [];
  doc.nodesBetween(from, to, (node, start) => {
    if (node.isText) {
      const format = formatOfMarks(node.marks), part = node.text.slice(Math.max(from - start, 0), to - start);
      for (const text of part) items.push({ text, format, isBreak: false });
    } else if (start > from && start < to) {
      items.push({ text: "\n", format: null, isBreak: true });
    }
  });
  return items;
}

/** What differs between two documents: from where on, up to where in the one and in the other; null if nothing does. */
function difference(before, after) {
  const from = before.content.findDiffStart(after.content);
  if (from === null) return null;
  const end = before.content.findDiffEnd(after.content), to = Math.max(end.a, from, from + end.a - end.b);
  return { from, to, end: to + after.content.size - before.content.size };
}

/** Characters as a slice that goes between any two places of a text. */
function sliceOf(characters) {
  const lines = [[]];
  for (const one of characters) {
    const line = lines.at(-1);
    if (one.text === "\n") lines.push([]);
    else if (line.at(-1)?.format === one.format) line.at(-1).text += seen(one.text);
    else line.push({ format: one.format, text: seen(one.text) });
  }
  const texts = lines.map(line => line.map(({ format, text }) => schema.text(text, marksOf(format))));
  if (texts.length === 1) return new Slice(Fragment.from(texts[0]), 0, 0);
  return new Slice(Fragment.from(texts.map(line => schema.node("paragraph", null, line))), 1, 1);
}

// What ties a view to a hub.

const key = new PluginKey("hub");

/** The view of a hub's text: the characters that its document has, and the format that each has there (null of a line
 * feed). */
class Binding {
  constructor(hub, view) {
    Object.assign(this, { hub, view, handled: new WeakSet(), isTaking: false, isGone: false, composed: 0 });
    this.asked = null;            // what was done in the view and is only done once the person says so
    this.show([], []);
    this.heard = {
      text: ({ detail }) => this.refresh(detail.isOwn),
      version: () => this.decorate(),
      hits: () => this.decorate(),
      state: () => this.dispatch(this.view.state.tr),
    };
    for (const [type, hear] of Object.entries(this.heard)) hub.addEventListener(type, hear);
    this.clock = setInterval(() => this.look(), QUIET);
    this.refresh(false);
  }

  destroy() {
    this.isGone = true;
    clearInterval(this.clock);
    for (const [type, hear] of Object.entries(this.heard)) this.hub.removeEventListener(type, hear);
  }

  /** What changes by itself, with time. */
  look() {
    if (performance.now() - this.composed > QUIET) this.endComposition();
    this.decorate();
  }

  /** Where the document is changed around what is composed, a browser may end that and not tell: then a key that isn't
   * part of it does, the focus that goes, or a time without any. */
  endComposition() {
    if (this.view.composing) this.view.dom.dispatchEvent(new CompositionEvent("compositionend", { bubbles: true }));
  }

  dispatch(transaction, more = {}) {
    const { asked } = this, { mapping } = transaction;
    if (asked) Object.assign(asked, { from: mapping.map(asked.from, 1), to: mapping.map(asked.to, -1) });
    this.view.dispatch(transaction.setMeta(key, { isHub: true, ...more }).setMeta("addToHistory", false));
  }

  // What can't be put back.

  /** Asks the person whether to do what a transaction does, which isn't done yet. */
  ask(transaction, question) {
    const { from, to, end } = difference(transaction.before, transaction.doc) ?? {};
    if (from === undefined || this.isGone) return;
    const asked = { from, to, slice: transaction.doc.slice(from, end), by: transaction.getMeta("uiEvent") };
    this.asked = asked;
    try {
      this.hub.ask({ ...question, accept: () => { if (this.asked === asked) this.accept(asked, question.removed); } });
    } catch (why) {
      this.asked = null;
      this.hub.tell("notice", why.message);
    }
  }

  /** Does it, where the text stands now; where more than was said would be removed it is asked again. */
  accept({ from, to, slice, by }, removed) {
    this.asked = null;
    const { tr } = this.view.state;
    tr.replace(from, Math.max(from, to), slice).setMeta("uiEvent", by).setMeta(key, { accepted: removed });
    this.view.dispatch(tr.scrollIntoView());
    this.hub.giveUp(this.hub.done);
  }

  /** By how many lines what stands between two positions is removed, where it is `count` characters. */
  linesOf(from, to, count) {
    const { index: first } = this.seek(from), { index: end } = this.seek(to);
    return Math.min(inGroups(this.shown.slice(first, end).filter(one => one.isVisible)).length + 1, count);
  }

  /** Notes what the document has now. Before `start`, a position, there are `index` characters. */
  show(characters, looks) { Object.assign(this, { shown: characters, looks, index: 0, start: 1 }); }

  /** Notes how many characters stand wholly before a position, and where they end. It looks from where it looked last: a
   * person goes on near there. */
  seek(position) {
    const { shown } = this;
    while (this.start > position && this.index > 0) {
      this.index -= 1;
      this.start -= shown[this.index].size;
    }
    while (this.index < shown.length && this.start + shown[this.index].size <= position) {
      this.start += shown[this.index].size;
      this.index += 1;
    }
    return this;
  }

  // From the view to the hub.

  /** Takes what was edited in the view. What is composed is taken once it is done. */
  take() {
    if (this.isTaking || this.view.composing) return;
    const waiting = key.getState(this.view.state).edits.filter(({ transaction }) => !this.handled.has(transaction));
    if (waiting.length === 0) return;
    for (const { transaction } of waiting) this.handled.add(transaction);
    this.asked = null;
    this.isTaking = true;
    try {
      this.hub.edit(edit => this.takeAll(edit, waiting));
    } catch (why) {
      this.restore();
      this.hub.tell("notice", why.message);
      if (!(why instanceof Cannot)) reportError(why);
    }
    this.isTaking = false;
    if (!this.isTaken()) this.refresh(false);
  }

  /** Whether what was edited is in the text as it is in the document. */
  isTaken() {
    for (let at = this.window[0]; at < this.window[1]; at += 1) {
      const one = this.shown[at], look = this.looks[at];
      if (!one?.isVisible || look !== null && look !== one.format) return false;
    }
    return true;
  }

  takeAll(edit, waiting) {
    this.window = [Infinity, -Infinity];
    this.inherits = new Set();
    if (waiting.some(one => one.isComposed)) this.takeComposed(edit, waiting);
    else for (const one of waiting) this.takeTransaction(edit, one);
    this.giveFormats(edit);
  }

  takeTransaction(edit, { transaction, isExplicit }) {
    transaction.steps.forEach((step, at) => {
      const before = transaction.docs[at], after = transaction.docs[at + 1] ?? transaction.doc;
      if (step instanceof AddMarkStep || step instanceof RemoveMarkStep) this.takeLooks(after, step.from, step.to);
      else this.takeRanges(edit, step, before, after, isExplicit);
    });
  }

  takeRanges(edit, step, before, after, isExplicit) {
    let from = Infinity, to = -Infinity;
    step.getMap().forEach((start, end) => { from = Math.min(from, start); to = Math.max(to, end); });
    if (from <= to) this.replace(edit, before, after, from, to, isExplicit);
  }

  /** What several transactions changed, as one edit. */
  takeComposed(edit, waiting) {
    const before = waiting[0].transaction.before, after = waiting.at(-1).transaction.doc;
    const found = difference(before, after);
    if (found) this.replace(edit, before, after, found.from, found.to, waiting.some(one => one.isExplicit));
  }

  /** Where a range of one document was replaced in the next one: removes and inserts what differs. */
  replace(edit, before, after, from, to, isExplicit) {
    const { index: first, start } = this.seek(from);
    let end = first, behind = start;
    for (; end < this.shown.length && behind < to; end += 1) behind += this.shown[end].size;
    const items = itemsBetween(after, start, behind + after.content.size - before.content.size);
    const isSame = (at, item) => item && seen(this.shown[at].text) === item.text && this.looks[at] === item.format &&
      (item.text === "\n") === item.isBreak;
    let head = 0, tail = 0;
    while (first + head < end && isSame(first + head, items[head])) head += 1;
    const most = Math.min(end - first, items.length) - head;
    while (tail < most && isSame(end - tail - 1, items[items.length - tail - 1])) tail += 1;
    this.exchange(edit, first + head, end - tail, items.slice(head, items.length - tail), isExplicit);
  }

  /** Puts items in the place of characters. One that the text can't have as it is stands here as what the view will be
   * rid of. */
  exchange(edit, first, end, items, isExplicit) {
    const removed = this.shown.slice(first, end);
    edit.remove(removed);
    const wanted = items.find(({ format }) => format)?.format ?? null;
    const text = items.map(({ text }) => text.toWellFormed()).join("");
    const typed = text ? edit.insert(this.before(first), text, wanted) : [];
    const shown = items.map(({ text, isBreak }, at) => seen(typed[at].text) === text && (text === "\n") === isBreak ?
      typed[at] : wrong(isBreak ? text : text.replace("\n", " ")));
    const replaced = (list, others) => list.slice(0, first).concat(others, list.slice(end));
    this.shown = replaced(this.shown, shown);
    this.looks = replaced(this.looks, items.map(({ format }) => format));
    if (!isExplicit) for (const one of shown) this.inherits.add(one);
    const [from, to] = this.window, grown = items.length - (end - first);
    this.window = [Math.min(from, first), Math.max(to + (to > first ? grown : 0), first + items.length)];
  }

  /** The character of the text that stands before a place of the document. */
  before(place) {
    let at = place - 1;
    while (at >= 0 && !this.shown[at].isVisible) at -= 1;
    return at < 0 ? this.hub.replica.root : this.shown[at];
  }

  /** Takes the formats that a range has now. A character of which it has a half stays as it was. */
  takeLooks(doc, from, to) {
    const { index: first } = this.seek(from), items = itemsBetween(doc, from, to);
    items.forEach(({ text, format }, at) => {
      const place = first + at, one = this.shown[place];
      if (!text.isWellFormed()) this.shown[place] = wrong(one.text);
      if (this.looks[place] !== format) this.inherits.delete(one);
      this.looks[place] = format;
    });
    this.window = [Math.min(this.window[0], first), Math.max(this.window[1], first + items.length)];
  }

  /** Marks what was marked in the view: a mark for each key and value, from the first character that gets it to the
   * last, over line feeds and what has it already. The kind of a line is only shown: what is typed or pasted has its
   * line's. */
  giveFormats(edit) {
    const [from, to] = this.window, keys = new Set(), wants = [];
    for (let at = from; at < to; at += 1) {
      const one = this.shown[at], look = this.looks[at];
      const isKept = look === null || !one.isVisible || this.inherits.has(one);
      wants.push({ one, look: isKept ? null : look });
      if (!isKept && look !== one.format) for (const key of [...look.keys, ...one.format.keys]) keys.add(key);
    }
    keys.delete("block");
    for (const key of keys)
      for (const { first, last, value } of this.runs(wants, key)) edit.mark(first, last, key, value);
  }

  runs(wants, key) {
    const runs = [];
    let run = null;
    for (const { one, look } of wants) {
      if (look === null) {
        if (this.inherits.has(one) && one.text !== "\n") run = null;
        continue;
      }
      const value = look.get(key), isNew = one.format.get(key) !== value;
      if (run?.value !== value) run = null;
      if (isNew && run) run.last = one;
      else if (isNew) runs.push(run = { first: one, last: one, value });
    }
    return runs;
  }

  /** After an edit that failed half way, all of the view's document is to be made what the text is. */
  restore() {
    const { doc } = this.view.state, items = itemsBetween(doc, 0, doc.content.size);
    this.window = [0, Infinity];
    const shown = items.map(({ text, isBreak }) => wrong(isBreak ? text : text.replace("\n", " ")));
    this.show(shown, items.map(({ format }) => format));
  }

  // From the hub to the view.

  /** Makes the document what the hub's text is. */
  refresh(isOwn) {
    if (this.isGone || this.isTaking || this.view.composing) return;
    this.take();
    const after = this.hub.replica.visible, { state } = this.view, transaction = state.tr;
    after.forEach((one, at) => { one.seat = at; });
    const regions = this.regions(after);
    for (const { from, to, characters } of regions.toReversed())
      transaction.step(new ReplaceStep(from, to, sliceOf(characters)));
    this.reformat(transaction, after);
    this.show(after.slice(), after.map(one => one.text === "\n" ? null : one.format));
    if (!transaction.docChanged) return;
    this.select(transaction, state, isOwn ? regions.at(-1) : null);
    this.dispatch(transaction.setStoredMarks(state.storedMarks));
  }

  /** Where the document differs from the text, by its positions: what is in the place of what. */
  regions(after) {
    const regions = [];
    let at = 1, next = 0;
    const change = (to, characters) => {
      if (regions.at(-1)?.to !== at) regions.push({ from: at, to: at, characters: [] });
      const region = regions.at(-1);
      region.to = to;
      for (const one of characters) region.characters.push(one);
    };
    this.kept = [];
    this.shown.forEach((one, index) => {
      const { size } = one;
      if (one.isVisible && one.seat >= next) {
        if (one.seat > next) change(at, after.slice(next, one.seat));
        this.kept[one.seat] = this.looks[index];
        next = one.seat + 1;
      } else {
        change(at + size, []);
      }
      at += size;
    });
    if (next < after.length) change(at, after.slice(next));
    return regions;
  }

  /** Gives what stays in the document the format that it has in the text. */
  reformat(transaction, after) {
    let at = 1, run = null;
    const end = () => {
      if (!run) return;
      const { from, to, look, format } = run, has = (one, key) => one.get(key) !== null;
      const old = look.keys.filter(key => !has(format, key));
      const added = format.keys.filter(key => look.get(key) !== format.get(key));
      for (const key of old) transaction.step(new RemoveMarkStep(from, to, markOf(key, look.get(key))));
      for (const key of added) transaction.step(new AddMarkStep(from, to, markOf(key, format.get(key))));
      run = null;
    };
    after.forEach((one, index) => {
      const look = this.kept[index], { size } = one;
      if (one.text !== "\n") {
        if (run && (look !== run.look || one.format !== run.format)) end();
        if (look && look !== one.format) run = { from: run?.from ?? at, to: at + size, look, format: one.format };
      }
      at += size;
    });
    end();
  }

  /** The selection stays at its characters; what others type at its ends stays out of it. Behind an undo the caret is
   * where something changed last. */
  select(transaction, { selection }, changed) {
    const { mapping, doc } = transaction, put = (anchor, head) => transaction.setSelection(
      TextSelection.between(doc.resolve(anchor), doc.resolve(head)));
    if (changed) {
      const at = mapping.map(changed.to);
      put(at, at);
      transaction.scrollIntoView();
    } else if (selection instanceof TextSelection) {
      const { anchor, head, empty } = selection;
      put(...[anchor, head].map(at => mapping.map(at, empty || at === selection.to ? -1 : 1)));
    }
  }

  // What filters hit, and where others are.

  decorate() {
    if (this.isGone || this.view.composing || !this.isLevel()) return;
    const { hub, view } = this, hits = hub.filters.filter(({ parts }) => parts.length), peers = this.peers();
    const isNone = hits.length + peers.length === 0;
    if (isNone && key.getState(view.state).decorations === DecorationSet.empty) return;
    let at = 1;
    for (const one of isNone ? [] : this.shown) {
      one.start = at;
      at += one.size;
    }
    const decorations = [...hits.flatMap(filter => this.hits(filter)), ...peers.map(peer => this.placeOfPeer(peer))];
    this.dispatch(view.state.tr, { decorations: DecorationSet.create(view.state.doc, decorations) });
  }

  /** Whether the document is the hub's text: not while something is composed. */
  isLevel() { return this.shown.length === this.hub.replica.visible.length; }

  /** What a filter hits, each part in an element of its own: several filters may hit the same. */
  hits({ name, place = 0, parts }) {
    return parts.flatMap(part => {
      const first = part.find(one => one.isVisible), last = part.findLast(one => one.isVisible);
      const look = { nodeName: "span", class: "hit", "data-place": String(place), title: name };
      return first ? [Decoration.inline(first.start, last.start + last.size, look)] : [];
    });
  }

  /** The other peers that changed something a short while ago. */
  peers() {
    const { hub } = this, now = performance.now(), found = [];
    for (const [node, place] of hub.replica.places) {
      place.time ??= place.version > hub.begun ? now : -Infinity;
      if (node !== hub.node && now - place.time <= HERE) found.push([node, place.character]);
    }
    return found;
  }

  placeOfPeer([node, character]) {
    return Decoration.widget(this.placeOf(character), () => peerElement(node), { key: `peer ${node}`, side: 1 });
  }

  /** The position behind a character, or where it stood. */
  placeOf(character) {
    const { order } = this.hub.replica;
    let at = this.hub.replica.indexOf(character);
    while (at > 0 && !order[at].isVisible) at -= 1;
    return at > 0 ? order[at].start + order[at].size : 1;
  }
}

export const colorOf = node => `hsl(${node * 137 % 360} 70% 33%)`;

function peerElement(node) {
  const dom = element("span", { node: `node ${node}` }, { color: colorOf(node) });
  dom.className = "peer";
  return dom;
}

// The plugin.

/** The characters of a document between two positions, and a line feed that begins or ends there. */
function itemsAround(doc, from, to) {
  const isBetween = at => doc.resolve(at).depth === 0;
  const first = isBetween(from) ? Math.max(from - 1, 1) : from;
  return itemsBetween(doc, first, isBetween(to) ? Math.min(to + 1, doc.content.size - 1) : to);
}

/** How many characters stand alike at the beginning of both lists, and then at the end. */
function countAlike(some, others) {
  const isAlike = (one, other) => ["text", "format", "isBreak"].every(name => one[name] === other[name]);
  const most = Math.min(some.length, others.length);
  let head = 0, tail = 0;
  while (head < most && isAlike(some[head], others[head])) head += 1;
  while (tail < most - head && isAlike(some.at(-1 - tail), others.at(-1 - tail))) tail += 1;
  return head + tail;
}

/** What a transaction removes and adds, in characters, bytes and marks, and about how many operations that takes: in a first
 * step what is removed is known by its ids. */
function changesOf({ steps, docs, doc }, binding) {
  const sum = { characters: 0, removed: 0, lines: 0, bytes: 0, marks: 0 };
  const bytes = items => items.reduce((sum, { text }) => sum + bytesOf(text), 0);
  steps.forEach((step, at) => {
    const before = docs[at], after = docs[at + 1] ?? doc;
    if (step instanceof AddMarkStep || step instanceof RemoveMarkStep) sum.marks = 1;
    step.getMap().forEach((start, end, from, to) => {
      const removed = itemsAround(before, start, end), added = itemsAround(after, from, to);
      const alike = countAlike(removed, added), count = removed.length - alike;
      sum.removed += count;
      sum.lines += at === 0 ? binding.linesOf(start, end, count) : count;
      sum.characters += added.length - alike;
      sum.bytes += bytes(added) - bytes(removed);
    });
  });
  return { ...sum, operations: Math.max(sum.lines + sum.characters + sum.marks, 1) };
}

/** Whether a transaction, on a state, says itself which marks its text has: by those chosen at the caret, or as a text
 * that is pasted. Else the text has the marks that it gets by where it stands. */
function isExplicit(transaction, { storedMarks }) {
  return storedMarks !== null || ["paste", "drop"].includes(transaction.getMeta("uiEvent"));
}

function linesOf(slice) {
  const lines = [];
  slice.content.forEach(node => { lines.push(node.textContent); });
  return lines.join("\n");
}

/** A plain text, with the marks of where it is put. */
function sliceOfText(text, $context) {
  const paragraph = line => schema.node("paragraph", null, line ? schema.text(line, $context.marks()) : null);
  return new Slice(Fragment.from(text.split(/\r\n?|\n/).map(paragraph)), 1, 1);
}

/** The plugin's state: the transactions that aren't taken yet, and the decorations. */
function stateOf(binding) {
  return {
    init: () => ({ edits: [], decorations: DecorationSet.empty }),
    apply(transaction, { edits, decorations }, before) {
      const said = transaction.getMeta(key), waiting = edits.filter(one => !binding()?.handled.has(one.transaction));
      const isComposed = Boolean(binding()?.view.composing);
      if (transaction.docChanged && !said?.isHub)
        waiting.push({ transaction, isExplicit: isExplicit(transaction, before), isComposed });
      const moved = said?.decorations ?? decorations.map(transaction.mapping, transaction.doc);
      return { edits: waiting, decorations: moved };
    },
  };
}

function handlers(binding) {
  const compose = () => { binding().composed = performance.now(); };
  const type = (_, { isComposing }) => { if (!isComposing) binding().endComposition(); };
  const end = () => { setTimeout(() => { binding().refresh(false); binding().decorate(); }, COMPOSED); };
  return {
    compositionstart: compose, compositionupdate: compose, compositionend: end, keydown: type, beforeinput: type,
    blur: () => binding().endComposition(),
  };
}

/** A plugin by which a document of `schema`, empty at first, is a hub's text. */
export function hubPlugin(hub) {
  let binding = null;
  return new Plugin({
    key,
    state: stateOf(() => binding),
    filterTransaction(transaction) {
      const said = transaction.getMeta(key);
      if (!transaction.docChanged || said?.isHub) return true;
      const changes = changesOf(transaction, binding), lacks = hub.lacks(changes), question = hub.stake(changes);
      if (lacks) hub.tell("notice", lacks);
      else if (!question || question.removed <= (said?.accepted ?? 0)) return true;
      else queueMicrotask(() => binding.ask(transaction, question));
      return false;
    },
    view(view) {
      binding = new Binding(hub, view);
      return { update: () => binding.take(), destroy: () => binding.destroy() };
    },
    props: {
      decorations: state => key.getState(state).decorations,
      editable: () => hub.isEditable,
      handleDOMEvents: handlers(() => binding),
      clipboardTextParser: sliceOfText,
      clipboardTextSerializer: linesOf,
    },
  });
}
