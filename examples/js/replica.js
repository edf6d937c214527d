// A replica of a hub's text: its characters and marks as docs/PERITEXT.md has them, and what makes operations of a
// person's edits. docs/CHANGE_FORMAT.md has how a change is written.

import {
  ACCEPTED, HERE, LONGEST_RUN, NONE, OPERATIONS, Part, Removals, inBatches, inGroups, isNext, removalsIn, runsOf,
} from "./removals.js";

const GREATEST = 2 ** 48 - 1, JOINED = 500;
const NOTHING = /^-$/, KIND = /^(heading:[1-6]|(bullet|number):[0-7]|task:[0-7]:(open|done)|quote|pre|rule)$/;

/** The keys of one value: the form of changes that knows each, what its value may be, and whether what is typed at the end
 * of a mark is in it. Those of the third form are printed behind comments. */
export const KEYS = new Map(Object.entries({
  strong: { form: "change", value: NOTHING, grows: true },
  em: { form: "change", value: NOTHING, grows: true },
  code: { form: "change2", value: NOTHING, grows: true },
  link: { form: "change", value: /^[!-~]{1,1024}$/, grows: false },
  color: { form: "change", value: /^[0-9a-f]{6}$/, grows: true },
  underline: { form: "change3", value: NOTHING, grows: true },
  strike: { form: "change3", value: NOTHING, grows: true },
  block: { form: "change3", value: KIND, grows: false },
}));
const NAMES = [...KEYS.keys()], BEFORE_COMMENTS = 5;

/** An edit that can't be made; its message is for the person. */
export class Cannot extends Error {}

// Characters, marks and formats.

/** A character, a removed one too, or the text's start. */
export class Character {
  constructor(text, counter = 0, node = 0, parent = null) {
    this.text = text;
    this.counter = counter;
    this.node = node;
    this.parent = parent;
    this.children = NONE;         // by falling id
    this.cover = null;            // the marks over it
    this.begins = NONE;           // the marks that begin behind it, and those that end there
    this.ends = NONE;
    this.isIn = false;            // it stands in the text, maybe removed
    this.isPending = false;       // its change isn't known to be accepted
    this.removals = 0;            // how many removals of it aren't taken back; and by accepted changes alone
    this.acceptedRemovals = 0;
    this.near = 0;                // about where it stands
    this.seat = this.start = 0;   // where a view noted it: among its characters, and in its document
    this.size = text === "\n" ? 2 : text.length;   // how many positions of a ProseMirror document it takes
    this.bytes = bytesOf(text);
  }

  get word() { return `${this.counter}@${this.node}`; }

  get isVisible() { return this.isIn && this.removals === 0; }

  /** Whether it is visible by the accepted changes alone. */
  get isAccepted() { return !this.isPending && this.acceptedRemovals === 0; }

  /** The format that it has, or would have if it weren't removed. */
  get format() { return this.cover.format; }
}

/** How many bytes a character has in UTF-8. */
export function bytesOf(character) {
  const code = character.codePointAt(0) ?? 0;
  return code < 0x80 ? character.length : code < 0x800 ? 2 : code < 0x10000 ? 3 : 4;
}

/** Below zero where an id is the lesser one. */
function compareIds(one, other) { return one.counter - other.counter || one.node - other.node; }

/** A mark operation: its value is null where it takes the key away. An anchor is a character (null: the text's end) and
 * whether it stands behind it. */
class Mark {
  constructor(key, value, start, end, counter = 0, node = 0) {
    Object.assign(this, { key, value, start, end, counter, node, isEmpty: false, isPending: false });
    this.origin = this;           // the mark that it gives back, where it takes back one above that
  }
}

function wordOfAnchor({ of, behind }) {
  return of === null ? "$" : of.counter === 0 ? "^" : (behind ? ">" : "<") + of.word;
}

/** A format: its words as a span's line has them, and the value of each key, "-" of those that have none. There is one
 * object for each format. */
class Format {
  static known = new Map();

  static of(values) {
    const keys = [...values.keys()].sort((one, other) => rank(one) - rank(other));
    const words = keys.map(key => hasValue(key) ? `${key}=${values.get(key)}` : key).join(",");
    if (!Format.known.has(words)) Format.known.set(words, new Format(words, keys, values));
    return Format.known.get(words);
  }

  constructor(words, keys, values) {
    this.words = words || "plain";
    this.keys = keys;
    this.values = values;
  }

  get(key) { return this.values.get(key) ?? null; }
}

const hasValue = key => (KEYS.get(key)?.value ?? NOTHING) !== NOTHING;

function rank(key) {
  const at = NAMES.indexOf(key);
  if (at < 0) return BEFORE_COMMENTS + Number(key.slice("comment:".length));
  return at < BEFORE_COMMENTS ? at : at + 2 ** 32;
}

export const formatOf = pairs => Format.of(new Map(pairs));

/** Of marks by falling id, the first of each key decides. */
function decided(marks) {
  const values = new Map(), seen = new Set();
  for (const { key, value } of marks) {
    if (!seen.has(key) && value !== null) values.set(key, value);
    seen.add(key);
  }
  return Format.of(values);
}

/** The marks over a character, by falling id. Neighbors share it, and it never changes. */
class Cover {
  constructor(marks) {
    this.marks = marks;
    this.keptFormat = null;
  }

  get format() { return this.keptFormat ??= decided(this.marks); }

  with(mark) {
    const at = this.marks.findIndex(other => compareIds(other, mark) < 0);
    return new Cover(this.marks.toSpliced(at < 0 ? this.marks.length : at, 0, mark));
  }

  without(mark) { return new Cover(this.marks.filter(other => other !== mark)); }
}

function withItem(list, item) { return list === NONE ? [item] : (list.push(item), list); }

// The replica.

/** The text that follows from the changes taken, and from this page's operations that aren't accepted yet. An operation
 * is `{characters, left}`, characters in a row that are inserted behind one; `{removals}`, with ids in a row; `{parts}` of
 * removals, which are taken back by ids in a row; or `{mark}`. */
export class Replica {
  constructor() {
    this.root = new Character("");
    Object.assign(this.root, { isIn: true, removals: 1, acceptedRemovals: 1, cover: new Cover([]) });
    this.order = [this.root];     // all characters, each behind its parent, of several children the greatest id first
    this.characters = new Map();
    this.removals = new Map();    // of each node, by rising counters; without those that were all taken back
    this.marks = [];
    this.newest = new Map();
    this.places = new Map();      // of each node, behind which character it changed something last, in which version
    this.version = 0;
    this.drift = 0;
    this.forget();
  }

  /** The visible characters in their order. */
  get visible() { return this.keptVisible ??= this.order.filter(character => character.isVisible); }

  /** How many bytes they have. */
  get bytes() { return this.keptBytes ??= this.visible.reduce((sum, { bytes }) => sum + bytes, 0); }

  /** Other characters are visible now. */
  forget() { Object.assign(this, { keptVisible: null, keptBytes: null }); }

  get text() { return this.visible.map(character => character.text).join(""); }

  /** A character stands near where it stood, or as far from there as the one that was looked for last. */
  indexOf(character) {
    const { order, drift } = this, { near } = character;
    if (order[near] === character) return near;
    if (order[near + drift] === character) return character.near = near + drift;
    for (let far = 1; far <= order.length; far += 1) {
      const at = near >= far && order[near - far] === character ? near - far : near + far;
      if (order[at] !== character) continue;
      this.drift = at - near;
      return character.near = at;
    }
    throw new Error(`no character ${character.word}`);
  }

  /** Where an anchor stands among all: before and behind the character at place P, 2 P and 2 P + 1. */
  position({ of, behind }) { return of === null ? 2 * this.order.length : 2 * this.indexOf(of) + Number(behind); }

  anchor(word) {
    if (word === "^") return { of: this.root, behind: true };
    if (word === "$") return { of: null, behind: false };
    return { of: this.characters.get(word.slice(1)), behind: word[0] === ">" };
  }

  /** Takes an accepted change of another session, as its lines. */
  take(change) {
    for (const line of change.slice(1)) {
      const [kind, own, ...words] = line.split(" "), [counter, node] = own.split("@").map(Number);
      if (kind === "i" || kind === "r") this.takeRun(counter, node, words[0], words.slice(kind === "i" ? 1 : 2));
      else if (kind === "d") this.takeRemovals(counter, node, words[0], Number(words[1] ?? 1));
      else if (kind === "v") this.takeRevivals(counter, node, words[0], Number(words[1] ?? 1));
      else this.takeMark(counter, node, words[0], kind === "m" ? words[1] : null, words.slice(-2));
    }
    this.version += 1;
    this.forget();
  }

  takeRun(counter, node, parent, codes) {
    let before = parent === "-" ? this.root : this.characters.get(parent);
    const run = codes.map((code, at) =>
      before = new Character(String.fromCodePoint(parseInt(code, 16)), counter + at, node, before));
    this.place(run);
    this.note(node, before, counter + codes.length - 1);
  }

  takeRemovals(counter, node, word, count) {
    const [first, of] = word.split("@").map(Number), before = this.removals.get(node)?.at(-1);
    const characters = Array.from({ length: count }, (_, at) => this.characters.get(`${first + at}@${of}`));
    for (const one of characters) {
      one.removals += 1;
      one.acceptedRemovals += 1;
    }
    if (before?.end === counter && before.back === null && !before.isPending) {
      for (const one of characters) before.characters.push(one);
      before.left += count;
    } else {
      this.keepRemovals(new Removals(characters, counter, node));
    }
    this.note(node, characters.at(-1), counter + count - 1);
  }

  /** Takes revivals. Of removals that aren't kept each was taken back before. */
  takeRevivals(counter, node, word, count) {
    const [first, of] = word.split("@").map(Number);
    let removals = null;
    for (let at = first; at < first + count; at += 1) {
      if (!removals || at >= removals.end) removals = this.removalsAt(at, of);
      if (removals) this.takeBack(removals, at - removals.counter);
    }
    if (removals) this.note(node, removals.characters[first + count - 1 - removals.counter], counter + count - 1);
    else this.newest.set(node, counter + count - 1);
  }

  keepRemovals(removals) {
    if (!this.removals.has(removals.node)) this.removals.set(removals.node, []);
    this.removals.get(removals.node).push(removals);
  }

  dropRemovals(removals) {
    const kept = this.removals.get(removals.node);
    kept.splice(kept.lastIndexOf(removals), 1);
  }

  /** The removals among which one is, by its id; null where it isn't kept. */
  removalsAt(counter, node) {
    const kept = this.removals.get(node) ?? NONE;
    let first = 0, end = kept.length;
    while (first < end) {
      const middle = (first + end) >> 1;
      if (kept[middle].end <= counter) first = middle + 1; else end = middle;
    }
    return kept[first]?.counter <= counter ? kept[first] : null;
  }

  /** A removal is taken back by an accepted change. */
  takeBack(removals, at) {
    const character = removals.characters[at];
    if (!removals.isIn(at) || removals.isTakenBack(at, ACCEPTED)) return;
    if (!removals.isTakenBack(at)) character.removals -= 1;
    character.acceptedRemovals -= 1;
    removals.note(at, ACCEPTED, true);
    removals.left -= 1;
    if (removals.left === 0) this.dropRemovals(removals);
  }

  /** The removals of some characters that aren't taken back, in parts of those with ids in a row. */
  standing(characters) {
    const wanted = new Set(characters), parts = [];
    for (const removals of wanted.size ? [...this.removals.values()].flat() : NONE) {
      removals.characters.forEach((one, at) => {
        if (!wanted.has(one) || !removals.isIn(at) || removals.isTakenBack(at)) return;
        const last = parts.at(-1);
        if (last?.removals === removals && last.end === at && last.count < LONGEST_RUN) last.count += 1;
        else parts.push(new Part(removals, at));
      });
    }
    return parts;
  }

  takeMark(counter, node, key, value, anchors) {
    const mark = new Mark(key, value, ...anchors.map(word => this.anchor(word)), counter, node);
    this.addMark(mark);
    this.note(node, mark.end.of ?? this.order.at(-1), counter);
  }

  note(node, character, counter) {
    this.newest.set(node, counter);
    this.places.set(node, { character, version: this.version + 1 });
  }

  /** Places characters of which each is the child of the one before it, by the first one's id among its siblings. */
  place(run) {
    const [first] = run, { parent } = first;
    const at = parent.children.findIndex(sibling => compareIds(sibling, first) < 0);
    const before = at < 0 ? parent.children.length : at;
    const left = before === 0 ? parent : this.lastOf(parent.children[before - 1]);
    const place = this.indexOf(left) + 1, cover = this.coverBehind(left);
    parent.children = parent.children.toSpliced(before, 0, first);
    run.forEach((character, offset) => {
      if (offset > 0) run[offset - 1].children = [character];
      character.isIn = true;
      character.cover = cover;
      character.near = place + offset;
      this.characters.set(character.word, character);
    });
    this.order.splice(place, 0, ...run);
    this.forget();
  }

  /** The last one of a character and all that descend from it. */
  lastOf(character) {
    while (character.children.length) character = character.children.at(-1);
    return character;
  }

  /** The marks over what is inserted directly behind a character. */
  coverBehind({ cover, begins, ends }) {
    if (begins === NONE && ends === NONE) return cover;
    const kept = ends.length ? new Cover(cover.marks.filter(mark => !ends.includes(mark))) : cover;
    return begins.filter(mark => !mark.isEmpty).reduce((cover, mark) => cover.with(mark), kept);
  }

  addMark(mark) {
    mark.isEmpty = this.position(mark.start) >= this.position(mark.end);
    if (mark.start.behind) mark.start.of.begins = withItem(mark.start.of.begins, mark);
    if (mark.end.behind) mark.end.of.ends = withItem(mark.end.of.ends, mark);
    this.marks.push(mark);
    this.changeCovers(mark, cover => cover.with(mark));
  }

  dropMark(mark) {
    if (mark.start.behind) mark.start.of.begins = mark.start.of.begins.filter(other => other !== mark);
    if (mark.end.behind) mark.end.of.ends = mark.end.of.ends.filter(other => other !== mark);
    this.marks = this.marks.filter(other => other !== mark);
    this.changeCovers(mark, cover => cover.without(mark));
  }

  changeCovers(mark, change) {
    const changed = new Map(), [first, end] = this.covered(mark);
    for (let at = first; at < end; at += 1) {
      const { cover } = this.order[at];
      if (!changed.has(cover)) changed.set(cover, change(cover));
      this.order[at].cover = changed.get(cover);
    }
  }

  /** The places from which and up to which a mark covers characters. */
  covered({ start, end }) { return [start, end].map(anchor => (this.position(anchor) + 1) >> 1); }

  /** The spans: a format and its characters. Where `isAccepted`, as of the changes taken alone. */
  spans(isAccepted = false) {
    const spans = [], formats = new Map();
    const acceptedFormat = cover => {
      if (!formats.has(cover)) formats.set(cover, decided(cover.marks.filter(mark => !mark.isPending)));
      return formats.get(cover);
    };
    for (const one of this.order) {
      if (isAccepted ? !one.isAccepted : !one.isVisible) continue;
      const format = isAccepted ? acceptedFormat(one.cover) : one.format;
      if (spans.at(-1)?.format !== format) spans.push({ format, characters: [] });
      spans.at(-1).characters.push(one);
    }
    return spans;
  }

  /** The spans as `show` prints them. */
  lines() {
    const line = ({ format, characters }, at) => `span ${at} ${format.words} ${escaped(textOf(characters))}`;
    return this.spans().map(line);
  }

  // This page's own operations.

  /** The first of `count` counters in a row above this node's newest one and those of some characters or marks; null
   * where there are none. */
  above(node, named, count = 1) {
    const counter = named.reduce((most, one) => Math.max(most, one?.counter ?? 0), this.newest.get(node) ?? 0) + 1;
    return counter + count - 1 > GREATEST ? null : counter;
  }

  /** How a character can come to stand directly behind another one: its parent, the sibling that it must have a greater
   * id than since it stands before that one, and the one that it must have a lesser id than. */
  * ways(left) {
    let following = left.children[0] ?? null;
    yield { parent: left, following, before: null };
    while (!following && left.parent) {
      const before = left;
      left = left.parent;
      following = left.children[left.children.indexOf(before) + 1] ?? null;
      yield { parent: left, following, before };
    }
  }

  /** A way and a counter by which `count` characters come to stand directly behind one; null where there is none. */
  way(node, left, count) {
    for (const { parent, following, before } of this.ways(left)) {
      const counter = this.above(node, [parent, following], count);
      if (counter !== null && (!before || compareIds({ counter, node }, before) < 0)) return { parent, counter };
    }
    return null;
  }

  /** The characters directly behind which a text can come to stand at one visible place. First, the last of the removed
   * characters there that a mark ends behind: what is typed behind a link stands outside it, also where the link's last
   * characters were removed. Before all, those where it gets a wanted format. */
  gaps(behind, wanted = null) {
    const gaps = [behind];
    for (let at = this.indexOf(behind) + 1; at < this.order.length && !this.order[at].isVisible; at += 1)
      gaps.push(this.order[at]);
    const first = Math.max(gaps.findLastIndex(one => one.ends.length > 0), 0);
    const sorted = [...gaps.slice(first), ...gaps.slice(0, first).reverse()];
    if (wanted === null) return sorted;
    const isWanted = one => this.coverBehind(one).format === wanted;
    return [...sorted.filter(isWanted), ...sorted.filter(one => !isWanted(one))];
  }

  /** Does an operation of this page, with a fresh id. Returns whether it still does something. */
  attach(node, operation) {
    if (operation.characters) this.attachRun(node, operation);
    else if (operation.removals) return this.attachRemovals(node, operation);
    else if (operation.parts) return this.attachRevivals(node, operation);
    else this.attachMark(node, operation.mark);
    return true;
  }

  attachRun(node, { characters, left }) {
    const way = left.isIn ? this.way(node, left, characters.length) : null;
    if (!way) throw new Cannot("Nothing can be typed here: no counter is left.");
    characters.forEach((character, at) => {
      const parent = at ? characters[at - 1] : way.parent;
      Object.assign(character, { counter: way.counter + at, node, parent, children: NONE, isPending: true });
    });
    this.place(characters);
    this.newest.set(node, characters.at(-1).counter);
  }

  attachRemovals(node, operation) {
    const { removals } = operation, { characters } = removals, there = characters.filter(one => one.isIn);
    if (there.length === 0) return false;
    const counter = this.above(node, there, characters.length);
    if (counter === null) throw new Cannot("A character can't be removed: no counter is left.");
    Object.assign(removals, { counter, node, isPending: true, left: there.length });
    for (const one of there) one.removals += 1;
    operation.runs = runsOf("d", counter, characters.map((one, at) => removals.isIn(at) ? one : null));
    this.keepRemovals(removals);
    this.newest.set(node, removals.end - 1);
    this.forget();
    return true;
  }

  attachRevivals(node, operation) {
    const named = [...removalsIn(operation.parts)].map(([removals, at]) =>
      removals.isIn(at) ? { counter: removals.counter + at, node: removals.node } : null);
    const there = named.filter(one => one !== null);
    if (there.length === 0) return false;
    const counter = this.above(node, there, named.length);
    if (counter === null) throw new Cannot("A character can't be put back: no counter is left.");
    this.setRevived(operation.parts, true);
    operation.runs = runsOf("v", counter, named);
    this.newest.set(node, counter + named.length - 1);
    this.forget();
    return true;
  }

  /** Notes whether an operation of this page, which isn't accepted, takes removals back. */
  setRevived(parts, isRevived) {
    for (const [removals, at] of removalsIn(parts)) {
      if (!removals.isIn(at)) continue;
      if (isRevived && !removals.isTakenBack(at)) removals.characters[at].removals -= 1;
      removals.note(at, HERE, isRevived);
      if (!isRevived && !removals.isTakenBack(at)) removals.characters[at].removals += 1;
    }
  }

  attachMark(node, mark) {
    if ([mark.start, mark.end].some(({ of }) => of && !of.isIn)) throw new Cannot("What was marked isn't there.");
    const start = this.position(mark.start), end = this.position(mark.end);
    const over = this.marks.filter(other => other.key === mark.key && other.counter < GREATEST &&
      Math.max(start, this.position(other.start)) < Math.min(end, this.position(other.end)));
    const counter = this.above(node, [mark.start.of, mark.end.of, ...over]);
    if (counter === null) throw new Cannot("No mark can be made here: no counter is left.");
    Object.assign(mark, { counter, node, isPending: true });
    this.addMark(mark);
    this.newest.set(node, counter);
  }

  /** Takes back an operation of this page that wasn't accepted, those behind it first. */
  detach(node, { characters, removals, parts, runs, mark }) {
    if (characters) this.detachRun(characters);
    else if (removals) this.detachRemovals(removals);
    else if (parts) this.setRevived(parts, false);
    else this.dropMark(mark);
    this.newest.set(node, (characters?.[0] ?? runs?.[0] ?? mark).counter - 1);
    this.forget();
  }

  detachRemovals(removals) {
    for (const one of removals.characters) if (one.isIn) one.removals -= 1;
    this.dropRemovals(removals);
    removals.counter = 0;
  }

  detachRun(characters) {
    const [{ parent }] = characters;
    this.order.splice(this.indexOf(characters[0]), characters.length);
    parent.children = parent.children.filter(child => child !== characters[0]);
    for (const character of characters) {
      character.isIn = false;
      this.characters.delete(character.word);
    }
  }

  /** Notes that operations of this page were accepted, as the next change. */
  accept(operations) {
    for (const { characters = NONE, removals, parts = NONE, mark } of operations) {
      for (const character of characters) character.isPending = false;
      if (removals) this.acceptRemovals(removals);
      for (const [of, at] of removalsIn(parts)) {
        this.takeBack(of, at);
        if (of.isIn(at)) of.note(at, HERE, false);
      }
      if (mark) mark.isPending = false;
    }
    this.version += 1;
  }

  acceptRemovals(removals) {
    removals.isPending = false;
    for (const one of removals.characters) if (one.isIn) one.acceptedRemovals += 1;
  }

  /** The anchors of a mark from one character to another. One that grows ends before the next character, and what is
   * typed there is in it; others end behind their last one. The kind of a line begins behind the line feed in front of
   * it, and the last line's ends with the text. An anchor with the greatest counter can't be named: then it is the next
   * best. */
  ends(first, last, key) {
    const starts = [...this.anchorsBefore(first)], ends = [...this.anchorsBehind(last)];
    if (KEYS.get(key)?.grows) ends.unshift(ends.splice(1, 1)[0]);
    if (key === "block") {
      starts.reverse();
      if (ends.at(-1).of === null && last.text !== "\n") ends.reverse();
    }
    const found = [starts, ends]
      .map(anchors => anchors.find(({ of }) => of === null || of.counter < GREATEST));
    if (found.includes(undefined)) throw new Cannot("No mark can begin and end here: no counter is left.");
    return found;
  }

  * anchorsBefore(first) {
    yield { of: first, behind: false };
    for (let at = this.indexOf(first) - 1; at >= 0; at -= 1) {
      const of = this.order[at];
      yield { of, behind: true };
      if (of.isVisible) return;
      if (at > 0) yield { of, behind: false };
    }
  }

  * anchorsBehind(last) {
    yield { of: last, behind: true };
    for (let at = this.indexOf(last) + 1; at < this.order.length; at += 1) {
      const of = this.order[at];
      yield { of, behind: false };
      if (of.isVisible) return;
      yield { of, behind: true };
    }
    yield { of: null, behind: false };
  }
}

export function textOf(characters) { return characters.map(character => character.text).join(""); }

export function escaped(text) { return text.replaceAll("\\", "\\\\").replaceAll("\n", "\\n"); }

// What an edit asks for.

/** Says why a mark of this key and value can't be sent. */
export function checkMark(key, value) {
  const number = /^comment:([1-9][0-9]{0,9})$/.exec(key);
  if (!KEYS.has(key) && !(number && Number(number[1]) < 2 ** 32))
    throw new Cannot("a comment has a number from 1 to 4294967295");
  if (value !== null && !(KEYS.get(key)?.value ?? NOTHING).test(value))
    throw new Cannot("a link has 1 to 1024 bytes without spaces, a color six of 0-9a-f, a line one of the kinds that " +
      "there are, and other keys have no value");
}

/** An edit in the making: the operations that go to the hub together, and what takes them back. */
export class Edit {
  constructor(replica, node) {
    Object.assign(this, { replica, node, operations: [], shown: [], removed: [], marks: [], isGivenUp: false });
    this.time = performance.now();
  }

  do(operation) {
    if (!this.replica.attach(this.node, operation)) return false;
    this.operations.push(operation);
    return true;
  }

  /** Inserts a text behind a visible character or the root; with a wanted format, where it can stand so. Returns its
   * characters. */
  insert(behind, text, wanted = null) {
    const clean = text.toWellFormed().replaceAll("\0", "\ufffd");
    const characters = Array.from(clean, character => new Character(character));
    const gaps = this.replica.gaps(behind, wanted);
    let left = gaps.find(gap => this.replica.way(this.node, gap, characters.length)) ?? gaps[0];
    for (let at = 0; at < characters.length; at += OPERATIONS) {
      const part = characters.slice(at, at + OPERATIONS);
      this.do({ characters: part, left });
      left = part.at(-1);
    }
    this.shown = this.shown.concat(characters);
    return characters;
  }

  /** Removes what is visible of some characters, and at last says which can't be removed. Where some have ids in a row,
   * all removals have: those of the greatest ids come first. */
  remove(characters) {
    const visible = characters.filter(one => one.isVisible), groups = inGroups(visible);
    const isEach = groups.length === visible.length || this.replica.above(this.node, visible, visible.length) === null;
    if (isEach) return this.removeEach(visible);
    for (const batch of inBatches(groups, group => group[0].isPending ? group.length : 1, group => group.length))
      this.do({ removals: new Removals(batch.flat()) });
    this.removed = this.removed.concat(visible);
  }

  removeEach(characters) {
    let wrong = null;
    for (const one of characters) {
      try {
        if (this.do({ removals: new Removals([one]) })) this.removed.push(one);
      } catch (why) {
        wrong = why;
      }
    }
    if (wrong) throw wrong;
  }

  /** Takes removals back. */
  putBack(parts) {
    for (const batch of inBatches(parts, part => part.most, part => part.count)) {
      this.do({ parts: batch });
      const characters = Array.from(removalsIn(batch), ([removals, at]) => removals.characters[at]);
      this.shown = this.shown.concat(characters.filter(one => one.isVisible));
    }
  }

  /** Adds a key from one visible character to another, or takes it away where the value is null. Returns the mark. */
  mark(first, last, key, value) {
    checkMark(key, value);
    const mark = new Mark(key, value, ...this.replica.ends(first, last, key));
    this.do({ mark });
    this.marks.push(mark);
    return mark;
  }

  /** What it removed, where that isn't there again. */
  get gone() {
    const shown = new Set(this.shown);
    return this.removed.filter(one => one.isIn && !one.isVisible && !shown.has(one));
  }

  /** What it takes to take it back. */
  needs() {
    const { gone, marks } = this, removed = this.shown.filter(one => one.isVisible);
    const sum = characters => characters.reduce((bytes, one) => bytes + one.bytes, 0);
    const lines = inGroups(removed).length + this.replica.standing(gone).length;
    return {
      back: gone.length, removed: removed.length, bytes: sum(gone) - sum(removed), marks: marks.length,
      operations: Math.max(lines + marks.length, 1),
    };
  }

  /** Takes back what another edit did: it removes what that one showed, and takes back all removals of what that one
   * removed that are known here. Marks are as they were where nobody did something newer. */
  takeBack(edit) {
    const parts = this.replica.standing(edit.gone), count = parts.reduce((sum, part) => sum + part.count, 0);
    if (this.replica.above(this.node, [...parts, ...edit.shown], count + edit.shown.length) === null && parts.length)
      throw new Cannot("It can't be put back: no counter is left.");
    this.remove(edit.shown);
    this.putBack(parts);
    for (const mark of edit.marks.toReversed()) this.takeBackMark(mark);
  }

  /** Where this mark decides, or one that gave it back, gives back what it covers. */
  takeBackMark(mark) {
    const [from, to] = this.replica.covered(mark), runs = [];
    let isRun = false;
    for (const one of this.replica.order.slice(from, to).filter(one => one.isVisible)) {
      const over = one.cover.marks.filter(other => other.key === mark.key), below = over[over.indexOf(mark) + 1];
      const value = below?.value ?? null, origin = below?.origin, run = runs.at(-1);
      const isChanged = over[0].origin === mark.origin && value !== mark.value;
      if (isChanged && isRun && run.value === value) {
        run.last = one;
        if (run.origin !== origin) run.origin = undefined;
      } else if (isChanged) {
        runs.push({ first: one, last: one, value, origin });
      }
      isRun = isChanged;
    }
    for (const { first, last, value, origin } of runs) {
      const made = this.mark(first, last, mark.key, value);
      made.origin = origin ?? made;
    }
  }

  get isEmpty() { return this.operations.length === 0; }

  /** Whether this is one with an edit just before it, as keys typed in a row are. */
  goesOn(before) {
    if (!before || before.isGivenUp || this.time - before.time > JOINED) return false;
    if (this.marks.length || before.marks.length) return false;
    const isTyped = one => one.shown.length > 0 && one.removed.length === 0;
    if (isTyped(this)) return isTyped(before) && this.operations[0].left === before.shown.at(-1);
    return this.shown.length === 0 && before.shown.length === 0;
  }
}

// Changes.

export function countOf({ characters, runs }) { return (characters ?? runs)?.length ?? 1; }

export function sizeOf(operations) { return operations.reduce((sum, operation) => sum + countOf(operation), 0); }

/** How many operations are meant: a line of removals is one, and means many. */
export function meantBy({ characters, runs }) {
  return runs ? runs.reduce((sum, { count }) => sum + count, 0) : characters?.length ?? 1;
}

/** The line of characters, of a run of removals or revivals of a node, or of a mark. */
function lineOf(node, { characters, letter, counter, first, count, mark }) {
  if (letter) return `${letter} ${counter}@${node} ${first.counter}@${first.node}${count > 1 ? ` ${count}` : ""}`;
  if (mark) {
    const words = mark.value === null ? ["u", mark.key] : ["m", mark.key, mark.value];
    words.splice(1, 0, `${mark.counter}@${mark.node}`);
    return [...words, wordOfAnchor(mark.start), wordOfAnchor(mark.end)].join(" ");
  }
  const [begin] = characters, codes = characters.map(one => one.text.codePointAt(0).toString(16));
  const parent = begin.parent.counter === 0 ? "-" : begin.parent.word;
  if (codes.length === 1) return `i ${begin.word} ${parent} ${codes[0]}`;
  return `r ${begin.word} ${parent} ${codes.length} ${codes.join(" ")}`;
}

/** Two lines as one, where the one goes on in the other; null where it doesn't. Removals by single keys stay single. */
function joined(before, line) {
  if (before?.characters && line.characters) {
    const last = before.characters.at(-1), [first] = line.characters;
    const isOne = first.parent === last && first.counter === last.counter + 1;
    return isOne ? { characters: [...before.characters, ...line.characters] } : null;
  }
  const isSingle = before?.letter === "d" && before.count + line.count === 2;
  return before?.letter && line.letter && !isSingle && isNext(before, line) ?
    { ...before, count: before.count + line.count } : null;
}

/** The form of a change with such a line. */
function formOf({ characters, letter, count, mark }) {
  if (letter === "v" || count > 1) return "change3";
  return characters?.length > 1 ? "change2" : KEYS.get(mark?.key)?.form ?? "change";
}

/** A change: its operations, where runs that go on in the next one are one. */
export class Change {
  constructor(node, operations) {
    this.operations = operations;
    const lines = [];
    for (const line of operations.flatMap(operation => operation.runs ?? operation)) {
      const one = joined(lines.at(-1), line);
      if (one) lines[lines.length - 1] = one; else lines.push(line);
    }
    const form = lines.map(formOf).reduce((most, one) => one > most ? one : most);
    this.lines = [`${form} ${node} ${lines.length}`, ...lines.map(line => lineOf(node, line))];
    this.text = this.lines.join("\n");
    const last = operations.at(-1);
    this.last = last.characters?.at(-1).counter ?? last.mark?.counter ?? endOf(last.runs.at(-1));
  }
}

function endOf({ counter, count }) { return counter + count - 1; }
