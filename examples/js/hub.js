// A client of a hub that runs with --read: a session over a WebSocket (docs/SESSIONS.md has its lines), and a replica
// of the text. Edits are seen at once, also without a connection, and are sent when the hub can be reached.

import { MEANT, NONE, OPERATIONS, removalsIn } from "./removals.js";
import { Cannot, Change, Edit, Replica, countOf, meantBy, sizeOf } from "./replica.js";

export { Cannot, KEYS, Replica, bytesOf, checkMark, escaped, formatOf, textOf } from "./replica.js";

// The visible text of a hub of any size has at most so many bytes.
const VISIBLE_BYTES = 131072;
const NODES = 65535, TRIES = 50, AT_ONCE = 64, PULLS = 16, ITEMS = 64;
const AWAY = "The hub can't be reached.";
const BATCH = 300, POLL = 200, PATIENCE = 10000, PAUSE = 500, LONGEST_PAUSE = 20000, SETTLED = 5000;

const FULL = "This document is full: it takes no more changes.";
const WORDS = {
  42: "The hub takes no change whose counter is this far above all others.",
  45: "The hub is out of memory; the change is tried again.",
  46: "The hub refuses the ids that this page gives its changes.",
  47: "The hub doesn't have a character that the change names.",
  48: "The text is full.",
  49: "The text takes no more marks; it can still be typed.",
  50: FULL,
  51: "The hub takes no more filters.",
};
// What the same refusals mean where the hub has room: it is this session that has had its share.
const SHARES = {
  50: "This page's share of changes is used up: reload the page to go on.",
  51: "This page's share of filters is used up: reload the page to add more.",
};

/** A number of things, for a person. */
export function many(count) { return count.toLocaleString("en"); }

export function noun(count, one) { return `${many(count)} ${one}${count === 1 ? "" : "s"}`; }

/** A reply `no <number> <Name> ..`. */
export class Refused extends Error {
  constructor(line) {
    super(line);
    this.number = Number(line.split(" ")[1]);
  }
}

/** The connection is lost. */
class Lost extends Error {}

/** The hub can't be used any longer. */
class Stopped extends Error {}

// The session.

/** A session: each request is a message of whole lines, and so is its reply. */
class Session {
  static open(url) {
    return new Promise((resolve, reject) => {
      const socket = new WebSocket(url), late = setTimeout(() => socket.close(), PATIENCE);
      const session = new Session(socket);
      const end = act => () => { clearTimeout(late); act(); };
      socket.onopen = end(() => resolve(session));
      socket.onclose = end(() => { session.end(); reject(new Lost(session.why)); });
      socket.onmessage = ({ data }) => session.hear(data);
    });
  }

  constructor(socket) {
    this.socket = socket;
    this.asked = [];
    this.heard = "";
    this.isOpen = true;
    this.why = "";                // why it isn't open
  }

  /** Sends the lines of a request. Answers the reply's lines but the last one, and that one's words behind the second
   * one, the last of them also as a number. */
  ask(...lines) {
    return new Promise((resolve, reject) => {
      if (!this.isOpen) return reject(new Lost(this.why));
      const late = setTimeout(() => this.close(), PATIENCE);
      this.asked.push({ resolve, reject, late });
      this.socket.send(lines.join("\n") + "\n");
    });
  }

  hear(text) {
    this.heard += text;
    const lines = this.heard.trimEnd().split("\n"), last = lines.pop();
    if (!this.isOpen || !/^(ok|no) /.test(last)) return;
    this.heard = "";
    if (/^no (61|69) /.test(last)) return this.close("The hub has no session for this page.");
    if (/^no 66 /.test(last)) return this.close("The hub can't keep changes at the moment.");
    const { resolve, reject, late } = this.asked.shift(), words = last.split(" ").slice(2), word = words.at(-1);
    clearTimeout(late);
    if (last.startsWith("no ")) reject(new Refused(last));
    else resolve({ lines, words, word, number: Number(word) });
  }

  end(why = AWAY) {
    if (!this.isOpen) return;
    Object.assign(this, { isOpen: false, why });
    for (const { reject, late } of this.asked.splice(0)) {
      clearTimeout(late);
      reject(new Lost(why));
    }
  }

  /** Ends the session; the hub may hear some lines before. */
  close(why = AWAY, lines = NONE) {
    const { socket } = this, isHeard = this.isOpen && socket.readyState === socket.OPEN;
    if (isHeard && lines.length) socket.send(lines.join("\n") + "\n");
    this.end(why);
    this.socket.close();
  }
}

/** Changes that stand one behind another, as the lines of each. */
function changesIn(lines) {
  const changes = [];
  for (let at = 0; at < lines.length;) {
    const end = at + 1 + Number(lines[at].split(" ")[2]);
    changes.push(lines.slice(at, end));
    at = end;
  }
  return changes;
}

/** A program that is subscribed, and its hits: by version, the numbers of the spans; and where its latest stand. */
class Filter {
  constructor(name, program) {
    Object.assign(this, { name, program, number: null, done: null, begun: [], isOver: false });
    Object.assign(this, { hits: new Map(), shown: null, parts: [] });
  }

  /** Takes an item. Returns the items of a version, once it is whole. */
  hear(item) {
    const [kind, version, span] = item.split(" ");
    if (this.done !== null && Number(version) <= this.done) return NONE;
    this.begun.push(item);
    if (kind === "hit") this.hits.set(Number(version), [...this.hits.get(Number(version)) ?? NONE, Number(span)]);
    if (kind !== "end") return NONE;
    if (!this.hits.has(Number(version))) this.hits.set(Number(version), []);
    this.done = Number(version);
    return this.begun.splice(0);
  }
}

// What can be put back.

/** How an edit, an undo and a redo are told to the person, and what would put back what they remove. */
const EDIT = { act: "Remove", back: "Undo" }, UNDO = { act: "Undo, and remove", back: "Redo" };
const REDO = { act: "Redo, and remove", back: "Undo" };

/** In how many changes all is put back where a list of edits is taken back: one for each that removed something, but none
 * from the last one on that can't be. */
function owed(edits) {
  return edits.slice(edits.findLastIndex(edit => edit.isGivenUp) + 1).filter(edit => edit.removed.length).length;
}

// The hub.

/** A hub's text, as a person sees and edits it. Events: `edited`; `text` where it changed otherwise than by `edit`,
 * with whether that was this page's undo; `version` where more is accepted; `state`, of the connection, with why;
 * `notice` with words for the person; `question`, whether to remove what can't be put back, with its title, why, how
 * many characters that are, and `accept` (a listener that asks calls `preventDefault`; else nothing is removed);
 * `items` of a filter, of whole versions; `hits` where other characters are hit. */
export class Hub extends EventTarget {
  constructor(url, { node = null } = {}) {
    super();
    Object.assign(this, { url, node, session: null, state: "connecting", why: "" });
    this.replica = new Replica();
    this.limits = { characters: 0, marks: 0, changes: 0, bytes: VISIBLE_BYTES };
    this.waived = 0;              // so many characters are removed without a question
    this.filters = [];
    this.id = null;               // the hub's, which a hub with a store keeps when it is started again
    this.begun = null;            // the version at which the page began
    this.groups = [];             // operations that aren't sent, those of each edit together
    this.flight = null;           // the change that was sent and isn't answered
    this.accepted = [];           // changes that were accepted, and aren't yet among those taken
    this.done = [];               // edits that can be taken back, and those that can be done again
    this.undone = [];
    this.last = null;             // the last change taken, as its text
    this.refusal = null;          // why a change was refused last
    this.isDue = false;
    this.timer = null;
    this.wake = () => {};
    globalThis.addEventListener?.("pagehide", () => this.leave());
    this.run();
  }

  tell(type, detail = null) { this.dispatchEvent(new CustomEvent(type, { detail })); }

  /** How many operations of this page aren't known to be accepted. */
  get waiting() { return sizeOf(this.groups.flat()) + sizeOf(this.flight?.operations ?? NONE); }

  /** This page's operations that aren't taken yet. */
  get pending() {
    return [...this.accepted, this.flight].flatMap(change => change?.operations ?? NONE).concat(this.groups.flat());
  }

  /** What was typed or put back here and isn't known to be accepted: its pieces, as they stand in the text, each of runs
   * of characters whose ids follow one another. */
  get unsent() {
    const { replica } = this, pieces = [];
    const added = this.pending.flatMap(({ characters = NONE, parts = NONE }) =>
      [...characters, ...Array.from(removalsIn(parts), ([removals, at]) => removals.characters[at])]);
    const places = new Map(added.filter(one => one.isVisible && !one.isAccepted).map(one => [one, replica.indexOf(one)]));
    let end = -1;
    for (const [one, place] of [...places].sort(([, first], [, second]) => first - second)) {
      if (end < 0 || replica.order.slice(end, place).some(between => between.isVisible)) pieces.push([]);
      const runs = pieces.at(-1), last = runs.at(-1), { node, counter, text, isPending } = one;
      if (last?.node === node && last.end === counter && last.isBack !== isPending) last.text += text;
      else runs.push({ node, counter, text, isBack: !isPending });
      runs.at(-1).end = counter + 1;
      end = place + 1;
    }
    return pieces;
  }

  get isEditable() { return this.state === "connected" || this.state === "offline"; }

  become(state, why = "") {
    if (this.state === state && this.why === why) return;
    Object.assign(this, { state, why });
    this.tell("state", why);
  }

  // Edits.

  /** How much more the hub takes, as far as it is known here, of what isn't sent too; but of changes, without it. */
  get room() {
    const { limits, replica } = this, room = (limit, used) => Math.max(limit - used, 0);
    return {
      characters: room(limits.characters, replica.characters.size), bytes: room(limits.bytes, replica.bytes),
      marks: room(limits.marks, replica.marks.length),
      changes: room(limits.changes, replica.version + this.accepted.length),
    };
  }

  /** Why so many characters, bytes of visible text and marks can't be added, by so many operations; in words, null
   * where they can. */
  lacks({ characters = 0, bytes = 0, marks = 0, operations = Math.max(characters + marks, 1) }) {
    if (this.state === "stopped") return this.why;
    if (!this.isEditable) return "The hub hasn't been reached yet.";
    const { room } = this, more = (count, one) => count ? noun(count, `more ${one}`) : `no more ${one}s`;
    if (characters > room.characters)
      return `The text is full: it takes ${more(room.characters, "character")}; removed ones count too.`;
    if (bytes > room.bytes)
      return `The text is full: it takes ${more(room.bytes, "byte")} until something is removed.`;
    if (marks > room.marks) return WORDS[49];
    const changes = this.changesFor(operations);
    if (changes <= room.changes) return null;
    return room.changes ? `This takes ${many(changes)} changes, and the document takes ${many(room.changes)} more.` : FULL;
  }

  /** How many changes this page has to send with so many operations more. */
  changesFor(operations) { return Math.ceil((this.waiting + operations) / OPERATIONS); }

  /** What to ask the person before so many characters are removed, where no changes would be left to put them back with
   * all that `list` would put back; null where they would, or where the person doesn't want to be asked. */
  stake({ removed, operations }, { act, back } = EDIT, list = this.done) {
    if (removed <= this.waived) return null;
    const before = owed(list), rest = this.room.changes - this.changesFor(operations);
    if (before + 1 <= rest) return null;
    const them = before ? "all that you removed" : removed === 1 ? "it" : "them";
    const takes = `${noun(before + 1, "change")}, and the document takes ${many(Math.max(rest, 0))} more`;
    return {
      removed, title: `${act} ${noun(removed, "character")}?`,
      why: `${back} couldn't put ${them} back: that takes ${takes}.`,
    };
  }

  /** Asks the person. Where nobody does, nothing is removed. */
  ask(question) {
    const event = new CustomEvent("question", { detail: question, cancelable: true });
    if (this.dispatchEvent(event)) throw new Cannot(question.why);
  }

  /** Notes which edits of a list can't be taken back any more, since the room is less than they need. */
  giveUp(list) {
    let rest = this.room.changes - this.changesFor(0);
    for (const edit of list.toReversed()) {
      if (edit.removed.length) rest -= 1;
      if (rest < 0) edit.isGivenUp = true;
      if (edit.isGivenUp) return;
    }
  }

  /** Makes an edit: `act` says what is inserted, removed and marked. */
  edit(act) {
    const edit = this.make(act);
    if (edit.isEmpty) return;
    this.undone = [];
    const before = this.done.at(-1);
    if (!edit.goesOn(before)) { this.done.push(edit); return; }
    // A call takes fewer arguments than a text has characters: so no `push`.
    before.shown = before.shown.concat(edit.shown);
    before.removed = before.removed.concat(edit.removed);
    before.time = edit.time;
  }

  make(act) {
    const lacks = this.lacks({});
    if (lacks) throw new Cannot(lacks);
    const edit = new Edit(this.replica, this.node);
    try {
      act(edit);
    } finally {
      if (!edit.isEmpty) this.groups.push(edit.operations);
      if (!edit.isEmpty && this.timer === null) this.timer = setTimeout(() => this.send(), BATCH);
      this.tell("edited");
    }
    return edit;
  }

  undo() { return this.step(this.done, this.undone, UNDO); }

  redo() { return this.step(this.undone, this.done, REDO); }

  /** Takes back the last edit of one list, and puts what takes that back on the other one. More than `most` characters
   * aren't removed without a question where they couldn't be put back. */
  step(from, to, words, most = 0) {
    while (from.length) {
      const edit = from.at(-1), needs = edit.needs();
      const lacks = this.lacks(needs), question = this.stake(needs, words, to);
      if (lacks) throw new Cannot(needs.back ? `${noun(needs.back, "character")} can't be put back. ${lacks}` : lacks);
      if (question && question.removed > most) {
        this.ask({ ...question, accept: () => this.acceptStep(from, to, words, question.removed) });
        return true;
      }
      const back = this.make(made => made.takeBack(edit));
      from.pop();
      if (back.isEmpty) continue;
      const step = { edit, back, from, to, at: from.length };
      for (const operation of back.operations) operation.step = step;
      back.time = -Infinity;
      to.push(back);
      this.tell("text", { isOwn: true });
      return true;
    }
    return false;
  }

  acceptStep(from, to, words, most) {
    try {
      this.step(from, to, words, most);
      this.giveUp(to);
    } catch (why) {
      if (!(why instanceof Cannot)) throw why;
      this.tell("notice", why.message);
    }
  }

  /** Sends what waits now, not when its time has come. */
  send() {
    clearTimeout(this.timer);
    this.timer = null;
    this.isDue = this.groups.length > 0;
    this.wake();
  }

  // The connection.

  async run() {
    for (let pause = PAUSE; this.state !== "stopped"; pause = Math.min(2 * pause, LONGEST_PAUSE)) {
      let lost = AWAY;
      try {
        await this.open();
        const begun = performance.now();
        while (this.session.isOpen) {
          await this.round();
          await this.rest(POLL);
          // Each session subscribes its filters anew, so sessions that end soon are begun ever more slowly.
          if (performance.now() - begun > SETTLED) pause = PAUSE / 2;
        }
      } catch (why) {
        if (why instanceof Lost) lost = why.message;
        else this.stopAt(why);
      }
      this.leave();
      if (this.state === "stopped") return;
      this.become(this.state === "connecting" ? "connecting" : "offline", lost);
      await this.rest(pause * (0.75 + Math.random() / 2), false);
    }
  }

  /** Ends the session, and before that its filters, which have a place at the hub until it hears of their end. */
  leave() {
    const open = this.filters.filter(({ number }) => number !== null);
    this.session?.close(AWAY, open.map(({ number }) => `close ${number}`));
  }

  /** Ends the sessions of this page, and says why. */
  stopAt(why) {
    if (why instanceof Stopped) return this.become("stopped", why.message);
    const words = why instanceof Refused ? "The hub answered" : "This page has failed:";
    this.become("stopped", `${words} ${why.message}.`);
    if (!(why instanceof Refused)) console.error(why);
  }

  rest(time, mayWake = true) {
    if (mayWake && this.isDue && this.groups.length) return null;
    return new Promise(resolve => {
      const end = () => {
        clearTimeout(timer);
        globalThis.removeEventListener?.("online", end);
        resolve();
      };
      const timer = setTimeout(end, time);
      this.wake = mayWake ? end : () => {};
      if (!mayWake) globalThis.addEventListener?.("online", end);
    });
  }

  /** Opens a session, and finds out what of the last one was accepted. */
  async open() {
    this.session = await Session.open(this.url);
    await this.checkSame();
    this.node ??= await this.unusedNode();
    const { number } = await this.session.ask(`newest ${this.node}`);
    if (this.flight && number >= this.flight.last) {
      this.accepted.push(this.flight);
      this.flight = null;
    }
    await this.follow();
    await this.readSize();
    await this.readLeft();
    this.begun ??= this.replica.version;
    for (const filter of this.filters)
      if (this.filters.includes(filter) && !filter.isOver) await this.resume(filter);
    this.isDue = true;
    this.become("connected");
    this.tell("version");
  }

  /** Looks whether the hub has the text that was taken: it has the same id, and the last change where it was. A hub
   * that is started anew has both if it keeps its changes in a store. */
  async checkSame() {
    const before = this.replica.version ? this.id : null;
    this.id = await this.idOfHub();
    if (await this.hasLast() && (before === null || this.id === before)) return;
    throw new Stopped("The hub was started anew and has another text: copy what you need, and load the page again.");
  }

  /** Takes the hub's limits, where it tells them. */
  async readSize() {
    const { words } = await this.session.ask("stats");
    words.forEach((name, at) => {
      const [, limit] = /^(changes|characters|marks|bytes)-limit$/.exec(name) ?? NONE;
      if (limit) this.limits[limit] = Number(words[at + 1]);
    });
  }

  /** Asks how much more the hub takes, and finds its limits by that: none greater than it is, and just as great where
   * nobody else has written meanwhile. */
  async readLeft() {
    const { words } = await this.session.ask("left"), [changes, characters, marks, subscribers] = words.map(Number);
    const { limits, pending, replica } = this, pendingMarks = pending.filter(({ mark }) => mark).length;
    const typed = sizeOf(pending.filter(one => one.characters));
    limits.changes = Math.max(limits.changes, replica.version + changes);
    limits.characters = Math.max(limits.characters, replica.characters.size - typed + characters);
    limits.marks = Math.max(limits.marks, replica.marks.length - pendingMarks + marks);
    return { changes, subscribers };
  }

  /** What a refusal means. */
  async reason({ number, message }) {
    if (!SHARES[number]) return WORDS[number] ?? `The hub answered ${message}.`;
    const { changes, subscribers } = await this.readLeft(), left = number === 50 ? changes : subscribers;
    return (left ? SHARES : WORDS)[number];
  }

  /** The hub's id, null where it tells none. */
  async idOfHub() {
    try {
      return (await this.session.ask("hub")).word;
    } catch (why) {
      if (why.number !== 60) throw why;
      return null;
    }
  }

  /** Whether the hub's change of the version taken last is the one taken. */
  async hasLast() {
    const { version } = this.replica;
    try {
      const { lines } = await this.session.ask(`changes ${Math.max(version - 1, 0)} 1`);
      return version === 0 || lines.join("\n") === this.last;
    } catch (why) {
      if (why.number === 60) throw new Stopped("The hub must be started with --read.");
      if (why.number !== 55) throw why;
      return false;
    }
  }

  async unusedNode() {
    for (;;) {
      const node = 1 + Math.floor(Math.random() * NODES);
      if ((await this.session.ask(`newest ${node}`)).number === 0) return node;
    }
  }

  async round() {
    for (let tries = 0; this.flight || this.isDue && this.groups.length; tries += 1) {
      if (tries > TRIES) throw new Stopped(WORDS[this.refusal]);
      if (await this.sendChange()) tries = 0;
    }
    this.isDue = false;
    const isNew = await this.follow();
    if (isNew) await this.readLeft();
    let isHit = false;
    for (const filter of this.filters) if (await this.pull(filter)) isHit = true;
    if (isNew) this.tell("version");
    if (isHit || isNew && this.filters.length) this.tell("hits");
  }

  /** Sends the next change. Returns whether it was accepted. */
  async sendChange() {
    this.flight ??= new Change(this.node, this.nextOperations());
    try {
      await this.session.ask(...this.flight.lines);
      this.accepted.push(this.flight);
      this.flight = null;
      return true;
    } catch (why) {
      if (!(why instanceof Refused)) throw why;
      await this.refused(why);
      return false;
    }
  }

  /** The operations of the next change: those of whole edits, or a part of one that is too long. */
  nextOperations() {
    const { groups } = this, operations = [];
    let room = OPERATIONS, meant = MEANT;
    const fits = group => sizeOf(group) <= room && group.reduce((sum, one) => sum + meantBy(one), 0) <= meant;
    while (groups.length && (room === OPERATIONS || fits(groups[0]))) {
      const [group] = groups;
      let count = 0;
      for (; count < group.length && fits([group[count]]); count += 1) {
        room -= countOf(group[count]);
        meant -= meantBy(group[count]);
      }
      operations.push(...group.splice(0, count));
      if (group.length) break;
      groups.shift();
    }
    return operations;
  }

  /** A change was refused: what can be done again behind what came is, with fresh ids. */
  async refused(why) {
    this.refusal = why.number;
    if (why.number === 45) {
      this.tell("notice", WORDS[45]);
      await this.rest(PAUSE, false);
      return;
    }
    // It may have been accepted, if an earlier session still sent it.
    if (why.number === 46 || why.number === 47) await this.follow();
    if (!this.flight) return;
    const step = this.flight.operations.findLast(({ parts, step }) => parts && step)?.step;
    this.land();
    if (why.number === 46 || why.number === 47) {
      this.again(() => {});
    } else if (why.number === 48 && step) {
      this.keep(step);
      this.again(() => this.leaveOut(one => one.step === step));
    } else if (why.number === 49) {
      this.again(() => this.leaveOut(({ mark }) => mark));
      this.tell("notice", WORDS[49]);
    } else {
      throw new Stopped(`${await this.reason(why)} What you did last isn't in the hub's text.`);
    }
  }

  /** Leaves operations out that aren't accepted. */
  leaveOut(isLeft) { this.groups = this.groups.map(group => group.filter(operation => !isLeft(operation))); }

  /** The text has no room for what an undo or redo puts back: it isn't done, and can be done again. */
  keep({ edit, back, from, to, at }) {
    if (to.includes(back)) {
      to.splice(to.indexOf(back), 1);
      from.splice(at, 0, edit);
    }
    const them = noun(back.shown.length, "character");
    this.tell("notice", `${them} can't be put back: the text is full. Try again once something is removed.`);
  }

  /** Puts the operations of the change that was sent back among those that aren't. */
  land() {
    if (this.flight) this.groups.unshift(this.flight.operations);
    this.flight = null;
  }

  /** Does something without this page's operations that aren't accepted, and then does them with fresh ids. */
  again(act, node = this.node) {
    for (const operation of this.groups.flat().reverse()) this.replica.detach(this.node, operation);
    this.node = node;
    act();
    this.groups = this.groups.map(group => group.filter(operation => this.isDoneAgain(operation)))
      .filter(group => group.length);
    this.tell("text", { isOwn: false });
  }

  isDoneAgain(operation) {
    try {
      return this.replica.attach(this.node, operation);
    } catch (why) {
      if (!(why instanceof Cannot)) throw why;
      this.tell("notice", why.message);
      return false;
    }
  }

  /** Takes all changes that aren't taken yet. Returns whether there were some. */
  async follow() {
    const { version } = this.replica;
    let isOthers = false;
    for (let count = AT_ONCE; count === AT_ONCE;) {
      const { lines, number } = await this.session.ask(`changes ${this.replica.version} ${AT_ONCE}`);
      for (const change of changesIn(lines)) if (await this.take(change)) isOthers = true;
      count = number;
    }
    if (isOthers) this.tell("text", { isOwn: false });
    return this.replica.version > version;
  }

  /** Takes a change. Returns whether it is another session's. */
  async take(change) {
    const own = [...this.accepted, this.flight][0], text = change.join("\n");
    const isOwn = own?.text === text, isInOurName = !isOwn && this.begun !== null && this.isOfNode(change);
    const node = isInOurName ? await this.unusedNode() : this.node;
    this.last = text;
    if (isOwn) {
      this.accepted.shift();
      if (own === this.flight) this.flight = null;
      this.replica.accept(own.operations);
    } else if (isInOurName) {
      // The change may have ids that this page has given: it goes on as another node.
      this.land();
      this.again(() => this.replica.take(change), node);
    } else {
      this.replica.take(change);
    }
    return !isOwn;
  }

  isOfNode([header]) { return Number(header.split(" ")[1]) === this.node; }

  // Filters.

  /** Subscribes a program, in hexadecimal, from the latest version on. */
  async subscribe(name, program) {
    if (!/^[0-9a-fA-F]{1,65536}$/.test(program)) throw new Cannot("a filter is a program in hexadecimal");
    if (this.state !== "connected") throw new Cannot("without the hub no filter can be subscribed");
    const filter = new Filter(name, program);
    try {
      await this.resume(filter);
    } catch (why) {
      if (why.number !== 51) throw why;
      throw new Cannot(await this.reason(why));
    }
    this.filters.push(filter);
    this.wake();
    return filter;
  }

  async resume(filter) {
    const { done, program } = filter;
    Object.assign(filter, { begun: [], isOver: false });
    try {
      const { number } = await this.session.ask(`sub2 ${ITEMS} ${program}${done === null ? "" : ` from ${done}`}`);
      filter.number = number;
    } catch (why) {
      if (!(why instanceof Refused) || done === null) throw why;
      filter.number = null;
      this.tell("notice", `${filter.name}: ${await this.reason(why)}`);
    }
  }

  /** Takes a filter away; it may be one whose items are just being taken. */
  async unsubscribe(filter) {
    const { number } = filter;
    this.filters = this.filters.filter(other => other !== filter);
    filter.number = null;
    this.tell("hits");
    try {
      if (number !== null) await this.session.ask(`close ${number}`);
    } catch (why) {
      if (!(why instanceof Lost)) throw why;   // it ended with its session
    }
  }

  /** Takes a filter's items, those of versions that aren't taken yet too, until the hub says that none comes any more.
   * Returns whether there were some. */
  async pull(filter) {
    let isNew = false;
    const isAwaited = () => filter.number !== null && !filter.isOver;
    for (let pulls = 0, count = ITEMS; isAwaited() && count === ITEMS && pulls < PULLS; pulls += 1) {
      const { lines, word } = await this.session.ask(`pull ${filter.number} ${ITEMS}`);
      const items = lines.flatMap(item => filter.hear(item));
      if (items.length) this.tell("items", { filter, items });
      if (lines.length) isNew = true;
      count = lines.length;
      if (word === "full" && isAwaited()) this.endFilter(filter);
    }
    this.place(filter);
    return isNew;
  }

  /** The hub is full, and the filter has all of its items. */
  endFilter(filter) {
    filter.isOver = true;
    this.tell("notice", `${filter.name}: the hub is full, so no more is found.`);
  }

  /** Finds the characters of a filter's hits in the version taken, once they are known. */
  place(filter) {
    const { version } = this.replica, hits = filter.hits.get(version);
    if (!hits || filter.shown === version) return;
    const spans = hits.length ? this.replica.spans(true) : NONE;
    Object.assign(filter, { shown: version, parts: hits.map(at => spans[at].characters) });
    filter.hits = new Map([...filter.hits].filter(([of]) => of >= version));
  }
}

/** The address of a hub's sessions, beside a page. */
export function sessionsOf(page) {
  const url = new URL("/session", page);
  url.protocol = url.protocol === "https:" ? "wss:" : "ws:";
  return url.href;
}
