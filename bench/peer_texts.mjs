// The rows of peer_texts.c by yjs: node --single-threaded peer_texts.mjs ROW prints the microseconds of processor time that it takes. An
// update is one transaction of another replica, applied from its bytes; the version of a text is what toDelta says of it.
import { createRequire } from "node:module";

const [wanted] = process.argv.slice(2);
const Y = createRequire(import.meta.url)("yjs");
const RUNS = 9;
const EDITS = 512;
const OF_AN_EDIT = 8;
const CHARACTERS = 32768;
const MARKS = 4096;
const MARKS_MORE = 64;
const KEYS = 1024;

function now() {
  const { user, system } = process.cpuUsage();
  return user + system;
}

/** The updates of a replica that makes these edits, each in a transaction. */
class Author {
  constructor() {
    this.document = new Y.Doc();
    this.document.clientID = 1;
    this.text = this.document.getText("text");
    this.updates = [];
    this.document.on("update", (update) => this.updates.push(update));
  }

  edit(change) {
    this.document.transact(() => change(this.text));
  }

  type(characters, each) {
    for (let typed = 0; typed < characters; typed += each) {
      this.edit((text) => text.insert(text.length, letters(each)));
    }
  }
}

function letters(count) {
  return Array.from({ length: count }, (_, at) => String.fromCharCode(97 + (at % 26))).join("");
}

function replica(updates) {
  const document = new Y.Doc();
  document.clientID = 2;
  const text = document.getText("text");
  for (const update of updates) {
    Y.applyUpdate(document, update);
  }
  return { document, text };
}

/** The least time of applying the updates behind the first `base`, followed by a version each or not. */
function timeOf(updates, base, followed) {
  let least = Infinity;
  for (let run = 0; run < RUNS; run++) {
    const { document, text } = replica(updates.slice(0, base));
    const start = now();
    for (const update of updates.slice(base)) {
      Y.applyUpdate(document, update);
      if (followed) text.toDelta();
    }
    least = Math.min(least, now() - start);
  }
  return least;
}

function changesOf8(place) {
  const author = new Author();
  for (let change = 0; change < CHARACTERS / OF_AN_EDIT; change++) {
    author.edit((text) => text.insert(place(text), letters(OF_AN_EDIT)));
  }
  return author.updates;
}

const atTheEnd = () => changesOf8((text) => text.length);
const atTheFront = () => changesOf8(() => 0);

function anAppend() {
  const author = new Author();
  author.type(28672, 256);
  const base = author.updates.length;
  author.type(EDITS * OF_AN_EDIT, OF_AN_EDIT);
  return timeOf(author.updates, base, true) / EDITS;
}

function aRemoval() {
  const author = new Author();
  author.type(CHARACTERS, 256);
  const base = author.updates.length;
  for (let edit = 0; edit < EDITS; edit++) {
    author.edit((text) => text.delete((64 - OF_AN_EDIT) * edit, OF_AN_EDIT));
  }
  return timeOf(author.updates, base, true) / EDITS;
}

/** The same numbers as peer_texts.c takes. */
function* numbers() {
  let state = 7;
  for (;;) {
    state = (Math.imul(state, 1664525) + 1013904223) >>> 0;
    yield state >>> 8;
  }
}

function marked(count, longest, ofAChange, author = new Author()) {
  author.type(CHARACTERS, 256);
  const base = author.updates.length;
  const random = numbers();
  const next = () => random.next().value;
  for (let done = 0; done < count; done += ofAChange) {
    author.edit((text) => {
      for (let turn = done; turn < done + ofAChange; turn++) {
        const comment = { [`comment:${1 + (Math.floor(turn / 5) % 8)}`]: true };
        const kinds = [{ strong: true }, { em: true }, { link: "https://example.org/a" }, { color: "3366cc" }, comment];
        const from = next() % (CHARACTERS - KEYS - longest - 1);
        text.format(from, 1 + (next() % longest), kinds[turn % 5]);
      }
    });
  }
  return { updates: author.updates, base };
}

function aMarkMore(length) {
  const author = new Author();
  marked(MARKS - 256, 200, 256, author);
  const base = author.updates.length;
  for (let mark = 0; mark < MARKS_MORE; mark++) {
    const from = length === CHARACTERS ? 0 : 500 * mark;
    author.edit((text) => text.format(from, length, mark % 2 ? { em: true } : { strong: true }));
  }
  return timeOf(author.updates, base, true) / (author.updates.length - base);
}

/** One update, since here a paste is one insert; its version is the last one's alone. */
function aPaste() {
  const author = new Author();
  author.edit((text) => text.insert(0, letters(CHARACTERS)));
  return timeOf(author.updates, 0, true);
}

function aMark() {
  const { updates, base } = marked(EDITS, 200, 1);
  return timeOf(updates, base, true) / EDITS;
}

function versionOf(count, longest, rounds) {
  const { text } = replica(marked(count, longest, 256).updates);
  let least = Infinity;
  for (let run = 0; run < RUNS; run++) {
    const start = now();
    for (let round = 0; round < rounds; round++) text.toDelta();
    least = Math.min(least, (now() - start) / rounds);
  }
  return least;
}

const rows = {
  appends: () => timeOf(atTheEnd(), 0, false),
  appends_followed: () => timeOf(atTheEnd(), 0, true),
  at_the_front: () => timeOf(atTheFront(), 0, false),
  at_the_front_followed: () => timeOf(atTheFront(), 0, true),
  an_append: anAppend,
  a_removal: aRemoval,
  a_mark: aMark,
  a_mark_of_200: () => aMarkMore(200),
  a_mark_over_all: () => aMarkMore(CHARACTERS),
  a_paste: aPaste,
  version_plain: () => versionOf(0, 0, 2000),
  version_short_marks: () => versionOf(4096, 200, 16),
  version_long_marks: () => versionOf(4096, 4000, 16),
  version_longest_marks: () => versionOf(4096, 16384, 16),
};
console.log(rows[wanted]().toFixed(3));
