// Removals of characters, and what takes them back: by ids in a row, since many have such (docs/CHANGE_FORMAT.md).

export const OPERATIONS = 256, MEANT = 262144, LONGEST_RUN = 65535, NONE = Object.freeze([]);
export const ACCEPTED = 1, HERE = 2;

/** Removals of one node with counters in a row, by places: which character each removed, and whether it is taken back, by
 * an accepted change or by one of this page that isn't known to be accepted. */
export class Removals {
  constructor(characters, counter = 0, node = 0) {
    Object.assign(this, { characters, counter, node, isPending: false, back: null, left: characters.length });
  }

  get end() { return this.counter + this.characters.length; }

  /** Whether there is a removal at a place: there is none of what couldn't be typed again, nor while it is detached. */
  isIn(at) { return this.counter > 0 && this.characters[at].isIn; }

  isTakenBack(at, kinds = ACCEPTED | HERE) { return this.back !== null && (this.back[at] & kinds) !== 0; }

  /** Notes whether a removal is taken back in one of the two ways. */
  note(at, kind, isSet) {
    this.back ??= new Uint8Array(this.characters.length);
    this.back[at] = isSet ? this.back[at] | kind : this.back[at] & ~kind;
  }
}

/** A part of such removals: those at `count` places from `first` on. */
export class Part {
  constructor(removals, first) { Object.assign(this, { removals, first, count: 1 }); }

  get end() { return this.first + this.count; }

  /** The counter of its last removal. */
  get counter() { return this.removals.counter + this.end - 1; }

  /** How many lines take it back at most: one more for each character that isn't accepted, since that may be lost. */
  get most() {
    const { removals: { isPending, characters }, first, end, count } = this;
    return isPending ? Math.min(1 + characters.slice(first, end).filter(one => one.isPending).length, count) : 1;
  }
}

/** The removals of parts, each with its place. */
export function * removalsIn(parts) {
  for (const { removals, first, end } of parts)
    for (let at = first; at < end; at += 1) yield [removals, at];
}

/** Operations of one letter with counters in a row, one for each id that is named (null: none), as runs of ids in a row. */
export function runsOf(letter, counter, named) {
  const runs = [];
  named.forEach((one, at) => {
    if (one === null) return;
    const last = runs.at(-1), { counter: number, node } = one;
    const isNext = last && last.count < LONGEST_RUN && last.counter + last.count === counter + at &&
      last.first.node === node && last.first.counter + last.count === number;
    if (isNext) last.count += 1;
    else runs.push({ letter, counter: counter + at, first: { counter: number, node }, count: 1 });
  });
  return runs;
}

/** Whether a run goes on in another one, and is no longer than a line with it. */
export function isNext({ letter, counter, first, count }, next) {
  return letter === next.letter && counter + count === next.counter && first.node === next.first.node &&
    first.counter + count === next.first.counter && count + next.count <= LONGEST_RUN;
}

/** Characters in groups with ids in a row, those with the greatest counters first. What isn't accepted may get other ids:
 * it is in groups of its own, of no more than a change may have lines. */
export function inGroups(characters) {
  const groups = [], most = one => one.isPending ? OPERATIONS : LONGEST_RUN;
  for (const one of characters.toSorted((one, other) => one.node - other.node || one.counter - other.counter)) {
    const group = groups.at(-1), { node, counter, isPending } = group?.at(-1) ?? {};
    const isLike = node === one.node && counter + 1 === one.counter && isPending === one.isPending;
    if (isLike && group.length < most(one)) group.push(one); else groups.push([one]);
  }
  return groups.sort((some, others) => others.at(-1).counter - some.at(-1).counter);
}

/** Lists items in batches, none of which is longer than a run or may take more lines than a change has. */
export function inBatches(items, mostOf, lengthOf) {
  const batches = [];
  let lines = OPERATIONS, length = 0;
  for (const item of items) {
    lines += mostOf(item);
    length += lengthOf(item);
    if (lines > OPERATIONS || length > LONGEST_RUN) {
      batches.push([]);
      [lines, length] = [mostOf(item), lengthOf(item)];
    }
    batches.at(-1).push(item);
  }
  return batches;
}
