// Keeps what is typed in a page, or put back by an undo, until the hub has it: also over a reload, a closed tab and an end
// of the browser. What a page left behind is shown to the writer, until that is copied or thrown away.
//
// The browser keeps it (IndexedDB, under the page's address): a record for each page, of the characters that the hub
// hasn't acknowledged, with their ids and the time. A record goes when the hub has its characters, also under their ids
// in a hub that goes on with the same text, and when its writer has copied or discarded it; else it stays.

const DATABASE = "hub", RECORDS = "unsent";

/** What a request of the database gives. */
function given(request) {
  return new Promise((resolve, reject) => {
    request.onsuccess = () => resolve(request.result);
    request.onerror = () => reject(request.error);
  });
}

/** Some browsers have no database, or refuse it. */
async function opened() {
  const request = indexedDB.open(DATABASE, 1);
  request.onupgradeneeded = () => request.result.createObjectStore(RECORDS, { keyPath: "page" });
  return given(request);
}

/** The text of a record, each of its pieces on lines of its own. */
export function textOfRecord({ pieces }) {
  return pieces.map(runs => runs.map(({ text }) => text).join("")).join("\n");
}

/** How many characters a record has. */
export function countOf({ pieces }) {
  return pieces.flat().reduce((sum, { text }) => sum + Array.from(text).length, 0);
}

/** The records of a hub's pages. Events: `records`, where others than before are to be shown; `failed`, with why, where
 * the browser keeps nothing. */
export class Unsent extends EventTarget {
  constructor(hub) {
    super();
    // No other page has the same name, and one that is open holds a lock of that name.
    const page = Array.from(crypto.getRandomValues(new Uint32Array(4)), word => word.toString(36)).join("-");
    Object.assign(this, { hub, page, records: [], isDue: false, isKeeping: false, isKept: false, isOver: false });
    Object.assign(this, { isLooked: false, isShown: false, isFailed: false });
    navigator.locks?.request(this.lockOf(page), () => new Promise(() => {}));
    this.database = opened();
    this.database.catch(why => this.fail(why));
    for (const type of ["edited", "text", "version", "state"]) hub.addEventListener(type, () => this.keep());
    hub.addEventListener("state", () => this.look());
  }

  lockOf(page) { return `${DATABASE} ${RECORDS} ${page}`; }

  /** Tells the first failure. */
  fail(why) {
    if (!this.isFailed) this.dispatchEvent(new CustomEvent("failed", { detail: why.message }));
    this.isFailed = true;
  }

  async store(mode = "readwrite") {
    return (await this.database).transaction(RECORDS, mode).objectStore(RECORDS);
  }

  /** The record of this page, null where all is sent. */
  get own() {
    const { hub: { url, unsent: pieces }, page } = this;
    return pieces.length ? { page, url, pieces, time: Date.now() } : null;
  }

  /** Keeps what isn't sent now; what changes while that is done is kept behind it. */
  async keep() {
    this.isDue = !this.isOver;
    if (this.isKeeping) return;
    this.isKeeping = true;
    try {
      while (this.isDue) {
        this.isDue = false;
        const { own } = this;
        if (own) await given((await this.store()).put(own));
        else if (this.isKept) await given((await this.store()).delete(this.page));
        this.isKept = own !== null;
      }
    } catch (why) {
      this.fail(why);
    }
    this.isKeeping = false;
  }

  /** Looks for what is to be shown: when the hub's text is known first, what pages that are gone left behind; when this
   * page can't send any more, its own. */
  async look() {
    const { hub, own } = this;
    if (hub.state === "stopped" && own) this.show([...this.records, own]);
    if (hub.state !== "connected" || this.isLooked) return;
    this.isLooked = true;
    try {
      const kept = await given((await this.store("readonly")).getAll());
      for (const { page, url } of kept)
        if (url === hub.url && page !== this.page) this.whenGone(page).catch(why => this.fail(why));
      this.show(this.records);
    } catch (why) {
      this.fail(why);
    }
  }

  show(records) {
    Object.assign(this, { records, isShown: true });
    this.dispatchEvent(new CustomEvent("records"));
  }

  /** Shows what another page left behind, once it is gone. Only pages of https and of this machine have locks; elsewhere
   * it is shown at once. */
  async whenGone(page) {
    const show = () => this.showLeft(page);
    await (navigator.locks ? navigator.locks.request(this.lockOf(page), show) : show());
  }

  async showLeft(page) {
    const record = await given((await this.store("readonly")).get(page));
    if (!record) return;
    const pieces = record.pieces.map(runs => runs.map(run => this.missing(run)).filter(({ text }) => text))
      .filter(runs => runs.length);
    if (pieces.length) this.show([...this.records, { ...record, pieces }]);
    else await this.forget(record);
  }

  /** What of a run the hub's text doesn't have: of what was put back, what isn't visible. */
  missing({ node, counter, text, isBack }) {
    const { characters } = this.hub.replica;
    const isIn = (one, at) => {
      const found = characters.get(`${counter + at}@${node}`);
      return found?.text === one && (found.isVisible || !isBack);
    };
    return { text: Array.from(text).filter((one, at) => !isIn(one, at)).join("") };
  }

  /** Keeps a record no longer: its writer has it, or doesn't want it. */
  async forget({ page }) {
    if (page === this.page) this.isOver = true;
    await given((await this.store()).delete(page));
  }

  async discard(record) {
    this.show(this.records.filter(other => other !== record));
    await this.forget(record);
  }
}
