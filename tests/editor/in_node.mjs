// Three clients of one hub in a program of node: in_node.mjs HUB.JS URL SEED STEPS
// Each edits, undoes and redoes at random, at times without the network or without hearing that a change was accepted. Once all
// have the same version it prints the lines of each, and what each said, as JSON.
const [client, url, seed, steps] = process.argv.slice(2);
const { Cannot, Hub, KEYS } = await import(client);
const { WebSocket } = globalThis, events = new EventTarget(), nets = [0, 1, 2].map(() => ({ isOff: false }));
for (const name of ["addEventListener", "removeEventListener"]) globalThis[name] = (...words) => events[name](...words);
const pause = time => new Promise(resolve => setTimeout(resolve, time));

function random(state) {
  return () => {
    state = (state + 0x6d2b79f5) | 0;
    let value = Math.imul(state ^ (state >>> 15), 1 | state);
    value = (value + Math.imul(value ^ (value >>> 7), 61 | value)) ^ value;
    return ((value ^ (value >>> 14)) >>> 0) / 4294967296;
  };
}

const next = random(Number(seed)), pick = list => list[Math.floor(next() * list.length)], isDeaf = next() < 0.5;

/** A connection over a network that can be off, and that may lose the reply to a change. */
globalThis.WebSocket = class {
  constructor(address) {
    const [real, number] = address.split("#");
    Object.assign(this, { net: nets[number], OPEN: 1, isOver: false });
    if (this.net.isOff) return void setTimeout(() => this.close());
    this.socket = new WebSocket(real);
    this.socket.onopen = () => this.onopen();
    this.socket.onclose = () => this.close();
    this.socket.onmessage = ({ data }) => { if (!this.net.isOff) this.onmessage({ data }); };
  }

  get readyState() { return this.socket?.readyState ?? 3; }

  send(text) {
    if (this.net.isOff) return void this.close();
    this.socket.send(text);
    if (isDeaf && /^change[23]? /.test(text) && next() < 0.05) this.close();
  }

  close() {
    if (this.isOver) return;
    this.isOver = true;
    this.socket?.close();
    setTimeout(() => this.onclose?.());
  }
};

const hubs = nets.map((_, at) => new Hub(`${url}#${at}`, { node: at + 1 })), said = [];
for (const hub of hubs) hub.addEventListener("notice", ({ detail }) => said.push(detail));
await Promise.all(hubs.map(hub => new Promise(resolve => hub.addEventListener("version", resolve, { once: true }))));

const VALUES = { link: "https://a.b/", color: "b42318", block: "task:0:open" };

function change(hub) {
  const { visible, root } = hub.replica, kind = next(), at = Math.floor(next() * (visible.length + 1));
  const end = Math.min(visible.length, at + 1 + Math.floor(next() * 12)), behind = at ? visible[at - 1] : root;
  const key = pick([...KEYS.keys(), "comment:3"]), value = VALUES[key] ?? "-";
  if (kind < 0.33) hub.edit(edit => edit.insert(behind, pick(["a", "bc", "def ghi ", "\u{1f600}", "\n", "x".repeat(300)])));
  else if (kind < 0.48) hub.edit(edit => edit.remove(visible.slice(at, end)));
  else if (kind < 0.52) hub.edit(edit => edit.remove(visible));
  else if (kind < 0.58) hub.edit(edit => { edit.remove(visible.slice(at, end)); edit.insert(behind, "pasted"); });
  else if (kind < 0.66 && at < end) hub.edit(edit => edit.mark(visible[at], visible[end - 1], key, next() < 0.3 ? null : value));
  else if (kind < 0.88) hub.undo();
  else hub.redo();
}

for (let step = 0; step < Number(steps); step += 1) {
  const hub = pick(hubs), net = nets[hubs.indexOf(hub)];
  if (next() < 0.06) {
    net.isOff = !net.isOff;
    if (net.isOff) hub.session?.socket.close();
  }
  if (next() < 0.1) events.dispatchEvent(new Event("online"));
  try { change(hub); } catch (why) { if (!(why instanceof Cannot)) throw why; }
  if (next() < 0.3) hub.send();
  if (next() < 0.2) await pause(Math.floor(next() * 30));
}

const isLevel = hub => hub.state === "stopped" || hub.state === "connected" && !hub.waiting && !hub.pending.length;
for (const net of nets) net.isOff = false;
while (!hubs.every(isLevel) || new Set(hubs.map(hub => hub.replica.version)).size > 1) {
  for (const hub of hubs) hub.send();
  events.dispatchEvent(new Event("online"));
  await pause(20);
}

/** Whether what a client keeps of removals is what it counts of its characters. */
function isSound({ replica: { order, removals, root } }) {
  let kept = 0;
  for (const one of [...removals.values()].flat())
    kept += one.characters.filter((_, at) => !one.isTakenBack(at)).length;
  const counted = order.filter(one => one !== root);
  return counted.every(one => one.removals === one.acceptedRemovals) && kept === counted.reduce((sum, one) => sum + one.removals, 0);
}

const told = hubs.map(hub => ({ lines: hub.replica.lines(), version: hub.replica.version, why: hub.why, isSound: isSound(hub) }));
console.log(JSON.stringify({ told, said }));
process.exit();
