// Hands changes to replicas of examples/js/replica.js, and tells what they show. Its input is that of
// replicas/src/main.rs, where no message comes before its causes. A replica doesn't drop a change that comes again,
// since a hub hands each on once; so what its newest counters cover isn't handed to it.
import { readFileSync } from "node:fs";
import { Replica } from "../../examples/js/replica.js";

const lines = readFileSync(0, "utf8").split("\n"), told = [];
let replica = null, fault = null;

/** Does something with the replica; once that fails, each look tells so. */
function tried(act) {
  try {
    if (!fault) act();
  } catch (why) {
    fault = why;
  }
}

function look() {
  let shown = [];
  tried(() => { shown = replica.lines().map(line => line.slice("span ".length)); });
  if (fault) told.push(`fails: ${fault}`, "accepted 0");
  else told.push(...shown, `accepted ${replica.version}`);
}

function hand(change) {
  const [counter, node] = change[1].split(" ")[1].split("@").map(Number);
  if (counter > (replica.newest.get(node) ?? 0)) tried(() => replica.take(change));
}

for (let at = 0; at < lines.length - 1; at += 1) {
  if (lines[at] === "replica") {
    [replica, fault] = [new Replica(), null];
  } else if (lines[at] === "look") {
    look();
  } else {
    const last = at + 1 + Number(lines[at + 1].split(" ")[2]);
    hand(lines.slice(at + 1, last + 1));
    at = last;
  }
}
process.stdout.write(told.map(line => line + "\n").join(""));
