// Translations of messages that are alike: what `office-memory` would suggest, found in the languages' texts that this page has.
// Two texts are as alike as msgmerge says: twice the length of what they have in common, in this order, by both lengths.

const LEAST = 0.6;
const MOST = 5;
const BUCKETS = 64;
const SLICE = 12;

const USEFUL = new Set(["translated", "approved", "obsolete"]);

const isUseful = ({ state, forms }) => USEFUL.has(state) && forms.every((form) => form !== "");

function bucketsOf(text) {
  const counts = new Uint16Array(BUCKETS);
  for (let at = 0; at < text.length; at += 1) counts[text.charCodeAt(at) % BUCKETS] += 1;
  return counts;
}

// No less than what both texts have in common.
function commonAtMost(one, other) {
  let sum = 0;
  for (let at = 0; at < BUCKETS; at += 1) sum += Math.min(one[at], other[at]);
  return sum;
}

// How many characters have to go out and come in to make one text of the other (Myers' greedy algorithm); null above `most`.
function editsBetween(one, other, most) {
  const reached = new Int32Array(2 * most + 3);
  const middle = most + 1;
  for (let edits = 0; edits <= most; edits += 1) {
    for (let line = -edits; line <= edits; line += 2) {
      const down = line === -edits || (line !== edits && reached[middle + line - 1] < reached[middle + line + 1]);
      let x = down ? reached[middle + line + 1] : reached[middle + line - 1] + 1;
      while (x < one.length && x - line < other.length && one.charCodeAt(x) === other.charCodeAt(x - line)) x += 1;
      reached[middle + line] = x;
      if (x >= one.length && x - line >= other.length) return edits;
    }
  }
  return null;
}

// From 0 to 1; 0 where it is less than `least`.
export function likeness(one, other, least = LEAST) {
  const both = one.length + other.length;
  if (both === 0) return 1;
  const edits = editsBetween(one, other, Math.floor((1 - least) * both + 1e-9));
  return edits === null ? 0 : (both - edits) / both;
}

export class Memory {
  #buckets = new WeakMap();

  #of(entry) {
    if (!this.#buckets.has(entry)) this.#buckets.set(entry, bucketsOf(entry.id));
    return this.#buckets.get(entry);
  }

  // The translations that are most alike, the best first, in slices that leave the page its time; null where `isWanted` isn't so any more.
  async find(message, catalogues, isWanted) {
    const own = bucketsOf(message.id);
    const best = [];
    let began = performance.now();
    for (const catalogue of catalogues) {
      for (const entry of catalogue.entries) {
        if (performance.now() - began > SLICE) {
          await new Promise((go) => setTimeout(go));
          began = performance.now();
          if (!isWanted()) return null;
        }
        if (isUseful(entry) && !isItself(entry, message)) this.#weigh(message.id, own, entry, best);
      }
    }
    return best;
  }

  #weigh(id, own, entry, best) {
    const least = best.length < MOST ? LEAST : best.at(-1).likeness;
    const both = id.length + entry.id.length;
    if (2 * Math.min(id.length, entry.id.length) < least * both) return;
    if (2 * commonAtMost(own, this.#of(entry)) < least * both) return;
    const found = likeness(id, entry.id, least);
    if (found === 0 || best.some((it) => it.entry.id === entry.id && it.entry.forms[0] === entry.forms[0])) return;
    best.push({ entry, likeness: found });
    best.sort((one, other) => other.likeness - one.likeness);
    if (best.length > MOST) best.pop();
  }
}

const isItself = (entry, { domain, id, ctx }) => entry.domain === domain && entry.id === id && entry.ctx === ctx;
