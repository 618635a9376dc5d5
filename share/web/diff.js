// What is another in a text than in one before, by words.

import { el } from "./dom.js";

const TOKENS = /\s+|[\p{L}\p{M}\p{N}_]+|[^\s\p{L}\p{M}\p{N}_]/gu;
const MOST_CELLS = 1_000_000;

// Pieces { kind: "same" | "out" | "in", text }.
export function changes(before, now) {
  const [old, fresh] = [before.match(TOKENS) ?? [], now.match(TOKENS) ?? []];
  let start = 0;
  while (start < old.length && start < fresh.length && old[start] === fresh[start]) start += 1;
  let end = 0;
  while (end < old.length - start && end < fresh.length - start && old.at(-1 - end) === fresh.at(-1 - end)) end += 1;
  const inner = between(old.slice(start, old.length - end), fresh.slice(start, fresh.length - end));
  const same = (words) => words.map((text) => ({ kind: "same", text }));
  return joined([...same(old.slice(0, start)), ...inner, ...same(old.slice(old.length - end))]);
}

function between(old, fresh) {
  if (old.length * fresh.length > MOST_CELLS) return [{ kind: "out", text: old.join("") }, { kind: "in", text: fresh.join("") }];
  const longest = commonLengths(old, fresh);
  const pieces = [];
  let [i, j] = [0, 0];
  while (i < old.length || j < fresh.length) {
    if (i < old.length && j < fresh.length && old[i] === fresh[j]) {
      pieces.push({ kind: "same", text: old[i] });
      i += 1;
      j += 1;
    } else if (j === fresh.length || (i < old.length && longest[i + 1][j] >= longest[i][j + 1])) {
      pieces.push({ kind: "out", text: old[i] });
      i += 1;
    } else {
      pieces.push({ kind: "in", text: fresh[j] });
      j += 1;
    }
  }
  return pieces;
}

// Of the rests of both from i and j the length of the longest list that both have in this order.
function commonLengths(old, fresh) {
  const longest = Array.from({ length: old.length + 1 }, () => new Uint16Array(fresh.length + 1));
  for (let i = old.length - 1; i >= 0; i -= 1) {
    for (let j = fresh.length - 1; j >= 0; j -= 1) {
      longest[i][j] = old[i] === fresh[j] ? longest[i + 1][j + 1] + 1 : Math.max(longest[i + 1][j], longest[i][j + 1]);
    }
  }
  return longest;
}

// Neighbours of one kind in one piece; what comes in stands behind what goes out.
function joined(pieces) {
  const found = [];
  for (const { kind, text } of pieces) {
    if (found.at(-1)?.kind === kind) found.at(-1).text += text;
    else found.push({ kind, text });
  }
  return found;
}

// A paragraph with both texts, what went out and what came in marked.
export function changesShown(before, now, properties = {}) {
  const tags = { out: "del", in: "ins" };
  const children = changes(before, now).map(({ kind, text }) => (kind === "same" ? text : el(tags[kind], {}, text)));
  return el("p", { dir: "auto", ...properties, className: `text changes ${properties.className ?? ""}` }, ...children);
}
