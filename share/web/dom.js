// Elements of the page. Text becomes text nodes alone: no catalogue's or caller's text is ever read as HTML.

const isAttribute = (name) => name === "role" || name.startsWith("aria-") || name.startsWith("data-");

export function el(tag, properties = {}, ...children) {
  const element = document.createElement(tag);
  for (const [name, value] of Object.entries(properties)) {
    if (isAttribute(name)) element.setAttribute(name, value);
    else element[name] = value;
  }
  element.append(...children);
  return element;
}

export const byId = (id) => document.getElementById(id);

export function button(id, text, onclick, properties = {}) {
  return el("button", { id, type: "button", onclick, ...properties }, text);
}

// A text with its line ends made visible and its placeholders marked, set apart from what stands around it, whichever way it runs.
export function shown(text, properties = {}, placeholders = []) {
  const className = `text ${properties.className ?? ""}`;
  return el("p", { dir: "auto", ...properties, className }, ...marked(text, placeholders, withLineEnds));
}

// A text in pieces, with an element of its own for each of these words { word, at }; `rest` says what becomes of the others.
export function marked(text, words, rest = (piece) => [piece]) {
  const pieces = [];
  let from = 0;
  for (const { word, at } of words) {
    if (at < from) continue;
    pieces.push(...rest(text.slice(from, at)), el("mark", {}, word));
    from = at + word.length;
  }
  return [...pieces, ...rest(text.slice(from))];
}

function withLineEnds(text) {
  const lines = text.split("\n");
  return lines.flatMap((line, at) => (at === lines.length - 1 ? [line] : [line, lineEnd(), "\n"]));
}

function lineEnd() {
  return el("span", { className: "line-end", "aria-hidden": "true" }, "↵");
}

// Draws a part of the page anew and leaves the keyboard where it was, if that element is still there.
export function redraw(root, children) {
  const active = root.contains(document.activeElement) ? document.activeElement : null;
  const selection = active?.tagName === "TEXTAREA" ? [active.selectionStart, active.selectionEnd] : null;
  root.replaceChildren(...children);
  if (!active) return;
  const again = active.id ? byId(active.id) : null;
  (again ?? root.querySelector("h2"))?.focus({ preventScroll: again !== null });
  if (again && selection) again.setSelectionRange(...selection);
}
