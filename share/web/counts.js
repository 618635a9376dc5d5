// How far a language is.

import { el } from "./dom.js";
import { mark, numberText, t } from "./i18n.js";
import { STATES } from "./words.js";

// A language is done when no message is left to translate or to edit; read-only messages don't count.
export function progressOf(counts) {
  const done = counts.translated + counts.approved;
  const all = done + counts["needs-editing"] + counts.untranslated;
  const percent = all === 0 ? 100 : Math.floor((100 * done) / all);
  return { done, all, percent };
}

const PARTS = { ...STATES, suggestions: mark("suggestions") };

// A bar with its label, and the counts that aren't 0.
export function countsShown(counts, name) {
  const { done, all, percent } = progressOf(counts);
  const parts = Object.entries(PARTS).filter(([key]) => counts[key] > 0);
  const words = parts.map(([key, text]) => `${t(text)}: ${numberText(counts[key])}`);
  const label = t("{language}: {percent} % translated", { language: name, percent });
  return [
    el("progress", { max: Math.max(all, 1), value: all === 0 ? 1 : done, "aria-label": label }),
    el("span", { className: "percent" }, `${percent} %`),
    el("span", { className: "counts" }, words.join(", ") || t("no messages")),
  ];
}
