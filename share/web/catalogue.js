// The messages of a language: as an export tells them, and what is told beyond that, which are approvals and suggestions: by the
// snapshot that lies beside the page, and by the office's views of single units. Findings of other tools lie beside the page too.

import { mark } from "./i18n.js";
import { numbersOfForms } from "./plural.js";
import { readPo, stateOf } from "./po.js";

const isCurrent = (entry) => entry.state !== "obsolete";
const isDone = (entry) => entry.state === "translated" || entry.state === "approved";
const isApproved = (entry) => entry.state === "approved";

// What the list can show. `asks` says of which messages more has to be known than an export tells before `has` can tell.
export const FILTERS = {
  all: { text: mark("all"), has: isCurrent },
  todo: { text: mark("to do"), has: (it) => it.state === "untranslated" || it.state === "needs-editing" },
  untranslated: { text: mark("untranslated"), has: (it) => it.state === "untranslated" },
  "needs-editing": { text: mark("needs editing"), has: (it) => it.state === "needs-editing" },
  done: { text: mark("translated or approved"), has: isDone },
  suggestions: { text: mark("with suggestions"), asks: isCurrent, has: (it) => isCurrent(it) && it.suggestions > 0 },
  review: { text: mark("to review"), asks: isDone, has: (it) => it.state === "translated" && it.known },
  approved: { text: mark("approved"), asks: isDone, has: isApproved },
  findings: { text: mark("with findings of checks"), has: (it) => isCurrent(it) && it.findings.length > 0 },
  "read-only": { text: mark("read-only"), has: (it) => it.state === "read-only" },
  obsolete: { text: mark("obsolete"), has: (it) => it.state === "obsolete" },
};

const keyOf = ({ id, ctx }) => (ctx === null ? id : `${ctx}\u0004${id}`);

// In lower case and without accents, as a search compares.
const folded = (text) => text.normalize("NFD").replace(/\p{M}/gu, "").toLocaleLowerCase();

export class Catalogue {
  #byKey;
  // When the snapshot was made, and when the checks, in milliseconds; null where there are none.
  seen = null;
  checked = null;
  headerFindings = [];

  constructor({ domain, lang }, text) {
    const { header, entries } = readPo(text);
    this.domain = domain;
    this.lang = lang;
    this.text = text;
    const more = { domain, lang, revision: 0, viewed: 0, suggestions: 0, known: false, folded: null };
    this.entries = entries.map((entry, at) => ({ ...entry, ...more, at, state: stateOf(entry), findings: [] }));
    this.numbers = numbersOfForms(header);
    this.#byKey = new Map(this.entries.map((entry) => [keyOf(entry), entry]));
  }

  isOf({ domain, lang }) {
    return this.domain === domain && this.lang === lang;
  }

  entryOf(unit) {
    return this.#byKey.get(keyOf(unit)) ?? null;
  }

  // Takes what the office says of a unit now.
  learn(view) {
    const entry = this.entryOf(view);
    if (!entry) return null;
    const { forms, revision, suggestions } = view;
    const state = view.obsolete ? "obsolete" : view.state;
    const told = { forms, revision, state, suggestions: suggestions.length };
    return Object.assign(entry, { ...told, viewed: Date.now(), known: true, folded: null });
  }

  // Takes the snapshot: of each message that has suggestions or is approved its revision, its state and their number. What the
  // office has told of a message since stands.
  take(snapshot) {
    const made = Date.parse(snapshot?.made);
    if (Number.isNaN(made) || !Array.isArray(snapshot.units)) return;
    this.seen = made;
    const told = new Map(snapshot.units.map((unit) => [keyOf({ id: unit.id, ctx: unit.context ?? null }), unit]));
    for (const entry of this.entries) {
      const unit = told.get(keyOf(entry));
      if (entry.viewed > made || (unit && entry.revision > unit.revision)) continue;
      const isNow = unit?.state === "approved" ? "approved" : "translated";
      Object.assign(entry, { known: true, suggestions: unit?.suggestions ?? 0, state: isDone(entry) ? isNow : entry.state });
    }
  }

  // Takes what other tools found in the language's text.
  check(report) {
    const made = Date.parse(report?.made);
    if (Number.isNaN(made) || !Array.isArray(report.findings)) return;
    this.checked = made;
    for (const finding of report.findings) this.#findingsOf(finding)?.push(finding);
  }

  // The header is named by an empty text.
  #findingsOf({ id, context = null }) {
    return id === "" && context === null ? this.headerFindings : this.entryOf({ id, ctx: context })?.findings;
  }

  // The messages that the office has to be asked of before the filter can tell.
  unknown(filter) {
    const asks = FILTERS[filter].asks ?? (() => false);
    return this.entries.filter((entry) => !entry.known && asks(entry));
  }

  // `words` are looked for in the message, its context and places, and its translations.
  matching(filter, words) {
    const wanted = folded(words.trim());
    const { has } = FILTERS[filter];
    return this.entries.filter((entry) => has(entry) && (wanted === "" || textOf(entry).includes(wanted)));
  }
}

function textOf(entry) {
  const { ctx, id, plural, forms, references, extracted } = entry;
  entry.folded ??= folded([ctx ?? "", id, plural ?? "", ...forms, ...references, ...extracted].join("\n"));
  return entry.folded;
}
