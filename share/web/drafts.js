// Texts that were typed and aren't in the office: kept in the browser for each caller and message until they are, or are dropped.

import { MAIN } from "./routes.js";

const keyOf = ({ id, ctx }) => (ctx === null ? id : `${ctx}\u0004${id}`);

// The message that an act is about; null of an act on the office.
export const nameIn = ({ domain = MAIN, lang, id, ctx = null }) => (id === undefined ? null : { domain, lang, id, ctx });

// The fields of an act that name a message.
export function namedIn({ domain, lang, id, ctx }) {
  return { ...(domain === MAIN ? {} : { domain }), lang, id, ...(ctx === null ? {} : { ctx }) };
}

export const isSame = (one, other) => one.domain === other.domain && one.lang === other.lang && keyOf(one) === keyOf(other);

export class Drafts {
  #store;
  #prefix;

  constructor(store, prefix, caller) {
    this.#store = store;
    this.#prefix = `${prefix} draft ${caller} `;
  }

  #keyOf(unit) {
    return `${this.#prefix}${unit.domain === MAIN ? "" : `${unit.domain}/`}${unit.lang} ${keyOf(unit)}`;
  }

  // { forms, lines }, each only if there is a draft of it.
  of(unit) {
    return JSON.parse(this.#store.getItem(this.#keyOf(unit))) ?? {};
  }

  // A part of `null` is dropped. False where the browser has no room.
  keep(unit, parts) {
    const draft = { ...this.of(unit), ...parts };
    const kept = Object.entries(draft).filter(([, value]) => value !== null);
    try {
      if (kept.length === 0) this.#store.removeItem(this.#keyOf(unit));
      else this.#store.setItem(this.#keyOf(unit), JSON.stringify(Object.fromEntries(kept)));
      return true;
    } catch {
      return false;
    }
  }

  // What an act has brought into the office is no draft any more.
  settle(act) {
    const unit = nameIn(act);
    if (unit === null) return;
    const { forms, lines } = this.of(unit);
    if (isEqual(forms, act.forms)) this.keep(unit, { forms: null });
    if (isEqual(lines, act.lines)) this.keep(unit, { lines: null });
  }
}

export const isEqual = (one, other) => one !== undefined && JSON.stringify(one) === JSON.stringify(other);
