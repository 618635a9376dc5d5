// What a caller may do, as far as the office's answers have told it. No route tells a role, so the office is asked once, by requests
// that can't act: their revision is none, or their text is no catalogue, and the role is tested before either. What is learnt is
// kept in the browser.

import { numberAt } from "./outbox.js";
import { MAIN } from "./routes.js";

export const ROLES = ["guest", "translator", "reviewer", "manager"];
const [GUEST, TRANSLATOR, REVIEWER, MANAGER] = [0, 1, 2, 3];
const NEEDED = {
  suggest: GUEST, vote: TRANSLATOR, accept: TRANSLATOR, dismiss: TRANSLATOR, translate: TRANSLATOR, comment: TRANSLATOR,
  approve: REVIEWER, "send-back": REVIEWER, team: MANAGER, policy: MANAGER, template: MANAGER, language: MANAGER, domain: MANAGER,
};
// Tested before the role, so they say nothing of it.
const BEFORE_ROLE = new Set(["no-language", "no-unit"]);
const NO_REVISION = 9_000_000_000_000_000;
const NOTHING = { least: GUEST, most: MANAGER };

export class Rights extends EventTarget {
  #store;
  #key;
  #known;

  constructor(store, prefix, caller) {
    super();
    this.#store = store;
    this.#key = `${prefix} rights ${caller}`;
    this.#known = JSON.parse(store.getItem(this.#key)) ?? NOTHING;
  }

  // The role's name; null where it isn't known yet.
  get role() {
    const { least, most } = this.#known;
    return least === most ? ROLES[least] : null;
  }

  // Whether an act may be done: true too where nothing is known.
  may(act) {
    const { most, voting, reviews, guests } = this.#known;
    if (act === "suggest" && most === GUEST) return guests !== false;
    if (act === "vote" && voting === false) return false;
    if ((act === "approve" || act === "send-back") && reviews === false) return false;
    return most >= NEEDED[act];
  }

  forget() {
    this.#learn(NOTHING);
  }

  #learn(known) {
    if (JSON.stringify(known) === JSON.stringify(this.#known)) return;
    this.#known = known;
    try {
      this.#store.setItem(this.#key, JSON.stringify(known));
    } catch {
      // What isn't kept is asked again.
    }
    this.dispatchEvent(new Event("change"));
  }

  // What a reply to an act tells.
  hear(act, status, body) {
    const needed = NEEDED[act.act];
    if (needed === undefined || body.error !== undefined || BEFORE_ROLE.has(body.refusal)) return;
    let known = { ...this.#known };
    if (body.refusal === "role") {
      const most = Math.max(GUEST, needed - 1);
      known = { ...known, least: Math.min(known.least, most), most, ...(act.act === "suggest" ? { guests: false } : {}) };
    } else if (body.refusal === "approved") {
      // Reviewers change what is approved.
      known = { ...known, least: Math.min(Math.max(known.least, needed), TRANSLATOR), most: TRANSLATOR };
    } else if (needed > known.least) {
      known = { ...known, least: needed, most: Math.max(known.most, needed) };
    }
    this.#learn({ ...known, ...policyIn(act, status, body, known) });
  }

  // Asks the office, where the role isn't known yet: for what a reviewer does, and then for what is one more or one less.
  async ask(office, { domain, lang, id, ctx }) {
    if (this.role !== null) return;
    const unit = { ...(domain === MAIN ? {} : { domain }), lang, id, ...(ctx === null ? {} : { ctx }), seen: NO_REVISION };
    const asked = [{ act: "approve", ...unit }, { act: "template", po: "?" }, { act: "comment", ...unit, lines: [] }];
    for (const act of asked) {
      if (this.role !== null || !isOpen(this.#known, NEEDED[act.act])) continue;
      const { status, body } = await office.post(numberAt(Date.now()), act);
      if (body === undefined || (body.refusal === undefined && body.error !== "number-used")) return;
      this.hear(act, status, body);
    }
  }
}

const isOpen = ({ least, most }, needed) => least < needed && needed <= most;

// What an answer says of the policy.
function policyIn(act, status, body, { most }) {
  if (act.act === "policy" && status === 200) return { voting: act.voting, reviews: act.reviews, guests: act.guests_suggest };
  if (body.refusal === "voting-off") return { voting: false };
  if (body.refusal === "reviews-off") return { reviews: false };
  if (status !== 200) return {};
  if (act.act === "vote") return { voting: true };
  if (act.act === "approve" || act.act === "send-back") return { reviews: true };
  return act.act === "suggest" && most === GUEST ? { guests: true } : {};
}
