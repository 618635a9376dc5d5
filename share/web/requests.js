// What is under way between this browser and the office: requests that wait for their replies, and the last replies.

import { button, byId, el, redraw } from "./dom.js";
import { nameIn } from "./drafts.js";
import { mark, nt, t, tx } from "./i18n.js";
import { hrefOf } from "./routes.js";
import { ACTS, replyWords } from "./words.js";

const NOTE = mark("What you do is kept in this browser until the office has replied, and is sent until then. It is done once.");
const EXCERPT = 60;

const excerpt = (text) => (text.length > EXCERPT ? `${text.slice(0, EXCERPT)}…` : text);

export class RequestsPane {
  #outbox;
  #root;

  constructor(outbox, root) {
    this.#outbox = outbox;
    this.#root = root;
  }

  // What waits in one line, for the head of the page.
  summary() {
    const count = this.#outbox.requests().length;
    if (count === 0) return t("All sent");
    const waits = nt("{count} request waits", "{count} requests wait", count);
    return this.#outbox.trouble === null ? waits : `${waits}: ${this.#outbox.trouble}`;
  }

  draw() {
    const waiting = this.#outbox.requests().map((it) => this.#request(it));
    const replies = this.#outbox.replies().map((it) => this.#reply(it));
    redraw(this.#root, [
      el("h2", { id: "requests-title", tabIndex: -1 }, t("Requests")),
      el("p", { className: "note" }, t(NOTE)),
      el("p", { id: "summary" }, this.summary()),
      ...(waiting.length === 0 ? [] : [el("ul", { id: "waiting" }, ...waiting), this.#sendNow()]),
      el("h3", {}, t("Last replies")),
      replies.length === 0 ? el("p", {}, t("none")) : el("ul", { id: "replies" }, ...replies),
    ]);
  }

  #request({ number, caller, act, stopped }) {
    const about = this.#about(`request-${number}`, act);
    const values = { act: t(ACTS[act.act]), caller, about: el("span", {}, ...about) };
    const parts = caller === this.#outbox.caller
      ? tx("{act}, by {caller}: {about}", values)
      : tx("{act}, by {caller}: {about}, waits until {caller} is signed in", values);
    if (!stopped) return el("li", {}, ...parts);
    return el("li", {}, ...parts, el("p", { className: "fault" }, t("Stopped: {why}.", { why: stopped })),
      button(`again-${number}`, t("Send again"), () => this.#outbox.restart(number)), " ",
      button(`discard-${number}`, t("Throw away"), () => this.#discard(number)));
  }

  #sendNow() {
    return button("send-now", t("Send now"), () => this.#outbox.run());
  }

  #discard(number) {
    this.#outbox.discard(number);
    byId("requests-title").focus();
  }

  #reply({ number, act, status, body, at }) {
    const time = el("time", { dateTime: new Date(at).toISOString() }, new Date(at).toLocaleTimeString());
    const words = el("span", { className: status === 200 ? "done" : "fault" }, replyWords(act, status, body));
    return el("li", {}, time, ` ${t(ACTS[act.act])}: `, ...this.#about(`reply-${number}`, act), " ", words);
  }

  // What an act is about: a link to its message, or the name of what it sets.
  #about(id, act) {
    const unit = nameIn(act);
    const lang = act.lang === undefined ? [] : [` (${[act.lang, act.domain ?? []].flat().join(" · ")})`];
    if (unit === null) return [el("bdi", {}, act.name ?? act.domain ?? ""), ...lang];
    return [el("a", { id, href: hrefOf(unit) }, el("bdi", {}, excerpt(act.id)), ...lang)];
  }
}
