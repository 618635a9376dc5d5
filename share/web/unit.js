// One message: what is asked for, its translation, comment and suggestions, and the acts on it.

import { Beside } from "./beside.js";
import { button, byId, el, redraw, shown } from "./dom.js";
import { isEqual, isSame, nameIn, namedIn } from "./drafts.js";
import { t } from "./i18n.js";
import { hrefOf } from "./routes.js";
import { suggestions } from "./suggestions.js";
import { faultOfLines, linesOf } from "./texts.js";
import { Translation } from "./translation.js";
import { notes, source, standing, toolFindings } from "./unit_parts.js";
import { ACTS, faultWords } from "./words.js";

export class UnitPane {
  #app;
  #root;
  #translation;
  #beside;
  #waitsFor = "";
  #asked = 0;
  unit = null;
  view = null;

  constructor(app, root) {
    this.#app = app;
    this.#root = root;
    this.#translation = new Translation(app, this);
    this.#beside = new Beside(app, this);
  }

  close() {
    this.#asked += 1;
    this.unit = null;
    this.view = null;
    this.#root.replaceChildren(el("p", { className: "hint" }, t("Choose a message from the list.")));
  }

  async open(unit) {
    const isOther = this.unit === null || !isSame(unit, this.unit);
    this.unit = unit;
    if (isOther) {
      this.view = null;
      this.#translation.begin();
      this.#root.replaceChildren(...this.#head(), el("p", {}, t("Asking the office…")));
    }
    await this.refresh();
  }

  // Asks for the office's view, and shows it; what is typed stays.
  async refresh() {
    this.#asked += 1;
    const asked = this.#asked;
    const { status, body } = await this.#app.office.unit(this.unit);
    if (asked !== this.#asked) return;
    if (status !== 200 || !body) {
      this.#fail(faultWords(status, body));
      return;
    }
    this.view = body;
    this.#app.units.learn(body);
    this.draw();
    this.#beside.find();
  }

  #fail(words) {
    this.view = null;
    const again = button("unit-again", t("Try again"), () => this.refresh());
    const told = el("p", { className: "fault" }, t("The message isn't here: {why}.", { why: words }));
    redraw(this.#root, [...this.#head(), shown(this.unit.id, { lang: "en", className: "source" }), told, again]);
  }

  // What waits for a reply may have changed.
  onRequests() {
    if (this.unit && this.view && this.#numbers() !== this.#waitsFor) this.draw();
  }

  #numbers() {
    return this.requests().map((it) => it.number).join(" ");
  }

  // What an export tells of the message; null where the template doesn't have it.
  get entry() {
    return this.#app.units.catalogue?.entryOf(this.unit) ?? null;
  }

  get isReadOnly() {
    return this.view.state === "read-only";
  }

  // Whether this caller may not translate it as it stands, whatever else they may do.
  get isClosed() {
    return this.isReadOnly || (this.view.state === "approved" && !this.#app.rights.may("approve"));
  }

  // What reviewers can do with its state: a text that needs editing may be approved, if it is whole.
  get isApprovable() {
    return this.view.state === "translated" || this.view.state === "needs-editing";
  }

  get isReturnable() {
    return this.view.state === "translated" || this.view.state === "approved";
  }

  get locale() {
    return this.#translation.locale;
  }

  draw() {
    const { view, entry } = this;
    this.#waitsFor = this.#numbers();
    const flags = view.obsolete ? [] : (entry?.flags ?? []);
    const parts = [...this.#head(), ...source(view, flags), ...notes(entry, this.#app.references), standing(view, this.#waiting())];
    if (!view.obsolete) {
      const found = toolFindings(entry, this.#app.units.catalogue?.checked);
      const own = el("div", {}, this.#translation.draw(), ...found, ...suggestions(this.#app, this));
      parts.push(el("div", { className: "work" }, own, this.#beside.draw()), this.#comment());
    }
    redraw(this.#root, parts);
  }

  #head() {
    const { units } = this.#app;
    const link = (id, text, unit) => (unit ? el("a", { id, href: hrefOf(unit) }, text) : el("span", { id, className: "off" }, text));
    const { domain, lang } = this.unit;
    const place = units.place(this.unit);
    return [
      el("h2", { id: "unit-title", tabIndex: -1 }, t("One message")),
      el("nav", { "aria-label": t("Messages") },
        el("a", { href: hrefOf({ domain, lang, ...units.view }) }, t("All messages")),
        link("previous", t("Previous"), units.neighbour(this.unit, -1)),
        link("next", t("Next"), units.neighbour(this.unit, 1)),
        el("span", { className: "note" }, place === null ? "" : t("{at} of {of}", place))),
    ];
  }

  // The messages beside this one may be others now.
  onPlace() {
    if (this.unit === null || !byId("unit-title")) return;
    const [title, nav] = this.#head();
    byId("unit-title").replaceWith(title);
    this.#root.querySelector("nav").replaceWith(nav);
  }

  // Puts the keyboard where one types; false where there is nothing to type.
  focusField() {
    const area = byId("form-0");
    if (!area) return false;
    area.focus({ preventScroll: true });
    area.setSelectionRange(area.value.length, area.value.length);
    return true;
  }

  // The requests about this message that have no reply yet.
  requests() {
    const { outbox, caller } = this.#app;
    const isOwn = (it) => it.caller === caller && !it.stopped && nameIn(it.act) !== null;
    return outbox.requests().filter((it) => isOwn(it) && isSame(nameIn(it.act), this.unit));
  }

  #waiting() {
    const words = this.requests().map((it) => t(ACTS[it.act.act])).join(", ");
    return words === "" ? "" : el("span", { className: "waiting" }, t("Waits for the office's reply: {acts}.", { acts: words }));
  }

  // An act's button: it stays where it is, and does nothing, while another act on the message waits for its reply.
  act(id, text, act, properties = {}) {
    const off = this.requests().length > 0;
    const onclick = () => off || act();
    return button(id, text, onclick, { "aria-disabled": String(off), ...properties });
  }

  // Whether it is kept now, and is on its way.
  send(fields) {
    return this.#app.send({ ...namedIn(this.unit), seen: this.view.revision, ...fields });
  }

  keep(parts) {
    if (this.#app.drafts.keep(this.unit, parts)) return;
    this.#app.alert(t("This browser has no room left: what you type isn't kept here."));
  }

  refuse(field, words) {
    field.setAttribute("aria-invalid", "true");
    field.focus();
    this.#app.alert(words);
  }

  // Puts a text of somebody else's into the fields.
  take(forms) {
    this.keep({ forms: isEqual(forms, this.view.forms) ? null : forms });
    this.draw();
    byId("form-0").focus();
  }

  // Puts a piece of text where the keyboard was in the fields.
  insert(text) {
    this.#translation.insert(text);
  }

  // ---- the comment

  #comment() {
    const waiting = this.requests().find((it) => it.act.lines);
    const lines = waiting?.act.lines ?? this.#app.drafts.of(this.unit).lines ?? this.view.comment;
    const mayComment = this.#app.rights.may("comment") && !this.isClosed;
    const area = el("textarea", {
      id: "comment", value: lines.join("\n"), rows: Math.max(2, lines.length + 1), readOnly: waiting !== undefined || !mayComment, dir: "auto",
      oninput: () => this.keep({ lines: isEqual(linesOf(area.value), this.view.comment) ? null : linesOf(area.value) }),
    });
    const save = this.act("save-comment", t("Save comment"), () => this.#saveComment(area));
    return el("section", { "aria-labelledby": "comment-title" },
      el("h3", { id: "comment-title" }, t("Comment")),
      el("label", { htmlFor: "comment" }, t("For all translators; it stands in the exported file")),
      area,
      el("div", { className: "buttons" }, ...(mayComment ? [save] : [])));
  }

  #saveComment(area) {
    const lines = linesOf(area.value);
    const fault = faultOfLines(lines);
    if (fault === null) this.send({ act: "comment", lines });
    else this.refuse(area, t("The comment {fault}. Nothing was sent.", { fault }));
  }
}
