// What stands beside the fields: translations of messages that are alike, terms of the glossary, and the same message in other
// languages.

import { changesShown } from "./diff.js";
import { button, byId, el, shown } from "./dom.js";
import { isSame } from "./drafts.js";
import { numberText, t } from "./i18n.js";
import { directionOf, nameOf, tagOf } from "./locales.js";

export class Beside {
  #app;
  #pane;
  // What was found, and for which message: { unit, alike, terms, others }.
  #found = null;
  #finding = null;

  constructor(app, pane) {
    this.#app = app;
    this.#pane = pane;
  }

  get #here() {
    return this.#found !== null && this.#pane.unit !== null && isSame(this.#found.unit, this.#pane.unit) ? this.#found : null;
  }

  draw() {
    return el("div", { id: "beside", className: "beside" }, ...this.#parts());
  }

  #parts() {
    const found = this.#here;
    return [
      ...this.#section("memory", t("Memory"), found?.alike.map((it, at) => this.#alike(it, at)), t("Nothing alike is translated.")),
      ...this.#glossary(found?.terms),
      ...this.#section("others", t("In other languages"), found?.others.map((it, at) => this.#other(it, at)), null),
      this.#choice(),
    ];
  }

  #glossary(terms) {
    if (!this.#app.hasGlossary) return [];
    return this.#section("glossary", t("Glossary"), terms?.map((it, at) => this.#term(it, at)), t("No term of the glossary."));
  }

  // A heading with a list; `none` stands there where the list is empty.
  #section(id, title, items, none) {
    const rest = items === undefined ? el("p", { className: "hint" }, "…") : el("p", { className: "hint" }, none ?? "");
    const list = items?.length > 0 ? el("ul", { id, "aria-labelledby": `${id}-title` }, ...items) : rest;
    return none === null && !(items?.length > 0) ? [] : [el("h3", { id: `${id}-title` }, title), list];
  }

  #alike({ entry, likeness }, at) {
    const percent = numberText(Math.floor(100 * likeness));
    return el("li", {},
      ...entry.forms.map((form) => shown(form, this.#pane.locale)),
      changesShown(entry.id, this.#pane.view.id, { lang: "en", className: "note" }),
      el("p", { className: "note" }, t("{percent} % alike", { percent })),
      this.#pane.act(`use-${at}`, t("Use it"), () => this.#use(entry.forms)));
  }

  // Of a message with another number of forms the first form alone.
  #use(forms) {
    const count = this.#pane.view.forms.length;
    this.#pane.take(forms.length === count ? forms : Array.from({ length: count }, (_, at) => forms[at] ?? forms.at(-1)));
  }

  #term({ term, terms, note }, at) {
    const inserts = terms.map((text, number) => {
      const properties = { ...this.#pane.locale, className: "insert", "aria-label": t("Insert {text}", { text }) };
      return button(`term-${at}-${number}`, text, () => this.#pane.insert(text), properties);
    });
    const none = el("span", { className: "note" }, t("not named in this language"));
    return el("li", {}, el("span", { lang: "en" }, term), " ", ...(inserts.length > 0 ? inserts : [none]),
      ...(note === "" ? [] : [el("p", { className: "note" }, note)]));
  }

  #other({ lang, forms }, at) {
    const locale = { lang: tagOf(lang), dir: directionOf(lang) };
    return el("li", { id: `other-${at}` }, el("span", { className: "note" }, nameOf(lang)), ...forms.map((form) => shown(form, locale)));
  }

  // Which other languages are looked into.
  #choice() {
    const { domain, lang } = this.#pane.unit;
    const codes = this.#app.languagesOf(domain).filter((it) => it !== lang);
    if (codes.length === 0) return "";
    const chosen = this.#app.alsoIn;
    const boxes = codes.map((code) => {
      const checked = chosen.includes(code);
      const box = el("input", { id: `also-${code}`, type: "checkbox", checked, onchange: () => this.#choose(code, box.checked) });
      return el("label", {}, box, ` ${nameOf(code)}`);
    });
    const summary = el("summary", {}, t("Look into other languages"));
    return el("details", { id: "also", open: byId("also")?.open ?? false }, summary, ...boxes);
  }

  async #choose(code, isChosen) {
    const others = this.#app.alsoIn.filter((it) => it !== code);
    this.#app.alsoIn = isChosen ? [...others, code] : others;
    await this.find(true);
  }

  // Looks for all of it, and shows it where the message is still the one that it was looked for.
  async find(again = false) {
    const { unit, view } = this.#pane;
    if (!again && this.#here !== null) return;
    const turn = {};
    this.#finding = turn;
    const isWanted = () => this.#finding === turn && this.#pane.unit !== null && isSame(unit, this.#pane.unit);
    const { library } = this.#app;
    const [alike, terms, others] = await Promise.all([
      library.alike({ ...unit }, isWanted),
      this.#app.hasGlossary ? library.termsIn(view, unit.lang) : [],
      this.#sameIn(unit),
    ]);
    if (!isWanted() || alike === null) return;
    this.#found = { unit, alike, terms, others };
    this.#redraw();
  }

  #redraw() {
    const place = byId("beside");
    if (!place) return;
    const active = place.contains(document.activeElement) ? document.activeElement.id : "";
    place.replaceChildren(...this.#parts());
    if (active !== "") byId(active)?.focus();
  }

  async #sameIn(unit) {
    const codes = this.#app.alsoIn.filter((it) => it !== unit.lang && this.#app.languagesOf(unit.domain).includes(it));
    const found = [];
    for (const lang of codes) {
      const entry = (await this.#app.library.has({ domain: unit.domain, lang }))?.entryOf(unit);
      if (entry && (entry.state === "translated" || entry.state === "approved")) found.push({ lang, forms: entry.forms });
    }
    return found;
  }
}
