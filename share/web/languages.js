// The languages of the project, each with how far it is, by domains. Which they are is told by the operator's file, since the office
// has no route that lists them.

import { countsShown } from "./counts.js";
import { el } from "./dom.js";
import { t } from "./i18n.js";
import { nameOf, titleOf } from "./locales.js";
import { MAIN, hrefOf } from "./routes.js";
import { faultWords } from "./words.js";

export class LanguagesPane {
  #app;
  #root;

  constructor(app, root) {
    this.#app = app;
    this.#root = root;
  }

  async open() {
    const shown = this.#app.domains.filter(({ domain, languages }) => domain === MAIN || languages.length > 0);
    const domains = shown.map(({ domain, languages }) => ({
      domain,
      rows: languages.map((lang) => ({ domain, lang, counts: el("div", { className: "progress" }, "…") })),
    }));
    const rows = domains.flatMap((it) => it.rows);
    const none = el("p", {}, t("The file office.json names no language."));
    this.#root.replaceChildren(
      el("h2", { id: "languages-title", tabIndex: -1 }, t("Languages")),
      ...(rows.length === 0 ? [none] : domains.flatMap((it) => this.#domain(it, domains.length > 1))),
    );
    for (const row of rows) await this.#count(row);
  }

  #domain({ domain, rows }, isOneOfMany) {
    const items = rows.map((row) => el("li", {}, el("a", { href: hrefOf(row) }, ...titleOf(row.lang)), row.counts));
    const id = `domain-${domain}`;
    const list = el("ul", { className: "languages", ...(isOneOfMany ? { "aria-labelledby": id } : {}) }, ...items);
    return isOneOfMany ? [el("h3", { id }, domain === MAIN ? t("Program") : el("bdi", {}, domain)), list] : [list];
  }

  async #count(row) {
    const { status, body } = await this.#app.office.stats(row);
    if (status === 200 && body) row.counts.replaceChildren(...countsShown(body, nameOf(row.lang)));
    else row.counts.replaceChildren(t("No counts: {why}.", { why: faultWords(status, body) }));
  }
}
