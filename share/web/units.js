// The messages of a language: counts, a filter, a search, and the list. What is listed stands in the address.

import { Catalogue, FILTERS } from "./catalogue.js";
import { countsShown } from "./counts.js";
import { button, byId, el } from "./dom.js";
import { isSame } from "./drafts.js";
import { ageText, nt, numberText, t, timeText, tx } from "./i18n.js";
import { directionOf, nameOf, tagOf, titleOf } from "./locales.js";
import { MAIN, hrefOf } from "./routes.js";
import { findingItems } from "./unit_parts.js";
import { STATES, faultWords } from "./words.js";

const PAGE = 100;
const EXCERPT = 200;
const ASKED_AT_ONCE = 4;
const NOT_YET = "…";

export class UnitsPane {
  #app;
  #root;
  #filter = "all";
  #words = "";
  #limit = PAGE;
  #found = [];
  #opened = null;
  #asking = 0;
  catalogue = null;

  constructor(app, root) {
    this.#app = app;
    this.#root = root;
  }

  // What is listed, as it stands in an address.
  get view() {
    return { show: this.#filter, search: this.#words };
  }

  // Shows a language as the address says; its text is asked for if it isn't there yet, or `again`.
  async open(route, again = false) {
    if (this.catalogue?.isOf(route) && !again) {
      this.#take(route);
      return true;
    }
    this.#asking += 1;
    this.catalogue = null;
    this.#root.replaceChildren(this.#title(route), el("p", {}, t("Asking the office for the messages…")));
    const { status, body, catalogue } = await this.#app.library.load(route);
    if (catalogue === null) {
      const words = el("p", { className: "fault" }, t("The messages aren't here: {why}.", { why: faultWords(status, body) }));
      this.#root.replaceChildren(this.#title(route), words, button("list-again", t("Try again"), () => this.#app.reload()));
      return false;
    }
    this.catalogue = catalogue;
    this.#choice(route);
    this.#draw();
    this.count();
    this.#narrow();
    this.#ask();
    return true;
  }

  // What the address says is listed; where it says nothing, what is to do, if anything is.
  #choice({ show, search }) {
    const isKnown = show !== null && Object.hasOwn(FILTERS, show);
    const first = this.catalogue.matching("todo", "").length > 0 ? "todo" : "all";
    this.#filter = isKnown ? show : first;
    this.#words = search ?? "";
  }

  #take(route) {
    const isOther = (route.show !== null && route.show !== this.#filter) || (route.search ?? "") !== this.#words;
    if (route.show === null || !isOther) return;
    this.#choice(route);
    byId("filter").value = this.#filter;
    byId("search").value = this.#words;
    this.#narrow();
    this.#ask();
  }

  #title({ domain, lang }) {
    return el("h2", { id: "units-title", tabIndex: -1 }, ...titleOf(lang, domain === MAIN ? null : domain));
  }

  #draw() {
    const shownFilters = Object.entries(FILTERS).filter(([value]) => value !== "findings" || this.catalogue.checked !== null);
    const options = shownFilters.map(([value, { text }]) => el("option", { value }, t(text)));
    const filter = el("select", { id: "filter", onchange: () => this.#choose(byId("filter").value) }, ...options);
    filter.value = this.#filter;
    const search = el("input", { id: "search", type: "search", value: this.#words, autocomplete: "off" });
    search.oninput = () => this.#search(search.value);
    const { domain, lang } = this.catalogue;
    this.#root.replaceChildren(
      this.#title(this.catalogue),
      el("div", { id: "language-counts", className: "progress" }, NOT_YET),
      el("div", { className: "filters", role: "search" },
        el("label", {}, ...tx("Show {filter}", { filter })),
        el("label", {}, ...tx("Search {field}", { field: search })),
        button("list-again", t("Load again"), () => this.#app.reload()),
        el("a", { id: "file", href: hrefOf({ domain, lang, part: "file" }) }, t("File…"))),
      el("p", { id: "found", role: "status" }),
      el("p", { id: "age", className: "note" }, ...this.#age()),
      ...this.#header(),
      el("ul", { id: "list", className: "units" }),
      button("more", t("Show more"), () => this.#more(), { hidden: true }),
    );
  }

  // How old that is what isn't the office's own text.
  #age() {
    const { seen, checked } = this.catalogue;
    const time = (at) => el("time", { dateTime: new Date(at).toISOString(), title: timeText(at) }, ageText(at));
    return [
      ...(seen === null ? [] : tx("Suggestions and approvals: as of {age}. ", { age: time(seen) })),
      ...(checked === null ? [] : tx("Checks: {age}.", { age: time(checked) })),
    ];
  }

  // What checks found in the language's header.
  #header() {
    const { headerFindings } = this.catalogue;
    if (headerFindings.length === 0) return [];
    const summary = el("summary", {}, nt("{count} finding about the header", "{count} findings about the header", headerFindings.length));
    return [el("details", { id: "header-findings", className: "note" }, summary, el("ul", {}, ...findingItems(headerFindings)))];
  }

  // Asks for the counts anew.
  async count() {
    const { catalogue } = this;
    const { status, body } = await this.#app.office.stats(catalogue);
    const place = byId("language-counts");
    if (this.catalogue !== catalogue || !place) return;
    if (status === 200 && body) place.replaceChildren(...countsShown(body, nameOf(catalogue.lang)));
    else place.replaceChildren(t("No counts: {why}.", { why: faultWords(status, body) }));
  }

  async #choose(filter) {
    this.#filter = filter;
    this.#app.placed();
    if (FILTERS[filter].asks) await this.#app.library.look(this.catalogue);
    byId("age").replaceChildren(...this.#age());
    this.#narrow();
    this.#ask();
  }

  #search(words) {
    this.#words = words;
    this.#app.placed();
    this.#narrow();
  }

  #more() {
    const first = this.#limit;
    this.#limit += PAGE;
    this.#list();
    byId("list").children[first]?.querySelector("a").focus();
  }

  #narrow() {
    this.#limit = PAGE;
    this.#found = this.catalogue.matching(this.#filter, this.#words);
    this.#reach();
    this.#list();
  }

  // The list is long enough to show where one is.
  #reach() {
    const at = this.#opened === null ? -1 : this.#found.findIndex((it) => isSame(it, this.#opened));
    if (at >= this.#limit) this.#limit = PAGE * Math.ceil((at + 1) / PAGE);
  }

  #list() {
    const all = this.catalogue.entries.length;
    const values = { found: numberText(this.#found.length) };
    byId("found").textContent = nt("{found} of {count} message", "{found} of {count} messages", all, values);
    byId("list").replaceChildren(...this.#found.slice(0, this.#limit).map((entry) => this.#item(entry)));
    byId("more").hidden = this.#found.length <= this.#limit;
  }

  #item(entry) {
    const link = el("a", { href: hrefOf({ ...entry, ...this.view }) }, ...contentOf(entry));
    if (this.#opened && isSame(entry, this.#opened)) link.setAttribute("aria-current", "true");
    return el("li", { id: `entry-${entry.at}`, className: entry.state }, link);
  }

  // Asks for the views that the filter needs, some at once, until all are there or another filter is chosen.
  async #ask() {
    this.#asking += 1;
    const round = this.#asking;
    const left = this.catalogue.unknown(this.#filter);
    const all = left.length;
    if (all === 0) return;
    const worker = async () => {
      while (left.length > 0 && round === this.#asking) {
        await this.#askOf(left.shift());
        if (round === this.#asking) this.#asked(all, left.length);
      }
    };
    await Promise.all(Array.from({ length: ASKED_AT_ONCE }, worker));
    if (round === this.#asking) this.#narrow();
  }

  async #askOf(entry) {
    const { status, body } = await this.#app.office.unit(entry);
    if (status === 200 && body) this.catalogue?.learn(body);
  }

  #asked(all, left) {
    const values = { asked: numberText(all - left) };
    byId("found").textContent = nt("The office tells this of one message at a time: asked for {asked} of {count}",
      "The office tells this of one message at a time: asked for {asked} of {count}", all, values);
  }

  // Takes the office's view of a unit, and shows it in the list, whose order and filter stay.
  learn(view) {
    const entry = this.catalogue?.learn(view);
    const item = entry && byId(`entry-${entry.at}`);
    if (!item) return;
    item.className = entry.state;
    item.querySelector("a").replaceChildren(...contentOf(entry));
  }

  // Marks the unit that is shown beside the list.
  mark(unit) {
    this.#opened = unit;
    byId("list")?.querySelector("[aria-current]")?.removeAttribute("aria-current");
    const entry = unit && this.catalogue?.entryOf(unit);
    if (!entry) return;
    if (!byId(`entry-${entry.at}`)) {
      this.#reach();
      this.#list();
    }
    const link = byId(`entry-${entry.at}`)?.querySelector("a");
    link?.setAttribute("aria-current", "true");
    link?.scrollIntoView({ block: "nearest" });
  }

  // The message before or behind this one in the list, also where the list hasn't this one any more; null at its ends.
  neighbour(unit, step) {
    const entry = this.catalogue?.entryOf(unit);
    if (!entry) return null;
    const others = this.#found.filter((it) => (step > 0 ? it.at > entry.at : it.at < entry.at));
    const found = step > 0 ? others[0] : others.at(-1);
    return found ? { ...found, ...this.view } : null;
  }

  // Where in the list a message stands: { at, of }; null where it doesn't.
  place(unit) {
    const at = this.#found.findIndex((entry) => isSame(entry, unit));
    return at === -1 ? null : { at: at + 1, of: this.#found.length };
  }
}

const excerpt = (text) => (text.length > EXCERPT ? `${text.slice(0, EXCERPT)}…` : text);

function contentOf(entry) {
  const { lang, id, ctx, forms, state, suggestions, findings } = entry;
  const translation = excerpt(forms.find((form) => form !== "") ?? "");
  const more = [
    ...(suggestions > 0 ? [t("suggestions: {count}", { count: numberText(suggestions) })] : []),
    ...(findings.length > 0 ? [t("findings: {count}", { count: numberText(findings.length) })] : []),
  ];
  const context = ctx === null ? [] : [el("span", { className: "context" }, ...tx("in {context}", { context: el("bdi", {}, excerpt(ctx)) }))];
  return [
    el("span", { className: "source", lang: "en", dir: "auto" }, excerpt(id)),
    ...context,
    el("span", { className: "state" }, [t(STATES[state]), ...more].join(", ")),
    el("span", { className: "translation", lang: tagOf(lang), dir: directionOf(lang) }, translation),
  ];
}
