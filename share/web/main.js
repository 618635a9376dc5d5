// The page: it goes where the address says, sends what is done, and tells what came of it.

import { configurationIn, faultOfConfiguration } from "./configuration.js";
import { byId, el } from "./dom.js";
import { Drafts, isSame, nameIn } from "./drafts.js";
import { FilePane } from "./file.js";
import { chooseWords, loadWords, pageLanguage, t, tx } from "./i18n.js";
import { LanguagesPane } from "./languages.js";
import { Library } from "./library.js";
import { nameOf } from "./locales.js";
import { ManagePane } from "./manage.js";
import { Office } from "./office.js";
import { Outbox } from "./outbox.js";
import { RequestsPane } from "./requests.js";
import { Rights } from "./rights.js";
import { HREF_OF_MANAGE, hrefOf, routeOf } from "./routes.js";
import { UnitPane } from "./unit.js";
import { UnitsPane } from "./units.js";
import { ROLES, faultWords, replyWords } from "./words.js";

const EXCERPT = 40;
const excerpt = (text) => (text.length > EXCERPT ? `${text.slice(0, EXCERPT)}…` : text);

class Page {
  #going = 0;
  // What the keyboard is led to next: a field, where one went on by a key; what was told then stays.
  #isStep = false;
  #prefix;

  constructor(configuration, signedIn, office, base) {
    this.#prefix = `office ${base.pathname}`;
    Object.assign(this, configuration);
    this.caller = signedIn.caller;
    this.nobody = faultWords(signedIn.status, signedIn.body);
    this.office = office;
    this.library = new Library(this.office, configuration.glossary, configuration.source);
    this.drafts = new Drafts(localStorage, this.#prefix, this.caller);
    this.outbox = new Outbox(this.office, localStorage, this.#prefix);
    this.outbox.caller = this.caller;
    this.rights = new Rights(localStorage, this.#prefix, this.caller);
    this.requests = new RequestsPane(this.outbox, byId("requests"));
    this.languagesPane = new LanguagesPane(this, byId("languages"));
    this.units = new UnitsPane(this, byId("units"));
    this.unit = new UnitPane(this, byId("unit"));
    this.file = new FilePane(this, byId("file-pane"));
    this.manage = new ManagePane(this, byId("manage-pane"));
  }

  get hasGlossary() {
    return this.glossary.length > 0;
  }

  languagesOf(domain) {
    return this.domains.find((it) => it.domain === domain)?.languages ?? [];
  }

  // ---- what somebody chose, kept in the browser

  #chosen(name, otherwise) {
    return JSON.parse(localStorage.getItem(`${this.#prefix} ${name}`)) ?? otherwise;
  }

  #choose(name, value) {
    try {
      localStorage.setItem(`${this.#prefix} ${name}`, JSON.stringify(value));
    } catch {
      // It is chosen again the next time.
    }
  }

  // Whether one stays on a message that was translated.
  get stays() {
    return this.#chosen("stay", false);
  }

  set stays(value) {
    this.#choose("stay", value);
  }

  // In which other languages a message is looked up.
  get alsoIn() {
    return this.#chosen("also in", []);
  }

  set alsoIn(value) {
    this.#choose("also in", value);
  }

  // What a manager set last here; null before that.
  get policy() {
    return this.#chosen("policy", null);
  }

  set policy(value) {
    this.#choose("policy", value);
  }

  // The domains of office.json, and those that were found to be there in this browser.
  get domainNames() {
    return [...new Set([...this.domains.map((it) => it.domain), ...this.#chosen("domains", [])])];
  }

  #learnDomain(name) {
    this.#choose("domains", [...new Set([...this.#chosen("domains", []), name])]);
    this.manage.offerDomains();
  }

  start() {
    byId("project").textContent = this.project;
    byId("outbox").onclick = () => byId("requests-title").focus();
    byId("skip").onclick = (event) => {
      event.preventDefault();
      byId("main").focus();
    };
    addEventListener("hashchange", () => this.go());
    addEventListener("keydown", (event) => this.#key(event));
    this.outbox.addEventListener("change", () => this.#boxed());
    this.outbox.addEventListener("reply", (event) => this.#heard(event.detail));
    this.rights.addEventListener("change", () => this.#allowed());
    this.#boxed();
    this.#named();
    this.go(false);
    if (this.caller !== null) this.outbox.run();
  }

  // Who is signed in, and what that one may do as far as it is known.
  #named() {
    const { role } = this.rights;
    const values = { caller: el("bdi", {}, this.caller ?? ""), role: role === null ? "" : t(ROLES[role]) };
    const words = role === null ? tx("signed in as {caller}", values) : tx("signed in as {caller}, {role}", values);
    byId("who").replaceChildren(...(this.caller === null ? [this.nobody] : words));
    const manage = byId("manage");
    manage.textContent = t("Manage");
    manage.href = HREF_OF_MANAGE;
    manage.hidden = this.caller === null || !this.rights.may("team");
    const out = byId("sign-out");
    out.textContent = t("Sign out");
    out.hidden = this.signOut === null || this.caller === null;
    if (this.signOut !== null) out.href = this.signOut;
  }

  #allowed() {
    this.#named();
    if (this.unit.view !== null) this.unit.draw();
    if (document.body.dataset.view === "manage") this.manage.onRights();
  }

  // Asks for the role, where it isn't known, or `again`.
  async askRole(again = false) {
    if (this.caller === null) return;
    if (again) this.rights.forget();
    const entry = this.unit.unit ?? this.units.catalogue?.entries.find((it) => it.state !== "obsolete");
    if (entry) await this.rights.ask(this.office, entry);
  }

  // Shows what the address names, and puts the keyboard there.
  async go(moves = true) {
    const route = routeOf(location.hash);
    if (!route) return;
    this.#going += 1;
    const going = this.#going;
    const isStep = this.#isStep;
    this.#isStep = false;
    this.#show(route);
    if (moves && !isStep) this.#tell("", false);
    if (route.lang === undefined) {
      const isManage = route.part === "manage";
      await this.#open(isManage ? this.manage : this.languagesPane, isManage ? "manage-title" : "languages-title", moves);
      return;
    }
    const isThere = await this.units.open(route);
    if (going !== this.#going) return;
    if (isThere) this.#placed(route);
    if (isThere) this.askRole();
    if (route.id !== undefined && isThere) await this.#openUnit(route, moves, isStep, () => going === this.#going);
    else this.#closeUnit(route, isThere, moves);
  }

  async #open(pane, title, moves) {
    const opened = pane.open();
    if (moves) byId(title).focus();
    await opened;
  }

  #closeUnit(route, isThere, moves) {
    this.unit.close();
    this.units.mark(null);
    if (route.part === "file" && isThere) this.file.open(route);
    if (moves) byId(route.part === "file" && isThere ? "file-title" : "units-title").focus();
  }

  async #openUnit({ domain, lang, id, ctx }, moves, isStep, isHere) {
    this.units.mark({ domain, lang, id, ctx });
    const opened = this.unit.open({ domain, lang, id, ctx });
    if (moves) byId("unit-title").focus();
    await opened;
    // Where a keyboard comes up from below the page for a field, it comes when it is asked for.
    const types = isStep || !matchMedia("(pointer: coarse)").matches;
    if (moves && types && isHere() && document.activeElement === byId("unit-title")) this.unit.focusField();
  }

  #show({ lang, id, part }) {
    const view = part === "manage" ? part : lang === undefined ? "languages" : id !== undefined ? "unit" : part === "file" ? part : "units";
    document.body.dataset.view = view;
    const names = { manage: () => t("Manage"), languages: () => t("Languages"), unit: () => `${id.slice(0, EXCERPT)} – ${nameOf(lang)}` };
    document.title = `${(names[view] ?? (() => nameOf(lang)))()} – ${this.project}`;
  }

  // What is listed stands in the address, also where it was chosen by the page.
  placed() {
    this.#placed(routeOf(location.hash));
    this.unit.onPlace();
  }

  #placed(route) {
    history.replaceState(null, "", hrefOf({ ...route, ...this.units.view }));
  }

  // Goes to the message behind this one in the list, or before it.
  step(by) {
    const unit = this.unit.unit && this.units.neighbour(this.unit.unit, by);
    if (!unit) {
      this.#tell(by > 0 ? t("This is the last message of the list.") : t("This is the first message of the list."), false);
      return;
    }
    this.#isStep = true;
    location.hash = hrefOf(unit);
  }

  #key(event) {
    if (!event.altKey || event.ctrlKey || event.shiftKey || event.metaKey || document.body.dataset.view !== "unit") return;
    const by = { PageDown: 1, PageUp: -1 }[event.key];
    if (by === undefined) return;
    event.preventDefault();
    this.#tell("", false);
    this.step(by);
  }

  // Asks for the language's text again.
  async reload() {
    const route = routeOf(location.hash);
    await this.units.open({ ...route, ...(this.units.catalogue ? this.units.view : {}) }, true);
    await this.go(false);
    (byId("list-again") ?? byId("units-title")).focus();
  }

  // Whether the request is kept, and on its way.
  send(act) {
    if (this.caller === null) {
      this.alert(t("Nothing was sent: {why}.", { why: this.nobody }));
      return false;
    }
    try {
      this.outbox.post(act);
      this.#tell(t("Sent; the office hasn't replied yet."), false);
      return true;
    } catch {
      this.alert(t("Nothing was sent: this browser has no room left to keep the request."));
      return false;
    }
  }

  #boxed() {
    byId("outbox").textContent = this.requests.summary();
    byId("outbox").dataset.waits = String(this.outbox.requests().length > 0);
    this.requests.draw();
    this.unit.onRequests();
  }

  async #heard({ act, status, body, caller }) {
    if (caller !== this.caller) return;
    this.rights.hear(act, status, body);
    if (status === 200) this.drafts.settle(act);
    if (act.act === "domain" && (status === 200 || body.refusal === "domain-exists")) this.#learnDomain(act.name);
    const name = nameIn(act);
    const isHere = name !== null && this.unit.unit !== null && isSame(name, this.unit.unit);
    const words = replyWords(act, status, body);
    if (isHere) await this.unit.refresh();
    if (name === null || isHere) this.#tell(words, status !== 200);
    else this.#tell(`“${excerpt(act.id)}”: ${words}`, status !== 200, name);
    if (name !== null && this.units.catalogue?.isOf(name)) this.#counted(act, status, body, name, isHere);
  }

  // A message that isn't shown any more changes in the list all the same.
  async #counted(act, status, body, name, isHere) {
    if (!isHere && status === 200) {
      const answer = await this.office.unit(name);
      if (answer.status === 200 && answer.body) this.units.learn(answer.body);
    }
    this.units.count();
  }

  alert(words) {
    this.#tell(words, true);
  }

  // What came of an act, with a link to its message where that isn't shown.
  #tell(words, isFault, unit = null) {
    const link = unit !== null && isFault ? [" ", el("a", { id: "told-link", href: hrefOf(unit) }, t("Go to it"))] : [];
    byId("status").replaceChildren(...(isFault ? [] : [words]));
    byId("alert").replaceChildren(...(isFault ? [words, ...link] : []));
  }
}

// The choice of the page's own language.
function offerWords(languages) {
  const select = byId("page-language");
  select.setAttribute("aria-label", t("Language of this page"));
  select.replaceChildren(...languages.map((code) => {
    const tag = code.replace("_", "-");
    return el("option", { value: code, lang: tag }, new Intl.DisplayNames(tag, { type: "language" }).of(tag));
  }));
  select.value = languages.find((it) => it.replace("_", "-") === pageLanguage());
  select.hidden = languages.length < 2;
  select.onchange = () => {
    chooseWords(localStorage, select.value);
    location.reload();
  };
}

function canKeep() {
  try {
    return localStorage !== null;
  } catch {
    return false;
  }
}

async function start() {
  const base = new URL(".", location.href);
  const office = new Office(base);
  if (!canKeep()) {
    byId("alert").textContent = "This browser keeps nothing for this page, so nothing can be sent.";
    return;
  }
  const [answer, signedIn, languages] = await Promise.all([office.configuration(), office.caller(), loadWords(office, localStorage)]);
  byId("skip").textContent = t("Skip to the content");
  offerWords(languages);
  const fault = faultOfConfiguration(answer);
  if (fault === null) new Page(configurationIn(answer.body, base), signedIn, office, base).start();
  else byId("alert").textContent = fault;
}

start();
