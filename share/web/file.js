// A language's file: it is downloaded, and what an editor changed in it is sent, a request for each message.

import { button, byId, el } from "./dom.js";
import { isEqual, namedIn } from "./drafts.js";
import { mark, nt, numberText, t } from "./i18n.js";
import { titleOf } from "./locales.js";
import { PoFault, decodedPo, readPo } from "./po.js";
import { MAIN, hrefOf } from "./routes.js";
import { faultOfForm } from "./texts.js";
import { faultWords } from "./words.js";

const EXCERPT = 60;
const HOW = mark(
  "What you changed in the file is sent, a request for each message. With the file that it was made from, what others changed meanwhile is left alone; without it, what differs from the office's text is sent.",
);
const MOST_TOLD = 200;
const keyOf = ({ id, ctx }) => (ctx === null ? id : `${ctx}\u0004${id}`);
const isFuzzy = (entry) => entry.flags.includes("fuzzy");
const isOpen = (entry) => entry.state === "untranslated" || entry.state === "needs-editing";

const WHY = {
  absent: mark("the office doesn't have this message"),
  fuzzy: mark("it is marked as fuzzy"),
  empty: mark("its translation was taken out"),
  forms: mark("it has another number of forms"),
  "read-only": mark("it is read-only"),
  conflict: mark("the office changed it meanwhile"),
  fault: mark("its text can't be sent"),
};

// The catalogue of a file that somebody chose; an Error where it can't be read.
async function entriesOf(file) {
  const text = decodedPo(new Uint8Array(await file.arrayBuffer()));
  return new Map(readPo(text).entries.filter((it) => !it.obsolete).map((it) => [keyOf(it), it]));
}

// Why a message isn't sent; null where it is.
function reasonOf(own, entry, before) {
  if (!entry || entry.state === "obsolete") return "absent";
  if (isFuzzy(own)) return "fuzzy";
  if (own.forms.every((form) => form === "")) return "empty";
  if (entry.state === "read-only") return "read-only";
  if (own.forms.length !== entry.forms.length) return "forms";
  if (own.forms.some((form) => faultOfForm(form) !== null)) return "fault";
  return before && !isEqual(before.forms, entry.forms) ? "conflict" : null;
}

// What is another in a file than in the one that it was made from, or in the office where none is given.
export function changesIn(own, before, catalogue) {
  const found = { changes: [], left: [] };
  for (const [key, message] of own) {
    const entry = catalogue.entryOf(message);
    const old = before?.get(key);
    const since = before === null ? entry : old;
    if (since && isEqual(since.forms, message.forms) && isFuzzy(since) === isFuzzy(message)) continue;
    if (entry && isEqual(entry.forms, message.forms) && !isOpen(entry)) continue;
    const why = reasonOf(message, entry, old);
    if (why === null) found.changes.push({ entry, forms: message.forms });
    else if (before !== null || why !== "empty") found.left.push({ message, why });
  }
  return found;
}

export class FilePane {
  #app;
  #root;
  #route = null;

  constructor(app, root) {
    this.#app = app;
    this.#root = root;
  }

  open(route) {
    if (this.#route !== null && byId("file-title") && this.#route.lang === route.lang && this.#route.domain === route.domain) return;
    this.#route = route;
    const { domain, lang } = route;
    const name = `${domain === MAIN ? "" : `${domain}-`}${lang}.po`;
    this.#root.replaceChildren(
      el("h2", { id: "file-title", tabIndex: -1 }, ...titleOf(lang, domain === MAIN ? null : domain), ` – ${t("File")}`),
      el("nav", { "aria-label": t("Messages") }, el("a", { href: hrefOf({ domain, lang, ...this.#app.units.view }) }, t("All messages"))),
      el("h3", {}, t("Download")),
      el("p", {}, el("a", { id: "download", href: this.#app.office.exportPath(route), download: name }, name)),
      el("h3", { id: "upload-title" }, t("Upload")),
      el("p", { className: "note" }, t(HOW)),
      this.#form());
  }

  #form() {
    const own = el("input", { id: "upload-own", type: "file", accept: ".po" });
    const before = el("input", { id: "upload-before", type: "file", accept: ".po" });
    const form = el("form", { "aria-labelledby": "upload-title", className: "fields" },
      el("label", {}, t("Your file"), " ", own),
      el("label", {}, t("The file that it was made from, as it was downloaded"), " ", before),
      el("div", { className: "buttons" }, button("upload-look", t("See what changed"), () => this.#look(own.files[0], before.files[0]))),
      el("div", { id: "upload-found" }));
    form.onsubmit = (event) => event.preventDefault();
    return form;
  }

  async #look(own, before) {
    if (!own) {
      this.#app.alert(t("Choose a file first."));
      return;
    }
    let entries;
    try {
      entries = [await entriesOf(own), before ? await entriesOf(before) : null];
    } catch (fault) {
      this.#app.alert(fault instanceof PoFault
        ? t("The file isn't read: line {line} is of no form.", { line: numberText(fault.line) })
        : t("The file isn't read: it isn't in the charset that it names."));
      return;
    }
    const { status, body, catalogue } = await this.#app.library.load(this.#route);
    if (catalogue === null) this.#app.alert(t("The messages aren't here: {why}.", { why: faultWords(status, body) }));
    else this.#show(changesIn(...entries, catalogue));
  }

  #show({ changes, left }) {
    const { rights } = this.#app;
    const replaced = changes.filter(({ entry }) => !isOpen(entry)).length;
    const words = [
      nt("{count} message changed.", "{count} messages changed.", changes.length),
      ...(replaced === 0 ? [] : [nt("{count} of them has a translation in the office.", "{count} of them have a translation in the office.", replaced)]),
      ...(left.length === 0 ? [] : [nt("{count} is left out:", "{count} are left out:", left.length)]),
    ];
    const items = left.slice(0, MOST_TOLD).map(({ message, why }) => leftOut(message, t(WHY[why])));
    const send = (act, text) => button(`upload-${act}`, text, () => this.#send(act, changes));
    byId("upload-found").replaceChildren(
      el("p", { id: "upload-told" }, words.join(" ")),
      el("ul", { id: "upload-left" }, ...items),
      el("div", { className: "buttons" },
        ...(changes.length > 0 && rights.may("translate") ? [send("translate", t("Translate"))] : []),
        ...(changes.length > 0 && rights.may("suggest") ? [send("suggest", t("Suggest"))] : [])),
      el("p", { id: "upload-sent", role: "status" }));
  }

  // Each with the revision that the message has while it says what it said when the files were compared.
  async #send(act, changes) {
    byId("upload-translate")?.remove();
    byId("upload-suggest")?.remove();
    const place = byId("upload-sent");
    const lost = [];
    let sent = 0;
    for (const { entry, forms } of changes) {
      const { status, body } = await this.#app.office.unit(entry);
      const isAsSeen = status === 200 && isEqual(body.forms, entry.forms);
      if (isAsSeen && this.#app.send({ act, ...namedIn(entry), seen: body.revision, forms })) sent += 1;
      else lost.push({ entry, why: status === 200 ? t(WHY.conflict) : faultWords(status, body) });
      place.textContent = nt("{sent} of {count} is on its way.", "{sent} of {count} are on their way.", changes.length, { sent: numberText(sent) });
    }
    byId("upload-left")?.append(...lost.map(({ entry, why }) => leftOut(entry, why)));
  }
}

const leftOut = ({ id }, why) => el("li", {}, el("bdi", {}, id.slice(0, EXCERPT)), `: ${why}`);
