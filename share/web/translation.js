// The fields of a message's translation, what is wrong with what stands in them, and the buttons below.

import { findingsOf, hintsOf, placeholders } from "./checks.js";
import { button, byId, el, marked } from "./dom.js";
import { isEqual } from "./drafts.js";
import { mark, numberText, t } from "./i18n.js";
import { directionOf, nameOf, tagOf } from "./locales.js";
import { escaped, faultOfForm, needsEscapes, unescaped } from "./texts.js";
import { officeText } from "./unit_parts.js";
import { ROLES } from "./words.js";

const ESCAPES = "\\r, \\a, \\b, \\f, \\v, \\\\";
const EXAMPLES = 5;
const MOST_KEYS = 9;
const KEYS = [
  ["Ctrl+Enter", mark("translate, and go to the next message")],
  ["Alt+PageDown, Alt+PageUp", mark("go to the next message, to the one before")],
  ["Alt+0", mark("copy the message into the field")],
  ["Alt+1 … Alt+9", mark("insert the placeholder of this number")],
];

export class Translation {
  #app;
  #pane;
  #escapes = false;
  // Where the keyboard was last.
  #last = "form-0";

  // `pane` is that of the message: its unit and view, and what is done with both.
  constructor(app, pane) {
    this.#app = app;
    this.#pane = pane;
  }

  // Another message is shown.
  begin() {
    this.#last = "form-0";
  }

  get #view() {
    return this.#pane.view;
  }

  get #flags() {
    return this.#view.obsolete ? [] : (this.#pane.entry?.flags ?? []);
  }

  get locale() {
    return { lang: tagOf(this.#pane.unit.lang), dir: directionOf(this.#pane.unit.lang) };
  }

  // Which act the first button and Control and Enter do.
  get #first() {
    return this.#app.rights.may("translate") && !this.#pane.isClosed ? "translate" : "suggest";
  }

  draw() {
    const view = this.#view;
    this.#escapes = needsEscapes([view.id, view.plural ?? "", ...view.forms]);
    const waiting = this.#pane.requests().find((it) => it.act.forms);
    const draft = this.#app.drafts.of(this.#pane.unit).forms;
    const forms = waiting?.act.forms ?? draft ?? view.forms;
    const own = !isEqual(forms, view.forms);
    const form = el("form", { id: "translation", "aria-labelledby": "translation-title" },
      el("h3", { id: "translation-title" }, t("Translation")),
      this.#tools(),
      ...view.forms.map((_, at) => this.#field(at, forms[at] ?? "", waiting !== undefined)),
      ...(this.#escapes ? [el("p", { className: "note" }, t("Written with escapes: {escapes}", { escapes: ESCAPES }))] : []),
      ...(own ? [officeText(view, this.locale)] : []),
      ...(own && !waiting ? [button("drop-draft", t("Drop my text"), () => this.#drop())] : []),
      this.#buttons(),
      this.#allowed(),
      this.#keys());
    form.onsubmit = (event) => event.preventDefault();
    form.onkeydown = (event) => this.#key(event);
    return form;
  }

  // ---- fields

  #field(at, text, readOnly) {
    const value = this.#escapes ? escaped(text) : text;
    const behind = el("div", { className: "behind", "aria-hidden": "true", ...this.locale });
    const area = el("textarea", {
      id: `form-${at}`, value, rows: 2, readOnly, ...this.locale, spellcheck: true,
      oninput: () => this.#typed(at), onfocus: () => (this.#last = area.id), "aria-describedby": `source finding-${at}`,
    });
    const found = el("p", { id: `finding-${at}`, className: "findings" });
    const label = el("label", { htmlFor: area.id }, this.#label(at));
    this.#look(value, at, behind, found);
    return el("div", {}, label, el("div", { className: "field" }, behind, area), found);
  }

  #label(at) {
    const numbers = this.#app.units.catalogue?.numbers?.[at];
    if (this.#view.plural === null) return t("In {language}", { language: nameOf(this.#pane.unit.lang) });
    if (!numbers) return t("Form {number}", { number: at });
    return t("Form {number}, for {numbers}", { number: at, numbers: examples(numbers) });
  }

  // Marks the placeholders, and tells what is wrong: as the office will find it, and what may be.
  #look(value, at, behind, found) {
    const text = this.#escapes ? unescaped(value) : value;
    behind.replaceChildren(...marked(value, placeholders(value, this.#flags)), "\n");
    const message = { ...this.#view, flags: this.#flags };
    const findings = text === null ? null : this.#found(text, message, at);
    const told = findings === null ? [] : [...findings.placeholders, ...findings["line-ends"]];
    const hints = text === null ? [] : hintsOf(text, message, at);
    const spans = (className, all) => all.map((it) => el("span", { className }, it, " "));
    found.replaceChildren(...spans("finding", told), ...spans("hint", hints));
  }

  // What stands in the office is judged by the office: its own words are added where it finds more than this page.
  #found(text, message, at) {
    const mayLeaveOut = message.plural !== null && this.#app.units.catalogue?.numbers?.[at]?.length === 1;
    const found = findingsOf(text, message, mayLeaveOut);
    if (text !== this.#view.forms[at]) return found;
    const { findings } = this.#view;
    const isMissed = (check) => findings[check].includes(at) && found[check].length === 0;
    if (isMissed("placeholders")) found.placeholders.push(t("Its placeholders don't agree with the message's."));
    if (isMissed("line-ends")) found["line-ends"].push(t("It doesn't begin and end with a line end where the message does."));
    return found;
  }

  #typed(at) {
    const area = byId(`form-${at}`);
    area.removeAttribute("aria-invalid");
    this.#look(area.value, at, area.previousElementSibling, byId(`finding-${at}`));
    const forms = this.#forms();
    if (forms.includes(null)) return;
    this.#pane.keep({ forms: isEqual(forms, this.#view.forms) ? null : forms });
  }

  // The texts in the fields; of a field with a wrong escape null.
  #forms() {
    const texts = this.#view.forms.map((_, at) => byId(`form-${at}`).value);
    return this.#escapes ? texts.map(unescaped) : texts;
  }

  #drop() {
    this.#pane.keep({ forms: null });
    this.#pane.draw();
    byId("form-0").focus();
  }

  // ---- what is put into a field

  // The placeholders of the message, each once.
  #words() {
    const { id, plural } = this.#view;
    const words = placeholders(plural === null ? id : `${id}\n${plural}`, this.#flags).map(({ word }) => word);
    return [...new Set(words)].slice(0, MOST_KEYS);
  }

  #tools() {
    const inserts = this.#words().map((word, at) => {
      const key = `Alt+${at + 1}`;
      const properties = { className: "insert", title: key, "aria-keyshortcuts": key, "aria-label": t("Insert {text}", { text: word }) };
      return button(`insert-${at + 1}`, word, () => this.insert(word), properties);
    });
    return el("div", { className: "tools", role: "group", "aria-label": t("Put into the field") },
      button("copy-source", t("Copy message"), () => this.#copy(), { title: "Alt+0", "aria-keyshortcuts": "Alt+0" }), ...inserts);
  }

  // The field where the keyboard is, or was last.
  #area() {
    return byId(this.#last) ?? byId("form-0");
  }

  insert(text) {
    const area = this.#area();
    if (area.readOnly) return;
    area.focus();
    // So that it can be undone.
    if (!document.execCommand("insertText", false, text)) area.setRangeText(text, area.selectionStart, area.selectionEnd, "end");
  }

  // The message, or its plural where the field isn't that of the first form.
  #copy() {
    const area = this.#area();
    const { id, plural } = this.#view;
    const text = plural !== null && area.id !== "form-0" ? plural : id;
    area.select();
    this.insert(this.#escapes ? escaped(text) : text);
  }

  #key(event) {
    const { ctrlKey, altKey, shiftKey, metaKey, key, code } = event;
    if (key === "Enter" && ctrlKey) {
      event.preventDefault();
      byId(this.#first)?.click();
      return;
    }
    const digit = /^Digit(\d)$/.exec(code)?.[1];
    if (digit === undefined || ctrlKey === altKey || shiftKey || metaKey || event.getModifierState("AltGraph")) return;
    const word = this.#words()[Number(digit) - 1];
    if (digit !== "0" && word === undefined) return;
    event.preventDefault();
    if (digit === "0") this.#copy();
    else this.insert(word);
  }

  // ---- buttons

  #buttons() {
    const { rights } = this.#app;
    const pane = this.#pane;
    const first = this.#first;
    const style = (act) => (act === first ? { className: "first" } : {});
    const acts = [
      ...(first === "translate" ? [pane.act("translate", t("Translate"), () => this.#send("translate"), style("translate"))] : []),
      ...(rights.may("suggest") && !pane.isReadOnly ? [pane.act("suggest", t("Suggest"), () => this.#send("suggest"), style("suggest"))] : []),
      ...(rights.may("approve") && pane.isApprovable ? [pane.act("approve", t("Approve"), () => pane.send({ act: "approve" }))] : []),
      ...(rights.may("send-back") && pane.isReturnable ? [pane.act("send-back", t("Send back"), () => pane.send({ act: "send-back" }))] : []),
    ];
    const stays = el("input", { id: "stay", type: "checkbox", checked: this.#app.stays, onchange: () => (this.#app.stays = stays.checked) });
    return el("div", { className: "buttons" }, ...acts, el("label", {}, stays, ` ${t("Stay on the message")}`));
  }

  // Why a button isn't there, and how one gets it back.
  #allowed() {
    const { rights } = this.#app;
    const words = [];
    if (this.#pane.isReadOnly) words.push(t("This message is read-only: it is not to be translated."));
    else if (this.#pane.isClosed && rights.may("translate")) words.push(t("This message is approved: only reviewers change it."));
    const isNarrowed = !rights.may("translate") || !rights.may("suggest") || !rights.may("approve");
    if (isNarrowed && rights.role !== null) words.push(t("Your role here: {role}.", { role: t(ROLES[rights.role]) }));
    const again = button("ask-role", t("Ask the office again what I may do"), () => this.#app.askRole(true), { className: "quiet" });
    return el("p", { className: "note allowed" }, words.join(" "), " ", ...(isNarrowed ? [again] : []));
  }

  #keys() {
    const rows = KEYS.flatMap(([keys, words]) => [el("dt", {}, el("kbd", {}, keys)), el("dd", {}, t(words))]);
    return el("details", { id: "keys", className: "note" }, el("summary", {}, t("Keys")), el("dl", {}, ...rows));
  }

  #send(act) {
    const forms = this.#forms();
    const at = forms.findIndex((form) => form === null || faultOfForm(form) !== null);
    if (at === -1) {
      if (this.#pane.send({ act, forms }) && !this.#app.stays) this.#app.step(1);
      return;
    }
    const fault = forms[at] === null ? t("has a backslash that begins no escape") : faultOfForm(forms[at]);
    this.#pane.refuse(byId(`form-${at}`), t("{field}: the text {fault}. Nothing was sent.", { field: this.#label(at), fault }));
  }
}

// "1, 21, 31, 41, 51, …"
function examples(numbers) {
  if (numbers.length === 0) return t("no number below {count}", { count: numberText(1000) });
  return numbers.slice(0, EXAMPLES).join(", ") + (numbers.length > EXAMPLES ? ", …" : "");
}
