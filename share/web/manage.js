// What managers do: roles, the policy, templates, languages, and domains. Each is a request like any other.

import { button, byId, el } from "./dom.js";
import { mark, numberText, t } from "./i18n.js";
import { decodedPo, plainPo } from "./po.js";
import { MAIN } from "./routes.js";
import { ROLES } from "./words.js";

const NAME = "[a-z][a-z0-9._\\-]{0,31}";
const LANG = "[A-Za-z][A-Za-z0-9_@\\-]{1,15}";
const LONGEST = 16_777_216;
const FLAGS = {
  reviews: mark("Reviewers approve messages, and send them back"),
  voting: mark("Translators vote on suggestions"),
  guests_suggest: mark("Guests may suggest"),
  placeholders: mark("A translation whose placeholders don't agree needs editing"),
  line_ends: mark("A translation with other line ends at its begin or end needs editing"),
};
// That of a new office.
const FIRST_POLICY = { reviews: false, voting: false, guests_suggest: false, placeholders: false, line_ends: false, accept_at: 0 };

export class ManagePane {
  #app;
  #root;
  #isAllowed = null;
  // The fields that choose a domain.
  #choices = [];

  constructor(app, root) {
    this.#app = app;
    this.#root = root;
  }

  open() {
    this.draw();
  }

  // Draws anew where all this is allowed now, or isn't any more; else what was typed stays.
  onRights() {
    if (this.#isAllowed !== this.#app.rights.may("team")) this.draw();
  }

  draw() {
    this.#isAllowed = this.#app.rights.may("team");
    this.#choices = [];
    const title = el("h2", { id: "manage-title", tabIndex: -1 }, t("Manage"));
    if (!this.#isAllowed) {
      const again = button("ask-manage", t("Ask the office again what I may do"), () => this.#app.askRole(true));
      this.#root.replaceChildren(title, el("p", {}, t("Only managers do this.")), again);
      return;
    }
    this.#root.replaceChildren(title, this.#team(), this.#policy(), this.#template(), this.#language(), this.#newDomain());
    this.offerDomains();
  }

  #form(id, title, note, fields, words, send) {
    const form = el("form", { id, "aria-labelledby": `${id}-title`, className: "fields" },
      el("h3", { id: `${id}-title` }, title),
      ...(note === "" ? [] : [el("p", { className: "note" }, note)]),
      ...fields,
      el("div", { className: "buttons" }, button(`${id}-send`, words, () => form.reportValidity() && send(), { className: "first" })));
    form.onsubmit = (event) => {
      event.preventDefault();
      byId(`${id}-send`).click();
    };
    return form;
  }

  // ---- roles

  #team() {
    const name = el("input", { id: "team-name", required: true, pattern: NAME, autocomplete: "off", spellcheck: false });
    const role = el("select", { id: "team-role" }, ...Object.entries(ROLES).map(([value, text]) => el("option", { value }, t(text))));
    role.value = "translator";
    return this.#form("team", t("Roles"), t("The office doesn't tell who is in the team. A guest is whoever isn't."),
      [el("label", {}, t("Caller"), " ", name), el("label", {}, t("Role"), " ", role)],
      t("Set the role"), () => this.#app.send({ act: "team", name: name.value, role: role.value }));
  }

  // ---- the policy

  #policy() {
    const policy = this.#app.policy ?? FIRST_POLICY;
    const boxes = Object.entries(FLAGS).map(([flag, text]) => {
      const box = el("input", { id: `policy-${flag}`, type: "checkbox", checked: policy[flag] });
      return el("label", { className: "line" }, box, ` ${t(text)}`);
    });
    const accept = el("input", { id: "policy-accept_at", type: "number", min: "0", max: "100", required: true, value: String(policy.accept_at) });
    const note = this.#app.policy === null
      ? t("The office doesn't tell its policy. All six values are set together; what stands here is that of a new office.")
      : t("The office doesn't tell its policy. All six values are set together; what stands here was set last in this browser.");
    const values = () => ({
      ...Object.fromEntries(Object.keys(FLAGS).map((flag) => [flag, byId(`policy-${flag}`).checked])),
      accept_at: Number(accept.value),
    });
    return this.#form("policy", t("Policy"), note,
      [...boxes, el("label", { className: "line" }, t("A suggestion is accepted at this sum of votes (0: never by itself, or from 2 on)"), " ", accept)],
      t("Set the policy"), () => this.#sendPolicy(values()));
  }

  #sendPolicy(values) {
    if (values.accept_at === 1) this.#app.alert(t("The sum of votes is 0, or from 2 to 100. Nothing was sent."));
    else if (this.#app.send({ act: "policy", ...values })) this.#app.policy = values;
  }

  // ---- texts

  #domain(id) {
    const select = el("select", { id });
    const label = el("label", {}, t("Domain"), " ", select);
    this.#choices.push({ select, label });
    return { label, value: () => (select.value === MAIN ? {} : { domain: select.value }) };
  }

  // Offers the domains that are known now, where there is more than one; what was chosen stays so.
  offerDomains() {
    const names = this.#app.domainNames;
    for (const { select, label } of this.#choices) {
      const chosen = select.value || MAIN;
      select.replaceChildren(...names.map((value) => el("option", { value }, value)));
      select.value = chosen;
      label.hidden = names.length < 2;
    }
  }

  #template() {
    const domain = this.#domain("template-domain");
    const file = el("input", { id: "template-file", type: "file", accept: ".pot,.po", required: true });
    return this.#form("template", t("Template"), t("A new template (.pot) takes the place of the one before; messages that aren't in it are put away, with their translations."),
      [domain.label, el("label", {}, t("File"), " ", file)],
      t("Set the template"), () => this.#sendText(file.files[0], (po) => ({ act: "template", ...domain.value(), po })));
  }

  #language() {
    const domain = this.#domain("language-domain");
    const lang = el("input", { id: "language-code", required: true, pattern: LANG, autocomplete: "off", spellcheck: false });
    const file = el("input", { id: "language-file", type: "file", accept: ".po" });
    const rule = el("input", { id: "language-rule", spellcheck: false, autocomplete: "off", size: 40, placeholder: "nplurals=2; plural=n != 1;" });
    const send = () => {
      const act = (po) => ({ act: "language", ...domain.value(), lang: lang.value, po });
      if (file.files.length > 0) this.#sendText(file.files[0], act);
      else this.#app.send(act(headerWith(lang.value, rule.value)));
    };
    return this.#form("language", t("New language"), t("With a file (.po) its translations are taken over. Without one the language begins empty, with this rule for plural forms. The page lists it once office.json names it."),
      [domain.label, el("label", {}, t("Code"), " ", lang), el("label", {}, t("File"), " ", file), el("label", { className: "line" }, t("Plural forms"), " ", rule)],
      t("Add the language"), send);
  }

  async #sendText(file, act) {
    try {
      const text = plainPo(decodedPo(new Uint8Array(await file.arrayBuffer())));
      const isTooLong = new TextEncoder().encode(text).length > LONGEST;
      if (isTooLong) this.#app.alert(t("The file has more than {count} bytes. Nothing was sent.", { count: numberText(LONGEST) }));
      else this.#app.send(act(text));
    } catch {
      this.#app.alert(t("The file isn't read: it isn't in the charset that it names."));
    }
  }

  // ---- domains

  #newDomain() {
    const name = el("input", { id: "new-domain-name", required: true, pattern: NAME, autocomplete: "off", spellcheck: false });
    return this.#form("new-domain", t("New domain"), t("For a part of the project with messages and languages of its own, its manual say. It begins without any, and can't be taken away again. The page lists it once office.json names it with a language."),
      [el("label", {}, t("Name"), " ", name)],
      t("Make the domain"), () => this.#app.send({ act: "domain", name: name.value }));
  }
}

const quoted = (text) => text.replace(/[\\"]/g, "\\$&");

// The text of a language that has no translation yet.
function headerWith(lang, rule) {
  const fields = [`Language: ${lang}`, "MIME-Version: 1.0", "Content-Type: text/plain; charset=UTF-8", "Content-Transfer-Encoding: 8bit", `Plural-Forms: ${rule}`];
  return `msgid ""\nmsgstr ""\n${fields.map((it) => `"${quoted(it)}\\n"\n`).join("")}`;
}
