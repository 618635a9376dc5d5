// The suggestions of a message, what they change, and the acts on them.

import { changesShown } from "./diff.js";
import { el, shown } from "./dom.js";
import { nt, numberText, t, tx } from "./i18n.js";

// `pane` is that of the message.
export function suggestions(app, pane) {
  const all = pane.view.suggestions;
  const title = el("h3", { id: "suggestions-title" }, nt("Suggestions: {count}", "Suggestions: {count}", all.length));
  if (all.length === 0) return [title];
  const items = all.map((it) => suggestion(app, pane, it));
  return [title, el("ol", { className: "suggestions", "aria-labelledby": "suggestions-title" }, ...items)];
}

function suggestion(app, pane, { number, forms, suggester, votes }) {
  const id = `suggested-${number}`;
  const by = tx("by {caller}, with votes: {votes}", { caller: el("bdi", {}, suggester), votes: numberText(votes) });
  return el("li", {},
    el("div", { id }, ...forms.map((form, at) => suggested(form, pane, at))),
    el("p", { className: "note" }, ...by),
    el("div", { className: "buttons" }, ...buttons(app, pane, number, forms, suggester, { "aria-describedby": id })));
}

// The text, and below it what is another than in the office's.
function suggested(form, pane, at) {
  const before = pane.view.forms[at] ?? "";
  const text = shown(form, pane.locale);
  if (before === "" || before === form) return text;
  return el("div", {}, text, el("p", { className: "note" }, t("Against the text that stands:")), changesShown(before, form, pane.locale));
}

function buttons(app, pane, number, forms, suggester, described) {
  const { rights, caller } = app;
  const act = (name, words, fields) =>
    pane.act(`${name}-${number}`, words, () => pane.send({ ...fields, suggestion: number }), described);
  const votes = rights.may("vote") && suggester !== caller;
  return [
    ...(votes ? [
      act("vote-for", t("Vote for"), { act: "vote", value: 1 }),
      act("vote-against", t("Vote against"), { act: "vote", value: -1 }),
      act("vote-back", t("Take vote back"), { act: "vote", value: 0 }),
    ] : []),
    ...(rights.may("accept") && !pane.isClosed ? [act("accept", t("Accept"), { act: "accept" })] : []),
    ...(rights.may("dismiss") ? [act("dismiss", t("Dismiss"), { act: "dismiss" })] : []),
    pane.act(`take-${number}`, t("Edit it"), () => pane.take(forms), described),
  ];
}
