// The parts of the page about one message that only show.

import { placeholders } from "./checks.js";
import { changesShown } from "./diff.js";
import { el, shown } from "./dom.js";
import { ageText, mark, numberText, t, tx } from "./i18n.js";
import { linkOf, placesIn } from "./references.js";
import { STATES } from "./words.js";

// What is to be translated.
export function source({ id, plural, ctx }, flags) {
  const text = (words, properties) => shown(words, { lang: "en", className: "source", ...properties }, placeholders(words, flags));
  const parts = [el("h3", { id: "source-title" }, t("Message")), text(id, { id: "source" })];
  if (plural !== null) parts.push(el("h4", {}, t("Its plural")), text(plural, { id: "source-plural" }));
  if (ctx !== null) parts.push(el("p", {}, ...tx("Context: {context}", { context: el("bdi", {}, ctx === "" ? t("(empty)") : ctx) })));
  return parts;
}

// What the programmers say of it, where it stands, and what it was before. `pattern` makes links of places.
export function notes(entry, pattern) {
  if (!entry) return [];
  const { extracted, references } = entry;
  const flags = entry.flags.filter((flag) => flag !== "fuzzy");
  return [
    ...extracted.map((line) => shown(line, { className: "note", lang: "en" })),
    ...(references.length === 0 ? [] : [places(references, pattern)]),
    ...(flags.length === 0 ? [] : [el("p", { className: "note" }, t("Flags: {flags}", { flags: flags.join(", ") }))]),
    ...before(entry),
  ];
}

function places(references, pattern) {
  const items = placesIn(references).map((place) => {
    const href = linkOf(place, pattern);
    const text = el("bdi", {}, place.text);
    return href === null ? text : el("a", { href, target: "_blank", rel: "noopener noreferrer" }, text);
  });
  return el("p", { className: "note places" }, ...items.flatMap((it) => [it, " "]));
}

// The message as it was when it was translated, with what is another now.
function before({ previous, id, plural, ctx }) {
  const parts = [[previous.ctx, ctx ?? ""], [previous.id, id], [previous.plural, plural ?? ""]].filter(([old]) => old !== null);
  if (parts.length === 0) return [];
  return [
    el("h4", {}, t("The message was before")),
    ...parts.map(([old, now]) => (old === now ? shown(old, { lang: "en" }) : changesShown(old, now, { lang: "en" }))),
  ];
}

// Its state, and behind it what waits for a reply.
export function standing({ state, revision, obsolete }, waiting) {
  const word = obsolete ? "obsolete" : state;
  const what = obsolete ? `${t("The template doesn't have this message any more.")} ` : "";
  const strong = el("strong", { className: `state ${word}` }, t(STATES[word]));
  return el("p", {}, what, ...tx("{state} · revision {revision}", { state: strong, revision: numberText(revision) }), " ", waiting);
}

// What the office has while a text of one's own stands in the fields.
export function officeText(view, locale) {
  const forms = view.forms.every((form) => form === "") ? [el("p", {}, t("nothing"))] : view.forms.map((it) => shown(it, locale));
  return el("div", { id: "office-text", className: "office-text" }, el("h4", {}, t("In the office stands")), ...forms);
}

const SEVERITIES = { error: mark("error"), warning: mark("warning"), note: mark("note") };

// What other tools found, as items of a list.
export function findingItems(findings) {
  return findings.map(({ tool, name, text, severity }) => {
    const word = el("strong", { className: severity === "error" ? "fault" : "" }, t(SEVERITIES[severity] ?? String(severity)));
    const by = [tool, name].filter((it) => typeof it === "string" && it !== "").join(": ");
    return el("li", {}, word, ` ${text} `, el("span", { className: "note" }, by));
  });
}

// What they found in the office's text of a message.
export function toolFindings(entry, checked) {
  if (!entry || entry.findings.length === 0) return [];
  return [
    el("h3", { id: "checks-title" }, t("Findings of checks")),
    el("p", { className: "note" }, t("Made {age}, of the text that the office had then.", { age: ageText(checked) })),
    el("ul", { id: "checks", "aria-labelledby": "checks-title" }, ...findingItems(entry.findings)),
  ];
}
