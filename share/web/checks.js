// What is wrong with a text, told while it is typed. The two checks are the office's ("What the checks find" in docs/FORMATS.md);
// hints are no more than that: the office doesn't have them.

import { mark, t } from "./i18n.js";

const DIRECTIVE = /%%|%(?:[1-9]\d*\$)?[-+#0 ]*(?:\*|\d+)?(?:\.(?:\*|\d*))?(?:hh|h|ll|l|L|j|z|t)?[diouxXcspfFeEgGaA]/g;
const BRACES = /\{\{|\}\}|\{(?:[A-Za-z_][A-Za-z0-9_]*|0|[1-9]\d*)\}/g;
const PYTHON = /%%|%\([^()]*\)[-+#0 ]*\d*(?:\.\d*)?[a-zA-Z]/g;
const SKIPPED = new Set(["%%", "{{", "}}"]);
const NUMBERED = /^%[1-9]\d*\$/;

const placed = (text, pattern) =>
  Array.from(text.matchAll(pattern), (it) => ({ word: it[0], at: it.index })).filter(({ word }) => !SKIPPED.has(word));
const wordsIn = (text, pattern) => placed(text, pattern).map(({ word }) => word);

const isBraced = (flag) => flag.endsWith("brace-format") || flag === "csharp-format";

// The placeholders of a text with their places, as far as its flags say that it has some; of kinds too that the office doesn't check.
export function placeholders(text, flags) {
  const kinds = flags.filter((it) => it.endsWith("-format") && !it.startsWith("no-"));
  const found = [];
  if (kinds.some(isBraced)) found.push(...placed(text, BRACES));
  if (kinds.some((it) => !isBraced(it))) found.push(...placed(text, DIRECTIVE), ...placed(text, PYTHON));
  return found.sort((one, other) => one.at - other.at);
}

// ---- the office's checks

const isSame = (list, other) => list.length === other.length && list.every((it, at) => it === other[at]);
const areNumbered = (list) => list.every((it) => NUMBERED.test(it));

// Whether a list is another with some struck out.
function isStruck(list, other) {
  let at = 0;
  for (const word of other) if (at < list.length && list[at] === word) at += 1;
  return at === list.length;
}

function agreesByC(own, wanted, mayLeaveOut) {
  if (isSame(own, wanted) || (mayLeaveOut && isStruck(own, wanted))) return true;
  if (!areNumbered([...own, ...wanted])) return false;
  return own.every((it) => wanted.includes(it)) && (mayLeaveOut || wanted.every((it) => own.includes(it)));
}

const agreesByBraces = (own, wanted, mayLeaveOut) =>
  own.every((it) => wanted.includes(it)) && (mayLeaveOut || wanted.every((it) => own.includes(it)));

const CHECKED = [
  { flag: "c-format", pattern: DIRECTIVE, agrees: agreesByC },
  { flag: "python-brace-format", pattern: BRACES, agrees: agreesByBraces },
];

// What doesn't agree, in words that name it.
function disagreement(own, wanted) {
  const missing = left(wanted, own);
  const further = left(own, wanted);
  const told = [];
  if (missing.length > 0) told.push(t("Missing: {placeholders}.", { placeholders: missing.join(" ") }));
  if (further.length > 0) told.push(t("Not in the message: {placeholders}.", { placeholders: further.join(" ") }));
  return told.length > 0 ? told : [t("The placeholders stand in another order than in the message.")];
}

// What one list has beyond another, each as often.
function left(list, other) {
  const rest = [...other];
  return list.filter((it) => {
    const at = rest.indexOf(it);
    if (at !== -1) rest.splice(at, 1);
    return at === -1;
  });
}

// `message` has id, plural and flags; `mayLeaveOut` says that the form serves one number alone, of a message with a plural.
function placeholderFindings(form, { id, plural, flags }, mayLeaveOut) {
  const told = CHECKED.filter(({ flag }) => flags.includes(flag)).flatMap(({ pattern, agrees }) => {
    const [own, wanted] = [wordsIn(form, pattern), wordsIn(plural ?? id, pattern)];
    return agrees(own, wanted, mayLeaveOut) ? [] : disagreement(own, wanted);
  });
  return [...new Set(told)];
}

function lineEndFindings(form, { id }) {
  const told = [];
  if (form.startsWith("\n") !== id.startsWith("\n")) {
    told.push(id.startsWith("\n")
      ? t("The message begins with a line end, the text doesn't.")
      : t("The text begins with a line end, the message doesn't."));
  }
  if (form.endsWith("\n") !== id.endsWith("\n")) {
    told.push(id.endsWith("\n")
      ? t("The message ends with a line end, the text doesn't.")
      : t("The text ends with a line end, the message doesn't."));
  }
  return told;
}

// What the office finds in a form, by the names of its checks.
export function findingsOf(form, message, mayLeaveOut) {
  if (form === "") return { placeholders: [], "line-ends": [] };
  return { placeholders: placeholderFindings(form, message, mayLeaveOut), "line-ends": lineEndFindings(form, message) };
}

// ---- hints

const ENDS = [
  [mark("a full stop"), /[.。।۔։።]$/], [mark("an ellipsis"), /(\.\.\.|…)$/], [mark("a colon"), /[:：]$/],
  [mark("a question mark"), /[?？؟;]$/], [mark("an exclamation mark"), /[!！]$/],
];
const DOUBLED = /(?<![\p{L}\p{M}])([\p{L}\p{M}]{2,})\s+\1(?![\p{L}\p{M}])/iu;
const WHITE_BEFORE = /^[^\S\n]+/;
const WHITE_BEHIND = /[^\S\n]+$/;

// The ellipsis is tried before the full stop, which it ends with.
function endOf(text) {
  const last = text.trimEnd();
  return [ENDS[1], ...ENDS].find(([, pattern]) => pattern.test(last))?.[0] ?? null;
}

function endHint(form, id) {
  const [own, wanted] = [endOf(form), endOf(id)];
  if (own === wanted) return [];
  if (wanted === null) return [t("The text ends with {end}, the message doesn't.", { end: t(own) })];
  return [t("The message ends with {end}.", { end: t(wanted) })];
}

export function hintsOf(form, { id, plural }, at) {
  if (form === "") return [];
  const source = at > 0 && plural !== null ? plural : id;
  const hints = endHint(form, source);
  if (WHITE_BEFORE.test(form) !== WHITE_BEFORE.test(source)) hints.push(t("White space at the beginning isn't as in the message."));
  if (WHITE_BEHIND.test(form) !== WHITE_BEHIND.test(source)) hints.push(t("White space at the end isn't as in the message."));
  const doubled = DOUBLED.exec(form);
  if (doubled && !DOUBLED.test(source)) hints.push(t("A word stands twice: {words}", { words: doubled[0] }));
  return hints;
}
