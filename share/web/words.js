// What the page says of the office's states, acts, refusals and faults. The names of refusals are those of the rules in
// docs/FORMATS.md.

import { mark, nt, numberText, t } from "./i18n.js";

export const STATES = {
  untranslated: mark("untranslated"),
  "needs-editing": mark("needs editing"),
  translated: mark("translated"),
  approved: mark("approved"),
  "read-only": mark("read-only"),
  obsolete: mark("obsolete"),
};

export const ROLES = {
  guest: mark("guest"),
  translator: mark("translator"),
  reviewer: mark("reviewer"),
  manager: mark("manager"),
};

export const ACTS = {
  translate: mark("Translate"),
  suggest: mark("Suggest"),
  vote: mark("Vote"),
  accept: mark("Accept"),
  dismiss: mark("Dismiss"),
  approve: mark("Approve"),
  "send-back": mark("Send back"),
  comment: mark("Comment"),
  team: mark("Set a role"),
  policy: mark("Set the policy"),
  template: mark("Set the template"),
  language: mark("Add a language"),
  domain: mark("Make a domain"),
};

const DONE = {
  translate: mark("Translated"),
  accept: mark("Accepted"),
  dismiss: mark("Dismissed"),
  approve: mark("Approved"),
  "send-back": mark("Sent back"),
  comment: mark("Comment saved"),
};

export const REFUSALS = {
  "no-language": mark("The office doesn't have this language."),
  "no-unit": mark("The template doesn't have this message any more."),
  role: mark("Your role doesn't allow this. A suggestion may be allowed, or ask a manager for another role."),
  "read-only": mark("This message is read-only: it is not to be translated."),
  stale: mark("Someone changed this message after you saw it. Look at what stands there now; yours is kept, and you may send it again."),
  approved: mark("This message is approved: only reviewers change it. You may suggest, or ask a reviewer to send it back."),
  "plural-count": mark("The message has another number of forms now. Look at it again."),
  "no-suggestion": mark("This suggestion isn't there any more: it was accepted or dismissed."),
  "voting-off": mark("There is no voting in this office."),
  "reviews-off": mark("There are no reviews in this office."),
  full: mark("It is full: a message has at most 100 suggestions, and a suggestion at most 10,000 votes."),
  same: mark("Nothing would change: it stands there so already, or it is your own suggestion, which counts as your vote."),
  unfit: mark("The text doesn't allow it: a suggestion can't be empty, and only what is translated is approved or sent back."),
  "language-exists": mark("The office has this language already."),
  po: mark("The PO text has a fault."),
  "plural-forms": mark("The header has no rule Plural-Forms, or one with a fault."),
  limit: mark("A limit of the office would be passed."),
  "last-manager": mark("No manager would be left."),
  "domain-exists": mark("The office has this domain already."),
  "no-domain": mark("The office doesn't have this domain."),
};

// The kinds of a PO text's faults.
const PO_KINDS = {
  1: mark("it isn't UTF-8"),
  2: mark("the line is of no form"),
  3: mark("a string without its quotes, or with a control character"),
  4: mark("a backslash without one of the nine letters"),
  5: mark("the line can't stand there"),
  6: mark("a form that isn't due"),
  7: mark("the entry was there before"),
  8: mark("a charset other than UTF-8"),
  9: mark("past a limit of length or number"),
};

// The faults of a plural rule.
const RULE_FAULTS = {
  0: mark("there is none"),
  1: mark("it isn't of the grammar"),
  2: mark("nplurals isn't one digit from 1 to 8"),
  3: mark("it has more than 512 bytes, or is too deep"),
  4: mark("it has no value at {number}"),
  5: mark("its value at {number} isn't below nplurals"),
};

const FAULTS = {
  200: mark("the answer wasn't the office's"),
  400: mark("the request wasn't understood"),
  401: mark("you aren't signed in; load the page again"),
  403: mark("the front server forbids it"),
  404: mark("the address isn't there"),
  405: mark("the method isn't allowed"),
  408: mark("the sending took too long"),
  411: mark("the length was missing"),
  413: mark("the text is longer than the front server or the office takes"),
  414: mark("the message's text is too long for an address"),
  415: mark("the front server takes no such content"),
  429: mark("too many requests were sent in a short time"),
  431: mark("the message's text is too long for an address"),
  500: mark("the front server has a fault"),
  502: mark("the office doesn't answer the front server"),
  503: mark("the office has no memory, or is starting"),
  504: mark("the office didn't answer in time"),
  507: mark("the office's disk failed; it has to be started again"),
};
// The words of an answer's `error`, of the office and of the front server.
const ERRORS = {
  malformed: mark("the office didn't understand the request: the page or the front server has a fault"),
  "no-language": mark("the office doesn't have this language"),
  "no-unit": mark("the office doesn't have this message any more"),
  "sign-in": mark("you aren't signed in; load the page again"),
  login: mark("your login is no caller's name in this office; ask its operator"),
  "other-site": mark("the front server takes no requests from another site's page"),
  refused: mark("the office's file takes no such rows; ask its operator"),
  "no-route": mark("the office doesn't know the address: the front server or the page has a fault"),
};
const NUMBER_USED = mark(
  "Not done, by a fault of this page: the request's number stands for another content. What you wrote is kept; send it again.",
);

// Status 0 stands for no answer at all.
export function faultWords(status, body) {
  if (status === 0) return t("there is no connection");
  const words = ERRORS[body?.error] ?? FAULTS[status];
  return words === undefined ? t("the answer was {status}", { status }) : t(words);
}

export function replyWords(act, status, body) {
  if (body.error === "number-used") return t(NUMBER_USED);
  if (status !== 200) return t("Not done. {why}", { why: refusalWords(act, body) });
  if (act.id === undefined) return officeWords(act, body);
  if (act.act === "suggest") return t("Suggested. It stands among the suggestions below.");
  if (act.act === "vote" && !body.accepted) return t("Voted. The sum is {votes} now.", { votes: body.votes });
  const done = act.act === "vote" ? t("Voted, and the suggestion was accepted") : t(DONE[act.act]);
  return t("{done}. The message is now: {state}.", { done, state: t(STATES[body.state]) });
}

function refusalWords({ act }, { refusal, line, kind, fault, at }) {
  if (refusal === "po") return t("The PO text has a fault in line {line}: {fault}.", { line, fault: t(PO_KINDS[kind] ?? String(kind)) });
  if (refusal === "plural-forms") {
    const words = t(RULE_FAULTS[fault] ?? String(fault), { number: at });
    return t("The header's rule Plural-Forms: {fault}.", { fault: words });
  }
  if (refusal === "limit" && act === "domain") return t("The office has 8 domains, and no office has more.");
  return REFUSALS[refusal] === undefined ? t("Refused: {refusal}.", { refusal }) : t(REFUSALS[refusal]);
}

const LANGUAGE = mark(
  "The language {lang} is there: translations taken over: {loaded}, missing: {missing}, put away as obsolete: {obsolete}.",
);

// What came of an act on the office.
function officeWords(act, body) {
  switch (act.act) {
    case "team":
      return t("{name} is a {role} now.", { name: body.name, role: t(ROLES[body.role] ?? body.role) });
    case "domain":
      return t("The domain {name} is there.", { name: body.name });
    case "policy":
      return nt("The policy is set; {count} message changed its state.", "The policy is set; {count} messages changed their state.", body.units);
    case "language":
      return t(LANGUAGE, {
        lang: act.lang, loaded: numberText(body.loaded), missing: numberText(body.missing), obsolete: numberText(body.obsolete),
      });
    default:
      return templateWords(body.languages);
  }
}

function templateWords(languages) {
  const each = Object.entries(languages).map(([lang, { added, changed, kept, obsolete, revived }]) =>
    t("{lang}: new {added}, changed {changed}, kept {kept}, obsolete {obsolete}, back again {revived}", { lang, added, changed, kept, obsolete, revived }));
  return [t("The template is set."), ...each].join(" ");
}
