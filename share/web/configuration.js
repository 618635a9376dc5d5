// The operator's file office.json: the project's name and languages, and what is told of its sources, words and sign-in.

import { t } from "./i18n.js";
import { MAIN } from "./routes.js";
import { faultWords } from "./words.js";

const areTexts = (value) => Array.isArray(value) && value.every((it) => typeof it === "string");

// What is wrong with the file, in words; null where nothing is.
export function faultOfConfiguration({ status, body }) {
  if (status !== 200) return t("office.json isn't here: {why}.", { why: faultWords(status, body) });
  if (areTexts(body?.languages) && typeof body.project === "string" && areDomains(body.domains ?? {})) return null;
  return t("office.json has to be like {example}.", { example: '{"project": "parted", "languages": ["de", "fr"]}' });
}

const areDomains = (domains) => typeof domains === "object" && domains !== null && Object.values(domains).every(areTexts);

// `domains` are all that are named, `main` first, each with its languages; `references` is a pattern of addresses, `glossary` are files beside the page,
// `source` is the language of the messages, and `signOut` an address; each absent where it isn't told.
export function configurationIn(body, base) {
  const further = Object.entries(body.domains ?? {}).filter(([domain]) => domain !== MAIN);
  return {
    project: body.project,
    domains: [[MAIN, body.languages], ...further].map(([domain, languages]) => ({ domain, languages })),
    references: typeof body.references === "string" ? body.references : null,
    glossary: [body.glossary ?? []].flat().filter((it) => typeof it === "string" && isOwn(it, base)),
    source: typeof body.source === "string" ? body.source : "en",
    signOut: typeof body.sign_out === "string" ? addressIn(body.sign_out, base) : null,
  };
}

function addressIn(text, base) {
  try {
    const url = new URL(text, base);
    return url.protocol === "https:" || url.protocol === "http:" ? url.href : null;
  } catch {
    return null;
  }
}

const isOwn = (text, base) => addressIn(text, base)?.startsWith(base.origin) ?? false;
