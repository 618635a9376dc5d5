// The project's glossary, a file of TBX or CSV: terms of the messages, and what they are called in other languages.

const LETTER = "[\\p{L}\\p{M}\\p{N}_]";
const REMARKS = /^(note|remark|comment|description|definition)s?$/i;
const SOURCES = /^(term|source|msgid)$/i;

const plain = (code) => code.replace("_", "-").toLowerCase();
const isOf = (code, lang) => plain(code) === plain(lang) || plain(code) === plain(lang).split("-")[0];

// Rows of fields, quoted as RFC 4180 says.
export function readCsv(text) {
  const rows = [[]];
  const delimiter = text.split("\n", 1)[0].includes(";") && !text.split("\n", 1)[0].includes(",") ? ";" : ",";
  const fields = new RegExp(`("(?:[^"]|"")*"|[^${delimiter}\\r\\n]*)(${delimiter}|\\r?\\n|$)`, "y");
  while (fields.lastIndex < text.length) {
    const [, field, end] = fields.exec(text) ?? [null, text.slice(fields.lastIndex), ""];
    rows.at(-1).push(field.startsWith('"') ? field.slice(1, -1).replaceAll('""', '"') : field);
    if (end === "") break;
    if (end !== delimiter) rows.push([]);
  }
  return rows.filter((row) => row.some((field) => field !== ""));
}

// Entries { source: [term], terms: [{ lang, term }], note }. The first row names the columns: `term`, or the source's code, codes of
// languages, and `note`.
export function fromCsv(text, source = "en") {
  const [names, ...rows] = readCsv(text.replace(/^\ufeff/, ""));
  if (!names) return [];
  const found = names.findIndex((it) => SOURCES.test(it.trim()) || isOf(it.trim(), source));
  const from = Math.max(0, found);
  const remark = names.findIndex((it) => REMARKS.test(it.trim()));
  const languages = names.map((name, at) => ({ lang: name.trim(), at })).filter(({ at }) => at !== from && at !== remark);
  const field = (row, at) => row[at]?.trim() ?? "";
  return rows.filter((row) => field(row, from) !== "").map((row) => ({
    source: [field(row, from)],
    terms: languages.map(({ lang, at }) => ({ lang, term: field(row, at) })).filter(({ term }) => term !== ""),
    note: field(row, remark),
  }));
}

const named = (parent, ...names) => Array.from(parent.getElementsByTagName("*")).filter((it) => names.includes(it.localName));
const text = (element) => element.textContent.replace(/\s+/g, " ").trim();

// The same of TBX, versions 2 (termEntry, langSet) and 3 (conceptEntry, langSec).
export function fromTbx(document, source = "en") {
  return named(document, "termEntry", "conceptEntry").map((entry) => {
    const sets = named(entry, "langSet", "langSec").map((set) => {
      return { lang: set.getAttribute("xml:lang") ?? "", terms: named(set, "term").map(text) };
    });
    const remarks = named(entry, "descrip", "note").filter((it) => it.localName === "note" || it.getAttribute("type") === "definition");
    return {
      source: sets.filter((it) => isOf(it.lang, source) || plain(it.lang).startsWith(`${plain(source)}-`)).flatMap((it) => it.terms),
      terms: sets.flatMap(({ lang, terms }) => terms.map((term) => ({ lang, term }))),
      note: remarks.map(text).join(" "),
    };
  }).filter((it) => it.source.length > 0);
}

export class Glossary {
  #entries;

  constructor(entries) {
    this.#entries = entries.flatMap((entry) => entry.source.map((term) => ({ ...entry, term, pattern: patternOf(term) })));
  }

  // The terms that stand in a text, the longest first, each with what it is called in a language.
  in(text, lang) {
    const found = this.#entries.filter(({ pattern }) => pattern.test(text));
    return found.map(({ term, terms, note }) => ({ term, note, terms: termsIn(terms, lang) }))
      .sort((one, other) => other.term.length - one.term.length);
  }
}

// A term is found as a whole word, in any case of letters, and with a plural s.
function patternOf(term) {
  const quoted = term.replace(/[\\^$.*+?()[\]{}|/-]/g, "\\$&").replace(/\s+/g, "\\s+");
  return new RegExp(`(?<!${LETTER})${quoted}(?:e?s)?(?!${LETTER})`, "iu");
}

// The terms of the language itself (pt_BR), or else of the one it is a kind of (pt).
function termsIn(terms, lang) {
  const exact = terms.filter((it) => plain(it.lang) === plain(lang));
  return (exact.length > 0 ? exact : terms.filter((it) => isOf(it.lang, lang))).map((it) => it.term);
}
