// Reads PO text: that of the office ("PO text, written" in docs/FORMATS.md), and what editors make of it, with lines that are
// broken at a width and comments in any order.

const ESCAPES = { n: "\n", t: "\t", r: "\r", a: "\x07", b: "\b", f: "\f", v: "\v", '"': '"', "\\": "\\" };
const STRING_LINE = /^(#~\|\s*|#~\s*|#\|\s*)?(?:(msgctxt|msgid_plural|msgid|msgstr)(?:\[\d+\])?\s*)?"((?:[^"\\]|\\.)*)"\s*$/s;
// The header's charset, and what stands before it; the line may be broken at a width.
const CHARSET = /(Content-Type:(?:[^"\\]|"\r?\n")*?charset=)([A-Za-z0-9_.:-]+)/i;
const FIELDS = { msgctxt: "ctx", msgid: "id", msgid_plural: "plural" };

const unescaped = (piece) => piece.replace(/\\(.)/gs, (whole, letter) => ESCAPES[letter] ?? whole);

// A line that is read as none, by its number.
export class PoFault extends Error {
  constructor(line) {
    super(`line ${line}`);
    this.line = line;
  }
}

// The header's string, and the entries in their order.
export function readPo(text) {
  const entries = [];
  const reader = { entry: newEntry(), last: null };
  const lines = text.split(/\r?\n/);
  lines.forEach((line, at) => readLine(reader, line, at + 1, entries));
  finish(reader, entries);
  const hasHeader = entries.length > 0 && entries[0].id === "" && entries[0].ctx === null;
  const header = hasHeader ? entries.shift().forms[0] : "";
  return { header, entries };
}

function newEntry() {
  const previous = { ctx: null, id: null, plural: null };
  return { ctx: null, id: null, plural: null, forms: [], previous, obsolete: false, extracted: [], references: [], flags: [] };
}

function finish(reader, entries) {
  if (reader.entry.id !== null) entries.push(reader.entry);
  reader.entry = newEntry();
  reader.last = null;
}

function readLine(reader, line, number, entries) {
  if (line.trim() === "") return;
  const found = STRING_LINE.exec(line);
  const isComment = line.startsWith("#") && !line.startsWith("#~");
  if (!found && !isComment) {
    // Of an obsolete entry a comment may stand behind its mark.
    if (line.startsWith("#~")) return;
    throw new PoFault(number);
  }
  const begins = isComment || found[2] === "msgctxt" || found[2] === "msgid" || found[1]?.startsWith("#~|");
  if (begins && reader.entry.forms.length > 0) finish(reader, entries);
  if (found) readString(reader, found, number);
  else readComment(reader.entry, line);
}

// `last` says where the last string stands: a piece without a keyword goes on with it.
function readString(reader, [, mark = "", keyword, piece], number) {
  const { entry } = reader;
  if (mark.startsWith("#~")) entry.obsolete = true;
  if (!keyword && reader.last === null) throw new PoFault(number);
  if (keyword) {
    const owner = mark.trim().endsWith("|") ? entry.previous : entry;
    reader.last = keyword === "msgstr" ? { into: entry.forms, at: entry.forms.length } : { into: owner, at: FIELDS[keyword] };
    reader.last.into[reader.last.at] = "";
  }
  reader.last.into[reader.last.at] += unescaped(piece);
}

function readComment(entry, line) {
  const text = line.slice(2).replace(/^ /, "");
  if (line.startsWith("#.")) entry.extracted.push(text);
  else if (line.startsWith("#:")) entry.references.push(text);
  else if (line.startsWith("#,")) entry.flags.push(...text.split(",").map((it) => it.trim()).filter((it) => it !== ""));
}

// The state as far as an export tells it: what is translated and what is approved are written alike.
export function stateOf(entry) {
  if (entry.obsolete) return "obsolete";
  if (entry.flags.includes("read-only")) return "read-only";
  if (entry.flags.includes("fuzzy")) return "needs-editing";
  return entry.forms.every((form) => form === "") ? "untranslated" : "translated";
}

// The text of these bytes, in the charset that the header names; an Error where it isn't in it.
export function decodedPo(bytes) {
  const head = new TextDecoder("latin1").decode(bytes.subarray(0, 8192));
  const charset = CHARSET.exec(head)?.[2] ?? "utf-8";
  const name = charset === "CHARSET" ? "utf-8" : charset;
  return new TextDecoder(name, { fatal: true }).decode(bytes);
}

// A text as the office reads it: with LF as the line end, and with UTF-8 as its charset.
export const plainPo = (text) => text.replaceAll("\r\n", "\n").replace(CHARSET, "$1UTF-8");
