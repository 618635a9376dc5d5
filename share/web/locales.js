// Languages as gettext names them (pt_BR, sr@latin), as browsers name them, and as people do.

import { el } from "./dom.js";
import { pageLanguage } from "./i18n.js";

const SCRIPTS = { latin: "Latn", cyrillic: "Cyrl", devanagari: "Deva", arabic: "Arab" };
const RIGHT_TO_LEFT = new Set(["Adlm", "Arab", "Hebr", "Mand", "Nkoo", "Rohg", "Samr", "Syrc", "Thaa"]);

function localeOf(code) {
  const [plain, modifier] = code.split("@");
  try {
    return new Intl.Locale(plain.replaceAll("_", "-"), modifier in SCRIPTS ? { script: SCRIPTS[modifier] } : {});
  } catch {
    return null;
  }
}

// For the attribute lang; empty where the browser knows no such language.
export const tagOf = (code) => localeOf(code)?.toString() ?? "";

export function directionOf(code) {
  return RIGHT_TO_LEFT.has(localeOf(code)?.maximize().script) ? "rtl" : "ltr";
}

// The code itself where the browser has no name for it.
export function nameOf(code) {
  const tag = tagOf(code);
  if (tag === "") return code;
  const name = new Intl.DisplayNames(pageLanguage(), { type: "language" }).of(tag);
  return name === tag ? code : name;
}

// A language's name, and its code behind it where that isn't the name.
export function titleOf(code, domain = null) {
  const name = nameOf(code);
  const rest = [...(name === code ? [] : [code]), ...(domain === null ? [] : [domain])];
  return rest.length === 0 ? [name] : [name, " ", el("span", { className: "code" }, rest.join(" · "))];
}
