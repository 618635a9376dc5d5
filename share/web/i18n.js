// The page's own words. They stand in the code in English; a catalogue in `po`, which is kept by an office like any other, has them
// in another language.

import { indexIn } from "./plural.js";
import { readPo, stateOf } from "./po.js";

const NAME = /\{([a-z_]+)\}/;
const NAMES = new RegExp(NAME, "g");
const CHOICE = "page language";

let words = new Map();
let indexOf = (n) => (n === 1 ? 0 : 1);
let tag = "en";

// Marks a text that is translated where it is used.
export const mark = (text) => text;

const filled = (text, values) => text.replace(NAMES, (whole, name) => (Object.hasOwn(values, name) ? String(values[name]) : whole));

// A text of the page, with a value for each {name} in it.
export const t = (id, values = {}) => filled(words.get(id)?.[0] ?? id, values);

// One of two texts or of a language's forms, by a number, which is {count} in them.
export function nt(one, many, count, values = {}) {
  const text = words.get(one)?.[indexOf(count)] ?? (count === 1 ? one : many);
  return filled(text, { count: numberText(count), ...values });
}

// A text of the page in pieces, with an element for each {name} in it.
export function tx(id, elements) {
  const pieces = (words.get(id)?.[0] ?? id).split(/(\{[a-z_]+\})/);
  return pieces.map((piece) => elements[NAME.exec(piece)?.[1]] ?? piece);
}

export const pageLanguage = () => tag;

export const numberText = (number) => number.toLocaleString(tag);

export const timeText = (time) => new Date(time).toLocaleString(tag, { dateStyle: "medium", timeStyle: "short" });

// How long ago a time was.
export function ageText(time) {
  const seconds = Math.max(0, Math.round((Date.now() - time) / 1000));
  const form = new Intl.RelativeTimeFormat(tag, { numeric: "always" });
  if (seconds < 60) return form.format(-seconds, "second");
  if (seconds < 3600) return form.format(-Math.floor(seconds / 60), "minute");
  return seconds < 86_400 ? form.format(-Math.floor(seconds / 3600), "hour") : form.format(-Math.floor(seconds / 86_400), "day");
}

// Takes the words of a catalogue. What isn't translated stays English.
export function speak(language, text) {
  const { header, entries } = readPo(text);
  words = new Map(entries.filter((it) => stateOf(it) === "translated").map((it) => [it.id, it.forms]));
  const index = indexIn(header);
  indexOf = (n) => index?.(n) ?? 0;
  tag = language;
  document.documentElement.lang = language;
}

// The languages that the page has words in; which of them it speaks is chosen here, or else by the browser's languages.
export async function loadWords(files, store) {
  const { status, text } = await files.own("po/LINGUAS");
  const languages = ["en", ...(status === 200 ? text.split(/\s+/).filter((it) => /^[a-z]{2,3}(_[A-Z]{2})?$/.test(it)) : [])];
  const wanted = [store.getItem(CHOICE), ...navigator.languages].filter((it) => it !== null);
  const language = wanted.map((it) => fitting(languages, it)).find((it) => it !== undefined) ?? "en";
  if (language !== "en") {
    const answer = await files.own(`po/${language}.po`);
    if (answer.status === 200) speak(language.replace("_", "-"), answer.text);
  }
  return languages;
}

const fitting = (languages, wanted) =>
  languages.find((it) => it === wanted.replace("-", "_")) ?? languages.find((it) => it === wanted.split("-")[0]);

export const chooseWords = (store, language) => store.setItem(CHOICE, language);
