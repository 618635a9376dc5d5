// What the office takes as a string, and as lines of a comment (docs/FORMATS.md), and how a text with characters that a text
// field can't hold is written in one.

import { numberText, t } from "./i18n.js";

const LONGEST_STRING = 262_144;
const MOST_LINES = 20;
const LONGEST_LINE = 1_000;
const NO_STRING = /[\x00-\x06\x0e-\x1f]|\p{Surrogate}/u;
const NO_LINE = /[\x00-\x08\x0b-\x1f]|\p{Surrogate}/u;
// A text field makes a line end of a carriage return, and shows nothing of the others.
const UNSEEN = /[\x07\b\v\f\r]/;
const LETTERS = { "\x07": "a", "\b": "b", "\v": "v", "\f": "f", "\r": "r", "\\": "\\" };
const CHARACTERS = Object.fromEntries(Object.entries(LETTERS).map(([character, letter]) => [letter, character]));

const bytesOf = (text) => new TextEncoder().encode(text).length;

// What is wrong with a form, in words; null where nothing is.
export function faultOfForm(text) {
  if (NO_STRING.test(text)) return t("has a control character that a translation can't have");
  return bytesOf(text) > LONGEST_STRING ? t("has more than {count} bytes", { count: numberText(LONGEST_STRING) }) : null;
}

export function faultOfLines(lines) {
  if (lines.length > MOST_LINES) return t("has more than {count} lines", { count: MOST_LINES });
  if (lines.some((line) => NO_LINE.test(line))) return t("has a control character that a comment can't have");
  return lines.some((line) => bytesOf(line) > LONGEST_LINE) ? t("has a line of more than {count} bytes", { count: numberText(LONGEST_LINE) }) : null;
}

export const needsEscapes = (texts) => texts.some((text) => UNSEEN.test(text));

export const escaped = (text) => text.replace(/[\x07\b\v\f\r\\]/g, (character) => "\\" + LETTERS[character]);

// The text that is written so, or null where a backslash has none of the letters behind it.
export function unescaped(text) {
  if (/\\([^abfvr\\]|$)/.test(text.replaceAll("\\\\", ""))) return null;
  return text.replace(/\\([abfvr\\])/g, (_, letter) => CHARACTERS[letter]);
}

export const linesOf = (text) => (text === "" ? [] : text.split("\n"));
