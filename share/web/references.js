// Where a message stands in the program's sources, and links to there by the project's pattern.

// A name with white space in it stands between two characters of its own (U+2068 and U+2069).
const PLACE = /\u2068([^\u2069]*)\u2069(\S*)|(\S+)/g;

// { text, file, line } each; `line` is null where none is told.
export function placesIn(references) {
  const found = references.flatMap((reference) => Array.from(reference.matchAll(PLACE)));
  return found.map(([, isolated, rest, word]) => placeOf(isolated === undefined ? word : isolated + rest));
}

function placeOf(text) {
  const found = /^(.+?):(\d+)$/.exec(text);
  return found ? { text, file: found[1], line: found[2] } : { text, file: text, line: null };
}

// The address in which {file} and {line} stand for a place; null where there is no pattern of an address, or no line and no way
// without one: what stands in the pattern behind # is left out then.
export function linkOf({ file, line }, pattern) {
  if (typeof pattern !== "string") return null;
  const way = line === null ? pattern.split("#")[0] : pattern;
  if (line === null && way.includes("{line}")) return null;
  const path = file.replace(/^(\.{1,2}\/)+/, "").split("/").map(encodeURIComponent).join("/");
  try {
    const url = new URL(way.replaceAll("{file}", () => path).replaceAll("{line}", () => line));
    return url.protocol === "https:" || url.protocol === "http:" ? url.href : null;
  } catch {
    return null;
  }
}
