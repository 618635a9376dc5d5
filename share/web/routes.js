// Where in the page one is stands behind the # of its address: #/ are the languages, #/de the messages of one, #/de/unit?id=Hello
// one message, #/de/file its file, and #/domains/manual/de the messages of a further domain's. `show` and `search` say what is
// listed. #/~manage is what managers do: no language is called so.

export const MAIN = "main";
const ADDRESS = /^#\/(?:domains\/([^/?]+)\/)?([^/?]*)(?:\/(unit|file))?(?:\?(.*))?$/s;
const LANG = /^[A-Za-z][A-Za-z0-9_@-]{1,15}$/;
const NAME = /^[a-z][a-z0-9._-]{0,31}$/;
const MANAGE = "~manage";

export const HREF_OF_MANAGE = `#/${MANAGE}`;

export function hrefOf({ domain = MAIN, lang, part = null, id, ctx = null, show = null, search = null }) {
  if (lang === undefined) return "#/";
  const place = `#/${domain === MAIN ? "" : `domains/${domain}/`}${lang}`;
  const fields = Object.entries({ id: id ?? null, ctx, show, search }).filter(([, value]) => value !== null && value !== "");
  const empty = ctx === "" ? [["ctx", ""]] : [];
  const query = new URLSearchParams([...fields, ...empty]).toString();
  return `${place}${id === undefined ? (part === null ? "" : `/${part}`) : "/unit"}${query === "" ? "" : `?${query}`}`;
}

// { domain, lang, part, id, ctx, show, search }, each only as far as the address goes; null where it is no address of the page.
export function routeOf(hash) {
  const found = ADDRESS.exec(hash === "" ? "#/" : hash);
  if (!found) return null;
  const [, domain = MAIN, lang, part = null, query = ""] = found;
  if (lang === "" || lang === MANAGE) return { part: lang === MANAGE ? "manage" : null };
  const name = decoded(lang);
  if (!LANG.test(name) || !NAME.test(domain)) return null;
  const fields = new URLSearchParams(query);
  const route = { domain, lang: name, part, show: fields.get("show"), search: fields.get("search") };
  return part === "unit" && fields.has("id") ? { ...route, id: fields.get("id"), ctx: fields.get("ctx") } : route;
}

function decoded(text) {
  try {
    return decodeURIComponent(text);
  } catch {
    return text;
  }
}
