// The office's four routes, and what the front server, the operator's file and the files beside the page tell. All addresses are
// below the page's own.

import { MAIN } from "./routes.js";

const PATIENCE = 150_000;
const CALLER = /^[a-z][a-z0-9._-]{0,31}$/;

export class Office {
  #base;

  constructor(base) {
    this.#base = base;
  }

  // The status, 0 where there was no whole answer, with the text, and with the object if the text is one of JSON.
  async #fetch(path, options = {}) {
    try {
      const asked = { cache: "no-store", redirect: "manual", signal: AbortSignal.timeout(PATIENCE), ...options };
      const response = await fetch(new URL(path, this.#base), asked);
      // A redirection is that of a front server to its form for signing in.
      if (response.type === "opaqueredirect") return { status: 401, text: "" };
      const text = await response.text();
      return { status: response.status, text, body: objectIn(text), pause: pauseIn(response) };
    } catch {
      return { status: 0, text: "" };
    }
  }

  stats(of) {
    return this.#fetch(pathOf(of, "stats"));
  }

  export(of) {
    return this.#fetch(this.exportPath(of));
  }

  exportPath(of) {
    return pathOf(of, "export");
  }

  unit({ domain, lang, id, ctx }) {
    const further = { ...(ctx === null ? {} : { ctx }), ...(domain === MAIN ? {} : { domain }) };
    return this.#fetch(`v1/unit?${new URLSearchParams({ lang, id, ...further })}`);
  }

  // A file beside the page of a language: its snapshot, or what checks found.
  beside(kind, { domain, lang }) {
    return this.#fetch(`${kind}/${domain === MAIN ? "" : `${domain}/`}${lang}.json`);
  }

  // A file of the page's or of the project's.
  own(path) {
    return this.#fetch(path);
  }

  // The same as a document of XML; null where it is none. The browser reads it: markup made of strings is forbidden here.
  xml(path) {
    return new Promise((resolve) => {
      const request = new XMLHttpRequest();
      request.open("GET", new URL(path, this.#base));
      request.responseType = "document";
      request.overrideMimeType("application/xml");
      request.onload = () => resolve(request.status === 200 ? request.responseXML : null);
      request.onerror = () => resolve(null);
      request.send();
    });
  }

  post(number, act) {
    const headers = { "Content-Type": "application/json" };
    return this.#fetch(`v1/requests/${number}`, { method: "POST", headers, body: JSON.stringify(act) });
  }

  // The operator's file.
  configuration() {
    return this.#fetch("office.json");
  }

  // Who is signed in, by the front server.
  async caller() {
    const answer = await this.#fetch("caller");
    const name = answer.status === 200 ? answer.body?.caller : null;
    return { ...answer, caller: typeof name === "string" && CALLER.test(name) ? name : null };
  }
}

// Names of domains and languages stand in a path as they are.
const pathOf = ({ domain, lang }, what) => (domain === MAIN ? `v1/${what}/${lang}` : `v1/domains/${domain}/${what}/${lang}`);

function objectIn(text) {
  try {
    const value = JSON.parse(text);
    return typeof value === "object" && value !== null ? value : undefined;
  } catch {
    return undefined;
  }
}

// Milliseconds that the answer asks to wait. Where two servers on the way ask for that, both stand in one text.
function pauseIn(response) {
  const seconds = /^\d{1,4}\b/.exec(response.headers.get("Retry-After") ?? "");
  return seconds ? Number(seconds[0]) * 1000 : 0;
}
