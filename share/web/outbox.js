// The outbox: requests that wait for their replies. Each gets its number when it is made, is written down in the browser with
// it, never changes, and is sent again and again until its reply is there; so it acts once, whatever is lost. They are sent one
// at a time, in the order of their making, by one tab of the browser at a time. A request belongs to its caller, and goes only
// while that one is signed in.

import { t } from "./i18n.js";
import { faultWords } from "./words.js";

const FIRST_PAUSE = 500;
const LONGEST_PAUSE = 30_000;
const KEPT_REPLIES = 20;
const REPLIES = new Set([200, 403, 404, 409, 422]);
// Answers of the status 4xx that another time gives another one to.
const PASSING = new Set([408, 425, 429]);

// A UUID of version 7: its first 48 bits are the time.
export function numberAt(milliseconds) {
  const bytes = crypto.getRandomValues(new Uint8Array(16));
  let rest = milliseconds;
  for (let at = 5; at >= 0; at -= 1) {
    bytes[at] = rest % 256;
    rest = Math.floor(rest / 256);
  }
  bytes[6] = 0x70 | (bytes[6] & 0x0f);
  bytes[8] = 0x80 | (bytes[8] & 0x3f);
  const digits = Array.from(bytes, (byte) => byte.toString(16).padStart(2, "0")).join("");
  return digits.replace(/^(.{8})(.{4})(.{4})(.{4})/, "$1-$2-$3-$4-");
}

export const timeOf = (number) => parseInt(number.replace("-", "").slice(0, 12), 16);

// What an answer to a request means: "reply", it is the office's and final; "lost", the same request goes again; "away", nobody
// is signed in; "stopped", it would be answered so each time, and a person decides.
export function meaningOf(status, body, act) {
  if (isReply(status, body, act)) return "reply";
  if (status === 401) return "away";
  if (status === 500 && body !== undefined && body.error === "refused") return "stopped";
  return status >= 400 && status < 500 && !PASSING.has(status) ? "stopped" : "lost";
}

function isReply(status, body, act) {
  if (!REPLIES.has(status) || body === undefined) return false;
  return status === 200 ? isDone(body, act) : typeof body.refusal === "string" || body.error === "number-used";
}

// Whether a body is that of an act that was done.
function isDone(body, act) {
  switch (act) {
    case "template":
      return typeof body.languages === "object" && body.languages !== null;
    case "language":
      return Number.isInteger(body.loaded);
    case "team":
    case "domain":
      return typeof body.name === "string";
    case "policy":
      return Number.isInteger(body.units);
    default:
      return Number.isInteger(body.revision);
  }
}

// Tells of "change", when what waits has changed, and of "reply", with a reply's record, in each tab of the browser.
export class Outbox extends EventTarget {
  #office;
  #store;
  #prefix;
  #lock;
  #told;
  #wanted = false;
  #running = false;
  #pause = FIRST_PAUSE;
  #wake = () => {};
  caller = null;
  // Why nothing comes back, in words; null while all goes well.
  trouble = null;

  constructor(office, store, prefix) {
    super();
    this.#office = office;
    this.#store = store;
    this.#prefix = `${prefix} request `;
    this.#lock = `${prefix} outbox`;
    this.#told = `${prefix} replies`;
    addEventListener("storage", (event) => this.#onStorage(event));
    addEventListener("online", () => this.run());
    document.addEventListener("visibilitychange", () => document.hidden || this.run());
  }

  // What waits, of all callers, in the order of its making.
  requests() {
    const keys = Object.keys(this.#store).filter((key) => key.startsWith(this.#prefix));
    return keys.sort().flatMap((key) => JSON.parse(this.#store.getItem(key)) ?? []);
  }

  // The last replies, the newest first.
  replies() {
    return JSON.parse(this.#store.getItem(this.#told)) ?? [];
  }

  // Writes the request down, and begins to send. Where the browser has no room this throws, and nothing is sent.
  post(act) {
    const last = this.requests().at(-1);
    const number = numberAt(Math.max(Date.now(), last ? timeOf(last.number) + 1 : 0));
    this.#write({ number, caller: this.caller, act });
    this.run();
    return number;
  }

  // A stopped request goes again, under its number.
  restart(number) {
    const request = this.requests().find((it) => it.number === number);
    if (request) this.#write({ ...request, stopped: undefined });
    this.run();
  }

  // Nothing is known of whether a stopped request acted, only that its answer was no reply.
  discard(number) {
    this.#store.removeItem(this.#prefix + number);
    this.#changed();
  }

  async run() {
    this.#wanted = true;
    this.#wake();
    if (this.#running) return;
    this.#running = true;
    while (this.#wanted) {
      this.#wanted = false;
      await this.#turn();
    }
    this.#running = false;
  }

  async #turn() {
    const outcome = await this.#alone(() => this.#sendFirst()).catch(() => "lost");
    if (outcome === "reply" || outcome === "stopped") {
      this.#pause = FIRST_PAUSE;
      this.#wanted = true;
    }
    if (outcome === "lost") {
      await this.#rest();
      this.#wanted = true;
    }
  }

  // One tab sends at a time. Without locks, which a page without encryption doesn't have, two may send one request: it acts once.
  async #alone(work) {
    return navigator.locks ? navigator.locks.request(this.#lock, work) : work();
  }

  async #sendFirst() {
    const request = this.requests().find((it) => it.caller === this.caller && !it.stopped);
    if (!request) return this.#trouble(null, "empty");
    const signedIn = await this.#office.caller();
    if (signedIn.caller !== this.caller) return this.#notSignedIn(signedIn);
    const answer = await this.#office.post(request.number, request.act);
    const meaning = meaningOf(answer.status, answer.body, request.act.act);
    if (meaning === "reply") return this.#heard(request, answer);
    const words = faultWords(answer.status, answer.body);
    if (meaning === "stopped") {
      this.#write({ ...request, stopped: words });
      return this.#trouble(null, meaning);
    }
    this.#pause = Math.max(this.#pause, answer.pause ?? 0);
    return this.#trouble(words, meaning);
  }

  // Where somebody else is signed in, or nobody, the requests wait until the page is looked at again.
  #notSignedIn({ status, body, caller }) {
    const other = caller !== null && t("{caller} is signed in now; load the page again", { caller });
    const isLost = status === 0 || status === 429 || status >= 500;
    return this.#trouble(other || faultWords(status, body), isLost ? "lost" : "away");
  }

  #trouble(words, outcome) {
    const changed = this.trouble !== words;
    this.trouble = words;
    if (changed) this.#changed();
    return outcome;
  }

  // First the reply is written down and then the request is removed: what falls between sends it once more.
  #heard(request, { status, body }) {
    // Of a template or a language the text isn't kept.
    const reply = { ...request, act: { ...request.act, po: undefined }, status, body, at: Date.now() };
    const others = this.replies().filter((it) => it.number !== request.number);
    try {
      this.#store.setItem(this.#told, JSON.stringify([reply, ...others].slice(0, KEPT_REPLIES)));
    } catch {
      this.#store.removeItem(this.#told);
    }
    this.#store.removeItem(this.#prefix + request.number);
    this.trouble = null;
    this.#tell(reply);
    this.#changed();
    return "reply";
  }

  async #rest() {
    const pause = this.#pause;
    this.#pause = Math.min(2 * this.#pause, LONGEST_PAUSE);
    await new Promise((wake) => {
      this.#wake = wake;
      setTimeout(wake, pause);
    });
  }

  #write(request) {
    this.#store.setItem(this.#prefix + request.number, JSON.stringify(request));
    this.#changed();
  }

  #changed() {
    this.dispatchEvent(new Event("change"));
  }

  #tell(reply) {
    this.dispatchEvent(new CustomEvent("reply", { detail: reply }));
  }

  // What another tab has written. What waits is sent by whichever tab is still there.
  #onStorage({ key, oldValue, newValue }) {
    if (key?.startsWith(this.#prefix) && newValue !== null) this.run();
    if (key === this.#told) {
      const known = new Set((JSON.parse(oldValue) ?? []).map((it) => it.number));
      (JSON.parse(newValue) ?? []).filter((it) => !known.has(it.number)).reverse().forEach((it) => this.#tell(it));
    }
    if (key === null || key === this.#told || key.startsWith(this.#prefix)) this.#changed();
  }
}
