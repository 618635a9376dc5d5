// The languages' texts that this page has, with what lies beside them; the glossary, and the memory that both make.

import { Catalogue } from "./catalogue.js";
import { Glossary, fromCsv, fromTbx } from "./glossary.js";
import { Memory } from "./memory.js";

const keyOf = ({ domain, lang }) => `${domain}/${lang}`;

export class Library {
  #office;
  #files;
  #source;
  #catalogues = new Map();
  #glossary = null;
  #memory = new Memory();

  // `files` are the glossary's, by the operator's file; `source` is the language of the messages.
  constructor(office, files, source) {
    this.#office = office;
    this.#files = files;
    this.#source = source;
  }

  // A language's text as it is now. { status, body, catalogue }, the last null where it isn't there.
  async load(of) {
    const beside = ["snapshot", "checks"].map((kind) => this.#office.beside(kind, of));
    const { status, text, body } = await this.#office.export(of);
    if (status !== 200) return { status, body, catalogue: null };
    const catalogue = new Catalogue(of, text);
    const [snapshot, checks] = await Promise.all(beside);
    catalogue.take(snapshot.body);
    catalogue.check(checks.body);
    this.#catalogues.set(keyOf(of), catalogue);
    return { status, catalogue };
  }

  // Takes a newer snapshot, if there is one.
  async look(catalogue) {
    catalogue.take((await this.#office.beside("snapshot", catalogue)).body);
  }

  // The text of a language that is only looked into: as it was when it was loaded.
  async has(of) {
    return this.#catalogues.get(keyOf(of)) ?? (await this.load(of)).catalogue;
  }

  // What is translated in the language, of all domains that were loaded.
  alike(message, isWanted) {
    const catalogues = Array.from(this.#catalogues.values()).filter((it) => it.lang === message.lang);
    return this.#memory.find(message, catalogues, isWanted);
  }

  async termsIn({ id, plural }, lang) {
    this.#glossary ??= Promise.all(this.#files.map((file) => this.#read(file))).then((all) => new Glossary(all.flat()));
    return (await this.#glossary).in(plural === null ? id : `${id}\n${plural}`, lang);
  }

  async #read(file) {
    if (file.endsWith(".csv")) {
      const { status, text } = await this.#office.own(file);
      return status === 200 ? fromCsv(text, this.#source) : [];
    }
    const document = await this.#office.xml(file);
    return document === null ? [] : fromTbx(document, this.#source);
  }
}
