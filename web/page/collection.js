// The certificates of which the page knows, by name: those of the atlas, and those that were found or pasted here.
// (Each is checked when it is used.)

import {fieldsOf, nameOf} from "./certificate.js";
import {heldText} from "./infinite/held.js";
import {isPresented, presentedName, presentedOf} from "./presented/fields.js";
import {isWhole, wholeName, wholeOf} from "./whole/fields.js";

/** Behind this the session's storage keeps a certificate under its name. */
const PREFIX = "misere ";

export class Collection {
  /** @type {Map<string, string>} */
  #own = new Map();

  /** @type {Promise<import("./infinite/held.js").Held[]> | null} */
  #infinite = null;
  #unpack;

  /**
   * @param {import("./atlas.js").Atlas} atlas
   * @param {() => Promise<import("./infinite/held.js").Held[]>} unpack the presentations of infinite quotients
   */
  constructor(atlas, unpack) {
    this.atlas = atlas;
    this.#unpack = unpack;
  }

  /**
   * The certificate of a name: a code; a code and the last heap of a part, such as `0.75/8`; the presentation of an
   * infinite quotient, such as `0.07/34-33` for the heaps 1 to 34 without 33; that of a whole game, such as
   * `0.26/whole`; or another presentation that was checked here, such as `0.75/presented-22`.
   * @param {string} name
   * @returns {Promise<string | null>}
   */
  async find(name) {
    return this.#own.get(name) ?? stored(name) ?? this.atlas.text(name) ?? this.#infiniteOne(name);
  }

  /**
   * Keeps an accepted certificate, and tells the name under which it is found.
   * @param {string} text
   */
  keep(text) {
    const name = nameOfText(text), [code] = name.split("/");
    for (const known of [code, name])
      if (this.atlas.text(known) === text) return known;
    this.#own.set(name, text);
    store(name, text);
    return name;
  }

  /** @param {string} name */
  async #infiniteOne(name) {
    const [code, part] = name.split("/");
    if (!this.atlas.infinite.get(code)?.includes(part)) return null;
    this.#infinite ??= this.#unpack();
    return heldText(await this.#infinite, code, part);
  }
}

/** @param {string} text */
function nameOfText(text) {
  if (isWhole(text)) return wholeName(wholeOf(text).code);
  return isPresented(text) ? presentedName(presentedOf(text)) : nameOf(fieldsOf(text));
}

/** @param {string} name */
function stored(name) {
  try {
    return sessionStorage.getItem(PREFIX + name);
  } catch {
    return null;  // (some browsers have no storage for a page from a file)
  }
}

/**
 * @param {string} name
 * @param {string} text
 */
function store(name, text) {
  try {
    sessionStorage.setItem(PREFIX + name, text);
  } catch {
    // it lasts as long as the page
  }
}
