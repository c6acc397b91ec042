// The games of the atlas.

import {lastHeap} from "./certificate.js";
import {certificateText} from "./certificate_text.js";

/** @typedef {import("./certificate_text.js").Quotient} Quotient */

/**
 * @typedef {object} Held what the page holds of the atlas
 * @property {Quotient[]} quotients
 * @property {Record<string, string[]>} infinite of each code the parts with an infinite quotient, such as `34-33`
 * @property {Record<string, string>} whole of each code the lines behind it of the text of its whole game
 * @property {Record<string, number>} tails of each code beyond which heap its misère play is normal play
 */

/**
 * @typedef {object} Entry a certificate of a finite quotient
 * @property {string} code
 * @property {string} name which no other has: its code, and behind it the last heap of a partial one
 * @property {number} place where its game stands in the atlas
 * @property {Quotient} quotient
 * @property {number} order
 * @property {number} portion
 * @property {number | null} last the last heap of a partial quotient
 * @property {number | null} tame the n of T_n, or null of a wild quotient
 * @property {number | null} infinite the least last heap to which the quotient of its game is infinite, by a
 * certificate
 * @property {boolean} whole whether a text says the outcome of each position of the whole game
 * @property {number | null} tail beyond which heap its game's misère play is normal play
 */

/** As a part, the whole game. */
export const WHOLE = "whole";

export class Atlas {
  /** @param {Held} held */
  constructor({quotients, infinite, whole, tails}) {
    this.quotients = quotients;
    this.infinite = new Map(Object.entries(infinite));
    this.whole = new Map(Object.entries(whole));
    this.tails = new Map(Object.entries(tails));
    /** All certificates in the order of their games, and of a game the furthest first. */
    this.entries =
        quotients.flatMap((it) => entriesOf(it, this)).sort((a, b) => a.place - b.place || reach(b) - reach(a));
    /** Those of each code. */
    this.games = grouped(this.entries, ({code}) => code);
    /** Those of each class of bipartite monoids up to isomorphism. */
    this.classes = grouped(this.entries, (it) => it.quotient.class);
  }

  /**
   * The certificate of a name: of a code, the full one where there is one, else that of the most heaps; or of a part,
   * such as `0.07/24`. Null where the atlas has none.
   * @param {string} name
   */
  entry(name) {
    const [code, last] = name.split("/");
    const all = this.games.get(code) ?? [];
    return all.find((it) => !last || it.last === Number(last)) ?? null;
  }

  /**
   * The text of the certificate of a name, or null where the atlas has none.
   * @param {string} name
   */
  text(name) {
    const [code, part] = name.split("/"), whole = this.whole.get(code);
    if (part === WHOLE) return whole ? `mqw 1\ncode ${code}\n${whole}` : null;
    const entry = this.entry(name);
    return entry && certificateText(entry.code, entry.quotient);
  }

  /**
   * The other certificates of which all lines but that of the code are the same.
   * @param {Entry} entry
   */
  sameQuotient(entry) {
    return this.entries.filter((it) => it.quotient === entry.quotient && it !== entry);
  }

  /**
   * One certificate of each other quotient whose bipartite monoid is isomorphic.
   * @param {Entry} entry
   */
  isomorphic({quotient}) {
    const others = (this.classes.get(quotient.class) ?? []).filter((it) => it.quotient !== quotient);
    return [...grouped(others, (it) => it.quotient).values()].map(([first]) => first);
  }
}

/**
 * @param {Quotient} quotient
 * @param {Pick<Atlas, "infinite" | "whole" | "tails">} atlas
 * @returns {Entry[]}
 */
function entriesOf(quotient, {infinite, whole, tails}) {
  const {order, portion, kind, codes} = quotient;
  const last = lastHeap(quotient);
  const [, number] = kind.match(/^tame (\d+)$/) ?? [];
  const tame = number ? Number(number) : null;
  return codes.map(([code, place]) => {
    const name = last === null ? code : `${code}/${last}`;
    const lasts = (infinite.get(code) ?? []).map((it) => parseInt(it, 10));
    const least = lasts.length ? Math.min(...lasts) : null;
    const known = {infinite: least, whole: whole.has(code), tail: tails.get(code) ?? null};
    return {code, name, place, quotient, order, portion: portion.length, last, tame, ...known};
  });
}

/** @param {Entry} entry */
function reach({last}) {
  return last ?? Number.MAX_SAFE_INTEGER;
}

/**
 * @template T, K
 * @param {T[]} all
 * @param {(it: T) => K} key
 */
export function grouped(all, key) {
  /** @type {Map<K, T[]>} */
  const groups = new Map();
  for (const it of all) {
    const group = groups.get(key(it));
    if (group)
      group.push(it);
    else
      groups.set(key(it), [it]);
  }
  return groups;
}
