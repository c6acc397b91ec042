// What the lines of the text of a whole game say: a triple for each heap. (The page's own reading.)

import {WHOLE} from "../atlas.js";

/**
 * @typedef {object} Triple
 * @property {boolean} odd
 * @property {bigint} weight
 * @property {bigint} lead 0 if no heap rules: if the others weigh less than its lead, a heap rules them
 *
 * @typedef {object} Whole
 * @property {string} text
 * @property {string} code
 * @property {number} start from which heap on the triples repeat
 * @property {number} period
 * @property {number} rise by which weights and leads grow each time
 * @property {Triple[]} listed those of the heaps 1 to start + period - 1
 */

const NOTHING = {
  odd: false,
  weight: 0n,
  lead: 0n
};

/**
 * Whether bytes or a text begin as such a text does.
 * @param {Uint8Array | string} certificate
 */
export function isWhole(certificate) {
  const begin = certificate.slice(0, 4);
  return (typeof begin === "string" ? begin : new TextDecoder().decode(begin)) === "mqw ";
}

/**
 * @param {string} text
 * @returns {Whole}
 */
export function wholeOf(text) {
  const lines = new Map(text.split("\n").map((line) => {
    const [name, ...words] = line.split(" ");
    return [name, words];
  }));
  const words = (/** @type {string} */ name) => lines.get(name) ?? [];
  const number = (/** @type {string} */ name) => Number(words(name)[0]);
  const [weights, leads] = ["weights", "leads"].map((name) => words(name).map(BigInt));
  return {
    text,
    code: words("code")[0],
    start: number("start"),
    period: number("period"),
    rise: number("rise"),
    listed: words("odd").map((word, at) => ({odd: word === "1", weight: weights[at], lead: leads[at]})),
  };
}

/**
 * The triple of a heap of any size.
 * @param {Whole} whole
 * @param {bigint} heap
 * @returns {Triple}
 */
function tripleOfHeap({start, period, rise, listed}, heap) {
  const behind = heap - BigInt(start);
  if (behind < 0n) return listed[Number(heap) - 1];
  const {odd, weight, lead} = listed[start - 1 + Number(behind % BigInt(period))];
  const more = BigInt(rise) * (behind / BigInt(period));
  return {odd, weight: weight + more, lead: lead ? lead + more : 0n};
}

/**
 * Parities and weights are added. Each lead is less by the weight beside it, and the greater one stays.
 * @param {Triple} one
 * @param {Triple} other
 * @returns {Triple}
 */
function product(one, other) {
  const left = [one.lead - other.weight, other.lead - one.weight, 0n];
  return {
    odd: one.odd !== other.odd,
    weight: one.weight + other.weight,
    lead: left.reduce((greatest, it) => (it > greatest ? it : greatest))
  };
}

/**
 * The triple of a position.
 * @param {Whole} whole
 * @param {bigint[]} heaps
 */
export function tripleOf(whole, heaps) {
  return heaps.map((heap) => tripleOfHeap(whole, heap)).reduce(product, NOTHING);
}

/**
 * Whether the text says of positions with this triple that they are P.
 * @param {Triple} triple
 */
export function isSaidP({odd, weight, lead}) {
  if (weight === 0n) return odd;
  return !odd && (weight % 2n === 1n) === lead > 0n;
}

/** @param {string} code */
export function wholeName(code) {
  return `${code}/${WHOLE}`;
}

/**
 * The line with which the program accepts such a text.
 * @param {{code: string}} whole
 */
export function wholeVerdict({code}) {
  return `infinite ${code} whole`;
}
