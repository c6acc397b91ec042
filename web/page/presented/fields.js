// What the lines of the text of a presentation say. (The page's own reading.)

import {infiniteName} from "../infinite/part.js";

/** Behind a slash and this the name of a finite presentation has its last heap, and those that are left out. */
export const PRESENTED = "presented";

/**
 * @typedef {object} Presented
 * @property {string} text
 * @property {string} code
 * @property {number} heaps how many heaps have words of their own
 * @property {number} period after how many these repeat, or 0 if no other heap counts
 * @property {number[]} leftOut the heaps of the list that have no word
 * @property {string[]} letters
 * @property {number[]} heapsOfLetters for each letter the heap whose word it is
 * @property {string[]} relations such as `a^2=1`
 * @property {string[]} portion the words of the line `portion`
 */

const FIRST_LETTER = "a".charCodeAt(0);

/**
 * Whether bytes or a text begin as such a text does.
 * @param {Uint8Array | string} certificate
 */
export function isPresented(certificate) {
  const begin = certificate.slice(0, 4);
  return (typeof begin === "string" ? begin : new TextDecoder().decode(begin)) === "mqp ";
}

/**
 * @param {string} text
 * @returns {Presented}
 */
export function presentedOf(text) {
  const lines = text.split("\n").map((line) => line.split(" "));
  const words = (/** @type {string} */ name) => lines.find(([first]) => first === name)?.slice(1) ?? [];
  const [heaps, , period = 0] = words("heaps").map(Number);
  const heapsOfLetters = words("letters").map(Number);
  return {
    text,
    code: words("code")[0],
    heaps,
    period,
    leftOut: words("words").flatMap((word, at) => (word === "-" ? [at + 1] : [])),
    letters: heapsOfLetters.map((_, at) => String.fromCharCode(FIRST_LETTER + at)),
    heapsOfLetters,
    relations: lines.flatMap(([name, left, right]) => (name === "relation" ? [`${left}=${right}`] : [])),
    portion: words("portion"),
  };
}

/**
 * Whether each power of some letter is an element: none is the left side of a relation.
 * @param {Presented} presented
 */
function isEndless({letters, relations}) {
  const powers = relations.map((it) => it.match(/^([a-z])(\^\d+)?=/)?.[1]);
  return letters.some((letter) => !powers.includes(letter));
}

/**
 * The name of a presentation: its code, its last heap if it has one, and each heap that is left out. (No part has a
 * finite quotient and an infinite one. One that is finite may have a certificate too.)
 * @param {Presented} presented
 */
export function presentedName(presented) {
  const {code, heaps, period, leftOut} = presented;
  if (period) return `${code}/${PRESENTED}`;
  const name = infiniteName({code, last: heaps, leftOut});
  return isEndless(presented) ? name : name.replace("/", `/${PRESENTED}-`);
}

/**
 * The heaps of which it speaks, in words.
 * @param {Presented} presented
 */
export function reachOf({heaps, period, leftOut}) {
  const without = leftOut.length ? ` without ${leftOut.join(" and ")}` : "";
  return period ? `all heaps${without && `${without}, and so on`}` : `the heaps 1 to ${heaps}${without}`;
}

/**
 * Whether it speaks of all these heaps.
 * @param {Presented} presented
 * @param {(number | bigint)[]} sizes
 */
export function speaksOf({heaps, period, leftOut}, sizes) {
  const first = BigInt(heaps - period + 1);
  const listed = (/** @type {bigint} */ heap) =>
      period && heap > BigInt(heaps) ? first + (heap - first) % BigInt(period) : heap;
  return sizes.map((it) => listed(BigInt(it))).every((it) => it <= BigInt(heaps) && !leftOut.includes(Number(it)));
}

/**
 * The line with which the program accepts it.
 * @param {Presented} presented
 * @param {number | null} order how many elements it has, or null if they are infinitely many
 */
export function presentedVerdict({code, heaps, period, relations}, order) {
  const reach = period ? `start ${heaps - period + 1} period ${period}` : `heaps ${heaps}`;
  return order === null ? `infinite ${code} ${reach} relations ${relations.length}` :
                          `yes ${code} order ${order} ${reach}`;
}
