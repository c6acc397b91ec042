// The text of a certificate, made again out of the part that determines it. Nothing is believed of this: the text is
// checked before anything is told of it.

import {allRows, multiplied, wordsOfKeys} from "./multiplication.js";

/**
 * @typedef {object} Certified what the page holds of a certificate, but for its code
 * @property {number} order
 * @property {number} start
 * @property {number} period
 * @property {number[]} phi
 * @property {number[]} portion
 * @property {number[]} products what is told of them
 *
 * @typedef {object} More what it holds of a quotient of the atlas besides
 * @property {string} kind `wild`, or `tame` and its number
 * @property {number} class the class of its bipartite monoid up to isomorphism
 * @property {[string, number][]} codes each with its place in the atlas
 *
 * @typedef {Certified & More} Quotient
 */

/** The lines behind that of the code, which all codes of a quotient share. */
const rests = /** @type {WeakMap<Certified, string>} */ (new WeakMap());

/**
 * @param {string} code
 * @param {Certified} quotient
 */
export function certificateText(code, quotient) {
  const rest = rests.get(quotient) ?? restOf(quotient);
  rests.set(quotient, rest);
  return `mqc ${formatOf(code, quotient)}\ncode ${code}\n${rest}`;
}

/**
 * The format of a certificate, which its numbers tell.
 * @param {string} code
 * @param {{order: number, start: number, period: number}} quotient
 */
export function formatOf(code, {order, start, period}) {
  if (order > 512 || start + period > 1025) return 3;
  return period === 0 || order > 256 || /[89a-f]/.test(code) ? 2 : 1;
}

/** @param {Certified} quotient */
function restOf(quotient) {
  const {order, start, period, phi, portion, products} = quotient;
  const made = multiplied(order, Math.max(...phi), products);
  const leavesOut = formatOf("0.1", quotient) === 3;
  const rows = leavesOut ? made.rows : allRows(made);
  const lines = [
    `order ${order}`, `start ${start}`, `period ${period}`, `phi ${phi.join(" ")}`, `portion ${portion.join(" ")}`,
    `words ${wordsOfKeys(made, phi).join(" ")}`, ...rows.slice(leavesOut ? 1 : 0).map((row) => `row ${row.join(" ")}`),
    ...(leavesOut ? [] : [`apart ${separatingOf(rows, portion).join(" ")}`]), "end"
  ];
  return lines.join("\n") + "\n";
}

/**
 * For each two elements the least one that takes one of them into the portion and the other not.
 * @param {number[][]} rows
 * @param {number[]} portion
 */
function separatingOf(rows, portion) {
  const within = new Set(portion);
  const looks = rows.map((row) => row.map((x) => within.has(x)));
  return looks.flatMap((one, x) => looks.slice(x + 1).map((other) => firstDifference(one, other)));
}

/**
 * @param {boolean[]} one
 * @param {boolean[]} other
 */
function firstDifference(one, other) {
  let at = 0;
  while (at < one.length && one[at] === other[at]) at++;
  return at;
}
