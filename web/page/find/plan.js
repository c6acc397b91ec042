// The searches of one after another, each with its bounds.

import {ELEMENTS, HEAPS, INFINITE_HEAPS, MOST_BY_FEW, MOST_ELEMENTS, MOST_HEAPS, MOST_PART} from "../../calls.js";
import {codeOfName} from "../codes.js";

/**
 * @typedef {{aim: "whole" | "part" | "furthest" | "infinite", heaps: number, order?: number}} Search
 * @typedef {{name: string, search: Search}} Step
 *
 * @typedef {object} Aim what may be sought
 * @property {string} name
 * @property {string} [asks] the number that it asks for
 * @property {number} [least]
 * @property {number} [most]
 * @property {number} [usual]
 * @property {(number: number) => Step[]} steps
 */

/**
 * @param {number} heaps
 * @param {number} order
 * @returns {Step}
 */
function whole(heaps, order) {
  return {name: `full, by ${heaps} heaps, at most ${order} elements`, search: {aim: "whole", heaps, order}};
}

/**
 * @param {number} heaps
 * @returns {Step}
 */
function part(heaps) {
  return {name: `partial, to heap ${heaps}`, search: {aim: "part", heaps, order: MOST_ELEMENTS}};
}

/**
 * @param {number} order
 * @returns {Step}
 */
function furthest(order) {
  return {name: `furthest, at most ${order} elements`, search: {aim: "furthest", heaps: 1, order}};
}

/**
 * @param {number} heaps
 * @returns {Step}
 */
function infinite(heaps) {
  return {name: `infinite, to heap ${heaps}`, search: {aim: "infinite", heaps}};
}

/**
 * The numbers that double from the least on, and then the last.
 * @param {number} least
 * @param {number} last
 */
function doubling(least, last) {
  const numbers = [];
  for (let number = least; number < last; number *= 2) numbers.push(number);
  return [...numbers, last];
}

/** @type {Record<string, Aim>} */
export const AIMS = {
  all: {
    name: "full, then deep, partial, infinite",
    steps: () =>
        [whole(HEAPS, ELEMENTS), whole(MOST_HEAPS, MOST_BY_FEW), furthest(16), furthest(64), infinite(INFINITE_HEAPS)]
  },
  whole: {name: "full", steps: () => [whole(HEAPS, ELEMENTS)]},
  deep: {name: "full, deep", steps: () => [whole(MOST_HEAPS, MOST_BY_FEW)]},
  partial: {
    name: "partial, to a heap",
    asks: "Last heap",
    least: 1,
    most: MOST_PART,
    usual: 12,
    steps: (last) => doubling(4, last).map(part)
  },
  furthest: {
    name: "furthest",
    asks: "Most elements",
    least: 2,
    most: MOST_ELEMENTS,
    usual: 64,
    steps: (order) => doubling(16, order).map(furthest)
  },
  infinite: {
    name: "infinite, to a heap",
    asks: "Last heap",
    least: 1,
    most: MOST_PART,
    usual: INFINITE_HEAPS,
    steps: (last) => [infinite(last)]
  },
};

/**
 * @typedef {object} Sought
 * @property {string} code
 * @property {string} aim
 * @property {number} number what the aim asks for
 */

/**
 * What an address seeks, such as `0.75`, `0.75/8`, `0.07:deep` or `0.07:furthest:64`.
 * @param {string} word
 * @returns {Sought}
 */
export function soughtOf(word) {
  const [name, said = "", number] = word.split(":");
  const [named, last] = name.split("/");
  const code = codeOfName(named);
  const aim = last ? "partial" : said in AIMS ? said : "all";
  return {code, aim, number: Number(last ?? number) || (AIMS[aim].usual ?? 0)};
}

/** @param {Sought} sought */
export function soughtWord({code, aim, number}) {
  if (aim === "all") return code;
  if (aim === "partial") return `${code}/${number}`;
  return [code, aim, ...(AIMS[aim].asks ? [number] : [])].join(":");
}
