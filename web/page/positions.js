// Positions, as lists of heaps.

import {LARGEST_HEAP} from "../calls.js";

/** So many equal heaps in a row are written out, and more are counted. */
const MOST_REPEATED = 4;

/**
 * The heaps of a text such as `2 5 7`, `2,5,7` or `2 + 5 + 7`, or null where it is none. The position without heaps is
 * `0`, or the empty text; beside a heap `0` is none, as for the program.
 * @param {string} text
 */
export function heapsOfText(text) {
  const words = text.split(/[\s,+]+/).filter(Boolean);
  if (words.length === 1 && words[0] === "0") return [];
  const isHeap = (/** @type {string} */ word) => /^[1-9]\d{0,18}$/.test(word) && BigInt(word) <= LARGEST_HEAP;
  return words.every(isHeap) ? words.map(BigInt) : null;
}

/**
 * Heaps one after another, long runs of equal ones counted, such as `4094·1, 3`.
 * @param {(number | bigint)[]} heaps
 */
export function listOf(heaps) {
  /** @type {(number | bigint)[][]} */
  const runs = [];
  for (const heap of heaps) {
    const last = runs[runs.length - 1];
    if (last && last[0] === heap)
      last.push(heap);
    else
      runs.push([heap]);
  }
  return runs.map((run) => (run.length > MOST_REPEATED ? `${run.length}·${run[0]}` : run.join(", "))).join(", ");
}

/**
 * Heaps as they are written on the page.
 * @param {(number | bigint)[]} heaps
 */
export function sumOf(heaps) {
  return heaps.length ? heaps.join(" + ") : "nothing";
}

/**
 * A move as it is written on the page.
 * @param {{heap: number | bigint, left: (number | bigint)[]}} move
 */
export function arrowOf({heap, left}) {
  return `${heap} → ${sumOf(left)}`;
}
