// A third position beside which two positions of a whole game have different outcomes. (The page's own search, by the
// triples that the text says.)

import {isSaidP, tripleOf} from "./fields.js";

/** The heaps of the third positions that are tried, so many of two heaps. */
const [LARGEST_ALONE, LARGEST_OF_TWO] = [256n, 48n];

/** @returns {Generator<bigint[]>} */
function* tried() {
  yield [];
  for (let heap = 1n; heap <= LARGEST_ALONE; heap++) yield [heap];
  for (let heap = 1n; heap <= LARGEST_OF_TWO; heap++)
    for (let more = heap; more <= LARGEST_OF_TWO; more++) yield [heap, more];
}

/**
 * The first of them, or the empty text where none serves.
 * @param {import("./fields.js").Whole} whole
 * @param {bigint[]} one
 * @param {bigint[]} other
 */
export function thirdOf(whole, one, other) {
  for (const third of tried()) {
    const [x, y] = [one, other].map((heaps) => isSaidP(tripleOf(whole, [...heaps, ...third])));
    if (x !== y) return third;
  }
  return "";
}
