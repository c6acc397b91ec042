// What a play needs of a certificate of a finite quotient, of a text of a whole game, or of a presentation.

import {fieldsOf, lastHeap} from "../certificate.js";
import {isPresented, presentedOf, reachOf, speaksOf} from "../presented/fields.js";
import {isWhole, wholeOf} from "../whole/fields.js";

export const USUAL_HEAPS = [3, 4, 5];

/**
 * @typedef {object} Reading
 * @property {string} code
 * @property {string} reach of which heaps it speaks, in words
 * @property {(heaps: number[]) => boolean} speaksOf whether it speaks of all these
 * @property {number[]} usual heaps to begin with
 */

/**
 * @param {string} text
 * @returns {Reading}
 */
export function readingOf(text) {
  if (isWhole(text)) return {code: wholeOf(text).code, reach: "all heaps", speaksOf: () => true, usual: USUAL_HEAPS};
  if (isPresented(text)) {
    const it = presentedOf(text), usual = it.heapsOfLetters.length ? it.heapsOfLetters.slice(0, 3) : [1];
    return {code: it.code, reach: reachOf(it), speaksOf: (heaps) => speaksOf(it, heaps), usual};
  }
  const certificate = fieldsOf(text);
  const last = lastHeap(certificate) ?? Infinity;
  return {
    code: certificate.code,
    reach: `heaps up to ${last}`,
    speaksOf: (heaps) => heaps.every((heap) => heap <= last),
    usual: USUAL_HEAPS.map((heap) => Math.min(heap, last)),
  };
}
