// What an accepted presentation of an infinite quotient proves, in a sentence.

import {heapsTold} from "./part.js";

/** @param {import("./part.js").Part} part */
export function theoremOf(part) {
  const {code} = part;
  return `the misère quotient of ${heapsTold(part)} of ${
             code} is infinite, so neither these heaps nor the whole game ` +
      `of ${code} have a finite one.`;
}
