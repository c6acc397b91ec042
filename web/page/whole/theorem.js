// What an accepted text of a whole game proves, in words.

import {make} from "../dom.js";
import {explained} from "../terms.js";

/** @param {string} code */
export function wholeTheorem(code) {
  return [
    explained("No finite quotient"),
    `, and yet the outcome of each position of ${code} is known, of any number of heaps of any size. Each heap has a ` +
        "parity, a weight and a lead. A heap ",
    explained("Rules", "rules"),
    " the others if together they weigh less than its lead. Let S be the weight of all heaps. A position is P if and " +
        "only if",
    make(
        "ul", {}, make("li", {}, "S = 0, and the number of odd heaps is odd;"),
        make("li", {}, "or S is even and above 0, the number of odd heaps is even, and no heap rules;"),
        make("li", {}, "or S is odd, the number of odd heaps is even, and a heap rules.")),
  ];
}

export const QUOTIENT =
    "A position is odd if the number of its odd heaps is, and its weight is the sum of theirs. Its lead is the " +
    "greatest of its heaps’ leads, each less the weight of the other heaps, and never below 0. Two positions are " +
    "indistinguishable exactly if these three are the same. So the misère quotient is infinite.";
