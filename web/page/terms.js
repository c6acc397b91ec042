// The words of the subject, each explained where it stands.

import {make} from "./dom.js";

/** @type {Record<string, string>} */
export const TERMS = {
  "Order":
      "How many elements the quotient has. Each is a class of positions that behave alike beside any other position.",
  "Portion": "The 𝒫-portion: the elements whose positions are lost for the player to move (P-positions).",
  "Kind":
      "Tame 𝑛: the quotient is T𝑛, which is one of Nim’s: of Nim with heaps of up to 1 for T1, up to 3 for T2, up to " +
      "7 for T3, and so on. Wild: it is none of these.",
  "Generators": "Elements of heaps, named by letters, of which each element is a product.",
  "Units": "The elements that have an inverse: their product with some element is 1.",
  "Idempotents": "The elements that are their own square.",
  "Kernel": "The least ideal: the elements that are multiples of each element.",
  "Period":
      "From a start on, a heap has the element of the heap that is smaller by the period. A partial quotient has " +
      "none: it has a last heap.",
  "Relations": "Equations between products of the generators, from which all equations between products follow.",
  "Cycles":
      "For each letter from which exponent on the portion repeats along it, and after how many: whether a word is in " +
      "the portion is asked of the word with each exponent in its first period.",
  "Components": "An archimedean component: the elements of which one idempotent is a power.",
  "No finite quotient":
      "There are infinitely many positions that are pairwise distinguishable: beside some third position one of two " +
      "is P and the other N. So they are infinitely many classes, for which no finite monoid has room.",
  "Parity": "A position is odd if it has an odd number of odd heaps.",
  "Weight": "A number of each heap. A position has the sum of these of its heaps.",
  "Lead": "By how much a heap can rule: it rules a position if the other heaps together weigh less than its lead.",
  "Rules": "A heap rules a position if the other heaps together weigh less than its lead.",
  "Normal play": "The player who makes the last move wins. A position is P exactly if the nim values of its heaps, " +
      "added in binary without carry, come to 0.",
  "Whole game":
      "What is known of the game with all its heaps, if no finite quotient is: that none exists, or the outcome of " +
      "each position, or beyond which heap misère play is normal play.",
  "Same quotient": "Other codes whose certificate has the same lines but for the code.",
  "Same monoid": "Certificates whose monoids and portions are isomorphic, whichever heaps have their elements.",
};

/** So that each explanation has a name of its own. */
let count = 0;

/**
 * A word that is explained on demand, right behind it.
 * @param {string} term
 * @param {string} [name] as which it stands there
 */
export function explained(term, name = term) {
  const id = `term-${++count}`;
  const said = make("span", {class: "explanation", id, role: "note", hidden: true}, TERMS[term]);
  const toggle = () => {
    said.hidden = !said.hidden;
    button.setAttribute("aria-expanded", String(!said.hidden));
  };
  const button = make(
      "button", {type: "button", class: "term", "aria-expanded": "false", "aria-controls": id, onclick: toggle}, name);
  return [button, said];
}

/**
 * Several words with what they mean, on demand.
 * @param {string[]} terms
 */
export function glossary(terms) {
  const rows = terms.flatMap((it) => [make("dt", {}, it), make("dd", {}, TERMS[it])]);
  return make("details", {class: "terms"}, make("summary", {}, "What these words mean"), make("dl", {}, rows));
}
