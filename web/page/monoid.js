// The structure of a quotient's monoid: words for its elements, and its archimedean components. (The page's own reading
// of a certificate.)

/** @typedef {import("./certificate.js").Certificate} Certificate */

/**
 * The least word of each element: the fewest letters, then the first in the alphabet.
 * @param {Certificate} certificate
 * @param {{letter: string, heap: number}[]} generators
 */
export function wordsOf({order, table, phi}, generators) {
  const words = new Array(order).fill("");
  words[0] = "1";
  let last = [{element: 0, letters: "", from: 0}];
  while (last.length) {
    const next = [];
    for (const {element, letters, from} of last) {
      for (const [at, {letter, heap}] of generators.entries()) {
        const product = table[element][phi[heap - 1]];
        if (at < from || words[product]) continue;
        words[product] = spelled(letters + letter);
        next.push({element: product, letters: letters + letter, from: at});
      }
    }
    last = next;
  }
  return words.map((word, x) => word || `x${x}`);
}

/**
 * A word with powers: `aab` is `a^2b`.
 * @param {string} letters
 */
function spelled(letters) {
  return letters.replace(/(.)\1+/g, (run) => `${run[0]}^${run.length}`);
}

/**
 * @typedef {object} Component the elements of which one idempotent is a power
 * @property {number} idempotent
 * @property {number[]} members
 * @property {Set<number>} group its maximal subgroup, in which the idempotent is the identity
 * @property {number[]} covers the idempotents right below it
 */

/**
 * The archimedean components, the greater idempotents first. An idempotent e lies below f where ef = e.
 * @param {Certificate} certificate
 * @returns {Component[]}
 */
export function componentsOf({table}) {
  const powers = table.map((row, x) => idempotentOf(table, row, x));
  const idempotents = [...new Set(powers)];
  const isBelow = (/** @type {number} */ e, /** @type {number} */ f) => e !== f && table[e][f] === e;
  const belowOf = (/** @type {number} */ f) => idempotents.filter((e) => isBelow(e, f));
  // (a greater idempotent has more below it)
  idempotents.sort((e, f) => belowOf(f).length - belowOf(e).length || e - f);
  return idempotents.map((idempotent) => {
    const members = powers.flatMap((power, x) => (power === idempotent ? [x] : []));
    const below = belowOf(idempotent);
    return {
      idempotent,
      members,
      group: new Set(members.filter((x) => table[x][idempotent] === x)),
      covers: below.filter((e) => !below.some((f) => isBelow(e, f))),
    };
  });
}

/**
 * The idempotent among the powers of an element.
 * @param {number[][]} table
 * @param {number[]} row that of the element
 * @param {number} x
 */
function idempotentOf(table, row, x) {
  let power = x;
  while (table[power][power] !== power) power = row[power];
  return power;
}
