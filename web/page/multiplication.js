// The products of a certificate, made again out of what the laws and the numbering by least keys leave open
// (multiplication.py). Nothing is believed of this: the text that comes of it is checked.

/**
 * @typedef {object} Products
 * @property {number[][]} rows those of the elements 0, 1, .. that heaps have
 * @property {[number, number][]} keys for each element behind these a smaller one and that of a heap, whose product it
 *     is
 */

/**
 * @param {number} order
 * @param {number} firsts how many elements heaps have, but the identity
 * @param {number[]} told the products that aren't known, in their order: 0 for the next element, else one more than the
 *     product
 * @returns {Products}
 */
export function multiplied(order, firsts, told) {
  const identity = Array.from({length: order}, (_, x) => x);
  /** @type {number[][]} */
  const rows = [identity, ...Array.from({length: firsts}, () => [])];
  /** @type {[number, number][]} */
  const keys = [];
  const untold = told.values();
  for (let x = 0; x < order; x++) {
    for (let g = 1; g <= firsts; g++) {
      let product = x <= firsts ? rows[x][g] : followed(rows, keys[x - firsts - 1], g);
      if (product === undefined) product = untold.next().value - 1;
      if (product < 0) product = firsts + keys.push([x, g]);
      rows[g][x] = product;
    }
  }
  return {rows, keys};
}

/**
 * The product of an element and that of a heap, by the key of the one, or undefined where it doesn't follow.
 * @param {number[][]} rows
 * @param {[number, number]} key
 * @param {number} g
 */
function followed(rows, [smaller, last], g) {
  return rows[last][rows[g][smaller]];
}

/**
 * The words of all keys but that of the identity, each with the first heap that has the element.
 * @param {Products} products
 * @param {number[]} phi the elements of the heaps
 */
export function wordsOfKeys({rows, keys}, phi) {
  const firsts = rows.slice(1).map((_, at) => [0, at + 1]);
  return [...firsts, ...keys].map(([x, g]) => `${x}:${phi.indexOf(g) + 1}`);
}

/**
 * The rows of all elements.
 * @param {Products} products
 */
export function allRows({rows, keys}) {
  const all = [...rows];
  for (const [x, g] of keys) all.push(all[x].map((y) => rows[g][y]));
  return all;
}
