// The presentations of infinite quotients that the page holds (infinite.py). Nothing is believed of them: each text is
// checked before anything is told of it.

/**
 * @typedef {object} Held a text without its first two lines
 * @property {string[]} codes those that have it
 * @property {string} part of which heaps it speaks, such as `34` or `34-33`
 * @property {string} rest
 */

/**
 * The text of a code's part, or null where there is none.
 * @param {Held[]} held
 * @param {string} code
 * @param {string} name
 */
export function heldText(held, code, name) {
  const found = held.find(({codes, part}) => part === name && codes.includes(code));
  return found ? `mqp 1\ncode ${code}\n${found.rest}` : null;
}
