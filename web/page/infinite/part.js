// Parts of games with an infinite quotient, by their names.

/**
 * @typedef {object} Part of which heaps a text speaks
 * @property {string} code
 * @property {number} last its last heap
 * @property {number[]} leftOut the smaller heaps of which it doesn't speak
 */

/**
 * The part of a code that its name says, such as `34-33`.
 * @param {string} code
 * @param {string} name
 * @returns {Part}
 */
export function partOf(code, name) {
  const [last, ...leftOut] = name.split("-").map(Number);
  return {code, last, leftOut};
}

/**
 * The name of a text: its code, its last heap, and behind a dash each heap that is left out.
 * @param {Part} part
 */
export function infiniteName({code, last, leftOut}) {
  return `${code}/${[last, ...leftOut].join("-")}`;
}

/**
 * The heaps of which it speaks, in words.
 * @param {Part} part
 */
export function heapsTold(part) {
  return `the heaps 1 to ${partWords(part)}`;
}

/**
 * Its last heap, and those that are left out.
 * @param {Part} part
 */
export function partWords({last, leftOut}) {
  return `${last}${leftOut.length ? ` without ${leftOut.join(" and ")}` : ""}`;
}
