// What the lines of a certificate say.

/**
 * @typedef {object} Certificate
 * @property {string} text
 * @property {string} code
 * @property {number} order how many elements the quotient has
 * @property {number} start the heap from which on the period holds, or for a partial one the first of which it doesn't
 * speak
 * @property {number} period 0 for a partial one
 * @property {number[]} phi the elements of the heaps 1, 2, ..
 * @property {string[]} keys of each element but the identity an earlier one and a heap, such as `3:5`, whose product it
 * is
 * @property {Set<number>} portion
 * @property {number[][]} table the products, made when they are first asked for
 */

/**
 * @param {string} text that of an accepted certificate
 * @returns {Certificate}
 */
export function fieldsOf(text) {
  const lines = text.split("\n").map((line) => line.split(" "));
  const words = (/** @type {string} */ name) => lines.find(([first]) => first === name)?.slice(1) ?? [];
  const numbers = (/** @type {string} */ name) => words(name).map(Number);
  const [order, start, period] = ["order", "start", "period"].map((name) => numbers(name)[0]);
  const phi = numbers("phi");
  /** @type {number[][] | undefined} */
  let table;
  return {
    text,
    code: words("code")[0],
    order,
    start,
    period,
    phi,
    keys: words("words"),
    portion: new Set(numbers("portion")),
    get table() {
      const rows = () => lines.filter(([first]) => first === "row").map(([, ...row]) => row.map(Number));
      return table ??= allRows(order, phi, this.keys, rows());
    }
  };
}

/**
 * All rows of the table. A text in the third format has only those of the elements that heaps have; each other element
 * is the product of its key.
 * @param {number} order
 * @param {number[]} phi
 * @param {string[]} keys those of the elements 1, 2, ..
 * @param {number[][]} rows
 */
function allRows(order, phi, keys, rows) {
  if (rows.length === order) return rows;
  const all = [Array.from({length: order}, (_, x) => x), ...rows];
  for (const key of keys.slice(rows.length)) {
    const [element, heap] = key.split(":").map(Number);
    const row = all[element];
    all.push(all[phi[heap - 1]].map((x) => row[x]));
  }
  return all;
}

/**
 * The last heap of which a partial certificate speaks, or null for a full one.
 * @param {{start: number, period: number}} certificate
 */
export function lastHeap({start, period}) {
  return period ? null : start - 1;
}

/**
 * The name of a certificate, which no other has: its code, and behind it the last heap of a partial one.
 * @param {{code: string, start: number, period: number}} certificate
 */
export function nameOf(certificate) {
  const last = lastHeap(certificate);
  return last === null ? certificate.code : `${certificate.code}/${last}`;
}

/**
 * The line with which the program accepts a certificate.
 * @param {Certificate} certificate
 */
export function verdictOf({code, order, start, period}) {
  return `yes ${code} order ${order} ` + (period ? `start ${start} period ${period}` : `heaps ${start - 1}`);
}
