// What the program's description of a quotient says, line by line.

/**
 * @typedef {object} Description
 * @property {string[]} letters the generators
 * @property {string[]} relations
 * @property {string[]} portion
 * @property {string} kind `wild`, or `tame` and its number
 * @property {{letter: string, heap: number}[]} generators each with the first heap that has it
 * @property {string[]} units
 * @property {string[]} idempotents
 * @property {string[]} kernel
 * @property {string[]} heaps the words of the heaps
 */

/**
 * @param {string} text
 * @returns {Description}
 */
export function describedOf(text) {
  const lines = text.split("\n").map((line) => line.trim());
  // (a partial quotient has its last heap as an index, as in Q_24(0.07) and P_24)
  const [, letters = "", relations = ""] = text.match(/^Q[_\d]*\(.*?\) = < ?(.*?) ?\| ?(.*?) ?>$/m) ?? [];
  const [, portion = ""] = text.match(/^P[_\d]* = \{ ?(.*?) ?\}$/m) ?? [];
  const words = (/** @type {string} */ name) =>
      lines.find((line) => line.split(" ")[0] === name)?.split(" ").slice(1) ?? [];
  return {
    letters: letters.split(",").filter(Boolean),
    relations: relations.split(", ").filter(Boolean),
    portion: portion.split(", "),
    kind: words("order").slice(3).join(" "),
    generators:
        words("generators").map((word) => word.split("=")).map(([letter, heap]) => ({letter, heap: Number(heap)})),
    units: words("units"),
    idempotents: words("idempotents"),
    kernel: words("kernel"),
    heaps: lines.filter((line) => /^\d+\+ /.test(line)).flatMap((line) => line.split(/ +/).slice(1)),
  };
}
