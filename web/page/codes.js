// Codes of octal and hexadecimal games: their moves, and their rules in words. (The page's own reading: what is said of
// a game comes from the module.)

/**
 * @typedef {{heap: number, taken: number, left: number[]}} Move what is taken from a heap, and the heaps that are left
 * of it, rising
 */

/** The names of Winning Ways, for some codes. */
export const GAME_NAMES = new Map([
  ["0.77", "Kayles"],
  ["0.07", "Dawson’s Kayles"],
  ["0.137", "Dawson’s Chess"],
  ["0.15", "Guiles"],
  ["0.6", "Officers"],
]);

/**
 * The code of a name such as `Kayles`, or else the text.
 * @param {string} text
 */
export function codeOfName(text) {
  const named = [...GAME_NAMES].find(([, name]) => plain(name) === plain(text));
  return named ? named[0] : text;
}

/**
 * Whether the name of a code has such a text in it.
 * @param {string} code
 * @param {string} text
 */
export function isNamed(code, text) {
  return text !== "" && plain(GAME_NAMES.get(code) ?? "").includes(plain(text));
}

/** @param {string} name */
function plain(name) {
  return name.toLowerCase().replace(/[^a-z]/g, "");
}

/** @param {string} text */
export function isCode(text) {
  return /^[048c]\.[0-9a-f]{0,15}[1-9a-f]$/.test(text);
}

/**
 * The digits of a code: each says in how many heaps, as bits, what is left may stand where as many are taken.
 * @param {string} code
 */
function digitsOf(code) {
  return [...code.replace(".", "")].map((letter) => parseInt(letter, 16));
}

/**
 * Whether a digit allows to leave as many heaps.
 * @param {number} digit
 * @param {number} heaps
 */
const allows = (digit, heaps) => ((digit >> heaps) & 1) === 1;

/**
 * The moves from a heap, one after another: those that take less first, and of these those that leave fewer heaps.
 * @param {string} code
 * @param {number} heap
 * @returns {Generator<Move>}
 */
export function* movesFrom(code, heap) {
  for (const [taken, digit] of digitsOf(code).entries()) {
    const rest = heap - taken;
    if (rest === 0 && allows(digit, 0)) yield {heap, taken, left: []};
    if (rest >= 1 && allows(digit, 1)) yield {heap, taken, left: [rest]};
    if (allows(digit, 2))
      for (const left of pairsOf(rest, 1)) yield {heap, taken, left};
    if (allows(digit, 3))
      for (const left of triplesOf(rest)) yield {heap, taken, left};
  }
}

/**
 * The ways to write a number as a sum of two, each at least as large as the least.
 * @param {number} sum
 * @param {number} least
 */
function* pairsOf(sum, least) {
  for (let first = least; 2 * first <= sum; first++) yield [first, sum - first];
}

/** @param {number} sum */
function* triplesOf(sum) {
  for (let first = 1; 3 * first <= sum; first++)
    for (const others of pairsOf(sum - first, first)) yield [first, ...others];
}

/**
 * The move that leaves these heaps of a heap, or null where the rule doesn't allow it.
 * @param {string} code
 * @param {number} heap
 * @param {number[]} left
 * @returns {Move | null}
 */
export function moveTo(code, heap, left) {
  const taken = heap - left.reduce((sum, it) => sum + it, 0);
  const digit = digitsOf(code)[taken] ?? 0;
  return allows(digit, left.length) ? {heap, taken, left: [...left].sort((a, b) => a - b)} : null;
}

const COUNTS = ["no", "one", "two", "three"];

/**
 * The rule of a code's game in words: a sentence for each number that may be taken.
 * @param {string} code
 */
export function ruleOf(code) {
  return digitsOf(code).flatMap((digit, taken) => (digit ? [sentenceOf(digit, taken)] : []));
}

/**
 * @param {number} digit
 * @param {number} taken
 */
function sentenceOf(digit, taken) {
  const counts = [1, 2, 3].filter((heaps) => allows(digit, heaps));
  const named = counts.map((heaps) => COUNTS[heaps]).join(" or ");
  const left = `${named} ${named === "one" ? "heap" : "heaps"}`;
  if (taken === 0) return `Take nothing, and split a heap into ${left}.`;
  if (!named) return `Take a whole heap of ${taken}.`;
  if (!allows(digit, 0)) return `Take ${taken} from a larger heap, and leave the rest as ${left}.`;
  return `Take ${taken}: the whole heap, or else leave the rest as ${left}.`;
}
