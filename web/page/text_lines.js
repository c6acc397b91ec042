// The lines of certificates: their names in their order, and what stands behind each.

import {MOST_ELEMENTS, MOST_PART} from "../calls.js";

import {isCode} from "./codes.js";

/** The most heaps that the line `phi` has. */
const MOST_ENTRIES = 4096;
/** The most heaps of which a text of a whole game lists the triples, and the largest rise, weight and lead. */
const [MOST_LABELS, LARGEST_WEIGHT] = [1024, 60000];
/** The most letters and heaps of a presentation, its most relations and words, and its largest exponent. */
const [MOST_LETTERS, MOST_WORDS, MOST_ITEMS, LARGEST_POWER] = [26, 16384, 60000, 1000];

/**
 * @typedef {Record<string, number>} Numbers those that the lines before say, by the names of these
 *
 * @typedef {object} Wanted what a line has behind its name
 * @property {number} [count] how many words
 * @property {number} [atLeast] or how many at least
 * @property {number} [atMost] and at most
 * @property {number} [least] the range of each
 * @property {number} [below]
 * @property {(word: string, at: number, words: string[]) => boolean} [isRight] in place of a range
 * @property {boolean} [rises] whether each number is larger than the one before it
 *
 * @typedef {[string, number, number]} Step a name, and how many lines have it at least and at most
 *
 * @typedef {object} Format
 * @property {Step[]} steps
 * @property {RegExp} foreign the bytes that no line has
 * @property {boolean} isShort whether it has the rows of the first elements alone
 * @property {Record<string, (numbers: Numbers) => Wanted>} lines
 */

/** @param {string} word */
export function isNumber(word) {
  return /^(0|[1-9]\d*)$/.test(word);
}

/**
 * @param {string} word
 * @param {number} least
 * @param {number} most
 */
function isWithin(word, least, most) {
  return isNumber(word) && Number(word) >= least && Number(word) <= most;
}

/**
 * Whether a word is a key: an element below the order, and a heap.
 * @param {string} word
 * @param {number} order
 * @param {number} heaps
 */
function isKey(word, order, heaps) {
  const [element, heap, ...more] = word.split(":");
  return more.length === 0 && isWithin(element, 0, order - 1) && isWithin(heap ?? "", 1, heaps);
}

/**
 * Whether a word is the spelling of a product of letters: they rise, with exponents above 1; 1 is that of none.
 * @param {string} word
 */
function isSpelled(word) {
  if (word === "1") return true;
  const powers = [...word.matchAll(/([a-z])(?:\^([1-9]\d*))?/g)];
  const isWhole = word !== "" && powers.map(([it]) => it).join("") === word;
  const rises = powers.every(([, letter], at) => at === 0 || powers[at - 1][1] < letter);
  return isWhole && rises && powers.every(([, , power = "2"]) => isWithin(power, 2, LARGEST_POWER));
}

/**
 * Whether a word is of the line `heaps` of a presentation: so many, and after how many these repeat.
 * @param {string} word
 * @param {number} at
 * @param {string[]} words
 */
function isOfHeaps(word, at, words) {
  if (at === 1) return word === "period" && words.length === 3;
  return isWithin(word, 1, at === 0 ? MOST_WORDS : Number(words[0]));
}

/**
 * Whether a word is a start and a period.
 * @param {string} word
 */
function isCycle(word) {
  const [start, period, ...more] = word.split(":");
  return more.length === 0 && isWithin(start, 0, LARGEST_POWER) && isWithin(period ?? "", 1, LARGEST_POWER);
}

/** @type {Format["lines"]} */
const SHARED = {
  code: () => ({count: 1, isRight: isCode}),
  row: ({order}) => ({count: order, below: order}),
  end: () => ({count: 0}),
};

/** @type {Format["lines"]} */
const FINITE = {
  ...SHARED,
  mqc: () => ({count: 1, least: 1, below: 4}),
  order: () => ({count: 1, least: 2, below: MOST_ELEMENTS + 1}),
  start: () => ({count: 1, least: 1, below: MOST_ENTRIES + 1}),
  period: ({start}) =>
      ({count: 1, least: start > 1 && start <= MOST_PART + 1 ? 0 : 1, below: MOST_ENTRIES + 2 - start}),
  phi: ({order, start, period}) => ({count: start + period - 1, below: order}),
  portion: ({order}) => ({atLeast: 1, below: order, rises: true}),
  words: ({order, start, period}) => ({count: order - 1, isRight: (word) => isKey(word, order, start + period - 1)}),
  apart: ({order}) => ({count: (order * (order - 1)) / 2, below: order}),
};

/** @param {number} most */
const labels = (most) => (/** @type {Numbers} */ {start, period}) => ({count: start + period - 1, below: most + 1});

/** @type {Format["lines"]} */
const WHOLE = {
  ...SHARED,
  mqw: () => ({count: 1, least: 1, below: 2}),
  start: () => ({count: 1, least: 1, below: MOST_LABELS + 1}),
  period: ({start}) => ({count: 1, least: 1, below: MOST_LABELS + 2 - start}),
  rise: () => ({count: 1, least: 1, below: LARGEST_WEIGHT + 1}),
  odd: labels(1),
  weights: labels(LARGEST_WEIGHT),
  leads: labels(LARGEST_WEIGHT),
};

/** @type {Format["lines"]} */
const PRESENTED = {
  ...SHARED,
  mqp: () => ({count: 1, least: 1, below: 2}),
  heaps: () => ({atLeast: 1, atMost: 3, isRight: isOfHeaps}),
  letters: () => ({atMost: MOST_LETTERS, least: 1, below: MOST_WORDS + 1}),
  words: ({heaps}) => ({count: heaps, isRight: (word) => word === "-" || isSpelled(word)}),
  relation: () => ({count: 2, isRight: isSpelled}),
  cycle: ({letters}) => ({count: letters, isRight: isCycle}),
  portion: () => ({atMost: MOST_ITEMS, isRight: isSpelled}),
};

/**
 * @param {string} names
 * @returns {Step[]}
 */
function once(names) {
  return names.split(" ").map((name) => [name, 1, 1]);
}

/** @type {Step} */
const ROWS = ["row", 0, Infinity];
const HEAD = once("mqc code order start period phi portion words");

/** @type {Record<"whole" | "third" | "game" | "presented", Format>} */
const FORMATS = {
  whole: {steps: [...HEAD, ROWS, ...once("apart end")], foreign: /[^a-z0-9 .:]/, isShort: false, lines: FINITE},
  third: {steps: [...HEAD, ROWS, ...once("end")], foreign: /[^a-z0-9 .:]/, isShort: true, lines: FINITE},
  game: {
    steps: once("mqw code start period rise odd weights leads end"),
    foreign: /[^a-z0-9 .]/,
    isShort: false,
    lines: WHOLE
  },
  presented: {
    steps: [...once("mqp code heaps letters words"), ["relation", 0, MOST_ITEMS], ...once("cycle portion end")],
    foreign: /[^a-z0-9 .:^-]/,
    isShort: false,
    lines: PRESENTED
  },
};

/**
 * The format that the beginning of a text names.
 * @param {string} text
 */
export function formatNamed(text) {
  if (text.startsWith("mqw")) return FORMATS.game;
  if (text.startsWith("mqp")) return FORMATS.presented;
  return text.startsWith("mqc 3\n") ? FORMATS.third : FORMATS.whole;
}
