// Why a text that begins as a certificate is none, and in which line. (The page's own reading: the module says no more
// than that the bytes spell no certificate.)

import {MOST} from "../calls.js";

import {formatOf} from "./certificate_text.js";
import {formatNamed, isNumber} from "./text_lines.js";

/** @typedef {import("./text_lines.js").Format} Format */
/** @typedef {import("./text_lines.js").Wanted} Wanted */

/**
 * @typedef {object} Reading what is read of a text so far
 * @property {Format} format
 * @property {import("./text_lines.js").Numbers} numbers
 * @property {string} code
 * @property {number} step which of the format's steps the last line was
 * @property {number} count how many lines it had
 * @property {number} rows how many rows there have to be
 */

/**
 * The first fault of a text, such as `line 3: words after its name: 2, not 1`; the empty text where none is found.
 * @param {string} text of which each letter is a byte
 */
export function faultOfText(text) {
  if (text.length > MOST) return `more than ${MOST} bytes`;
  if (!text) return "no byte";
  const lines = text.split("\n"), rest = lines.pop();
  if (rest) lines.push(rest);
  /** @type {Reading} */
  const reading = {format: formatNamed(text), numbers: {}, code: "", step: 0, count: 0, rows: 0};
  for (const [at, line] of lines.entries()) {
    const fault = faultOfLetters(line, reading.format.foreign) || faultOfLine(reading, line.split(" "));
    if (fault) return `line ${at + 1}: ${fault}`;
  }
  if (rest) return "the last line has no end";
  return namesNext(reading).length ? "the last line isn't \"end\"" : faultOfFormat(reading);
}

/**
 * @param {string} line
 * @param {RegExp} foreign
 */
function faultOfLetters(line, foreign) {
  if (line.includes("\r")) return "a carriage return";
  if (line.includes("\t")) return "a tab";
  const [found] = line.match(foreign) ?? [];
  if (found) return `the byte ${found.charCodeAt(0)}, which no text has`;
  if (!line) return "empty";
  return /^ | $| {2}/.test(line) ? "a space at its beginning or end, or two together" : "";
}

/**
 * The fault of the next line, which is read.
 * @param {Reading} reading
 * @param {string[]} line its name, and the words behind that
 */
function faultOfLine(reading, [name, ...words]) {
  const names = namesNext(reading);
  if (!names.length) return "it comes after the line \"end\"";
  if (!names.includes(name)) return `its first word isn't ${names.join(" or ")}`;
  const {format: {steps, lines}, numbers, rows} = reading;
  const before = steps[reading.step][0] === "row" ? reading.count : 0;
  const isBehindRows = name !== "row" && names.includes("row");
  if (isBehindRows && before !== rows) return `rows before it: ${before}, not ${rows}`;
  const fault = faultOfWords(lines[name](numbers), words);
  if (fault) return fault;
  take(reading, name, words);
  return "";
}

/**
 * The names that the next line may have.
 * @param {Reading} reading
 */
function namesNext({format: {steps}, step, count}) {
  const names = [];
  for (const [at, [name, least, most]] of steps.entries()) {
    const had = at === step ? count : 0;
    if (at >= step && had < most) names.push(name);
    if (at >= step && had < least) break;
  }
  return names;
}

/**
 * @param {Reading} reading
 * @param {string} name
 * @param {string[]} words
 */
function take(reading, name, words) {
  const {format, numbers} = reading, [word] = words;
  const step = format.steps.findIndex(([it]) => it === name);
  reading.count = step === reading.step ? reading.count + 1 : 1;
  reading.step = step;
  if (name === "code") reading.code = word;
  if (name === "heaps" || (words.length === 1 && isNumber(word))) numbers[name] = Number(word);
  if (name === "letters") numbers[name] = words.length;
  if (name !== "words") return;
  // (the first elements are those whose keys have the element 0)
  const others = words.findIndex((key) => !key.startsWith("0:"));
  const firsts = others < 0 ? words.length : others;
  reading.rows = format.isShort ? firsts : numbers.order;
}

/**
 * @param {Wanted} wanted
 * @param {string[]} words
 */
function faultOfWords({count, atLeast = 0, atMost = Infinity, least = 0, below = Infinity, isRight, rises}, words) {
  const [fewest, most] = [count ?? atLeast, count ?? atMost];
  if (words.length < fewest || words.length > most)
    return `words after its name: ${words.length}, not ${amountTold(fewest, most)}`;
  for (const [at, word] of words.entries()) {
    if (isRight ? isRight(word, at, words) : isNumber(word) && Number(word) >= least && Number(word) < below) continue;
    if (isRight) return `“${word}”, which it can't have`;
    if (/^0\d+$/.test(word)) return `${word}, which begins with 0`;
    return isNumber(word) ? `${word}, which isn't ${least} to ${below - 1}` : `“${word}”, which is no number`;
  }
  return rises && !isRising(words) ? "its numbers don't rise" : "";
}

/**
 * @param {number} fewest
 * @param {number} most
 */
function amountTold(fewest, most) {
  if (fewest === most) return String(fewest);
  return most === Infinity ? `${fewest} or more` : `${fewest} to ${most}`;
}

/** @param {string[]} words */
function isRising(words) {
  return words.every((word, at) => at === 0 || Number(words[at - 1]) < Number(word));
}

/**
 * Whether the first line names the format that the numbers ask for.
 * @param {Reading} reading
 */
function faultOfFormat({code, numbers: {mqc, order, start, period}}) {
  const format = mqc && formatOf(code, {order, start, period});
  return mqc === format ? "" : `line 1: mqc ${mqc}, and by its numbers it is mqc ${format}`;
}
