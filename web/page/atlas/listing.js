// What is listed, as data: CSV and JSON.

import {GAME_NAMES} from "../codes.js";

/** @typedef {import("../atlas.js").Entry} Entry */

/**
 * @typedef {object} Listed what is known of a game, or of the first of several
 * @property {string} code
 * @property {string} name that of Winning Ways, or the empty text
 * @property {number} order
 * @property {number} portion how many elements it has
 * @property {number | null} start from which heap on the period holds; null of a partial quotient, as the next one
 * @property {number | null} period
 * @property {number | null} last_heap the last heap of a partial quotient, else null
 * @property {number | null} tame the n of T_n, or null of a wild quotient
 * @property {number | null} infinite_to the least last heap to which a certificate says that the quotient is infinite
 * @property {boolean} whole whether a text says the outcome of each position of the whole game
 * @property {number | null} normal_above beyond which heap misère play is normal play
 * @property {string[]} same the other codes of the row
 */

/**
 * @param {Entry[][]} groups the rows
 * @returns {Listed[]}
 */
export function listedOf(groups) {
  return groups.map(([{quotient: {start, period}, code, order, portion, last, ...first}, ...others]) => ({
                      code,
                      name: GAME_NAMES.get(code) ?? "",
                      order,
                      portion,
                      start: last === null ? start : null,
                      period: last === null ? period : null,
                      last_heap: last,
                      tame: first.tame,
                      infinite_to: first.infinite,
                      whole: first.whole,
                      normal_above: first.tail,
                      same: others.map((it) => it.code),
                    }));
}

/**
 * Lines of commas, as RFC 4180 has them; null is an empty field.
 * @param {Listed[]} rows
 */
export function csvOf(rows) {
  const lines = rows.map((row) => Object.values({...row, same: row.same.join(" ")}).map(fieldOf).join(","));
  return [COLUMNS.join(","), ...lines, ""].join("\r\n");
}

const COLUMNS = [
  "code", "name", "order", "portion", "start", "period", "last_heap", "tame", "infinite_to", "whole", "normal_above",
  "same"
];

/** @param {string | number | boolean | null} value */
function fieldOf(value) {
  const text = String(value ?? "");
  return /[",\r\n]/.test(text) ? `"${text.replaceAll("\"", "\"\"")}"` : text;
}

/** @param {Listed[]} rows */
export function jsonOf(rows) {
  return `${JSON.stringify(rows, null, 1)}\n`;
}
