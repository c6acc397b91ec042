// Which certificates of the atlas are listed, and in which order. The choice stands in the address.

import {MOST_HEAPS} from "../../calls.js";
import {grouped} from "../atlas.js";
import {isNamed} from "../codes.js";

/** @typedef {import("../atlas.js").Entry} Entry */

/**
 * @typedef {object} Chosen
 * @property {string} code what the code has in it, or how it begins; or a part of a name
 * @property {string} speaks `full`, `partial`, `infinite` for games without a finite one, `solved` for those of which
 * each outcome is known, or the empty text
 * @property {string} kind `tame`, `wild`, or the empty text for both
 * @property {string} order a number, or two such as `6-12`
 * @property {string} portion the same
 * @property {string} period the same, of full quotients
 * @property {string} tame the same of n, where the quotient is T_n
 * @property {string} each `game`, `certificate`, `quotient` or `monoid`: what has a row of its own
 * @property {string} by the column that sorts
 * @property {boolean} down
 */

/** @type {Chosen} */
const USUAL = {
  code: "",
  speaks: "",
  kind: "",
  order: "",
  portion: "",
  period: "",
  tame: "",
  each: "game",
  by: "place",
  down: false
};


/** @type {Record<string, (entry: Entry) => number>} */
const KEYS = {
  // (by the period, partial quotients stand behind the full ones, by their last heaps)
  place: ({place}) => place,
  order: ({order}) => order,
  portion: ({portion}) => portion,
  period: ({quotient: {period}, last}) => (last === null ? period : MOST_HEAPS + last),
};

/** @type {Record<string, (entry: Entry) => unknown>} */
const GROUPS = {
  game: ({code}) => code,
  certificate: (entry) => entry,
  quotient: ({quotient}) => quotient,
  monoid: ({quotient}) => quotient.class
};

/**
 * @param {string} word what the address says, such as `kind=wild&by=order`
 * @returns {Chosen}
 */
export function chosenOf(word) {
  const said = Object.fromEntries(new URLSearchParams(word));
  const {by, each, down} = said;
  return {
    ...USUAL,
    ...said,
    by: by in KEYS ? by : "place",
    each: each in GROUPS ? each : "game",
    down: down === "true"
  };
}

/**
 * The part of an address that says what isn't usual.
 * @param {Chosen} chosen
 */
export function wordOf(chosen) {
  const usual = new Map(Object.entries(USUAL));
  const said = Object.entries(chosen).filter(([name, value]) => usual.has(name) && value !== usual.get(name));
  return said.length ? `=${new URLSearchParams(said.map(([name, value]) => [name, String(value)]))}` : "";
}

/**
 * The certificates that are chosen, in the order of their games, by what has a row of its own: a list for each row. The
 * row of a game has the furthest of those of its certificates that are chosen.
 * @param {import("../atlas.js").Atlas} atlas
 * @param {Chosen} chosen
 */
export function rowsOf(atlas, chosen) {
  const {each, by, down} = chosen;
  const key = KEYS[by];
  const groups = [...grouped(atlas.entries.filter((it) => isSought(it, chosen)), GROUPS[each]).values()];
  const rows = each === "game" ? groups.map(([furthest]) => [furthest]) : groups;
  const compared = (/** @type {Entry} */ a, /** @type {Entry} */ b) => Math.sign(key(a) - key(b));
  return rows.sort(([a], [b]) => (down ? -1 : 1) * compared(a, b) || a.place - b.place);
}

/** @type {Record<string, (entry: Entry) => boolean>} */
const SPEAKS = {
  full: ({last}) => last === null,
  partial: ({last}) => last !== null,
  infinite: ({infinite, whole}) => infinite !== null || whole,
  solved: ({last, whole, tail}) => last === null || whole || tail !== null,
};

/**
 * @param {Entry} entry
 * @param {Chosen} chosen
 */
function isSought(entry, {code, speaks, kind, order, portion, period, tame}) {
  const isFull = entry.last === null, isTame = entry.tame !== null;
  return isMeant(entry.code, code.trim()) && (SPEAKS[speaks]?.(entry) ?? true) &&
      (!kind || (kind === "tame") === isTame) && isWithin(entry.order, order) && isWithin(entry.portion, portion) &&
      isWithin(isFull ? entry.quotient.period : null, period) && isWithin(entry.tame, tame);
}

/**
 * Whether a code is meant by what is written: its beginning, if that has a point; a part of its name, if that has other
 * letters than codes have; else some of its digits.
 * @param {string} code
 * @param {string} sought
 */
function isMeant(code, sought) {
  if (sought.includes(".")) return code.startsWith(sought);
  return /[^0-9a-f]/.test(sought) ? isNamed(code, sought) : code.includes(sought);
}

/** A number, or two with a dash between, of which one may be left out. */
const RANGE = /^\s*(\d*)\s*([-–]?)\s*(\d*)\s*$/;

/**
 * Whether a field of numbers says some, or is empty.
 * @param {string} text
 */
export function isRead(text) {
  return RANGE.test(text) && /\d|^\s*$/.test(text);
}

/**
 * What stands in such fields and says no numbers, so that nothing is sought by it.
 * @param {Chosen} chosen
 */
export function unread({order, portion, period, tame}) {
  return [order, portion, period, tame].filter((it) => !isRead(it));
}

/**
 * Whether a number is the one that is sought, or between two; null is never. A text that says neither seeks all.
 * @param {number | null} number
 * @param {string} sought
 */
function isWithin(number, sought) {
  const [, least, dash, most] = sought.match(RANGE) ?? [];
  if (!least && !most) return true;
  if (number === null) return false;
  if (!dash) return number === Number(least);
  return number >= Number(least || 0) && number <= Number(most || Infinity);
}
