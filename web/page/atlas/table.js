// The list of the atlas: its columns and rows.

import {gameAddress} from "../address.js";
import {WHOLE} from "../atlas.js";
import {GAME_NAMES} from "../codes.js";
import {make} from "../dom.js";

/** @typedef {import("../atlas.js").Atlas} Atlas */
/** @typedef {import("../atlas.js").Entry} Entry */
/** @typedef {import("./choosing.js").Chosen} Chosen */

/**
 * @typedef {object} Column
 * @property {string} name
 * @property {string} [by] what is sorted by it
 * @property {string} [kind] how its cells are set
 * @property {(entry: Entry, atlas: Atlas, group: Entry[]) => import("../dom.js").Child} cell
 */

/** @type {Column[]} */
const COLUMNS = [
  {name: "Code", by: "place", kind: "code", cell: codeCell},
  {name: "Order", by: "order", kind: "number", cell: ({order}) => String(order)},
  {name: "Portion", by: "portion", kind: "number", cell: ({portion}) => String(portion)},
];
/** @type {Column[]} */
const DETAILS = [
  {name: "Period", by: "period", cell: periodOf},
  {name: "Kind", cell: ({quotient}) => quotient.kind},
];
/** @type {Column[]} */
const COUNTS = [
  {name: "Whole game", kind: "wide", cell: wholeOf},
  {name: "Same quotient", kind: "wide", cell: ({quotient}) => othersOf(quotient.codes)},
  {name: "Same monoid", kind: "wide", cell: ({quotient}, atlas) => othersOf(atlas.classes.get(quotient.class) ?? [])},
];
/** @type {Column[]} */
const CODES = [{name: "Others", kind: "codes", cell: (_, atlas, group) => group.slice(1).flatMap(spacedLink)}];

/**
 * (Where all codes are listed, a phone has no room for the details.)
 * @param {Chosen} chosen
 */
function columnsOf({each}) {
  if (each === "game" || each === "certificate") return [...COLUMNS, ...DETAILS, ...COUNTS];
  return [...COLUMNS, ...DETAILS.map((it) => ({...it, kind: "wide"})), ...CODES];
}

/**
 * (The game's own page has the furthest of its certificates.)
 * @param {Entry} entry
 * @param {Atlas} atlas
 */
function linkOf(entry, atlas) {
  const {code, name} = entry;
  return make("a", {href: gameAddress(atlas.entry(code) === entry ? code : name)}, code);
}

/**
 * A code, the name of its game, and where the list is narrow whether it has no finite quotient, or is normal play
 * beyond a heap.
 * @param {Entry} entry
 * @param {Atlas} atlas
 */
function codeCell(entry, atlas) {
  const name = GAME_NAMES.get(entry.code);
  const sign = endlessOf(entry, atlas, "∞") || normalOf(entry, "⊕");
  return [
    linkOf(entry, atlas), sign && make("span", {class: "narrow"}, " ", sign),
    name && make("span", {class: "soft known"}, ` ${name}`)
  ];
}

/** @param {Entry} entry */
function spacedLink({name}) {
  return [make("a", {href: gameAddress(name)}, name), " "];
}

/** @param {Entry} entry */
function periodOf({last, quotient: {period, start}}) {
  return last === null ? `${period} from ${start}` : `heaps to ${last}`;
}

/**
 * A link to what says that a game has no finite quotient: the certificate of the least last heap, or the text of the
 * whole game.
 * @param {Entry} entry
 * @param {Atlas} atlas
 * @param {string} words
 */
function endlessOf({code, infinite, whole}, atlas, words) {
  const [first] = whole ? [WHOLE] : (atlas.infinite.get(code) ?? []);
  const title = `no finite quotient: ${whole ? "each outcome is known" : `infinite to heap ${infinite}`}`;
  return first && make("a", {href: gameAddress(`${code}/${first}`), title, "aria-label": title}, words);
}

/**
 * What is known of the whole game, if no finite quotient is.
 * @param {Entry} entry
 * @param {Atlas} atlas
 */
function wholeOf(entry, atlas) {
  const {infinite, whole, tail} = entry;
  if (infinite !== null) return endlessOf(entry, atlas, `infinite to heap ${infinite}`);
  if (whole) return endlessOf(entry, atlas, "infinite, solved");
  return normalOf(entry, `normal beyond ${tail}`);
}

/**
 * A link to a game that is normal play beyond a heap.
 * @param {Entry} entry
 * @param {string} words
 */
function normalOf({code, tail}, words) {
  const title = `normal beyond ${tail}: misère play is normal play with a larger heap`;
  return tail !== null && make("a", {href: gameAddress(code), title, "aria-label": title}, words);
}

/** @param {unknown[]} all */
function othersOf(all) {
  return all.length > 1 ? `${all.length - 1} more` : "";
}

/**
 * The headings, by which the list is sorted.
 * @param {Chosen} chosen
 * @param {(more: Partial<Chosen>) => void} choose
 */
export function headOf(chosen, choose) {
  return columnsOf(chosen).map(({name, by, kind = ""}) => {
    if (!by) return make("th", {scope: "col", class: kind}, name);
    const isSorted = by === chosen.by;
    const sort = isSorted ? (chosen.down ? "descending" : "ascending") : "none";
    const onclick = () => choose({by, down: isSorted && !chosen.down});
    const button = make("button", {type: "button", onclick}, name);
    // (on paper no button is repeated on a further sheet)
    const printed = make("span", {class: "printed", "aria-hidden": "true"}, name);
    return make("th", {scope: "col", class: kind, "data-by": by, "aria-sort": sort}, button, printed);
  });
}

/**
 * The row of some games, of which the first is described.
 * @param {Atlas} atlas
 * @param {Chosen} chosen
 * @param {Entry[]} group
 */
export function rowOf(atlas, chosen, group) {
  const [first] = group;
  return make(
      "tr", {}, columnsOf(chosen).map(({kind = "", cell}) => make("td", {class: kind}, cell(first, atlas, group))));
}
