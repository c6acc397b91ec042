// The element of each heap.

import {lastHeap} from "../certificate.js";
import {make} from "../dom.js";
import {word} from "../mathml.js";
import {explained} from "../terms.js";

/** @typedef {import("./present.js").Game} Game */

/**
 * The columns of a table without a period, and its most rows; of a longer one the first rows are shown, and all on
 * demand.
 */
const [COLUMNS, MOST_ROWS, FIRST_ROWS] = [12, 16, 8];

/**
 * As many columns as a period, or some of them together.
 * @param {number} period
 */
function columnsOf(period) {
  if (period === 0 || period > 2 * COLUMNS) return COLUMNS;
  return period * Math.max(1, Math.floor(COLUMNS / period));
}

/** @param {Game} game */
export function heapSection(game) {
  const {phi, period} = game.certificate;
  const columns = columnsOf(period);
  const isLong = phi.length > columns * MOST_ROWS;
  const first = tableOf(game, columns, isLong ? columns * FIRST_ROWS : phi.length);
  const all = isLong && make("details", {id: "all-heaps"}, make("summary", {}, `All heaps from 1 to ${phi.length}`));
  if (all) all.addEventListener("toggle", () => all.append(tableOf(game, columns, phi.length)), {once: true});
  return make("section", {}, make("h2", {}, "Its heaps"), first, all, keyOf(game.certificate));
}

/**
 * The elements of the first heaps.
 * @param {Game} game
 * @param {number} columns
 * @param {number} count
 */
function tableOf({certificate, words}, columns, count) {
  const {phi, start, period, portion} = certificate;
  const cell = (/** @type {number} */ element, /** @type {number} */ at) => {
    const isLost = portion.has(element);
    const kinds = [isLost && "p", period && at + 1 >= start && "period"].filter(Boolean).join(" ");
    const title = `heap ${at + 1}${isLost ? ", lost for the player to move" : ""}`;
    return make("td", {class: kinds, title}, word(words[element]));
  };
  const cells = phi.slice(0, count).map(cell);
  const firsts = Array.from({length: Math.ceil(count / columns)}, (_, row) => row * columns);
  const row = (/** @type {number} */ first) =>
      make("tr", {}, make("th", {scope: "row"}, `${first}+`), cells.slice(first, first + columns));
  const head = Array.from({length: Math.min(columns, count)}, (_, at) => make("th", {scope: "col"}, String(at + 1)));
  const parts = [make("thead", {}, make("tr", {}, make("td"), head)), make("tbody", {}, firsts.map(row))];
  const region = {class: "scroll", tabindex: "0", role: "region", "aria-label": "The element of each heap"};
  return make("div", region, make("table", {class: "phi"}, parts));
}

/** @param {import("../certificate.js").Certificate} certificate */
function keyOf(certificate) {
  const {start, period} = certificate;
  const last = lastHeap(certificate);
  const reach = last === null ?
      [
        make("span", {class: "mark period"}, "Shaded:"), ` from heap ${start} on this repeats with `,
        explained("Period", `period ${period}`), "."
      ] :
      [`Of larger heaps than ${last} the certificate says nothing.`];
  return make(
      "p", {class: "key"}, make("span", {class: "mark p"}, "Blue:"), " in 𝒫, lost for the player to move. ", reach);
}
