// The triples of a whole game's heaps, as a table.

import {make} from "../dom.js";
import {explained} from "../terms.js";

/** @typedef {import("./fields.js").Whole} Whole */

/** @param {Whole} whole */
export function tripleSection(whole) {
  const {start, period, rise, listed} = whole;
  const heads = ["Heap", "Parity", "Weight", "Lead"];
  const rows = listed.map(({odd, weight, lead}, at) => {
    const cells = [odd ? "odd" : "even", String(weight), lead ? String(lead) : "–"];
    return make("tr", {}, make("th", {scope: "row"}, String(at + 1)), cells.map((it) => make("td", {}, it)));
  });
  const later = `And so on: from heap ${start} on, the heap that is larger by ${period} has the same parity, ${
      rise} more weight, and ${rise} more lead if it has one.`;
  return make(
      "section", {id: "triples"}, make("h2", {}, "Its heaps"),
      make(
          "table", {class: "triples"},
          make("thead", {}, make("tr", {}, heads.map((it) => make("th", {scope: "col"}, explainedHead(it))))),
          make("tbody", {}, rows)),
      make("p", {}, later));
}

/** @param {string} name */
function explainedHead(name) {
  return name === "Heap" ? name : explained(name);
}
