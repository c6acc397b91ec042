// The quotient that a presentation is, as the module tells it.

import {make, separated} from "../dom.js";
import {ofGame, relation, word} from "../mathml.js";
import {explained} from "../terms.js";

/**
 * @typedef {object} Quotient what the module says of a presentation that it accepted
 * @property {string} code
 * @property {number} heaps how many heaps have words of their own
 * @property {number} period after how many these repeat, or 0
 * @property {number | null} order how many elements there are, or null if they are infinitely many
 * @property {Record<string, number>} generators for each letter the heap whose word it is
 * @property {[string, string][]} relations
 * @property {string[]} portion
 * @property {Record<string, [number, number]>} cycles for each letter from which exponent on the portion repeats along
 *     it, and after how many
 * @property {(string | null)[]} words for each heap its word, or null if it is left out
 */

/** What the portion of an infinite quotient has besides the words that are written. */
const REPEATS =
    "The portion repeats by the cycles below, and these are its words in the first period of each. Where c has the " +
    "cycle 3:2, exponents of c repeat from 3 on with period 2: then c⁶ is in the portion exactly if c⁴ is.";

/** The columns of a table without a period, and the most. */
const [COLUMNS, MOST_COLUMNS] = [12, 24];

/** @param {Quotient} quotient */
export function quotientSection(quotient) {
  const {code, heaps, period, order, generators, relations, portion} = quotient;
  const last = period ? null : heaps, isInfinite = order === null;
  const equations = relations.map((sides) => relation(sides.join("=")));
  return make(
      "section", {}, make("h2", {}, "The quotient"),
      make(
          "p", {class: "presentation", id: "presentation"}, ofGame("𝒬", last, code), " = ⟨ ",
          ...separated(Object.keys(generators).map(word)), equations.length ? " ∣ " : "", ...separated(equations),
          " ⟩"),
      make(
          "p", {class: "presentation", id: "portion"}, ofGame("𝒫", last), " = { ", ...separated(portion.map(word)),
          isInfinite ? ", .. }" : " }"),
      isInfinite ? make("p", {class: "key", id: "repeats"}, REPEATS) : "", factTable(quotient));
}

/** @param {Quotient} quotient */
function factTable({order, generators, relations, portion, cycles}) {
  const named =
      Object.entries(generators).map(([letter,
                                       heap]) => make("span", {class: "generator"}, word(letter), ` of heap ${heap}`));
  const repeated =
      Object.entries(cycles).map(([letter, [start, length]]) => make("span", {}, word(letter), ` ${start}:${length}`));
  /** @type {[string, import("../dom.js").Child[]][]} */
  const facts = [
    ["Order", [order === null ? "infinite" : String(order)]],
    ["Relations", [String(relations.length)]],
    ["Portion", [`${portion.length} ${portion.length === 1 ? "word" : "words"}`]],
    ["Generators", separated(named)],
    ["Cycles", separated(repeated)],
  ];
  const rows =
      facts.map(([name, value]) => make("tr", {}, make("th", {scope: "row"}, explained(name)), make("td", {}, value)));
  return make("table", {class: "facts", id: "facts"}, make("tbody", {}, rows));
}

/**
 * The word of each heap.
 * @param {Quotient} quotient
 */
export function wordSection({heaps, period, words}) {
  const columns = period && period <= MOST_COLUMNS ? period * Math.max(1, Math.floor(COLUMNS / period)) : COLUMNS;
  const cells = words.map((it, at) => make("td", {title: `heap ${at + 1}`}, it === null ? "–" : word(it)));
  const firsts = Array.from({length: Math.ceil(cells.length / columns)}, (_, row) => row * columns);
  const rows = firsts.map(
      (first) => make("tr", {}, make("th", {scope: "row"}, `${first}+`), cells.slice(first, first + columns)));
  const head =
      Array.from({length: Math.min(columns, cells.length)}, (_, at) => make("th", {scope: "col"}, String(at + 1)));
  const reach = period ? `From heap ${heaps - period + 1} on this repeats with period ${period}.` :
                         `Of larger heaps than ${heaps} it says nothing.`;
  const table = make(
      "table", {class: "phi", id: "words"}, make("thead", {}, make("tr", {}, make("td"), head)),
      make("tbody", {}, rows));
  const region = {class: "scroll", tabindex: "0", role: "region", "aria-label": "The word of each heap"};
  return make("section", {}, make("h2", {}, "Its heaps"), make("div", region, table), make("p", {class: "key"}, reach));
}
