// Whether two positions are indistinguishable, and else a third one beside which their outcomes differ. (The third one
// is the page's own reading of the certificate; elements and outcomes are the module's.)

import {lastHeap} from "../certificate.js";
import {word} from "../mathml.js";
import {sumOf} from "../positions.js";

import {compareForm} from "./ask.js";

/** @typedef {import("../certificate.js").Certificate} Certificate */
/** @typedef {import("./present.js").Game} Game */

/**
 * @param {import("../main.js").Page} page
 * @param {Game} game
 */
export function compareSection(page, game) {
  const last = lastHeap(game.certificate) ?? Infinity;
  const [one, other] = [[3, 5], [4, 4]].map((heaps) => heaps.map((heap) => Math.min(heap, last)).join(" "));
  return compareForm([one, other], (x, y) => comparedOf(page, game, x, y));
}

/**
 * @param {import("../main.js").Page} page
 * @param {Game} game
 * @param {bigint[]} one
 * @param {bigint[]} other
 */
async function comparedOf({prover}, {bytes, certificate, words}, one, other) {
  const {answer: [x, y]} = await prover.ask("values", bytes, [one, other]);
  if (x === y) return ["Indistinguishable: both have the element ", word(words[x]), "."];
  const third = thirdOf(certificate, x, y);
  const {answer} = await prover.ask("outcomes", bytes, [one, other].map((heaps) => [...heaps, ...third]));
  const [first, second] = [...answer].map((it) => (it === 0 ? "P" : "N"));
  if (first === second) throw new Error("its third position has no different outcomes");
  const beside = third.length ? `beside ${sumOf(third)} ` : "";
  const told = `Distinguishable: ${beside}one is ${first} and the other ${second}. Their elements are `;
  return [told, word(words[x]), " and ", word(words[y]), "."];
}

/**
 * The position of the least element that takes one of two elements into the portion, and the other not.
 * @param {Pick<Certificate, "table" | "portion" | "keys">} certificate
 * @param {number} x
 * @param {number} y
 */
export function thirdOf({table, portion, keys}, x, y) {
  const heaps = [];
  let element = table.findIndex((_, z) => portion.has(table[x][z]) !== portion.has(table[y][z]));
  while (element > 0) {
    const [from, heap] = keys[element - 1].split(":").map(Number);
    heaps.push(heap);
    element = from;
  }
  return heaps.reverse();
}
