// What is known of a game without a full quotient, the strongest first: that no finite one exists, or each outcome of
// the whole game; then its parts.

import {gameAddress} from "../address.js";
import {make, separated} from "../dom.js";
import {infiniteName, partOf, partWords} from "../infinite/part.js";
import {theoremOf} from "../infinite/theorem.js";
import {explained} from "../terms.js";
import {wholeName} from "../whole/fields.js";
import {wholeTheorem} from "../whole/theorem.js";

import {judged} from "./judged.js";

/** @typedef {import("../main.js").Page} Page */

/**
 * Whether more is known of a code than one certificate says.
 * @param {import("../atlas.js").Atlas} atlas
 * @param {string} code
 */
export function isKnownFurther({games, infinite, whole, tails}, code) {
  const certificates = (games.get(code)?.length ?? 0) + (infinite.get(code)?.length ?? 0);
  return certificates > 1 || whole.has(code) || tails.has(code);
}

/**
 * What is told before the certificate that is shown, or nothing where that is all.
 * @param {Page} page
 * @param {string} code
 * @param {string} shown the name of the certificate that is shown
 */
export function knownSection(page, code, shown) {
  const {atlas} = page;
  if (!isKnownFurther(atlas, code)) return "";
  const infinite = (atlas.infinite.get(code) ?? []).map((it) => partOf(code, it));
  const isTold = infinite.some((it) => infiniteName(it) === shown) || wholeName(code) === shown;
  return make(
      "section", {id: "known", "aria-label": `What is known of ${code}`}, !isTold && strongest(page, code, infinite),
      partsTable(atlas, code, infinite, shown));
}

/**
 * @param {Page} page
 * @param {string} code
 * @param {import("../infinite/part.js").Part[]} infinite
 */
function strongest(page, code, infinite) {
  const tail = page.atlas.tails.get(code);
  if (infinite.length > 0) return theorem(page, infinite[0]);
  if (page.atlas.whole.has(code)) return solved(page, code);
  return tail !== undefined && normalBeyond(code, tail);
}

/**
 * The outcomes of a whole game, and whether the text that says them was accepted here.
 * @param {Page} page
 * @param {string} code
 */
function solved(page, code) {
  const name = wholeName(code);
  const text = make("a", {href: gameAddress(name)}, "a text of the atlas, which has these numbers of each heap");
  return make(
      "div", {class: "partial", id: "theorem"}, wholeTheorem(code), "This is by ", text, ". ", judged(page, name));
}

/**
 * @param {string} code
 * @param {number} heap
 */
function normalBeyond(code, heap) {
  return make(
      "p", {class: "partial", id: "theorem"}, `Beyond heap ${heap} as in `, explained("Normal play", "normal play"),
      `: each position of ${code} with a heap above ${heap}, of any number of heaps of any size, is P exactly if the ` +
          "nim sum of its heaps is 0. The certificate has the outcomes of all others. So each outcome of the whole " +
          "game is known. ",
      make("span", {id: "judged"}, "Not checked here: misere tail says it of the certificate."));
}

/**
 * The theorem of an infinite quotient, and whether its presentation was accepted here.
 * @param {Page} page
 * @param {import("../infinite/part.js").Part} part
 */
function theorem(page, part) {
  const name = infiniteName(part);
  const presentation = make("a", {href: gameAddress(name)}, "a presentation of the atlas");
  return make(
      "p", {class: "partial", id: "theorem"}, explained("No finite quotient"), `: ${theoremOf(part)} This is by `,
      presentation, ". ", judged(page, name));
}

/**
 * All certificates of a code, the one that is shown among them.
 * @param {import("../atlas.js").Atlas} atlas
 * @param {string} code
 * @param {import("../infinite/part.js").Part[]} infinite
 * @param {string} shown
 */
function partsTable({games, whole}, code, infinite, shown) {
  const link = (/** @type {string} */ name, /** @type {string} */ words) =>
      make("a", {href: gameAddress(name), "aria-current": name === shown && "page"}, words);
  const finite = (games.get(code) ?? []).map(({name, last, order}) => link(name, `heaps to ${last} (order ${order})`));
  const endless = infinite.map((it) => link(infiniteName(it), `heaps to ${partWords(it)}`));
  const all = whole.has(code) ? [link(wholeName(code), "three numbers of each heap, and what they say")] : [];
  const row = (/** @type {string} */ name, /** @type {Node[]} */ links) =>
      links.length > 0 && make("tr", {}, make("th", {scope: "row"}, name), make("td", {}, separated(links)));
  return make(
      "table", {class: "facts"},
      make("tbody", {}, row("Whole game", all), row("Infinite quotients", endless), row("Finite quotients", finite)));
}
