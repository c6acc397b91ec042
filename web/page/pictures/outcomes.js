// The outcomes of all positions of two heaps.

import {lastHeap} from "../certificate.js";
import {draw, fill, make} from "../dom.js";
import {alertOf} from "../refusals.js";

import {gridPicture} from "./grid.js";

/** The largest heap of the picture. */
const LARGEST = 63;

/**
 * @param {import("../main.js").Page} page
 * @param {import("../game/present.js").Game} game
 */
export function outcomePicture(page, {bytes, certificate}) {
  const largest = Math.min(LARGEST, lastHeap(certificate) ?? LARGEST);
  return outcomesOfPairs(largest, async (positions) => (await page.prover.ask("outcomes", bytes, positions)).answer);
}

/**
 * The same of any game.
 * @param {number} largest the largest heap
 * @param {(positions: number[][]) => Promise<Uint32Array>} outcomesOf
 */
export function outcomesOfPairs(largest, outcomesOf) {
  const side = largest + 1;
  const positions =
      Array.from({length: side * side}, (_, at) => [at % side, Math.floor(at / side)].filter((heap) => heap > 0));
  const place = make("div", {class: "picture"});
  outcomesOf(positions).then((told) => fill(place, drawn(side, told)), (failure) => fill(place, alertOf(failure)));
  return place;
}

/**
 * @param {number} side
 * @param {Uint32Array} outcomes 0 where the position is lost for the player to move
 */
function drawn(side, outcomes) {
  const cells = [...outcomes.keys()]
                    .filter((at) => outcomes[at] === 0)
                    .map((at) => `M${at % side} ${Math.floor(at / side)}h1v1h-1z`);
  const svg = /** @type {SVGElement} */ (draw(
      "svg", {class: "grid outcomes", viewBox: `0 0 ${side} ${side}`, "shape-rendering": "crispEdges"},
      draw("rect", {class: "won", width: side, height: side}), draw("path", {class: "rule", d: rules(side)}),
      draw("path", {class: "lost", d: cells.join("")})));
  const said = (/** @type {number} */ column, /** @type {number} */ row) => {
    const isLost = outcomes[row * side + column] === 0;
    return [`Heaps ${column} and ${row}: ${isLost ? "P, lost for the player to move." : "N, won."}`];
  };
  return gridPicture(svg, side, `Two heaps, each of 0 to ${side - 1}: blue if the player to move loses.`, said);
}

/**
 * A fine line behind each eight heaps.
 * @param {number} side
 */
function rules(side) {
  const places = Array.from({length: Math.floor((side - 1) / 8)}, (_, at) => 8 * (at + 1));
  return places.map((at) => `M${at} 0v${side}M0 ${at}h${side}`).join("");
}
