// Questions about a position of heaps of any size.

import {playAddress} from "../address.js";
import {lastHeap} from "../certificate.js";
import {fill, labelled, make} from "../dom.js";
import {word} from "../mathml.js";
import {LARGEST_HEAP_PLAYED, MOST_HEAPS_PLAYED} from "../play/bounds.js";
import {arrowOf, heapsOfText} from "../positions.js";
import {told} from "../refusals.js";

import {otherWins} from "./wins.js";

/** @typedef {import("./present.js").Game} Game */
/** @typedef {import("../main.js").Page} Page */

const NO_POSITION = "A position is a list of heaps of 1 to 10^18, such as 2 5 7. The one without heaps is 0.";

/**
 * @param {Page} page
 * @param {Game} game
 */
export function askSection(page, game) {
  const last = lastHeap(game.certificate);
  const usual = last === null ? "2 1000000000000" : [2, 3, 5].map((heap) => Math.min(heap, last)).join(" ");
  const label = last === null ? "Heaps, of any size" : `Heaps, up to ${last}`;
  return askForm(label, usual, (heaps) => saidOf(page, game, heaps));
}

/**
 * A field for a position, and what is answered of it.
 * @param {string} label
 * @param {string} usual the position that stands there at first
 * @param {(heaps: bigint[]) => Promise<import("../dom.js").Child[]>} saidOf
 */
export function askForm(label, usual, saidOf) {
  const fields = [{label, id: "heaps", value: usual}];
  return positionForm("Ask it", "Who wins?", "answer", fields, ([heaps]) => saidOf(heaps));
}

/**
 * Two fields for positions, and what is answered of both.
 * @param {[string, string]} usual the positions that stand there at first
 * @param {(one: bigint[], other: bigint[]) => Promise<import("../dom.js").Child[]>} saidOf
 */
export function compareForm([one, other], saidOf) {
  const fields = [{label: "One position", id: "one", value: one}, {label: "another one", id: "other", value: other}];
  return positionForm(
      "Compare two positions", "Distinguishable?", "compared", fields, ([first, second]) => saidOf(first, second));
}

/**
 * Fields for positions, and what is answered of them. What stands there is asked at once, so that an answer stands
 * under it.
 * @param {string} heading
 * @param {string} button
 * @param {string} id that of the answer
 * @param {{label: string, id: string, value: string}[]} fields
 * @param {(positions: bigint[][]) => Promise<import("../dom.js").Child[]>} saidOf
 */
function positionForm(heading, button, id, fields, saidOf) {
  const inputs = fields.map(({id, value}) => make("input", {id, value, autocomplete: "off", inputmode: "text"}));
  const answer = make("p", {class: "verdict", role: "status", id});
  const ask = async () => {
    const positions = inputs.flatMap(({value}) => {
      const heaps = heapsOfText(value);
      return heaps ? [heaps] : [];
    });
    const areAll = positions.length === inputs.length;
    answer.className = `verdict ${areAll ? "" : "none"}`;
    try {
      fill(answer, ...(areAll ? await saidOf(positions) : [NO_POSITION]));
    } catch (failure) {
      answer.classList.add("none");
      fill(answer, told(failure));
    }
  };
  const onsubmit = (/** @type {Event} */ event) => {
    event.preventDefault();
    return ask();
  };
  ask();
  const named = inputs.map((it, at) => labelled(fields[at].label, it));
  const form = make("form", {class: "row", onsubmit}, named, make("button", {}, button));
  return make("section", {class: "screen"}, make("h2", {}, heading), form, answer);
}

/**
 * @param {Page} page
 * @param {Game} game
 * @param {bigint[]} heaps
 */
async function saidOf({prover}, {name, bytes, certificate, words}, heaps) {
  const {answer} = await prover.ask("answer", bytes, heaps);
  const {answer: element} = await prover.ask("value", bytes, heaps);
  const outcomesOf = async (/** @type {number[][]} */ positions) =>
      (await prover.ask("outcomes", bytes, positions)).answer;
  const isPlayable = heaps.length <= MOST_HEAPS_PLAYED && heaps.every((heap) => heap <= LARGEST_HEAP_PLAYED);
  return [
    outcomeOf(answer),
    await otherWins(certificate.code, heaps, answer, outcomesOf),
    " Its element is ",
    word(words[element]),
    ". ",
    isPlayable && make("a", {href: playAddress(name, heaps)}, "Play it"),
  ];
}

/** @param {import("../../calls.js").Answer} answer */
export function outcomeOf(answer) {
  if (answer.kind === "ended") return "N: no move is left, so the player to move wins.";
  return answer.kind === "lost" ? "P: lost for the player to move." : `N: won by ${arrowOf(answer)}.`;
}
