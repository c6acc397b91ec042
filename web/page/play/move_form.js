// The ways to make a move: by the chosen tokens, by a list of all moves, or where that is too long by words.

import {choice, labelled, make} from "../dom.js";
import {arrowOf, heapsOfText, sumOf} from "../positions.js";

/** @typedef {import("./session.js").Session} Session */
/** @typedef {import("../codes.js").Move} Move */
/** @typedef {import("./heap_row.js").Choice} Choice */

/** A longer list of moves isn't shown. */
const MOST_LISTED = 400;

/**
 * The button that makes the move of the chosen tokens.
 * @param {Session} session
 * @param {Choice | null} chosen
 * @param {(move: Move) => void} play
 */
export function chosenButton(session, chosen, play) {
  if (!chosen) return make("button", {type: "button", id: "move", disabled: true}, "Choose tokens");
  const heap = session.heaps[chosen.at];
  const left = [chosen.from, heap - 1 - chosen.to].filter((size) => size > 0);
  const move = session.move(heap, left);
  const name = move ? `Take ${move.taken}, leave ${sumOf(move.left)}` : "The rule doesn’t allow that";
  return make("button", {type: "button", id: "move", disabled: !move, onclick: () => move && play(move)}, name);
}

/**
 * @param {Session} session
 * @param {(move: Move) => void} play
 */
export function otherMoves(session, play) {
  const moves = session.moves(MOST_LISTED + 1);
  return moves.length > MOST_LISTED ? writtenMove(session, play) : listedMoves(moves, play);
}

/**
 * @param {Move[]} moves
 * @param {(move: Move) => void} play
 */
function listedMoves(moves, play) {
  const list = choice({id: "moves"}, moves.map((move, at) => [String(at), arrowOf(move)]), "0");
  const button =
      make("button", {type: "button", id: "other", onclick: () => play(moves[Number(list.value)])}, "Make that move");
  return make("div", {class: "row"}, labelled(`All ${moves.length} moves`, list), button);
}

/**
 * @param {Session} session
 * @param {(move: Move) => void} play
 */
function writtenMove(session, play) {
  const heaps = [...new Set(session.heaps)].sort((a, b) => b - a).map(String);
  const heap = choice({id: "from"}, heaps.map((size) => [size, size]), heaps[0]);
  const left = make("input", {id: "left", autocomplete: "off", placeholder: "3 5"});
  const submit = (/** @type {Event} */ event) => {
    event.preventDefault();
    const sizes = heapsOfText(left.value)?.map(Number);
    const move = sizes ? session.move(Number(heap.value), sizes) : null;
    left.setCustomValidity(move ? "" : "The rule doesn’t allow that");
    if (move)
      play(move);
    else
      left.reportValidity();
  };
  left.addEventListener("input", () => left.setCustomValidity(""));
  return make(
      "form", {class: "row", onsubmit: submit}, labelled("Of the heap", heap), labelled("leave the heaps", left),
      make("button", {id: "other"}, "Make that move"));
}
