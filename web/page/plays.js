// Who wins a position, by a search of all plays that knows the code alone. (The page's own reading, for a position at
// which the checker told that a certificate fails.)

import {movesFrom} from "./codes.js";

/** The most moves that are looked at, which takes a browser a second at most. */
const MOST_MOVES = 1 << 16;

/**
 * @typedef {object} Place a position that is reached
 * @property {number[]} heaps
 * @property {Place[]} before those from which a move leads here
 * @property {number} open how many moves lead on to positions of which the outcome isn't known yet
 * @property {"P" | "N" | null} outcome
 */

/**
 * The outcome of a position: P where the player who has just moved wins, else N; or null where the search would be too
 * long.
 * @param {string} code
 * @param {(number | bigint)[]} heaps
 * @returns {"P" | "N" | null}
 */
export function outcomeByPlays(code, heaps) {
  if (heaps.some((it) => it > Number.MAX_SAFE_INTEGER)) return null;
  const reached = reachedFrom(code, heaps.map(Number));
  if (!reached) return null;
  decide(reached);
  return reached[0].outcome;
}

/**
 * All positions that are reached, the first one first; or null where there are too many moves.
 * @param {string} code
 * @param {number[]} first
 */
function reachedFrom(code, first) {
  /** @type {Map<string, Place>} */
  const known = new Map();
  /** @type {Place[]} */
  const reached = [];
  const placeOf = (/** @type {number[]} */ heaps) => {
    const sorted = heaps.sort((a, b) => a - b), key = sorted.join();
    const place = known.get(key) ?? {heaps: sorted, before: [], open: 0, outcome: null};
    if (!known.has(key)) reached.push(place);
    known.set(key, place);
    return place;
  };
  placeOf([...first]);
  let moves = 0;
  for (const from of reached) {
    for (const heaps of after(code, from.heaps)) {
      placeOf(heaps).before.push(from);
      from.open++;
      if (++moves > MOST_MOVES) return null;
    }
  }
  return reached;
}

/**
 * The positions to which a move leads.
 * @param {string} code
 * @param {number[]} heaps rising
 */
function* after(code, heaps) {
  for (const [at, heap] of heaps.entries()) {
    if (heap === heaps[at - 1]) continue;
    const others = heaps.filter((_, other) => other !== at);
    for (const {left} of movesFrom(code, heap)) yield [...others, ...left];
  }
}

/**
 * Finds all outcomes, from the ends of the plays on: where no move is left the player to move wins.
 * @param {Place[]} reached
 */
function decide(reached) {
  const decided = reached.filter(({open}) => open === 0);
  for (const place of decided) place.outcome = "N";
  for (const {outcome, before} of decided) {
    for (const place of before) {
      place.open--;
      if (place.outcome || (outcome === "N" && place.open > 0)) continue;
      place.outcome = outcome === "P" ? "N" : "P";
      decided.push(place);
    }
  }
}
