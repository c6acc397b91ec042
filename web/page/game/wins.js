// The winning moves besides the first one: those of the page's list of moves behind which the module says P.

import {LARGEST_HEAP_PLAYED} from "../play/bounds.js";
import {Session} from "../play/session.js";
import {arrowOf} from "../positions.js";

/** Of more moves only the first winning one is told, and of more winning ones so many. */
const [MOST_TRIED, MOST_TOLD] = [2000, 8];

/**
 * A sentence on the others, or the empty text where there is none, or where there are too many moves.
 * @param {string} code
 * @param {bigint[]} heaps
 * @param {import("../../calls.js").Answer} answer the first one
 * @param {(positions: number[][]) => Promise<Uint32Array>} outcomesOf
 */
export async function otherWins(code, heaps, answer, outcomesOf) {
  if (answer.kind !== "wins" || heaps.some((heap) => heap > LARGEST_HEAP_PLAYED)) return "";
  const session = new Session(code, {name: code, first: heaps.map(Number), turns: []});
  const moves = session.moves(MOST_TRIED + 1);
  if (moves.length > MOST_TRIED) return "";
  const outcomes = await outcomesOf(moves.map((move) => session.after("you", move).heaps));
  const first = arrowOf(answer);
  const others = moves.filter((_, at) => outcomes[at] === 0).map(arrowOf).filter((it) => it !== first);
  const left = others.length - MOST_TOLD;
  const told = others.slice(0, MOST_TOLD).join(", ");
  if (!told) return " No other move wins.";
  return ` Also by ${told}${left > 0 ? ` and ${left} more` : ""}.`;
}
