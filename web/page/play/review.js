// A review of a play: each position with its outcome, and where a win was missed.

import {playAddress} from "../address.js";
import {fill, make} from "../dom.js";
import {arrowOf, sumOf} from "../positions.js";
import {alertOf} from "../refusals.js";

/** @typedef {import("./session.js").Session} Session */

const NAMES = {
  you: "you",
  program: "the program"
};

/**
 * @param {import("../oracle.js").Oracle} oracle
 * @param {Session} session
 */
export function review(oracle, session) {
  const place = make("div", {class: "scroll"});
  const details = make(
      "details", {class: "review", id: "review"}, make("summary", {}, "Review, with the outcome of each position"),
      place);
  const show = async () => {
    try {
      const outcomes = await oracle.outcomes(session.positions);
      fill(place, tableOf(session, [...outcomes].map((outcome) => outcome === 0)));
    } catch (failure) {
      fill(place, alertOf(failure));
    }
  };
  details.addEventListener("toggle", () => details.open && show());
  details.open = session.isOver;
  return details;
}

/**
 * @param {Session} session
 * @param {boolean[]} areLost whether each position is lost for the player to move there
 */
function tableOf({name, turns, positions}, areLost) {
  const heads = ["", "Who", "Move", "Position", "Outcome", ""].map((text) => make("th", {scope: "col"}, text));
  const rows = positions.map((heaps, at) => {
    const turn = turns[at - 1];
    const cells = [
      String(at), turn ? NAMES[turn.player] : "", turn ? arrowOf(turn) : "",
      make("a", {href: playAddress(name, heaps)}, sumOf(heaps)), areLost[at] ? "P" : "N",
      turn ? remark(areLost[at - 1], areLost[at]) : "the beginning"
    ];
    return make("tr", {class: areLost[at] ? "p" : ""}, cells.map((cell) => make("td", {}, cell)));
  });
  const key = make("p", {class: "soft"}, "P: lost for the player to move there. N: won.");
  return make("div", {}, make("table", {}, make("thead", {}, make("tr", {}, heads)), make("tbody", {}, rows)), key);
}

/**
 * @param {boolean} wasLost whether the position before the move was lost for the player who made it
 * @param {boolean} isLost whether the one behind it is for the other
 */
function remark(wasLost, isLost) {
  if (isLost) return "wins";
  return wasLost ? "no move wins" : "misses a win";
}
