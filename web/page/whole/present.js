// The text of a whole game is checked, and if the checker accepts it, all that it says is shown.

import {playAddress} from "../address.js";
import {fill, make} from "../dom.js";
import {askForm, compareForm, outcomeOf} from "../game/ask.js";
import {wholeSection} from "../game/certificate_section.js";
import {linksOf} from "../game/links.js";
import {ruleSection} from "../game/quotient.js";
import {otherWins} from "../game/wins.js";
import {Oracle} from "../oracle.js";
import {outcomesOfPairs} from "../pictures/outcomes.js";
import {LARGEST_HEAP_PLAYED, MOST_HEAPS_PLAYED} from "../play/bounds.js";
import {USUAL_HEAPS} from "../play/reading.js";
import {sumOf} from "../positions.js";
import {isNo, lineTold, toldOfCertificate} from "../refusals.js";
import {timeTold} from "../times.js";

import {tripleOf, wholeName, wholeOf, wholeVerdict} from "./fields.js";
import {tripleSection} from "./table.js";
import {QUOTIENT, wholeTheorem} from "./theorem.js";
import {thirdOf} from "./third.js";

/** @typedef {import("../main.js").Page} Page */
/** @typedef {import("./fields.js").Whole} Whole */

/**
 * Shows the verdict on a text, and behind a yes what it says; nothing more once another verdict has its place.
 * @param {Page} page
 * @param {HTMLElement} root
 * @param {Uint8Array} bytes
 * @param {boolean} isGame whether it is shown as a game's, so that what else is known of that stands above
 */
export async function presentWhole(page, root, bytes, isGame = false) {
  const verdict = make("p", {class: "verdict", id: "verdict", role: "status"}, "Checking …");
  fill(root, verdict);
  const oracle = new Oracle(page.prover, bytes);
  const whole = wholeOf(new TextDecoder().decode(bytes));
  try {
    const time = await oracle.check();
    if (verdict.parentNode !== root) return;
    verdict.classList.add("yes");
    fill(verdict, wholeVerdict(whole), make("span", {class: "soft"}, ` (checked here in ${timeTold(time)})`));
    root.append(...sectionsOf(page, oracle, whole, isGame));
  } catch (failure) {
    verdict.classList.add(isNo(failure) ? "no" : "none");
    fill(verdict, toldOfCertificate(failure, () => whole.code), lineTold(failure, bytes));
  }
}

/**
 * @param {Page} page
 * @param {Oracle} oracle
 * @param {Whole} whole
 * @param {boolean} isGame
 */
function sectionsOf(page, oracle, whole, isGame) {
  const name = page.collection.keep(whole.text), {code} = whole;
  const pairs = outcomesOfPairs(MOST_DRAWN, (positions) => oracle.outcomes(positions));
  return [
    make("div", {class: "partial", id: "theorem"}, wholeTheorem(code)),
    linksOf(page, playAddress(name, USUAL_HEAPS), code, isGame),
    ruleSection(code),
    tripleSection(whole),
    make("section", {}, make("h2", {}, "The quotient"), make("p", {}, QUOTIENT)),
    askForm("Heaps, of any size", "2 3 1000000000000", (heaps) => saidOf(oracle, whole, heaps)),
    compareForm(["3 9", "11"], (one, other) => comparedOf(oracle, whole, one, other)),
    make("section", {}, make("h2", {}, "Pictures"), make("div", {class: "pictures"}, pairs)),
    wholeSection(whole),
  ];
}

/** The largest heap of the picture. */
const MOST_DRAWN = 63;

/**
 * @param {Oracle} oracle
 * @param {Whole} whole
 * @param {bigint[]} heaps
 */
async function saidOf(oracle, whole, heaps) {
  const answer = await oracle.answer(heaps);
  const isPlayable = heaps.length <= MOST_HEAPS_PLAYED && heaps.every((heap) => heap <= LARGEST_HEAP_PLAYED);
  return [
    outcomeOf(answer),
    await otherWins(whole.code, heaps, answer, (positions) => oracle.outcomes(positions)),
    ` It is ${tripleTold(tripleOf(whole, heaps))}. `,
    isPlayable && make("a", {href: playAddress(wholeName(whole.code), heaps)}, "Play it"),
  ];
}

/** @param {import("./fields.js").Triple} triple */
function tripleTold({odd, weight, lead}) {
  return `${odd ? "odd" : "even"}, of weight ${weight}, ${lead ? `of lead ${lead}` : "and no heap rules"}`;
}

/**
 * Whether two positions are indistinguishable, which is so exactly if their triples are the same; else also a third one
 * beside which their outcomes differ, if a small one serves. (Outcomes are the module's.)
 * @param {Oracle} oracle
 * @param {Whole} whole
 * @param {bigint[]} one
 * @param {bigint[]} other
 */
async function comparedOf(oracle, whole, one, other) {
  const [x, y] = [one, other].map((heaps) => tripleTold(tripleOf(whole, heaps)));
  if (x === y) return [`Indistinguishable: both are ${x}.`];
  const third = thirdOf(whole, one, other);
  return [`Distinguishable${third && (await besideTold(oracle, one, other, third))}. One is ${x}; the other is ${y}.`];
}

/**
 * @param {Oracle} oracle
 * @param {bigint[]} one
 * @param {bigint[]} other
 * @param {bigint[]} third
 */
async function besideTold(oracle, one, other, third) {
  const outcomes = await oracle.outcomes([[...one, ...third], [...other, ...third]]);
  const [first, second] = [...outcomes].map((it) => (it === 0 ? "P" : "N"));
  if (first === second) throw new Error("its third position has no different outcomes");
  return `: ${third.length ? `beside ${sumOf(third)} ` : ""}one is ${first} and the other ${second}`;
}
