// The text of a presentation is checked, and if the checker accepts it, the quotient that it is is shown.

import {playAddress} from "../address.js";
import {countSeconds} from "../counting.js";
import {fill, make} from "../dom.js";
import {askForm, compareForm, outcomeOf} from "../game/ask.js";
import {presentedSection} from "../game/certificate_section.js";
import {linksOf} from "../game/links.js";
import {ruleSection} from "../game/quotient.js";
import {otherWins} from "../game/wins.js";
import {theoremOf} from "../infinite/theorem.js";
import {word} from "../mathml.js";
import {Oracle} from "../oracle.js";
import {LARGEST_HEAP_PLAYED, MOST_HEAPS_PLAYED} from "../play/bounds.js";
import {sumOf} from "../positions.js";
import {isNo, lineTold, toldOfCertificate} from "../refusals.js";
import {explained} from "../terms.js";
import {timeTold} from "../times.js";

import {presentedName, presentedOf, presentedVerdict, reachOf} from "./fields.js";
import {quotientSection, wordSection} from "./quotient.js";
import {thirdsOf} from "./third.js";

/** @typedef {import("./fields.js").Presented} Presented */
/** @typedef {import("./quotient.js").Quotient} Quotient */

const KIND = "This is a presentation: a quotient by generators, relations and P-portion, without a table.";
const PREDICTS = "A position is P exactly if the product of its heaps’ words is in the portion. Two positions are " +
    "indistinguishable exactly if their products are equal.";
const NOT_CHECKED = "Not checked here: this page’s module has no calls for presentations. The program checks it, by " +
    "misere verify.";

/**
 * Shows the verdict on a text, and behind a yes its quotient; nothing more once another verdict has its place.
 * @param {import("../main.js").Page} page
 * @param {HTMLElement} root
 * @param {Uint8Array} bytes
 * @param {boolean} isGame whether it is shown as a game's, so that what else is known of that stands above
 */
export async function presentPresented(page, root, bytes, isGame = false) {
  const verdict = make("p", {class: "verdict", id: "verdict", role: "status"}, "Checking …");
  fill(root, make("p", {class: "partial", id: "kind"}, KIND), verdict);
  countSeconds(verdict);
  const oracle = new Oracle(page.prover, bytes);
  const presented = presentedOf(new TextDecoder().decode(bytes));
  try {
    if (!(await oracle.isAble())) {
      verdict.classList.add("none");
      return fill(verdict, NOT_CHECKED);
    }
    const time = await oracle.check();
    /** @type {Quotient} */
    const quotient = JSON.parse(await oracle.describe("json"));
    if (verdict.parentNode !== root) return;
    verdict.classList.add("yes");
    const said = presentedVerdict(presented, quotient.order);
    fill(verdict, said, make("span", {class: "soft"}, ` (checked here in ${timeTold(time)})`));
    root.append(...sectionsOf(page, oracle, presented, quotient, isGame));
  } catch (failure) {
    verdict.classList.add(isNo(failure) ? "no" : "none");
    fill(verdict, toldOfCertificate(failure, () => presented.code), lineTold(failure, bytes));
  }
}

/**
 * @param {import("../main.js").Page} page
 * @param {Oracle} oracle
 * @param {Presented} presented
 * @param {Quotient} quotient
 * @param {boolean} isGame
 */
function sectionsOf(page, oracle, presented, quotient, isGame) {
  const name = page.collection.keep(presented.text), {code} = presented, usual = usualHeaps(presented);
  return [
    make("p", {class: "partial", id: "theorem"}, sizeTold(presented, quotient.order), PREDICTS),
    linksOf(page, playAddress(name, usual), code, isGame),
    ruleSection(code),
    quotientSection(quotient),
    wordSection(quotient),
    askForm(`Heaps, of ${reachOf(presented)}`, usual.join(" "), (heaps) => saidOf(oracle, name, code, heaps)),
    compareForm([usual.join(" "), "0"], (one, other) => comparedOf(oracle, presented, one, other)),
    presentedSection(presented, (output) => oracle.describe(output)),
  ];
}

/**
 * Of which heaps it is the quotient, and whether that is infinite.
 * @param {Presented} presented
 * @param {number | null} order
 */
function sizeTold(presented, order) {
  const {code, heaps, period, leftOut} = presented;
  if (order === null && !period)
    return [...explained("No finite quotient"), `: ${theoremOf({code, last: heaps, leftOut})} `];
  const size = order === null ? "infinite" : `of order ${order}`;
  return `The misère quotient of ${reachOf(presented)} of ${code}, which is ${size}. `;
}

/**
 * Heaps to begin with: some of letters.
 * @param {Presented} presented
 */
function usualHeaps({heapsOfLetters}) {
  return heapsOfLetters.length ? heapsOfLetters.slice(0, 3) : [1];
}

/**
 * @param {Oracle} oracle
 * @param {string} name
 * @param {string} code
 * @param {bigint[]} heaps
 */
async function saidOf(oracle, name, code, heaps) {
  const answer = await oracle.answer(heaps);
  const isPlayable = heaps.length <= MOST_HEAPS_PLAYED && heaps.every((heap) => heap <= LARGEST_HEAP_PLAYED);
  return [
    outcomeOf(answer),
    await otherWins(code, heaps, answer, (positions) => oracle.outcomes(positions)),
    " Its element is ",
    word(await oracle.word(heaps)),
    ". ",
    isPlayable && make("a", {href: playAddress(name, heaps)}, "Play it"),
  ];
}

/**
 * Whether two positions are indistinguishable, which is so exactly if their words are the same; else also a third one
 * beside which their outcomes differ, if a small one serves. (Words and outcomes are the module's.)
 * @param {Oracle} oracle
 * @param {Presented} presented
 * @param {bigint[]} one
 * @param {bigint[]} other
 */
async function comparedOf(oracle, {heapsOfLetters}, one, other) {
  const [x, y] = [await oracle.word(one), await oracle.word(other)];
  if (x === y) return ["Indistinguishable: the element of both is ", word(x), "."];
  const thirds = thirdsOf(heapsOfLetters).map((third) => third.map(BigInt));
  const outcomes = await oracle.outcomes(thirds.flatMap((third) => [[...one, ...third], [...other, ...third]]));
  const at = thirds.findIndex((_, at) => outcomes[2 * at] !== outcomes[2 * at + 1]);
  const elements = [" One has the element ", word(x), "; the other ", word(y), "."];
  if (at < 0) return ["Distinguishable.", elements];
  const [first, second] = [outcomes[2 * at], outcomes[2 * at + 1]].map((it) => (it === 0 ? "P" : "N"));
  const beside = thirds[at].length ? `beside ${sumOf(thirds[at])} ` : "";
  return [`Distinguishable: ${beside}one is ${first} and the other ${second}.`, elements];
}
