// A search, step by step. What each step reached stands in a line, also behind a stop.

import {gameAddress} from "../address.js";
import {fieldsOf, verdictOf} from "../certificate.js";
import {fill, make} from "../dom.js";
import {isPresented, presentedOf, presentedVerdict} from "../presented/fields.js";
import {Failure} from "../prover.js";
import {reasonOf, told} from "../refusals.js";
import {isWhole, wholeOf, wholeVerdict} from "../whole/fields.js";

import {AIMS} from "./plan.js";

/** @typedef {import("../main.js").Page} Page */
/** @typedef {import("./plan.js").Sought} Sought */
/** @typedef {import("./plan.js").Step} Step */

const GAVE_UP = 13;

/**
 * Takes the steps until a whole quotient is found or none is left. Tells the last certificate that was found, or null.
 * @param {Page} page
 * @param {Sought} sought
 * @param {HTMLElement} list a line for each step is put here
 */
export async function search(page, {code, aim, number}, list) {
  let found = null;
  for (const step of AIMS[aim].steps(number)) {
    const line = make("li", {class: "at-work"});
    list.append(line);
    const outcome = await tried(page, code, step, line);
    found = outcome.text ?? found;
    if (outcome.isLast) break;
  }
  return found;
}

/**
 * What a text that was found says, and whether it leaves nothing to look for.
 * @param {string} text
 */
function readingOf(text) {
  if (isWhole(text)) return {verdict: wholeVerdict(wholeOf(text)), isLast: true};
  // (a search finds presentations of infinite quotients alone)
  if (isPresented(text)) return {verdict: presentedVerdict(presentedOf(text), null), isLast: true};
  const certificate = fieldsOf(text);
  return {verdict: verdictOf(certificate).replace("yes ", ""), isLast: certificate.period > 0};
}

/**
 * One step: its certificate, if it found one, and whether no further one is to be taken.
 * @param {Page} page
 * @param {string} code
 * @param {Step} step
 * @param {HTMLElement} line
 * @returns {Promise<{text: string | null, isLast: boolean}>}
 */
async function tried(page, code, {name, search}, line) {
  const begin = performance.now();
  const seconds = () => ((performance.now() - begin) / 1000).toFixed(1);
  const clock = make("span", {class: "clock", "aria-hidden": "true"});
  const timer = setInterval(() => fill(clock, ` ${seconds()} s`), 200);
  fill(line, `${name}: looking … `, clock);
  try {
    const {answer: text} = await page.finder.ask(search.aim === "infinite" ? "solveInfinite" : "solve", code, search);
    const {verdict, isLast} = readingOf(text);
    line.className = "found";
    fill(line, `${name}: `, make("a", {href: gameAddress(page.collection.keep(text))}, verdict), ` in ${seconds()} s`);
    return {text, isLast};
  } catch (failure) {
    const gaveUp = failure instanceof Failure && failure.status === GAVE_UP;
    line.className = "missed";
    fill(line, `${name}: ${gaveUp ? `nothing found in ${seconds()} s, ${reasonOf(failure.why)}` : told(failure)}`);
    return {text: null, isLast: !gaveUp};
  } finally {
    clearInterval(timer);
  }
}
