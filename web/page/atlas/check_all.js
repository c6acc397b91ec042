// All certificates of the atlas, each by the proved checker.

import {fill, make} from "../dom.js";
import {isNo, told} from "../refusals.js";

/** @typedef {import("../main.js").Page} Page */

/** So many are sent before the page gets its turn. */
const AT_ONCE = 40;

/** @param {Page} page */
export function checkingOfAll(page) {
  const verdict = make(
      "p", {class: "verdict", role: "status", id: "all-told"},
      "Each certificate can be checked here, by the proved checker.");
  const all = page.atlas.entries.length;
  const bar = make("progress", {max: all, value: 0, hidden: true, "aria-label": "certificates checked"});
  const start = async () => {
    button.disabled = true;
    bar.hidden = false;
    try {
      await checkAll(page, verdict, bar);
    } finally {
      button.disabled = false;
      bar.hidden = true;
    }
  };
  const button = make("button", {type: "button", id: "all", onclick: start}, `Check all ${all}`);
  return make("div", {class: "all"}, verdict, button, bar);
}

/**
 * @param {Page} page
 * @param {HTMLElement} verdict
 * @param {HTMLProgressElement} bar
 */
async function checkAll({atlas, prover, finder}, verdict, bar) {
  const begin = performance.now();
  const encoder = new TextEncoder();
  /** @type {string[]} */
  const refused = [];
  let accepted = 0;
  // (by both workers, side by side)
  const check = async (/** @type {import("../atlas.js").Entry} */ {name}, /** @type {number} */ at) => {
    try {
      await (at % 2 ? finder : prover).ask("check", encoder.encode(atlas.text(name) ?? ""));
      accepted++;
    } catch (failure) {
      if (!isNo(failure)) throw failure;
      refused.push(name);
    }
  };
  try {
    for (let at = 0; at < atlas.entries.length; at += AT_ONCE) {
      await Promise.all(atlas.entries.slice(at, at + AT_ONCE).map(check));
      bar.value = at + AT_ONCE;
    }
  } catch (failure) {
    verdict.className = "verdict none";
    return fill(verdict, told(failure));
  }
  const time = ((performance.now() - begin) / 1000).toFixed(2);
  verdict.className = `verdict ${refused.length ? "no" : "yes"}`;
  fill(
      verdict,
      refused.length ? `${refused.length} refused: ${refused.join(" ")}` :
                       `yes: ${accepted} certificates accepted by the proved checker, in ${time} s`);
}
