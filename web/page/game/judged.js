// Whether a text of an infinite quotient is accepted here, in a sentence.

import {countSeconds} from "../counting.js";
import {fill, make} from "../dom.js";
import {Oracle} from "../oracle.js";
import {isNo, told} from "../refusals.js";
import {timeTold} from "../times.js";

/** The check of a longer text may take a minute and more, so it begins when it is asked for. */
const LONGEST_AT_ONCE = 2000;

/**
 * A sentence that changes once the checker has answered. (The worker that searches is asked, so that nothing waits for
 * it.)
 * @param {import("../main.js").Page} page
 * @param {string} name
 */
export function judged({collection, finder}, name) {
  const said = make("span", {role: "status", id: "judged"});
  const check = async (/** @type {string} */ text) => {
    fill(said, "Being checked here …");
    countSeconds(said);
    try {
      fill(said, await verdictOf(new Oracle(finder, new TextEncoder().encode(text))));
    } catch (failure) {
      fill(said, `${isNo(failure) ? "Refused here" : "Not checked here"}: ${told(failure)}`);
    }
  };
  const begin = async () => {
    const text = (await collection.find(name)) ?? "";
    if (text.length <= LONGEST_AT_ONCE) return check(text);
    const button = make("button", {type: "button", onclick: () => check(text)}, "Check it");
    fill(said, "Not checked here yet, which may take a minute and more. ", button);
  };
  begin();
  return said;
}

/** @param {Oracle} oracle */
async function verdictOf(oracle) {
  if (!(await oracle.isAble())) return "Not checked here: this page’s module has no calls for it.";
  return `Checked here in ${timeTold(await oracle.check())}.`;
}
