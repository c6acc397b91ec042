// A search for the quotient of a code.

import {gameAddress} from "../address.js";
import {WHOLE} from "../atlas.js";
import {codeOfName, isCode} from "../codes.js";
import {choice, fill, labelled, make} from "../dom.js";
import {AIMS, soughtOf, soughtWord} from "../find/plan.js";
import {search} from "../find/search.js";
import {isKnownFurther} from "../game/known.js";
import {present} from "../game/present.js";

/** @typedef {import("../main.js").Page} Page */

const USUAL_CODE = "0.75";
const NO_CODE = "A code is such as 0.75: a first digit 0, 4, 8 or c, a point, and up to 16 digits 0 to 9 and a to f, " +
    "of which the last is not 0.";
const HOW = "The finder guesses, and the proved checker decides: what is found is certified. " +
    "If nothing is found, nothing is proved.";

/**
 * @param {Page} page
 * @param {HTMLElement} root
 * @param {string} word
 */
export async function findView(page, root, word) {
  const [steps, bar, out] = [
    make("ol", {id: "steps", "aria-live": "polite"}), make("progress", {hidden: true, "aria-label": "searching"}),
    make("div", {class: "told"})
  ];
  const none = make("p", {id: "none"});
  const form = searchForm(word, () => page.finder.stop());
  const go = async () => {
    const sought = form.sought();
    fill(out);
    fill(steps);
    if (!isCode(sought.code)) return fill(steps, make("li", {class: "missed"}, NO_CODE));
    history.replaceState(history.state, "", `#find=${soughtWord(sought)}`);
    form.atWork(true);
    bar.hidden = false;
    fill(none, ...noneOf(page, sought.code));
    const found = await search(page, sought, steps);
    form.atWork(false);
    bar.hidden = true;
    if (found) await present(page, out, new TextEncoder().encode(found));
  };
  form.element.addEventListener("submit", (event) => {
    event.preventDefault();
    return go();
  });
  fill(root, make("h1", {}, "Find a quotient"), make("p", {}, HOW), form.element, none, bar, steps, out);
  if (word) await go();
}

/**
 * What is told of a code of which no full quotient can be found, or more is known than one.
 * @param {Page} page
 * @param {string} code
 */
function noneOf({atlas}, code) {
  const [part] = atlas.whole.has(code) ? [WHOLE] : (atlas.infinite.get(code) ?? []);
  if (part) {
    const link = make("a", {href: gameAddress(`${code}/${part}`)}, "A certificate of the atlas");
    const more = part === WHOLE ? " It has the outcome of each position." : "";
    return [link, ` says that ${code} has no finite quotient, so no full one can be found.${more}`];
  }
  if (!isKnownFurther(atlas, code)) return [];
  return [make("a", {href: gameAddress(code)}, `More is known of ${code}`), " than a search here finds."];
}

/**
 * The fields of a search.
 * @param {string} word what the address seeks
 * @param {() => void} stop
 */
function searchForm(word, stop) {
  const asked = soughtOf(word || USUAL_CODE);
  const code = make("input", {id: "sought", value: asked.code, autocomplete: "off", spellcheck: "false", size: 12});
  const aim = choice(
      {id: "aim", onchange: () => ask()}, Object.entries(AIMS).map(([value, {name}]) => [value, name]), asked.aim);
  const number = make("input", {id: "number", type: "number"});
  const numberName = make("span");
  const numberLabel = make("label", {}, numberName, number);
  const seek = make("button", {id: "seek"}, "Search");
  const stopping = make("button", {type: "button", id: "stop", disabled: true, onclick: stop}, "Stop");
  const ask = (value = AIMS[aim.value].usual) => {
    const {asks = "", least = 0, most = 0} = AIMS[aim.value];
    numberLabel.hidden = !asks;
    fill(numberName, asks);
    Object.assign(number, {min: String(least), max: String(most), value: String(value ?? "")});
  };
  ask(asked.number || undefined);
  return {
    element: make(
        "form", {class: "row"}, labelled("Code", code), labelled("What is sought", aim), numberLabel, seek, stopping),
    sought: () => ({code: codeOfName(code.value.trim()), aim: aim.value, number: Number(number.value)}),
    atWork: (/** @type {boolean} */ is) => {
      seek.disabled = is;
      stopping.disabled = !is;
    },
  };
}
