// The games of the atlas: to search, to filter, to sort, to group, and to check all of them.

import {checkingOfAll} from "../atlas/check_all.js";
import {chosenOf, rowsOf, unread, wordOf} from "../atlas/choosing.js";
import {controls} from "../atlas/controls.js";
import {csvOf, jsonOf, listedOf} from "../atlas/listing.js";
import {headOf, rowOf} from "../atlas/table.js";
import {isCode} from "../codes.js";
import {fill, focusOn, make} from "../dom.js";
import {save} from "../saving.js";
import {glossary} from "../terms.js";

/** @typedef {import("../atlas/choosing.js").Chosen} Chosen */

/** So many rows are shown at once, and the others right behind them. */
const FIRST_ROWS = 60;
const WORDS =
    ["Order", "Portion", "Period", "Kind", "No finite quotient", "Whole game", "Same quotient", "Same monoid"];

/**
 * @param {import("../main.js").Page} page
 * @param {HTMLElement} root
 * @param {string} word
 */
export async function atlasView(page, root, word) {
  const {atlas} = page;
  let chosen = chosenOf(word);
  const [head, body, count] = [make("tr"), make("tbody"), make("p", {class: "count", role: "status"})];
  const note = make("p", {class: "partial", id: "note", role: "status"});
  const show = async () => {
    const now = chosen;
    const groups = rowsOf(atlas, now);
    fill(count, countOf(groups.length, now, atlas));
    const told = noteOf(atlas, now);
    note.hidden = told.length === 0;
    fill(note, told);
    fill(head, ...headOf(now, choose));
    fill(body, ...groups.slice(0, FIRST_ROWS).map((it) => rowOf(atlas, now, it)));
    await new Promise((done) => setTimeout(done));
    if (chosen === now) body.append(...groups.slice(FIRST_ROWS).map((it) => rowOf(atlas, now, it)));
  };
  const choose = (/** @type {Partial<Chosen>} */ more) => {
    chosen = {...chosen, ...more};
    history.replaceState(history.state, "", `#atlas${wordOf(chosen)}`);
    const isSorted = head.contains(document.activeElement);
    show();
    if (isSorted) focusOn(head.querySelector(`[data-by=${chosen.by}] button`));
  };
  const saving = (/** @type {string} */ id, /** @type {string} */ name, /** @type {() => void} */ onclick) =>
      make("button", {type: "button", id, onclick}, name);
  const listed = () => listedOf(rowsOf(atlas, chosen));
  const savings = [
    saving("save-csv", "Save as CSV", () => save(csvOf(listed()), "misere.csv")),
    saving("save-json", "Save as JSON", () => save(jsonOf(listed()), "misere.json"))
  ];
  const key =
      make("p", {class: "key narrow"}, "∞: no finite quotient, by a certificate. ⊕: normal play beyond a heap.");
  const table = make("table", {class: "list"}, make("thead", {}, head), body);
  fill(
      root, make("h1", {}, "The atlas of small games"), make("p", {}, introductionOf(atlas)), checkingOfAll(page),
      controls(chosen, choose), glossary(WORDS), note, make("div", {class: "row"}, count, savings), key,
      make("div", {class: "scroll"}, table));
  await show();
}

/** @param {import("../atlas.js").Atlas} atlas */
function introductionOf({games, entries, quotients, classes, infinite, whole, tails}) {
  return `The misère quotients of ${games.size} octal and hexadecimal games, by ${entries.length} certificates. ` +
      "In misère play the player who makes the last move loses. " +
      `There are ${quotients.length} quotients, if it counts which heap has which element, ` +
      `and ${classes.size} bipartite monoids up to isomorphism, as a script counted when this page was made. ` +
      `${infinite.size + whole.size} games have no finite quotient, by certificates. Of ${whole.size} of these, and ` +
      `of ${tails.size} that are normal play beyond a heap, each outcome is known all the same.`;
}

/**
 * @param {number} count
 * @param {Chosen} chosen
 * @param {import("../atlas.js").Atlas} atlas
 */
function countOf(count, {each}, {games, entries}) {
  if (each === "game") return `${count} of ${games.size} games`;
  if (each === "certificate") return `${count} of ${entries.length} certificates of finite quotients`;
  return `${count} ${each === "quotient" ? "quotients" : "bipartite monoids up to isomorphism"}`;
}

/**
 * What is told of fields by which nothing is sought, and of a code that isn't here.
 * @param {import("../atlas.js").Atlas} atlas
 * @param {Chosen} chosen
 */
function noteOf({games}, chosen) {
  const told = unread(chosen).map((it) => `“${it}” chooses nothing: write a number, or two such as 6-20. `);
  const code = chosen.code.trim();
  if (!isCode(code) || games.has(code)) return told;
  const link = make("a", {href: `#find=${code}`}, "Look for its quotient");
  return [...told, `This page has no certificate of ${code}. `, link, "."];
}
