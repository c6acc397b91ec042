// A game: all that its certificate tells.

import {WHOLE} from "../atlas.js";
import {codeOfName, GAME_NAMES, isCode} from "../codes.js";
import {fill, make} from "../dom.js";
import {knownSection} from "../game/known.js";
import {present} from "../game/present.js";
import {PRESENTED} from "../presented/fields.js";

/**
 * @param {import("../main.js").Page} page
 * @param {HTMLElement} root
 * @param {string} named a code, or a name such as `Kayles`; behind a slash the last heap of a part, or `whole`
 */
export async function gameView(page, root, named) {
  const [said, last] = named.split("/");
  const code = codeOfName(said), name = last ? `${code}/${last}` : code;
  const known = GAME_NAMES.get(code);
  const heading = `The game ${code}${partTold(last)}`;
  const body = make("div");
  const further = knownSection(page, code, page.atlas.entry(name)?.name ?? name);
  fill(root, make("h1", {}, heading, known && make("span", {class: "soft"}, ` ${known}`)), further, body);
  const text = await page.collection.find(name);
  if (!text) return fill(root, make("h1", {}, name || "Which game?"), further, unknown(code, last));
  await present(page, body, new TextEncoder().encode(text), true);
}

/** @param {string | undefined} part */
function partTold(part) {
  if (!part) return "";
  if (part === WHOLE) return ", as a whole";
  if (!part.startsWith(PRESENTED)) return `, to heap ${part.replace("-", " without ")}`;
  const [, reach] = part.split(`${PRESENTED}-`);
  return reach ? `, to heap ${reach.replace("-", " without ")}, presented` : ", presented";
}

/**
 * @param {string} code
 * @param {string | undefined} last
 */
function unknown(code, last) {
  if (!isCode(code))
    return make("p", {}, "This is no code of a game. ", make("a", {href: "#atlas"}, "The atlas"), " has some.");
  const sought = last && last !== WHOLE && !last.startsWith(PRESENTED) ? `${code}/${last}` : code;
  return make(
      "p", {}, "This page has no certificate of it. ", make("a", {href: `#find=${sought}`}, "Look for its quotient"),
      ".");
}
