// A certificate is checked, and where the checker accepts it, all that is told of it is shown.

import {playAddress} from "../address.js";
import {fieldsOf, lastHeap, verdictOf} from "../certificate.js";
import {countSeconds} from "../counting.js";
import {describedOf} from "../description.js";
import {fill, make} from "../dom.js";
import {wordsOf} from "../monoid.js";
import {isPresented} from "../presented/fields.js";
import {presentPresented} from "../presented/present.js";
import {Failure} from "../prover.js";
import {alertOf, isNo, lineTold, toldOfCertificate} from "../refusals.js";
import {timeTold} from "../times.js";
import {isWhole} from "../whole/fields.js";
import {presentWhole} from "../whole/present.js";

import {askSection} from "./ask.js";
import {certificateSection} from "./certificate_section.js";
import {compareSection} from "./compare.js";
import {heapSection} from "./heaps.js";
import {kindNote} from "./kind_note.js";
import {linksOf} from "./links.js";
import {pictureSection} from "./picture_section.js";
import {quotientSection, ruleSection} from "./quotient.js";
import {relativesSection} from "./relatives.js";

/** @typedef {import("../main.js").Page} Page */

/**
 * @typedef {object} Game an accepted certificate, and what the page reads out of it
 * @property {string} name under which the page keeps it
 * @property {Uint8Array} bytes
 * @property {import("../certificate.js").Certificate} certificate
 * @property {import("../description.js").Description | null} description null where it isn't described within the
 * bounds
 * @property {string[]} words one for each element
 */

/** The status of a quotient that isn't described within the bounds. */
const NOT_DESCRIBED = 16;

/**
 * Shows the verdict on a certificate, and behind a yes its game; nothing more once another verdict has its place.
 * @param {Page} page
 * @param {HTMLElement} root
 * @param {Uint8Array} bytes
 * @param {boolean} isGame whether it is shown as a game's, so that what else is known of that stands above
 */
export async function present(page, root, bytes, isGame = false) {
  if (isWhole(bytes)) return presentWhole(page, root, bytes, isGame);
  if (isPresented(bytes)) return presentPresented(page, root, bytes, isGame);
  const verdict = make("p", {class: "verdict", id: "verdict", role: "status"}, "Checking …");
  const kind = kindNote(bytes);
  fill(root, kind, verdict);
  countSeconds(verdict);
  try {
    const {time} = await page.prover.ask("check", bytes);
    if (verdict.parentNode !== root) return;
    const certificate = fieldsOf(new TextDecoder().decode(bytes));
    verdict.classList.add("yes");
    fill(verdict, verdictOf(certificate), make("span", {class: "soft"}, ` (checked here in ${timeTold(time)})`));
    await presentGame(page, root, bytes, certificate, verdict, isGame);
  } catch (failure) {
    verdict.classList.add(isNo(failure) ? "no" : "none");
    const codeOf = () => fieldsOf(new TextDecoder().decode(bytes)).code;
    fill(verdict, toldOfCertificate(failure, codeOf), !kind && lineTold(failure, bytes));
  }
}

/**
 * Shows what is told of an accepted certificate. Where that fails, the verdict stays.
 * @param {Page} page
 * @param {HTMLElement} root
 * @param {Uint8Array} bytes
 * @param {import("../certificate.js").Certificate} certificate
 * @param {Element} verdict
 * @param {boolean} isGame
 */
async function presentGame(page, root, bytes, certificate, verdict, isGame) {
  const describing = make("p", {class: "soft", id: "describing", role: "status"}, "Describing …");
  root.append(describing);
  countSeconds(describing);
  try {
    const game = await gameOf(page, bytes, certificate);
    if (verdict.parentNode === root) root.append(...sectionsOf(page, game, isGame));
  } catch (failure) {
    if (verdict.parentNode === root) root.append(alertOf(failure));
  } finally {
    describing.remove();
  }
}

/**
 * @param {Page} page
 * @param {Uint8Array} bytes
 * @param {import("../certificate.js").Certificate} certificate
 * @returns {Promise<Game>}
 */
async function gameOf(page, bytes, certificate) {
  const name = page.collection.keep(certificate.text);
  const description = await descriptionOf(page, bytes);
  const words = description ? wordsOf(certificate, description.generators) : certificate.table.map((_, x) => `x${x}`);
  return {name, bytes, certificate, description, words};
}

/**
 * @param {Page} page
 * @param {Uint8Array} bytes
 */
async function descriptionOf(page, bytes) {
  try {
    return describedOf((await page.prover.ask("describe", bytes)).answer);
  } catch (failure) {
    if (failure instanceof Failure && failure.status === NOT_DESCRIBED) return null;
    throw failure;
  }
}

/**
 * @param {Page} page
 * @param {Game} game
 * @param {boolean} isGame
 */
function sectionsOf(page, game, isGame) {
  const last = lastHeap(game.certificate);
  const start = [3, 4, 5].filter((heap) => last === null || heap <= last);
  const partial = last === null ?
      "" :
      make(
          "p", {class: "partial"},
          `A partial quotient: all that is told here is of the positions whose heaps are at most ${last}.`);
  return [
    partial,
    linksOf(page, playAddress(game.name, start), game.certificate.code, isGame),
    ruleSection(game.certificate.code),
    quotientSection(game),
    heapSection(game),
    askSection(page, game),
    compareSection(page, game),
    pictureSection(page, game),
    relativesSection(page, game) ?? "",
    certificateSection(page, game),
  ];
}
