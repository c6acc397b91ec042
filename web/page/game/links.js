// Where a certificate's page leads to: a play, and what else is known of its game.

import {gameAddress} from "../address.js";
import {make} from "../dom.js";

import {isKnownFurther} from "./known.js";

/**
 * @param {import("../main.js").Page} page
 * @param {string} play the address of a play
 * @param {string} code
 * @param {boolean} isGame whether what else is known of the game stands above
 */
export function linksOf({atlas}, play, code, isGame) {
  const further = !isGame && isKnownFurther(atlas, code) &&
      [" · ", make("a", {href: gameAddress(code)}, `All that is known here of ${code}`)];
  return make("p", {class: "links"}, make("a", {href: play}, "Play against it"), further);
}
