// The pictures of a game.

import {make} from "../dom.js";
import {componentPicture} from "../pictures/components.js";
import {outcomePicture} from "../pictures/outcomes.js";
import {productPicture} from "../pictures/products.js";

/** Of more elements the components are no legible picture, and the products too large a one. */
const [MOST_DRAWN, MOST_MULTIPLIED] = [160, 1024];

/**
 * @param {import("../main.js").Page} page
 * @param {import("./present.js").Game} game
 */
export function pictureSection(page, game) {
  const {order} = game.certificate;
  const products = order <= MOST_MULTIPLIED && productPicture(game);
  const components = order <= MOST_DRAWN && componentPicture(game);
  const left = [
    !products && `the products, of more than ${MOST_MULTIPLIED} elements`,
    !components && `the archimedean components, of more than ${MOST_DRAWN}`
  ].filter(Boolean);
  return make(
      "section", {}, make("h2", {}, "Pictures"),
      make("div", {class: "pictures"}, outcomePicture(page, game), products, components),
      left.length > 0 && make("p", {class: "soft undrawn"}, `Not drawn: ${left.join("; ")}.`));
}
