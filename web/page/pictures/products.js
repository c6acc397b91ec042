// The products of all elements: ordered by archimedean component, the greater idempotents first, with a hue for each.

import {make} from "../dom.js";
import {word} from "../mathml.js";
import {componentsOf} from "../monoid.js";

import {gridPicture} from "./grid.js";

/** About how many points wide a picture is drawn. */
const WIDTH = 512;

/** @param {import("../game/present.js").Game} game */
export function productPicture({certificate: {order, table, portion}, words, certificate}) {
  const components = componentsOf(certificate);
  const elements = components.flatMap(({members}) => members);
  const colours = coloursOf(components);
  const size = Math.max(order > WIDTH ? 1 : 2, Math.floor(WIDTH / order));
  const canvas = make("canvas", {class: "grid", width: order * size, height: order * size});
  const context = canvas.getContext("2d");
  const dot = Math.max(1, Math.round(size / 3));
  const indent = Math.floor((size - dot) / 2);
  for (const [row, x] of elements.entries()) {
    for (const [column, y] of elements.entries()) {
      const product = table[x][y];
      if (!context) break;
      context.fillStyle = colours[product];
      context.fillRect(column * size, row * size, size, size);
      if (!portion.has(product)) continue;
      context.fillStyle = "#fff";
      context.fillRect(column * size + indent, row * size + indent, dot, dot);
    }
  }
  const said = (/** @type {number} */ column, /** @type {number} */ row) => {
    const [x, y] = [elements[row], elements[column]];
    return [
      word(words[x]), " · ", word(words[y]), " = ", word(words[table[x][y]]), portion.has(table[x][y]) ? ", in 𝒫." : "."
    ];
  };
  return gridPicture(
      canvas, order, "The products: a hue for each archimedean component, a white dot where the product is in 𝒫.",
      said);
}

/**
 * A colour for each element: the hue of its component, and the lighter the later it stands there.
 * @param {import("../monoid.js").Component[]} components
 */
function coloursOf(components) {
  /** @type {string[]} */
  const colours = [];
  for (const [at, {members}] of components.entries()) {
    const hue = Math.round(215 + (at * 300) / components.length) % 360;
    for (const [nth, x] of members.entries())
      colours[x] = `hsl(${hue} 30% ${36 + Math.round((36 * nth) / members.length)}%)`;
  }
  return colours;
}
