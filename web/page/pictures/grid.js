// A square picture of cells, with a line that says what the cell under the pointer or the arrow keys is.

import {fill, make} from "../dom.js";

/** @type {Record<string, [number, number]>} */
const STEPS = {
  ArrowLeft: [-1, 0],
  ArrowRight: [1, 0],
  ArrowUp: [0, -1],
  ArrowDown: [0, 1]
};

/**
 * @param {HTMLElement | SVGElement} picture
 * @param {number} side how many cells
 * @param {string} title
 * @param {(column: number, row: number) => (Node | string)[]} said
 */
export function gridPicture(picture, side, title, said) {
  const line = make("span", {class: "said", "aria-live": "polite"});
  const bounded = (/** @type {number} */ at) => Math.max(0, Math.min(side - 1, Math.floor(at)));
  let [column, row] = [0, 0];
  const tell = (/** @type {number} */ x, /** @type {number} */ y) => {
    [column, row] = [bounded(x), bounded(y)];
    fill(line, ...said(column, row));
  };
  picture.addEventListener("pointermove", (event) => {
    const {clientX, clientY} = /** @type {PointerEvent} */ (event);
    const box = picture.getBoundingClientRect();
    tell(((clientX - box.left) / box.width) * side, ((clientY - box.top) / box.height) * side);
  });
  picture.addEventListener("keydown", (event) => {
    const step = STEPS[/** @type {KeyboardEvent} */ (event).key];
    if (!step) return;
    event.preventDefault();
    tell(column + step[0], row + step[1]);
  });
  picture.setAttribute("tabindex", "0");
  picture.setAttribute("role", "img");
  picture.setAttribute("aria-label", `${title} The arrow keys go from cell to cell.`);
  return make("figure", {}, picture, make("figcaption", {}, title, make("br"), line));
}
