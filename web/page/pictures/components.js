// The archimedean components, each under those whose idempotents lie above its own.

import {draw, make} from "../dom.js";
import {componentsOf} from "../monoid.js";
import {explained} from "../terms.js";

import {layered} from "./layers.js";

/** @typedef {import("../game/present.js").Game} Game */
/** @typedef {import("../monoid.js").Component} Component */
/** @typedef {import("./layers.js").Placed} Placed */

/** The most words in a line of a box; how wide a letter is, and how high a line; the space around the words. */
const [ACROSS, LETTER, LINE, MARGIN] = [4, 8.5, 19, 10];
/** How far below a word its line is drawn: below each letter, and in the middle of a pixel. */
const UNDER = 4.5;

/** @param {Game} game */
export function componentPicture({certificate, words}) {
  const components = componentsOf(certificate);
  const measures = components.map((it) => measureOf(it, words));
  const numbers = new Map(components.map(({idempotent}, at) => [idempotent, at]));
  const boxes = components.map(({covers}, at) => ({...measures[at], below: covers.map((it) => numbers.get(it) ?? 0)}));
  const {placed, lines, width, height} = layered(boxes);
  const svg = draw("svg", {
    class: "components",
    width: width + 2,
    height: height + 2,
    viewBox: `-1 -1 ${width + 2} ${height + 2}`,
    role: "img",
    "aria-label": `${components.length} archimedean components`
  });
  svg.append(...lines.map((way) => draw("path", {class: "edge", d: pathOf(way)})));
  components.forEach((it, at) => svg.append(...boxOf(it, placed[at], measures[at], certificate.portion, words)));
  underline(svg);
  const caption = [
    `The ${components.length} `, explained("Components", "archimedean components"),
    ", the greater idempotents above. Underlined: the group of the component. Blue: in 𝒫."
  ];
  return make("figure", {class: "wide"}, make("div", {class: "scroll"}, svg), make("figcaption", {}, caption));
}

/**
 * @param {Component} component
 * @param {string[]} words
 */
function measureOf({members}, words) {
  const columns = Math.min(members.length, ACROSS);
  const column = Math.max(...members.map((x) => words[x].replaceAll("^", "").length)) * LETTER + 12;
  return {
    columns,
    column,
    width: column * columns + MARGIN,
    height: LINE * Math.ceil(members.length / columns) + MARGIN
  };
}

/**
 * A box with the words of a component, its group first.
 * @param {Component} component
 * @param {Placed} place
 * @param {{columns: number, column: number}} measure
 * @param {Set<number>} portion
 * @param {string[]} words
 */
function boxOf({members, group}, {x, y, width, height}, {columns, column}, portion, words) {
  const inOrder = [...members].sort((a, b) => Number(group.has(b)) - Number(group.has(a)) || a - b);
  const texts = inOrder.map((element, nth) => {
    const place = {x: x + MARGIN + (nth % columns) * column, y: y + 19 + Math.floor(nth / columns) * LINE};
    const kinds = [portion.has(element) && "p", group.has(element) && "group"].filter(Boolean).join(" ");
    return draw("text", {...place, class: kinds}, spans(words[element]));
  });
  return [draw("rect", {class: "box", x, y, width, height, rx: 5}), ...texts];
}

/**
 * Draws a line under each word of a group. (Browsers interrupt an underline of text where a letter reaches below it:
 * under a lone g nothing would be left of it.)
 * @param {SVGElement} svg
 */
function underline(svg) {
  const group = /** @type {SVGTextElement[]} */ ([...svg.querySelectorAll("text.group")]);
  const widths = whileShown(svg, () => group.map((it) => it.getComputedTextLength()));
  group.forEach((word, at) => {
    const x = Number(word.getAttribute("x")), y = Number(word.getAttribute("y")) + UNDER;
    word.before(draw(
        "line", {class: word.classList.contains("p") ? "under p" : "under", x1: x, y1: y, x2: x + widths[at], y2: y}));
  });
}

/**
 * What a call tells while the drawing stands on the page, unseen: elsewhere its texts have no width.
 * @template T
 * @param {SVGElement} svg
 * @param {() => T} call
 */
function whileShown(svg, call) {
  svg.classList.add("measured");
  document.body.append(svg);
  try {
    return call();
  } finally {
    svg.remove();
    svg.classList.remove("measured");
  }
}

/**
 * A word with its powers raised.
 * @param {string} text
 */
function spans(text) {
  return [...text.matchAll(/([a-z]|\d+)(?:\^(\d+))?/g)].flatMap(([, base, power]) => {
    const letter = draw("tspan", {class: /\d/.test(base) ? "" : "letter"}, base);
    const raised = power ? [draw("tspan", {dy: -4, class: "power"}, power), draw("tspan", {dy: 4}, "\u200b")] : [];
    return [letter, ...raised];
  });
}

/** @param {Placed[]} way */
function pathOf(way) {
  const points = way.flatMap((it, at) => {
    const middle = it.x + it.width / 2;
    const [top, bottom] = [`${middle} ${it.y}`, `${middle} ${it.y + it.height}`];
    if (at === 0) return [bottom];
    return at === way.length - 1 ? [top] : [top, bottom];
  });
  return `M${points.join("L")}`;
}
