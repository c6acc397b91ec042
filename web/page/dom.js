// Elements of the page, made by one call each.

const SVG = "http://www.w3.org/2000/svg";

/** @typedef {Node | string | null | undefined | false | any[]} Child what may stand in an element, also in lists */

/**
 * @param {Element} element
 * @param {Record<string, any>} attributes `on..` is a listener, true an attribute without a value; false and null are
 *     left out
 * @param {Child[]} children
 */
function furnish(element, attributes, children) {
  for (const [name, value] of Object.entries(attributes)) {
    if (name.startsWith("on"))
      element.addEventListener(name.slice(2), value);
    else if (value !== false && value !== null && value !== undefined)
      element.setAttribute(name, value === true ? "" : value);
  }
  fill(element, ...children);
}

/**
 * Puts the children in the place of what the element has.
 * @param {Element} element
 * @param {Child[]} children
 */
export function fill(element, ...children) {
  const flat = /** @type {any[]} */ (children).flat(Infinity);
  element.replaceChildren(...flat.filter((it) => it !== null && it !== undefined && it !== false));
}

/**
 * @template {keyof HTMLElementTagNameMap} K
 * @param {K} name
 * @param {Record<string, any>} attributes
 * @param {Child[]} children
 * @returns {HTMLElementTagNameMap[K]}
 */
export function make(name, attributes = {}, ...children) {
  const element = document.createElement(name);
  furnish(element, attributes, children);
  return element;
}

/**
 * An element of a drawing.
 * @param {string} name
 * @param {Record<string, any>} attributes
 * @param {Child[]} children
 */
export function draw(name, attributes = {}, ...children) {
  const element = document.createElementNS(SVG, name);
  furnish(element, attributes, children);
  return element;
}

/**
 * The parts with commas between them, at whose ends alone a line may break.
 * @param {Child[]} parts
 * @returns {Child[]}
 */
export function separated(parts) {
  const last = parts.length - 1;
  return parts.flatMap((it, at) => (at < last ? [make("span", {class: "item"}, it, ","), " "] : [it]));
}

/**
 * A field with its label over it.
 * @param {string} name
 * @param {Child[]} fields
 */
export function labelled(name, ...fields) {
  return make("label", {}, make("span", {}, name), ...fields);
}

/**
 * A choice: each option by its value and its name.
 * @param {Record<string, any>} attributes
 * @param {[string, string][]} options
 * @param {string} chosen
 */
export function choice(attributes, options, chosen) {
  const named = options.map(([value, name]) => make("option", {value, selected: value === chosen}, name));
  return make("select", attributes, named);
}

/**
 * Gives an element the focus, where there is one, without a jump of the page.
 * @param {Element | null | undefined} element
 */
export function focusOn(element) {
  if (element instanceof HTMLElement) element.focus({preventScroll: true});
}
