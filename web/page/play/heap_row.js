// A heap on the board: a row of tokens, of which adjacent ones are chosen.

import {make} from "../dom.js";

import {LARGEST_HEAP_DRAWN} from "./bounds.js";

/** @typedef {{at: number, from: number, to: number}} Choice the chosen tokens of a heap, the ends among them */

/**
 * The choice behind a choice of one token: a second one takes all between, and a chosen one takes the choice back.
 * @param {Choice | null} choice
 * @param {number} at the number of the heap
 * @param {number} token
 * @returns {Choice | null}
 */
export function chosenWith(choice, at, token) {
  if (!choice || choice.at !== at) return {at, from: token, to: token};
  if (token >= choice.from && token <= choice.to) return null;
  return {at, from: Math.min(choice.from, token), to: Math.max(choice.to, token)};
}

/**
 * @param {number} heap
 * @param {number} at the number of the heap
 * @param {Choice | null} choice
 * @param {(token: number) => void} choose
 */
export function heapRow(heap, at, choice, choose) {
  const size = make("span", {class: "size"}, String(heap));
  const row = make("div", {class: "heap", role: "group", "aria-label": `Heap ${at + 1}, of ${heap}`}, size);
  if (heap > LARGEST_HEAP_DRAWN) {
    row.append(make("span", {class: "bar"}));
    return row;
  }
  const isChosen = (/** @type {number} */ token) => choice?.at === at && token >= choice.from && token <= choice.to;
  const tokens = Array.from({length: heap}, (_, token) => tokenOf(token, heap, isChosen(token), () => choose(token)));
  row.append(make("span", {class: "tokens"}, tokens));
  row.addEventListener("keydown", (event) => moveFocus(event, tokens));
  return row;
}

/**
 * @param {number} token
 * @param {number} heap
 * @param {boolean} isChosen
 * @param {() => void} onclick
 */
function tokenOf(token, heap, isChosen, onclick) {
  const name = `token ${token + 1} of ${heap}`;
  const stop = token ? "-1" : "0";
  return make(
      "button",
      {type: "button", class: "token", tabindex: stop, "aria-pressed": String(isChosen), "aria-label": name, onclick});
}

/**
 * Arrow keys go along a heap.
 * @param {KeyboardEvent} event
 * @param {HTMLElement[]} tokens
 */
function moveFocus(event, tokens) {
  const here = tokens.findIndex((token) => token === document.activeElement);
  /** @type {Record<string, number>} */
  const places = {ArrowLeft: here - 1, ArrowRight: here + 1, Home: 0, End: tokens.length - 1};
  const to = places[event.key];
  if (here < 0 || to === undefined) return;
  event.preventDefault();
  tokens[Math.max(0, Math.min(tokens.length - 1, to))].focus();
}
