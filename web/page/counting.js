// How long something takes that isn't done yet.

import {fill, make} from "./dom.js";

/** From so many seconds on they are told. */
const FIRST_TOLD = 2;

/**
 * Counts the seconds behind what an element says, until that says something else. (Nobody is read them out.)
 * @param {HTMLElement} element
 */
export function countSeconds(element) {
  const clock = make("span", {class: "clock", "aria-hidden": "true"}), begin = performance.now();
  element.append(clock);
  const timer = setInterval(() => {
    const seconds = Math.floor((performance.now() - begin) / 1000);
    if (clock.parentNode !== element) return clearInterval(timer);
    if (seconds >= FIRST_TOLD) fill(clock, ` ${seconds}\u00a0s`);
  }, 500);
}
