// The fields by which games are chosen.

import {choice, labelled, make} from "../dom.js";

import {isRead} from "./choosing.js";

/** @typedef {import("./choosing.js").Chosen} Chosen */

/**
 * @param {Chosen} chosen
 * @param {(more: Partial<Chosen>) => void} choose
 */
export function controls(chosen, choose) {
  const written = (
      /** @type {"code" | "order" | "portion" | "period" | "tame"} */ name,
      /** @type {Record<string, any>} */ more) => {
    const mark = () => field.setAttribute("aria-invalid", String(name !== "code" && !isRead(field.value)));
    const oninput = () => {
      mark();
      choose({[name]: field.value});
    };
    const field = make("input", {type: "search", id: name, value: chosen[name], autocomplete: "off", oninput, ...more});
    mark();
    return field;
  };
  const picked = (/** @type {"speaks" | "kind" | "each"} */ name, /** @type {[string, string][]} */ options) => {
    const field = choice({id: name, onchange: () => choose({[name]: field.value})}, options, chosen[name]);
    return field;
  };
  return make(
      "form", {class: "row", role: "search", onsubmit: (/** @type {Event} */ event) => event.preventDefault()},
      labelled("Code or name", written("code", {size: 9, placeholder: "0.7, Kayles"})),
      labelled(
          "Quotient",
          picked(
              "speaks",
              [
                ["", "full or partial"], ["full", "full"], ["partial", "partial"], ["infinite", "infinite"],
                ["solved", "each outcome known"]
              ])),
      labelled("Kind", picked("kind", [["", "tame or wild"], ["tame", "tame"], ["wild", "wild"]])),
      labelled("Order", written("order", {size: 7, placeholder: "8 or 6-20"})),
      labelled("Portion", written("portion", {size: 7, placeholder: "2 or 1-5"})),
      labelled("Period", written("period", {size: 7, placeholder: "1-19"})),
      labelled("Tame, Tₙ", written("tame", {size: 5, placeholder: "2 or 0-1"})),
      labelled(
          "A row for each", picked("each", [
            ["game", "game"], ["certificate", "certificate"], ["quotient", "quotient"], ["monoid", "bipartite monoid"]
          ])));
}
