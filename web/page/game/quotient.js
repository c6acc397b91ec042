// The rule of a game, and its quotient by generators and relations.

import {lastHeap} from "../certificate.js";
import {ruleOf} from "../codes.js";
import {make, separated} from "../dom.js";
import {ofGame, relation, word} from "../mathml.js";
import {explained} from "../terms.js";

/** @typedef {import("./present.js").Game} Game */
/** @typedef {import("../description.js").Description} Description */

/** @param {string} code */
export function ruleSection(code) {
  const rule = ruleOf(code).map((it) => make("li", {}, it));
  return make(
      "section", {}, make("h2", {}, "The rule"), make("ul", {class: "rule"}, rule),
      make("p", {}, "The player who makes the last move loses."));
}

/** @param {Game} game */
export function quotientSection(game) {
  const {certificate, description} = game;
  const heading = make("h2", {}, "The quotient");
  if (description)
    return make("section", {}, heading, ...presentation(game, description), factTable(certificate, description));
  const size = `It has ${certificate.order} elements, ${certificate.portion.size} of them in the portion.`;
  return make(
      "section", {}, heading,
      make("p", {}, `${size} It is not described by generators and relations within the bounds of this program.`));
}

/**
 * The monoid by generators and relations, and its portion. (Each relation is a formula of its own, so that lines break
 * between them.)
 * @param {Game} game
 * @param {Description} description
 */
function presentation({certificate}, {letters, relations, portion}) {
  const last = lastHeap(certificate);
  const [generators, equations, lost] =
      [letters.map(word), relations.map(relation), portion.map(word)].map((it) => separated(it));
  return [
    make(
        "p", {class: "presentation", id: "presentation"}, ofGame("𝒬", last, certificate.code), " = ⟨ ", ...generators,
        relations.length ? " ∣ " : "", ...equations, " ⟩"),
    make("p", {class: "presentation", id: "portion"}, ofGame("𝒫", last), " = { ", ...lost, " }"),
  ];
}

/**
 * @param {import("../certificate.js").Certificate} certificate
 * @param {Description} description
 */
function factTable({order, portion}, {kind, generators, units, idempotents, kernel}) {
  const named =
      generators.map(({letter, heap}) => make("span", {class: "generator"}, word(letter), ` of heap ${heap}`));
  /** @type {[string, import("../dom.js").Child[]][]} */
  const facts = [
    ["Order", [String(order)]],
    ["Portion", [`${portion.size} ${portion.size === 1 ? "element" : "elements"}`]],
    ["Kind", [kindOf(kind)]],
    ["Generators", separated(named)],
    ["Units", separated(units.map(word))],
    ["Idempotents", separated(idempotents.map(word))],
    ["Kernel", separated(kernel.map(word))],
  ];
  const rows =
      facts.map(([name, value]) => make("tr", {}, make("th", {scope: "row"}, explained(name)), make("td", {}, value)));
  return make("table", {class: "facts"}, make("tbody", {}, rows));
}

/** @param {string} kind `wild`, or `tame` and its number */
function kindOf(kind) {
  const [, number] = kind.match(/^tame (\d+)/) ?? [];
  return number ? make("span", {}, "tame: it is ", tame(number), ", a quotient of Nim") : "wild: no quotient of Nim";
}

/** @param {string} number */
function tame(number) {
  return make("span", {}, make("i", {}, "T"), make("sub", {}, number));
}
