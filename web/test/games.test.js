/**
 * What the page itself reads out of a code and a certificate, compared with what the module tells, over the whole
 * atlas.
 */
import assert from "node:assert/strict";
import test from "node:test";

import {fieldsOf} from "../page/certificate.js";
import {isCode, movesFrom, moveTo} from "../page/codes.js";
import {describedOf} from "../page/description.js";
import {componentsOf, wordsOf} from "../page/monoid.js";
import {Session} from "../page/play/session.js";

import {newMisere} from "./module.js";
import {atlas, told} from "./setup.js";

const misere = newMisere();

/**
 * The games of the atlas, each with what the page reads out of its certificate.
 * @type {{code: string, bytes: Uint8Array, last: number | null, certificate:
 *     import("../page/certificate.js").Certificate}[]}
 */
const games = atlas.map((it) => ({...it, certificate: fieldsOf(new TextDecoder().decode(it.bytes))}));

/**
 * Whether the player to move wins a position, by a search of all plays that knows the code alone.
 * @param {string} code
 */
function searched(code) {
  /** @type {Map<string, boolean>} */
  const known = new Map();
  /** @type {(heaps: number[]) => boolean} */
  const isWon = (heaps) => {
    const key = heaps.join();
    const found = known.get(key) ?? (!heaps.some((it) => canMove(it)) || behind(heaps).some((it) => !isWon(it)));
    known.set(key, found);
    return found;
  };
  const canMove = (/** @type {number} */ heap) => !movesFrom(code, heap).next().done;
  const behind = (/** @type {number[]} */ heaps) => heaps.flatMap((heap, at) => {
    const others = heaps.filter((_, other) => other !== at);
    return [...movesFrom(code, heap)].map(({left}) => [...others, ...left].sort((a, b) => a - b));
  });
  return isWon;
}

/**
 * The small positions of heaps up to the last one.
 * @param {number} last
 */
function smallPositions(last) {
  const sizes = (/** @type {number} */ most) => Array.from({length: Math.min(most, last) + 1}, (_, heap) => heap);
  return sizes(7).flatMap((a) => sizes(Math.min(a, 5)).map((b) => [b, a].filter((heap) => heap > 0)));
}

test("each element's word, and the kernel, are those of the description", () => {
  for (const {code, bytes, certificate} of games) {
    const {generators, heaps, kernel} = describedOf(misere.describe(bytes));
    const words = wordsOf(certificate, generators);
    assert.deepEqual(heaps, certificate.phi.map((x) => words[x]), code);
    const [least] = componentsOf(certificate).filter(({covers}) => covers.length === 0);
    assert.deepEqual([...least.group].map((x) => words[x]).sort(), [...kernel].sort(), code);
  }
});

test("outcomes are those of a search of all plays", () => {
  for (const {code, bytes, last} of games) {
    const positions = smallPositions(last ?? Infinity), isWon = searched(code);
    const outcomes = misere.outcomes(bytes, positions);
    positions.forEach((position, at) => assert.equal(outcomes[at] === 1, isWon(position), `${code} ${position}`));
  }
});

test("winning moves are moves of the page's list", () => {
  for (const {code, bytes, last} of games) {
    const positions = smallPositions(last ?? Infinity);
    misere.answers(bytes, positions).forEach((answer, at) => {
      const isOver = new Session(code, {name: code, first: positions[at], turns: []}).isOver;
      assert.equal(answer.kind === "ended", isOver, `${code} ${positions[at]}`);
      if (answer.kind !== "wins") return;
      const [heap, left] = [Number(answer.heap), answer.left.map(Number)];
      assert.ok(moveTo(code, heap, left), `${code} ${positions[at]}`);
      assert.ok([...movesFrom(code, heap)].some((move) => `${move.left}` === `${left}`), `${code} ${positions[at]}`);
    });
  }
});

/** @type {[string, string][]} */
const CODES = [
  ["octal", "0.3"],
  ["a first digit 4", "4.07"],
  ["a first digit 8", "8.1"],
  ["a first digit c", "c.f"],
  ["16 digits", "0.0123456789abcdef"],
  ["17 digits", "0.12345678123456781"],
  ["a last digit 0", "0.30"],
  ["a first digit 1", "1.3"],
  ["two first digits", "00.3"],
  ["an upper case", "0.A"],
  ["a letter past f", "0.3g"],
  ["no digit", "0."],
  ["no point", "03"],
  ["a line end", "0.3\n"],
  ["nothing", ""],
];

test("what is a code is one to the module", async (t) => {
  for (const [name, text] of CODES) {
    const isOne = told(() => misere.solve(text, {heaps: 2, rounds: 1})) !== "refused 12";
    await t.test(name, () => assert.equal(isCode(text), isOne));
  }
});
