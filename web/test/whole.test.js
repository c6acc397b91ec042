/** What the page reads of texts of whole games, beside a search of all plays. No module and no browser are needed. */
import assert from "node:assert/strict";
import {readFileSync} from "node:fs";
import path from "node:path";
import process from "node:process";
import test from "node:test";

import {Atlas} from "../page/atlas.js";
import {Collection} from "../page/collection.js";
import {readingOf} from "../page/play/reading.js";
import {outcomeByPlays} from "../page/plays.js";
import {faultOfText} from "../page/text_faults.js";
import {kindOfText} from "../page/text_kinds.js";
import {isSaidP, isWhole, tripleOf, wholeName, wholeOf, wholeVerdict} from "../page/whole/fields.js";
import {thirdOf} from "../page/whole/third.js";

import {faultsAre, root, wholeTexts} from "./setup.js";

const held = path.join(process.env.MISERE_HELD ?? path.join(root, "web/out"), "atlas.json");
const made = new Atlas(JSON.parse(readFileSync(held, "utf8")));
const [, text] = wholeTexts.find(([code]) => code === "0.26") ?? ["", ""];

test("the texts that the page makes again are those of the atlas", async () => {
  const page = new Collection(made, () => assert.fail("no infinite one is asked for"));
  assert.deepEqual([...made.whole.keys()].sort(), wholeTexts.map(([code]) => code).sort());
  for (const [code, wanted] of wholeTexts) {
    assert.equal(await page.find(wholeName(code)), wanted, code);
    assert.equal(page.keep(wanted), wholeName(code));
    assert.equal(wholeVerdict(wholeOf(wanted)), `infinite ${code} whole`);
    assert.ok(made.games.has(code), code);
  }
  for (const none of ["0.77/whole", "0.26/whole2", "whole"]) assert.equal(made.text(none), null, none);
  assert.deepEqual([isWhole(text), isWhole("mqp 1\n"), isWhole(new TextEncoder().encode(text))], [true, false, true]);
});

/**
 * Weights and leads by docs/WHOLE.md, where a lead is 1 more than a reach.
 * @type {[number, bigint, bigint][]}
 */
const HEAPS_OF_26 = [
  [1, 0n, 0n], [4, 1n, 0n], [6, 0n, 0n], [9, 2n, 1n], [10, 2n, 1n], [12, 3n, 0n], [14, 4n, 1n], [15, 5n, 4n],
  [1001, 498n, 497n], [1002, 498n, 495n]
];

/**
 * Third positions of 0.26, worked out by these weights and leads. (9 and 10 weigh 2 and have lead 1, so either rules
 * beside less than 1. 9 is even and 10 isn't: 9 + 9 is even, of weight 4, and no heap rules, so it is P.)
 * @type {[bigint[], bigint[], bigint[] | ""][]}
 */
const THIRD = [[[3n, 9n], [11n], []], [[9n], [10n], [9n]], [[1n], [5n], ""]];

test("a third position beside which two of 0.26 differ is the first one of those that are tried", () => {
  for (const [one, other, third] of THIRD) assert.deepEqual(thirdOf(wholeOf(text), one, other), third);
});

test("the triples of 0.26 are those of its proof by hand", () => {
  const whole = wholeOf(text);
  for (const [heap, weight, lead] of HEAPS_OF_26)
    assert.deepEqual(tripleOf(whole, [BigInt(heap)]), {odd: heap % 2 === 0, weight, lead}, String(heap));
  assert.deepEqual(tripleOf(whole, []), {odd: false, weight: 0n, lead: 0n});
  assert.deepEqual(tripleOf(whole, [3n, 9n]), {odd: false, weight: 3n, lead: 0n});
  assert.deepEqual(tripleOf(whole, [3n, 15n]), {odd: false, weight: 6n, lead: 3n});
  const great = 10n ** 18n + 1n;
  assert.deepEqual(tripleOf(whole, [great]), {odd: false, weight: (great - 5n) / 2n, lead: (great - 7n) / 2n});
});

test("each text says the outcomes of small positions, by a search of all plays", () => {
  for (const [code, wanted] of wholeTexts) {
    const whole = wholeOf(wanted);
    for (let a = 0; a <= 8; a++) {
      for (let b = a; b <= 8; b++) {
        const heaps = [a, b].filter((it) => it > 0);
        const said = isSaidP(tripleOf(whole, heaps.map(BigInt))) ? "P" : "N";
        assert.equal(said, outcomeByPlays(code, heaps), `${code} at ${heaps}`);
      }
    }
  }
});

test("a play is of all heaps", () => {
  const {code, speaksOf, usual} = readingOf(text);
  assert.deepEqual([code, speaksOf([10 ** 15]), speaksOf(usual)], ["0.26", true, true]);
});

/** @type {[string, string, string][]} What is changed in the text of 0.26, and the fault. */
const WRONG = [
  ["mqw 1", "mqw 2", "line 1: 2, which isn't 1 to 1"],
  ["code 0.26", "code 0.260", "line 2: “0.260”, which it can't have"],
  ["start 13", "start 0", "line 3: 0, which isn't 1 to 1024"],
  ["period 4", "period 1013", "line 4: 1013, which isn't 1 to 1012"],
  ["rise 2", "rise 60001", "line 5: 60001, which isn't 1 to 60000"],
  ["odd 0 1", "odd 0 2", "line 6: 2, which isn't 0 to 1"],
  ["weights 0 0", "weights 0", "line 7: words after its name: 15, not 16"],
  ["leads 0", "leads 00", "line 8: 00, which begins with 0"],
  ["leads", "lead", "line 8: its first word isn't leads"],
  ["end\n", "end", "the last line has no end"],
];

test("the first fault of such a text is told, with its line", () => {
  faultsAre(text, WRONG);
  for (const [code, wanted] of wholeTexts) {
    assert.equal(faultOfText(wanted), "", code);
    assert.equal(kindOfText(new TextEncoder().encode(wanted)), "", code);
  }
});
