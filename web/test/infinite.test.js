/** Whole games and presentations: what the module tells, beside what the program prints. */
import assert from "node:assert/strict";
import test from "node:test";

import {Failed, Misere} from "../calls.js";
import {presentedOf, presentedVerdict} from "../page/presented/fields.js";
import {isSaidP, isWhole, tripleOf, wholeOf, wholeVerdict} from "../page/whole/fields.js";

import {bytesOfModule, newMisere} from "./module.js";
import {fileOf, infinite, numbersFrom, printed, refusedPresented, sample, told, wholeTexts} from "./setup.js";
import {linesOfRefusal, verdictPrinted} from "./verdicts.js";

const misere = newMisere();
const skip = misere.knowsInfinite() ? false : "the module has no calls for whole games and presentations";
/** The checks of longer texts take seconds to minutes. */
const LONGEST = 800;
const POSITIONS_OF_EACH = 200;

const asked = infinite.filter(({bytes}) => bytes.length <= LONGEST);
/** @type {[string, number][]} Samples of presentations, each with its order. */
const FINITE = [["0.75_heaps_22.mqp", 8], ["0.77.mqp", 40]];

/** @param {Uint8Array} bytes */
function verdictOf(bytes) {
  try {
    misere.checkInfinite(bytes);
  } catch (stop) {
    return linesOfRefusal(stop);
  }
  const text = new TextDecoder().decode(bytes);
  return [isWhole(bytes) ? wholeVerdict(wholeOf(text)) : presentedVerdict(presentedOf(text), null)];
}

test("verdict, number and position", {skip}, async (t) => {
  for (const {name, bytes} of [...asked, ...refusedPresented, {name: "a finite one", bytes: sample("0.33")}])
    await t.test(name, () => assert.deepEqual(verdictOf(bytes), verdictPrinted("infinite", bytes)));
});

test("presentations of finite quotients", {skip}, () => {
  for (const [name, order] of FINITE) {
    misere.checkInfinite(sample(name));
    const said = presentedVerdict(presentedOf(sample(name).toString()), order);
    assert.deepEqual([said], verdictPrinted("verify", sample(name)));
  }
});

/**
 * Some positions of the heaps of which a presentation speaks.
 * @param {import("../page/presented/fields.js").Presented} presented
 * @param {(below: number) => number} random
 */
function positionsOf({heaps: last, leftOut}, random) {
  const heaps = Array.from({length: last}, (_, at) => at + 1).filter((heap) => !leftOut.includes(heap));
  const any = () => heaps[random(heaps.length)];
  return Array.from({length: POSITIONS_OF_EACH}, () => Array.from({length: random(14)}, any));
}

/** @param {import("../calls.js").Answer} answer */
function lineOf(answer) {
  return answer.kind === "wins" ? `wins ${answer.heap} -> ${answer.left.join(" ") || "0"}` : answer.kind;
}

test("positions: outcome and winning move", {skip}, (t) => {
  const random = numbersFrom(34);
  let count = 0;
  for (const {name, bytes} of asked) {
    const positions = positionsOf(presentedOf(bytes.toString()), random);
    const outcomes = [...misere.infiniteOutcomes(bytes, positions)];
    const lines = misere.infiniteAnswers(bytes, positions).map(lineOf);
    const file = fileOf(bytes, "x.mqp");
    positions.slice(0, 4).forEach(
        (heaps, at) => assert.equal(printed("infinite", file, heaps.join(" ") || "0").trim(), lines[at], name));
    outcomes.forEach((outcome, at) => assert.equal(outcome, Number(lines[at] !== "lost"), `${name} ${positions[at]}`));
    count += positions.length;
  }
  t.diagnostic(`${count} positions`);
});

/** What is changed in the text of 0.26. */
const CHANGED = [["", ""], ["code 0.26", "code 0.3"], ["odd 0 1", "odd 1 1"], ["leads", "lead"], ["mqw 1", "mqw 2"]];

test("whole games: verdict and number", {skip}, () => {
  const text = sample("0.26.mqw").toString();
  const texts = [...wholeTexts.map(([, it]) => it), ...CHANGED.map(([was, is]) => text.replace(was, is))];
  for (const it of texts.map((it) => new TextEncoder().encode(it)))
    assert.deepEqual(verdictOf(it), verdictPrinted("infinite", it));
});

test("whole games: outcomes as the three numbers of each heap say, and moves to lost positions", {skip}, () => {
  const random = numbersFrom(26);
  for (const [code, text] of wholeTexts) {
    const bytes = new TextEncoder().encode(text), whole = wholeOf(text);
    const sizes =
        [8n, 40n, 10n ** 15n].map((most) => () => 1n + BigInt(random(2 ** 31)) * BigInt(random(2 ** 21)) % most);
    const positions = sizes.flatMap((size) => Array.from({length: 40}, () => Array.from({length: random(9)}, size)));
    const said = positions.map((heaps) => isSaidP(tripleOf(whole, heaps)));
    assert.deepEqual([...misere.infiniteOutcomes(bytes, positions)], said.map((it) => Number(!it)), code);
    misere.infiniteAnswers(bytes, positions).forEach((answer, at) => {
      if (answer.kind !== "wins") return assert.equal(answer.kind === "lost", said[at], `${code} ${positions[at]}`);
      const others = [...positions[at]];
      others.splice(others.indexOf(answer.heap), 1);
      assert.ok(isSaidP(tripleOf(whole, [...others, ...answer.left])), `${code} ${positions[at]}`);
    });
  }
  const positions = [[3], [10n ** 12n], [2, 10n ** 12n]];
  const lines = misere.infiniteAnswers(sample("0.26.mqw"), positions).map(lineOf);
  assert.deepEqual(lines, ["wins 3 -> 2", "wins 1000000000000 -> 999999999999", "lost"]);
});

test("the family of 0.354 is the one that docs/INFINITE.md tells", {skip}, () => {
  const bytes = sample("0.354_heaps_5.mqp");
  const twos = Array.from({length: 5}, (_, at) => at + 1), fives = Array.from({length: 24}, (_, at) => at + 1);
  const cells = twos.flatMap((j) => fives.map((i) => ({j, i})));
  const positions = cells.map(({j, i}) => [4, ...Array(j).fill(2), ...Array(i).fill(5)]);
  const isLost = ({j = 0, i = 0}) => i - 3 * j >= 4 && (i - 3 * j) % 6 === 4;
  assert.deepEqual([...misere.infiniteOutcomes(bytes, positions)], cells.map((it) => Number(!isLost(it))));
});

/** @type {[("description" | "latex" | "json"), string[]][]} */
const FORMS = [["description", []], ["latex", ["--latex"]], ["json", ["--json"]]];

test("what a presentation says is told as the program shows it", {skip}, () => {
  for (const name of ["0.354_heaps_5.mqp", "0.404_heaps_12.mqp", "0.31011_heaps_5.mqp"]) {
    const bytes = sample(name), file = fileOf(bytes, name);
    for (const [output, words] of FORMS)
      assert.equal(misere.describeInfinite(bytes, {output}), printed("infinite", file, "--show", ...words), name);
  }
});

/**
 * A code, how far is looked, and the words of the same for the program.
 * @type {[string, {heaps?: number}, string[]][]}
 */
const SEARCHES = [
  ["0.26", {}, []],
  ["0.404", {}, []],
  ["0.354", {heaps: 5}, ["--heaps", "5"]],
  ["0.404", {heaps: 11}, ["--heaps", "11"]],
  ["0.33", {heaps: 8}, ["--heaps", "8"]],
];

test("searches: the bytes that are found, or why none are", {skip}, () => {
  for (const [code, search, words] of SEARCHES) {
    const wanted = printed("solve", code, "--infinite", ...words);
    const why = wanted.match(/^gave up: (.*)\n$/)?.[1];
    if (why === undefined)
      assert.equal(misere.solveInfinite(code, search), wanted, code);
    else
      assert.throws(() => misere.solveInfinite(code, search), {status: 13, why});
  }
  assert.equal(told(() => misere.solveInfinite("0.260")), "refused 12");
  assert.equal(told(() => misere.solveInfinite("0.26", {heaps: 0})), "refused 15");
});

const small = sample("0.404_heaps_12.mqp");

test("refusals", {skip}, () => {
  assert.equal(told(() => misere.infiniteOutcomes(small, [[5], [13]])), "refused 23");
  assert.equal(told(() => misere.infiniteAnswers(small, [[0]])), "refused 10");
  assert.equal(told(() => misere.infiniteAnswers(sample("0.33"), [[1]])), "refused 1");
  assert.equal(told(() => misere.check(small)), "refused 1");
  assert.equal(told(() => misere.describeInfinite(sample("0.33"))), "refused 1");
  assert.deepEqual([misere.infiniteOutcomes(small, []).length, misere.infiniteAnswers(small, []).length], [0, 0]);
});

test("what is open is opened anew behind a failure, and given back", {skip}, () => {
  const other = newMisere(), asked = () => [...other.infiniteOutcomes(small, [[4], [5]])];
  const first = asked();
  assert.throws(() => other.check(/** @type {any} */ ("mqc 1")), Failed);
  assert.deepEqual(asked(), first);
  assert.ok(other.memory().live > 0);
  other.close();
  other.close();
  assert.equal(other.memory().live, 0);
});

test("a module without these calls says so", () => {
  const module = new WebAssembly.Module(bytesOfModule);
  const has = WebAssembly.Module.exports(module).some(({name}) => name === "misere_infinite_open");
  assert.equal(new Misere(module).knowsInfinite(), has);
});
