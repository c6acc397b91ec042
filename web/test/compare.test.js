/** Compares what the module tells with what the program prints. Each difference names its row. */
import assert from "node:assert/strict";
import test from "node:test";

import {newMisere} from "./module.js";
import {atlas, fileOf, numbersFrom, printed, sample, samples, told} from "./setup.js";
import {linesOfRefusal, verdictPrinted} from "./verdicts.js";

const misere = newMisere();
const CHANGED = 1500;
const POSITIONS_OF_EACH = 26;
const MOST_HEAP = 10n ** 18n;
const LIMIT = 100000;
const ALL_UNITS = 2n ** 64n - 1n;

/** @param {Uint8Array} bytes */
function fieldsOf(bytes) {
  const lines = new TextDecoder().decode(bytes).split("\n");
  return Object.fromEntries(lines.map((line) => [line.split(" ")[0], line.slice(line.indexOf(" ") + 1)]));
}

/**
 * The lines of `misere check`. Of a position at which the rule fails the module doesn't tell the outcome.
 * @param {Uint8Array} bytes
 */
function verdictOf(bytes) {
  try {
    misere.check(bytes);
  } catch (stop) {
    return linesOfRefusal(stop);
  }
  const {code, order, start, period} = fieldsOf(bytes);
  const end = period === "0" ? `heaps ${Number(start) - 1}` : `start ${start} period ${period}`;
  return [`yes ${code} order ${order} ${end}`];
}

/** @param {(number | bigint)[]} heaps */
const spelled = (heaps) => heaps.join(" ") || "0";

/** @param {import("../calls.js").Answer} answer */
function lineOf(answer) {
  return answer.kind === "wins" ? `wins ${answer.heap} -> ${spelled(answer.left)}` : answer.kind;
}

/**
 * Some positions: of small heaps, and of heaps of all sizes of which the certificate speaks.
 * @param {(below: number) => number} random
 * @param {number | null} last
 */
function positionsOf(random, last) {
  const any = () => BigInt(random(2 ** 31)) * BigInt(random(2 ** 31)) % BigInt(last ?? MOST_HEAP) + 1n;
  const small = () => BigInt(1 + random(Math.min(last ?? 40, 40)));
  return Array.from({length: POSITIONS_OF_EACH}, (_, at) => {
    const heap = at % 2 ? any : small;
    return Array.from({length: random(at % 3 ? 4 : 13)}, heap);
  });
}

test("samples: verdict, number and position", async (t) => {
  for (const {name, bytes} of samples) {
    await t.test(name, () => assert.deepEqual(verdictOf(bytes), verdictPrinted("check", bytes)));
  }
});

test("samples: each form of a description", async (t) => {
  for (const {name, bytes} of samples.filter(({name}) => !name.includes("refused"))) {
    await t.test(name, () => {
      for (const basis of [false, true]) {
        const words = [fileOf(bytes), ...basis ? ["--basis"] : []];
        assert.equal(misere.describe(bytes, {basis}), printed("describe", ...words));
        for (const output of /** @type {const} */ (["latex", "json", "singular", "gap"]))
          assert.equal(misere.describe(bytes, {basis, output}), printed("describe", `--${output}`, ...words), output);
        const relations = told(() => misere.describe(bytes, {basis, output: "relations"}));
        const line = printed("describe", "--relations", ...words);
        // the program prints those that `present` refuses, too
        if (relations !== "refused 16") assert.equal(`${relations}\n`, line);
      }
    });
  }
});

test("the atlas: all certificates are accepted, and described as the program does it", (t) => {
  const begin = performance.now();
  for (const {code, bytes} of atlas) assert.equal(told(() => misere.check(bytes)), "yes", code);
  t.diagnostic(`${atlas.length} checks in ${(performance.now() - begin).toFixed(0)} ms`);
  let undescribed = 0;
  for (const {code, bytes} of atlas) {
    const [mine, theirs] = [told(() => misere.describe(bytes)), printed("describe", fileOf(bytes))];
    const isDescribed = mine !== "refused 16";
    undescribed += Number(!isDescribed);
    if (isDescribed)
      assert.equal(mine, theirs, code);
    else
      assert.match(theirs, /^not described/, code);
  }
  t.diagnostic(`${atlas.length} descriptions, ${undescribed} of them not within the bounds`);
});

/**
 * The bytes with one or two of them changed: a digit into another three times of four, else any byte into any other.
 * @param {(below: number) => number} random
 * @param {Uint8Array} bytes
 */
function changed(random, bytes) {
  const made = Uint8Array.from(bytes), isDigit = (/** @type {number} */ it) => it >= 48 && it <= 57;
  for (let count = 1 + random(2); count; count--) {
    let at = random(made.length);
    if (random(4)) {
      while (!isDigit(made[at])) at = (at + 1) % made.length;
      made[at] = 48 + random(10);
    } else {
      made[at] = random(256);
    }
  }
  return made;
}

test("changed certificates: verdict, number and position", (t) => {
  const random = numbersFrom(58);
  const all = [...atlas.map(({bytes}) => bytes), ...samples.map(({bytes}) => bytes)];
  /** @type {Record<string, number>} */
  const counts = {};
  for (let row = 0; row < CHANGED; row++) {
    const bytes = changed(random, all[random(all.length)]), mine = verdictOf(bytes);
    assert.deepEqual(mine, verdictPrinted("check", bytes), `row ${row}: ${new TextDecoder().decode(bytes)}`);
    const kind = mine[0].startsWith("no") ? mine[0] : "yes";
    counts[kind] = (counts[kind] ?? 0) + 1;
  }
  t.diagnostic(`${CHANGED} changed certificates: ${Object.entries(counts).map((it) => it.join(" ")).join(", ")}`);
});

/**
 * A certificate of 0.1, where a position of ones is P if they are odd in number: it says so, but of that many.
 * @param {number} ones
 */
function wrongAt(ones) {
  const order = ones + 3, all = Array.from({length: order}, (_, it) => it);
  const isIn = (/** @type {number} */ it) => it % order % 2 === 1 && it % order !== ones;
  const apart = all.flatMap((x) => all.slice(x + 1).map((y) => all.find((z) => isIn(x + z) !== isIn(y + z))));
  const lines = ["mqc 1", "code 0.1", `order ${order}`, "start 2", "period 1", "phi 1 0"];
  lines.push(`portion ${all.filter(isIn).join(" ")}`, `words ${all.slice(1).map((it) => `${it - 1}:1`).join(" ")}`);
  lines.push(
      ...all.map((x) => `row ${all.map((y) => (x + y) % order).join(" ")}`), `apart ${apart.join(" ")}`, "end\n");
  return new TextEncoder().encode(lines.join("\n"));
}

test("a rule that fails at more heaps than there is room for at first", () => {
  for (const ones of [63, 65, 99]) {
    const lines = ["no 7 Outcome", `rule fails at ${"1 ".repeat(ones).trim()}`];
    assert.deepEqual([verdictOf(wrongAt(ones)), verdictPrinted("check", wrongAt(ones))], [lines, lines]);
  }
});

test("positions: outcome and winning move, one by one and many at once", (t) => {
  const random = numbersFrom(20000);
  let count = 0;
  for (const {code, bytes, last} of atlas) {
    const positions = positionsOf(random, last);
    const outcomes = [...misere.outcomes(bytes, positions)].map((it) => "PN"[it]);
    const lines = misere.answers(bytes, positions).map(lineOf);
    fileOf(bytes);
    const steps = positions.flatMap((heaps) => ["ask", "play"].map((it) => `${it} 1 1 ${spelled(heaps)}`));
    const script = [`open 1 x.mqc ${LIMIT}`, `work 1 1 ${ALL_UNITS}`, ...steps].map((it) => `${it}\n`).join("");
    const replies = printed("desk", fileOf(script, "steps")).trimEnd().split("\n").slice(2);
    positions.forEach((heaps, at) => {
      const row = `${code} at ${spelled(heaps)}`;
      assert.deepEqual([outcomes[at], lines[at]], replies.slice(2 * at, 2 * at + 2), row);
    });
    const one = random(positions.length);
    assert.equal("PN"[misere.outcome(bytes, positions[one])], outcomes[one], code);
    assert.equal(lineOf(misere.answer(bytes, positions[one])), lines[one], code);
    assert.equal(misere.value(bytes, positions[one]), misere.values(bytes, positions)[one], code);
    count += positions.length;
  }
  t.diagnostic(`${count} positions of ${atlas.length} games`);
});

/** @type {[string, string, import("../calls.js").Search, string[]][]} */
const SEARCHES = [
  ["whole", "0.33", {}, []],
  ["hexadecimal", "0.b", {heaps: 16}, ["--heaps", "16"]],
  ["deep", "0.77", {heaps: 8210, order: 256}, ["--deep"]],
  ["deep and large", "0.423333", {heaps: 8210, order: 256}, ["--deep"]],
  ["a part", "0.75", {aim: "part", heaps: 8, order: 512}, ["--partial", "8", "--order", "512"]],
  ["furthest", "0.07", {aim: "furthest", heaps: 0, order: 64}, ["--furthest", "64"]],
];

test("searches: the bytes that are found", async (t) => {
  for (const [name, code, search, words] of SEARCHES) {
    await t.test(`${name}: ${code}`, () => assert.equal(misere.solve(code, search), printed("solve", code, ...words)));
  }
});

test("searches that are given up: for which reason", async (t) => {
  for (const [code, search, words] of /** @type {[string, import("../calls.js").Search, string[]][]} */ ([
         ["0.77", {}, []],
         ["0.6", {}, []],
         ["0.07", {rounds: 1}, ["--rounds", "1"]],
         ["0.33", {limit: 5}, ["--limit", "5"]],
       ])) {
    const why = printed("solve", code, ...words, "--why").split("\n")[1];
    await t.test(`${code}: ${why}`, () => assert.throws(() => misere.solve(code, search), {status: 13, why}));
  }
});

const kayles = sample("0.77");
/** @type {[string, () => unknown, number][]} */
const REFUSALS = [
  ["a text that is no certificate", () => misere.check(new Uint8Array()), 1],
  ["a limit that is met", () => misere.check(kayles, 1), 8],
  ["a limit of more than 32 bits", () => misere.check(kayles, 2 ** 32 + LIMIT), 15],
  ["a negative limit", () => misere.outcome(kayles, [1], -1), 15],
  ["a heap of 0", () => misere.outcome(kayles, [0]), 10],
  ["a heap past 10^18", () => misere.value(kayles, [MOST_HEAP + 1n]), 10],
  ["a negative heap", () => misere.answer(kayles, [-1]), 10],
  ["a heap that would be small in 64 bits", () => misere.outcomes(kayles, [[1], [2n ** 64n + 1n]]), 10],
  ["a heap of no whole number", () => misere.outcome(kayles, [1.5]), 10],
  ["a heap beyond a partial certificate", () => misere.values(sample("0.8_heaps_4"), [[4], [5]]), 23],
  ["a code of no game", () => misere.solve("0.8."), 12],
  ["a code of other letters", () => misere.solve("é"), 12],
  ["a search of one heap", () => misere.solve("0.3", {heaps: 1}), 15],
  ["a search of another aim", () => misere.solve("0.3", {aim: /** @type {any} */ ("all")}), 15],
  ["a search that is given up", () => misere.solve("0.77", {rounds: 1, heaps: 8}), 13],
  ["a description in verse", () => misere.describe(kayles, {output: /** @type {any} */ ("verse")}), 15],
];

test("refusals", async (t) => {
  for (const [name, call, status] of REFUSALS) {
    await t.test(name, () => assert.equal(told(call), `refused ${status}`));
  }
});

test("the version, and nothing of many", () => {
  assert.equal(misere.version(), 2);
  assert.deepEqual([...misere.outcomes(kayles, []), ...misere.values(kayles, []), ...misere.answers(kayles, [])], []);
});

test("no memory is kept after all that", (t) => {
  const {live, peak, size} = misere.memory();
  assert.equal(live, 0);
  t.diagnostic(`${peak} bytes at most, of a memory of ${size}`);
});
