/** The heap of the module, and what calls do where memory is refused. */
import assert from "node:assert/strict";
import test from "node:test";

import {withPages} from "./altered.js";
import {bytesOfModule, INFINITE, newMisere} from "./module.js";
import {numbersFrom, sample, told} from "./setup.js";

/** @typedef {import("../calls.js").Misere} Misere */

const POSITIONS = [[], [2, 10n ** 12n], [1, 2, 3, 4, 5, 6, 7, 8, 9, 10]];
const dense = sample("0.77"), wrong = sample("refused/outcome_at_two_ones");
/** @type {[string, (misere: Misere) => unknown][]} */
const CALLS = [
  ["a check", (it) => it.check(dense)],
  ["a check that refuses", (it) => it.check(wrong)],
  ["outcomes", (it) => `${it.outcomes(dense, POSITIONS)}`],
  ["values", (it) => `${it.values(dense, POSITIONS)}`],
  ["winning moves", (it) => it.answers(dense, POSITIONS).map(({kind}) => kind).join()],
  ["a description", (it) => it.describe(dense)],
  ["a search", (it) => it.solve("0.33")],
  ["a search in vain", (it) => it.solve("0.77", {heaps: 8, rounds: 1})],
  ...INFINITE,
];
/** So many bounds are tried between no heap and as much as a call needs. */
const BOUNDS = 300;
const NO_BOUND = 2 ** 40;

/** The module's own exports, of a new instance. */
const newExports = () => /** @type {any} */ (new WebAssembly.Instance(new WebAssembly.Module(bytesOfModule)).exports);

/** Where the heap begins. */
const base = Number(newExports().heap_take(0n)) - 16;

test("memory refused past each of many places: 9, or what is told with ample memory, by one instance", async (t) => {
  for (const [name, call] of CALLS) {
    await t.test(name, () => {
      const misere = newMisere(), ample = told(() => call(misere));
      const isAmple = (/** @type {number} */ size) => {
        misere.bound(base + size);
        const now = told(() => call(misere));
        assert.ok(now === ample || now === "refused 9", `with ${size} bytes: ${now}`);
        assert.equal(misere.memory().live, 0, `with ${size} bytes`);
        return now === ample;
      };
      let need = 64;
      while (!isAmple(need)) need *= 2;
      const tried = Array.from({length: BOUNDS}, (_, row) => isAmple(Math.floor(need * row / BOUNDS)));
      assert.ok(!tried[0] && tried.indexOf(true) !== 1);
      misere.bound(NO_BOUND);
      assert.equal(told(() => call(misere)), ample);
    });
  }
});

test("a memory that can't grow: 9, and the instance goes on", async (t) => {
  for (const pages of [0, 1, 4, 16]) {
    await t.test(`by more than ${pages} pages`, () => {
      const misere = newMisere(withPages(bytesOfModule, pages));
      assert.equal(told(() => misere.solve("0.07", {aim: "furthest", order: 256})), "refused 9");
      assert.equal(misere.memory().live, 0);
      const now = told(() => misere.check(sample("0.33")));
      // (a small check may fit into the page in which the constants end)
      assert.ok(now === "yes" || !pages && now === "refused 9", now);
    });
  }
});

test("the heap: what is out doesn't overlap, and holds what was written there", () => {
  const {heap_take, heap_give, heap_live, memory} = newExports(), random = numbersFrom(7);
  /** @type {{place: bigint, size: number, mark: number}[]} */
  const out = [];
  const bytes = (/** @type {{place: bigint, size: number}} */ {place, size}) =>
      new Uint8Array(memory.buffer, Number(place), size);
  for (let row = 0; row < 20000; row++) {
    if (random(5) < (row < 10000 ? 3 : 2) || !out.length) {
      const size = random(random(10) ? 300 : 70000), mark = row % 251,
            block = {place: heap_take(BigInt(size)), size, mark};
      assert.ok(block.place > 0n && block.place % 16n === 0n, `row ${row}`);
      bytes(block).fill(mark);
      out.push(block);
    } else {
      const [block] = out.splice(random(out.length), 1);
      assert.ok(bytes(block).every((it) => it === block.mark), `row ${row}`);
      heap_give(block.place);
    }
  }
  for (const {place} of out) heap_give(place);
  assert.equal(heap_live(), 0n);
});

test("the heap: a larger block is cut only where the memory can't grow", () => {
  const {heap_take, heap_give, heap_live, heap_most} = newExports(), kept = heap_take(0n);
  const large = heap_take(1000n);
  heap_give(large);
  const beside = heap_take(16n);
  heap_most(beside);
  assert.ok(beside >= large + 1024n);
  const cut = Array.from({length: 32}, () => heap_take(16n));
  assert.deepEqual(new Set(cut), new Set(cut.map((_, row) => large + BigInt(32 * row))));
  assert.equal(heap_take(16n), 0n);
  [...cut, beside, kept].forEach(heap_give);
  assert.equal(heap_live(), 0n);
  assert.equal(heap_take(1000n), kept);
});

test("the heap: sizes that no memory has", () => {
  const {heap_take, heap_live} = newExports();
  for (const size of [2n ** 31n, 2n ** 32n, 2n ** 38n - 1n, 2n ** 38n, 2n ** 63n, 2n ** 64n - 1n]) {
    assert.equal(heap_take(size), 0n, `${size}`);
  }
  assert.equal(heap_live(), 0n);
});
