/** A stack that is full, and a module that fails: never a verdict. */
import assert from "node:assert/strict";
import test from "node:test";

import {Failed, Misere} from "../calls.js";

import {withoutCode, withStack} from "./altered.js";
import {bytesOfModule, INFINITE, newMisere} from "./module.js";
import {sample, told} from "./setup.js";

const dense = sample("0.77"), wrong = sample("refused/outcome_at_two_ones");
/** @type {[string, (misere: Misere) => unknown][]} */
const CALLS = [
  ["a check", (it) => it.check(dense)],
  ["a check that refuses", (it) => it.check(wrong)],
  ["an outcome", (it) => it.outcome(dense, [2, 3])],
  ["winning moves", (it) => it.answers(dense, [[2, 3], []]).map(({kind}) => kind).join()],
  ["a description", (it) => it.describe(dense)],
  ["a search", (it) => it.solve("0.33")],
  ...INFINITE,
];
const STACKS = Array.from({length: 60}, (_, row) => 16 * Math.ceil(1.19 ** row));

test("a full stack: the call fails, or tells what is told with ample stack", async (t) => {
  for (const [name, call] of CALLS) {
    await t.test(name, (t) => {
      const ample = told(() => call(newMisere()));
      const tried = STACKS.map((size) => {
        const misere = newMisere(withStack(bytesOfModule, size)), now = told(() => call(misere));
        assert.ok(now === "failed" || now === ample, `stack ${size}: ${now}`);
        assert.equal(misere.version(), 2, `after it, stack ${size}`);
        return now === ample;
      });
      assert.ok(!tried[0] && tried.at(-1));
      t.diagnostic(
          `fails with ${STACKS[tried.lastIndexOf(false)]} bytes, and not with ${STACKS[tried.lastIndexOf(false) + 1]}`);
    });
  }
});

test("a full stack of JavaScript's own: no verdict but the right one", () => {
  const misere = newMisere();
  /** @type {Set<unknown>} */
  const seen = new Set();
  const deep = () => {
    try {
      deep();
    } catch (stop) {
      if (!(stop instanceof RangeError)) throw stop;
    }
    if (seen.has("yes")) return;
    seen.add(told(() => misere.check(dense)));
  };
  deep();
  assert.ok(seen.delete("yes"));
  assert.deepEqual([...seen].filter((it) => it !== "failed"), []);
});

test("a module that fails in each of its functions", async (t) => {
  for (const [name, call] of CALLS) {
    const misere = newMisere(withoutCode(bytesOfModule));
    await t.test(name, () => assert.throws(() => call(misere), Failed));
  }
});

test("a module that can't begin", async (t) => {
  for (const [name, call] of CALLS) {
    const misere = new Misere(/** @type {any} */ ({}));
    await t.test(name, () => assert.throws(() => call(misere), Failed));
  }
});

test("bytes that are none", () => {
  const misere = newMisere();
  assert.throws(() => misere.check(/** @type {any} */ ("mqc 1")), Failed);
  assert.equal(told(() => misere.check(dense)), "yes");
});
