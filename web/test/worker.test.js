/** The page's questions to its worker: a worker that ends and a module that fails are never a verdict. */
import assert from "node:assert/strict";
import test from "node:test";
import {setImmediate} from "node:timers";

import {Prover} from "../page/prover.js";

import {withoutCode, withStack} from "./altered.js";
import {bytesOfModule} from "./module.js";
import {sample} from "./setup.js";

const kayles = sample("0.77"), wrong = sample("refused/outcome_at_two_ones");

/** What a worker has: page/worker.js sets its `onmessage`, and answers by its `postMessage`. */
const scope = /** @type {any} */ ({});
/** @type {any} */ (globalThis).self = scope;
await import("../page/worker.js");

/**
 * A worker that answers by worker.js, a turn later; but to no message from the nth on.
 * @param {number} silentFrom
 */
function workerSilentFrom(silentFrom = Infinity) {
  let [count, isEnded] = [0, false];
  const helper = /** @type {any} */ ({onmessage: null, onerror: null});
  helper.terminate = () => (isEnded = true);
  helper.postMessage = (/** @type {any} */ question) => {
    const isSilent = count++ >= silentFrom, data = structuredClone(question);
    setImmediate(() => {
      if (isEnded || isSilent) return;
      scope.postMessage = (/** @type {any} */ told) => helper.onmessage({data: structuredClone(told)});
      scope.onmessage({data});
    });
  };
  return helper;
}

/**
 * A prover over these workers, one after another.
 * @param {any[]} workers
 */
function proverOver(workers, bytes = bytesOfModule) {
  const left = [...workers];
  return new Prover(() => left.shift(), /** @type {any} */ (Uint8Array.from(bytes).buffer));
}

test("a yes, and a refusal with its position", async () => {
  const prover = proverOver([workerSilentFrom()]);
  assert.ok((await prover.ask("check", kayles)).time >= 0);
  await assert.rejects(prover.ask("check", wrong), {kind: "refused", status: 7, heaps: [1n, 1n]});
});

/** @type {[string, Uint8Array][]} */
const MODULES = [
  ["bytes that are no module", new Uint8Array(100)],
  ["a module that fails in each function", withoutCode(bytesOfModule)],
  ["a stack that is full", withStack(bytesOfModule, 64)],
];

test("a module that fails is told as a failure, each time", async (t) => {
  for (const [name, module] of MODULES) {
    await t.test(name, async () => {
      const prover = proverOver([workerSilentFrom(), workerSilentFrom(), workerSilentFrom()], module);
      for (const bytes of [kayles, wrong, kayles]) {
        await assert.rejects(prover.ask("check", bytes), {kind: "failed", status: undefined});
      }
    });
  }
});

test("a worker that ends: all who wait are told so, and another one answers what is asked next", async () => {
  const [first, second] = [workerSilentFrom(2), workerSilentFrom()], prover = proverOver([first, second]);
  await prover.ask("check", kayles);
  const waiting = [prover.ask("check", kayles), prover.ask("check", wrong)];
  first.onerror({message: "out of memory"});
  for (const it of waiting) await assert.rejects(it, {kind: "failed", message: /out of memory/, status: undefined});
  await assert.rejects(prover.ask("check", wrong), {kind: "refused", status: 7});
});

test("a search that is stopped", async () => {
  const [first, second] = [workerSilentFrom(1), workerSilentFrom()], prover = proverOver([first, second]);
  const search = prover.ask("solve", "0.07");
  prover.stop();
  await assert.rejects(search, {kind: "stopped", status: undefined});
  assert.match((await prover.ask("solve", "0.33")).answer, /^mqc 1\ncode 0\.33\n/);
});

test("a question right behind a stop, before the stopped worker had its module, is answered", async () => {
  const [first, second] = [workerSilentFrom(0), workerSilentFrom()], prover = proverOver([first, second]);
  const search = prover.ask("solve", "0.07");
  prover.stop();
  const question = prover.ask("check", wrong);
  await assert.rejects(search, {kind: "stopped", status: undefined});
  await assert.rejects(question, {kind: "refused", status: 7});
});

test("what an ended worker still says is no answer, and ends no other", async () => {
  const [first, second] = [workerSilentFrom(1), workerSilentFrom()], prover = proverOver([first, second]);
  const search = prover.ask("check", wrong);
  prover.stop();
  await assert.rejects(search, {kind: "stopped"});
  const question = prover.ask("check", wrong);
  for (const id of [1, 2, 3, 4]) first.onmessage?.({data: {id, answer: null, time: 0}});
  first.onerror?.({message: "late"});
  await assert.rejects(question, {kind: "refused", status: 7});
});
