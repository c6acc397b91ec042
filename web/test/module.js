/** The module that is tested. */
import {readFileSync} from "node:fs";
import path from "node:path";
import process from "node:process";

import {Misere} from "../calls.js";

import {root, sample} from "./setup.js";

export const bytesOfModule = readFileSync(process.env.MISERE_WASM ?? path.join(root, "web/out/misere.wasm"));

/** The calls over a new instance of the module, or of another one. */
export const newMisere = (bytes = bytesOfModule) => new Misere(new WebAssembly.Module(bytes));

/** @param {Misere} misere */
function asksInfinite(misere) {
  const outcomes = misere.infiniteOutcomes(sample("0.404_heaps_12.mqp"), [[3, 5, 9], [5]]);
  misere.close();
  return `${outcomes}`;
}

/**
 * A call for infinite quotients, if the module has them.
 * @type {[string, (misere: Misere) => unknown][]}
 */
export const INFINITE = newMisere().knowsInfinite() ? [["outcomes of an infinite quotient", asksInfinite]] : [];
