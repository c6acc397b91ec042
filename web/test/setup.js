/** What the tests share: the program, the samples and the atlas. Those of the module take it from module.js. */
import assert from "node:assert/strict";
import {spawnSync} from "node:child_process";
import {mkdtempSync, readdirSync, readFileSync, rmSync, writeFileSync} from "node:fs";
import {tmpdir} from "node:os";
import path from "node:path";
import process from "node:process";
import {fileURLToPath} from "node:url";

import {Failed, Refused} from "../calls.js";
import {faultOfText} from "../page/text_faults.js";

export const root = fileURLToPath(new URL("../..", import.meta.url));
export const program = process.env.MISERE ?? path.join(root, "crates/misere/out/misere");
const folder = mkdtempSync(path.join(tmpdir(), "misere-"));
process.on("exit", () => rmSync(folder, {recursive: true}));

/**
 * What the program prints.
 * @param {string[]} words
 * @returns {string}
 */
export function printed(...words) {
  const run = spawnSync(program, words, {encoding: "utf8", maxBuffer: 1 << 26, cwd: folder});
  if (run.error || run.status === null || run.status > 1)
    throw new Error(`misere ${words}: ${run.error ?? run.stderr}`);
  return run.stdout;
}

/**
 * A file of these bytes, as the program reads it. It holds until the next.
 * @param {Uint8Array | string} bytes
 */
export function fileOf(bytes, name = "x.mqc") {
  const file = path.join(folder, name);
  writeFileSync(file, bytes);
  return file;
}

/** The samples, accepted and refused, by their names. */
export const samples = ["certificates", "certificates/refused"].flatMap((it) => {
  const files = readdirSync(path.join(root, it)).filter((name) => name.endsWith(".mqc"));
  return files.map((name) => ({name: `${it}/${name}`, bytes: readFileSync(path.join(root, it, name))}));
});

/** The bytes of a sample. */
export const sample = (/** @type {string} */ name) =>
    readFileSync(path.join(root, "certificates", /\.mq[pw]$/.test(name) ? name : `${name}.mqc`));

/**
 * All entries of a catalogue of the atlas.
 * @param {string} name
 * @returns {{code: string, bytes: Uint8Array, last: number | null}[]}
 */
function entriesOf(name) {
  const {entries} = JSON.parse(readFileSync(path.join(root, `atlas/${name}.json`), "utf8"));
  return entries.map((/** @type {any} */ it) => {
    const {code, certificate, heaps} = it;
    return {code, bytes: new TextEncoder().encode(certificate), last: heaps || null};
  });
}

/** All entries of both catalogues of the atlas, and those of further parts. */
export const atlas = ["octal", "hexadecimal"].flatMap(entriesOf);
export const parts = entriesOf("parts");

/** Presentations: the infinite ones of the atlas, and the samples that are refused. */
const presentedIn = (/** @type {string} */ place) =>
    readdirSync(path.join(root, place))
        .filter((name) => name.endsWith(".mqp"))
        .map((name) => ({name, bytes: readFileSync(path.join(root, place, name))}));
export const infinite = presentedIn("atlas/infinite");
export const refusedPresented = presentedIn("certificates/refused");

/** The texts of whole games, each with its code. */
export const wholeTexts = ["atlas/whole", "certificates"].flatMap((place) => {
  const names = readdirSync(path.join(root, place)).filter((name) => name.endsWith(".mqw"));
  const textOf = (/** @type {string} */ name) => readFileSync(path.join(root, place, name), "utf8");
  return names.map((name) => /** @type {[string, string]} */ ([name.slice(0, -4), textOf(name)]));
});

/**
 * Changes in a text, and the fault that the page finds in each text that comes of one.
 * @param {string} text
 * @param {[string, string, string][]} changes
 */
export function faultsAre(text, changes) {
  for (const [was, is, fault] of changes) {
    assert.ok(text.includes(was), was);
    assert.equal(faultOfText(text.replace(was, is)), fault);
  }
}

/**
 * Numbers that look random and are the same in each run (xorshift, of 32 bits).
 * @param {number} seed
 */
export function numbersFrom(seed) {
  let state = seed;
  return (/** @type {number} */ below) => {
    state ^= state << 13;
    state ^= state >>> 17;
    state ^= state << 5;
    return (state >>> 0) % below;
  };
}

/**
 * What a call gives, or `refused` with the status; or `failed`, which is no verdict.
 * @param {() => unknown} call
 */
export function told(call) {
  try {
    return call() ?? "yes";
  } catch (stop) {
    if (stop instanceof Failed) return "failed";
    if (!(stop instanceof Refused)) throw stop;
    return `refused ${stop.status}`;
  }
}
