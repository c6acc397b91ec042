/**
 * Measures the module in Node beside the program, by the processor's time: of the first run and the least of some. No
 * test: `measures` asks it, with --json, for docs/WEB.md.
 */
import {spawnSync} from "node:child_process";
import process from "node:process";

import {newMisere} from "./module.js";
import {atlas, program, root, sample} from "./setup.js";

const RUNS = 5;
const kayles = sample("0.77");
const positions = Array.from({length: 4096}, (_, at) => [1 + at % 64, 1 + (at >> 6)]);
const kaylesFile = `${root}/certificates/0.77.mqc`;
/** @type {import("../calls.js").Search} */
const deep = {
  heaps: 8210,
  order: 256
};
/** @type {import("../calls.js").Search} */
const furthest = {
  aim: "furthest",
  heaps: 0,
  order: 512
};
const catalogues = ["octal", "hexadecimal"].map((it) => `${root}/atlas/${it}.json`);

/** @type {[string, (misere: import("../calls.js").Misere) => unknown, string[][]][]} */
const ROWS = [
  ["check 0.77", (it) => it.check(kayles), [["check", kaylesFile]]],
  ["check the atlas", (it) => atlas.forEach(({bytes}) => it.check(bytes)), catalogues.map((it) => ["catalogue", it])],
  ["4,096 outcomes of 0.77", (it) => it.outcomes(kayles, positions), []],
  ["describe 0.77", (it) => it.describe(kayles), [["describe", kaylesFile]]],
  ["solve 0.77 --deep", (it) => it.solve("0.77", deep), [["solve", "0.77", "--deep"]]],
  ["solve 0.423333 --deep", (it) => it.solve("0.423333", deep), [["solve", "0.423333", "--deep"]]],
  ["solve 0.07 --furthest 512", (it) => it.solve("0.07", furthest), [["solve", "0.07", "--furthest", "512"]]],
];

/**
 * The milliseconds of this process's processor, compiling included.
 * @param {() => unknown} call
 */
function spent(call) {
  const begin = process.cpuUsage();
  call();
  const {user, system} = process.cpuUsage(begin);
  return (user + system) / 1000;
}

/**
 * The milliseconds of the program's processor.
 * @param {string[]} words
 */
function spentByProgram(words) {
  const timed = ["-c", "TIMEFORMAT=\"%U %S\"; time \"$0\" \"$@\" > /dev/null", program, ...words];
  const {stderr} = spawnSync("bash", timed, {encoding: "utf8"});
  return stderr.trim().split(" ").reduce(
      (/** @type {number} */ sum, /** @type {string} */ it) => sum + 1000 * Number(it), 0);
}

const runs = (/** @type {() => number} */ one) => Array.from({length: RUNS}, one);
const shown = (/** @type {number} */ time) => `${time.toFixed(1)} ms`.padStart(12);


/**
 * The times of a row in milliseconds, 0 where the program has no such command, and the memory behind it.
 * @param {(typeof ROWS)[number]} row
 */
function measured([, call, words]) {
  const misere = newMisere(), times = runs(() => spent(() => call(misere)));
  const program = Math.min(...runs(() => words.reduce((sum, it) => sum + spentByProgram(it), 0)));
  return {first: times[0], least: Math.min(...times), program, memory: misere.memory().size};
}

/** @param {[string, ReturnType<typeof measured>]} row */
function lineOf([name, {first, least, program, memory}]) {
  const size = `${(memory / 2 ** 20).toFixed(1)} MiB`.padStart(9);
  return name.padEnd(26) + shown(first) + shown(least) + (program ? shown(program) : " ".repeat(12)) + size;
}

/** @type {[string, ReturnType<typeof measured>][]} */
const told = ROWS.map((row) => [row[0], measured(row)]);
const head = `${"".padEnd(26)}       first       least     program  memory`;
console.log(
    process.argv.includes("--json") ? JSON.stringify(Object.fromEntries(told)) :
                                      [head, ...told.map(lineOf)].join("\n"));
