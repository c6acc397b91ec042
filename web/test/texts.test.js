/** What the page tells of texts that are no certificates, by its own reading. No module and no browser are needed. */
import assert from "node:assert/strict";
import test from "node:test";
import {gzipSync} from "node:zlib";

import {readingOf} from "../page/play/reading.js";
import * as fields from "../page/presented/fields.js";
import {isPresented, presentedOf} from "../page/presented/fields.js";
import {thirdsOf} from "../page/presented/third.js";
import {Failure} from "../page/prover.js";
import {lineTold} from "../page/refusals.js";
import {faultOfText} from "../page/text_faults.js";
import {kindOfText} from "../page/text_kinds.js";

import {atlas, faultsAre, infinite, parts, refusedPresented, sample, samples} from "./setup.js";

const encoder = new TextEncoder();
const good = sample("0.33").toString(), lines = good.split("\n");

/** @type {[string, RegExp][]} */
const KINDS = [
  ["", /^There is nothing/],
  ["table 1\ncode 0.33\n", /misere certify FILE/],
  ["{\"version\":1,\"entries\":[]}", /misere catalogue FILE/],
  ["[1]", /JSON/],
  ["Q(0.33) = < a,b | a^2=1 >\n", /misere describe/],
  ["yes 0.33 order 6 start 1 period 3\n", /an answer of the program/],
  ["open 1 0.33.mqc 100\n", /misere desk FILE/],
  ["0.77\n", /Find looks/],
  ["mqc 1\r\ncode 0.33\r\n", /CR and LF/],
  ["mqp 1\r\ncode 0.354\r\n", /CR and LF/],
  ["mqi 1\ncode 0.354\n", /with tracks/],
];

test("a text of another kind is told what it is", () => {
  for (const [text, wanted] of KINDS) assert.match(kindOfText(encoder.encode(text)), wanted, text);
  assert.match(kindOfText(gzipSync("mqc 1\n")), /unpack it/);
  assert.match(kindOfText(Uint8Array.of(0xff, 0xfe, 0x6d, 0)), /UTF-16/);
  assert.match(kindOfText(encoder.encode("\ufeffmqc 1\n")), /byte order mark/);
  const certificates = [...samples.filter(({name}) => !name.includes("/refused/")), ...infinite];
  for (const {name, bytes} of certificates) assert.equal(kindOfText(bytes), "", name);
});

/** Texts that docs/MESSAGES.md has too, with the same lines, in the page's words. @type {[string, string][]} */
const EXPLAINED = [
  [good.replaceAll("\n", "\r\n"), "line 1: a carriage return"],
  ["", "no byte"],
  ["mqc 1\ncode\t0.33\n", "line 2: a tab"],
  ["# mine\n", "line 1: the byte 35, which no text has"],
  [good.replace("0.33\n", "0.33\n\n"), "line 3: empty"],
  [good.replaceAll("\n", " \n"), "line 1: a space at its beginning or end, or two together"],
  [lines.slice(1).join("\n"), "line 1: its first word isn't mqc"],
  [good.replace("order 6", "order 6 6"), "line 3: words after its name: 2, not 1"],
  [lines.filter((_, at) => at !== 9).join("\n"), "line 14: rows before it: 5, not 6"],
  [good + good, "line 17: it comes after the line \"end\""],
  [good.slice(0, -1), "the last line has no end"],
  [`${lines.slice(0, 8).join("\n")}\n`, "the last line isn't \"end\""],
  ["\0".repeat(4194305), "more than 4194304 bytes"],
];
/** @type {[string, string][]} */
const MORE = [
  [good.replace("phi 1", "phi 01"), "line 6: 01, which begins with 0"],
  [good.replace("phi 1", "phi x"), "line 6: “x”, which is no number"],
  [good.replace("phi 1", "phi 6"), "line 6: 6, which isn't 0 to 5"],
  [good.replace("phi 1", "phi 1 1"), "line 6: words after its name: 4, not 3"],
  [good.replace("portion 1 4", "portion 4 1"), "line 7: its numbers don't rise"],
  [good.replace("portion 1 4", "portion"), "line 7: words after its name: 0, not 1 or more"],
  [good.replace("0.33", "0.330"), "line 2: “0.330”, which it can't have"],
  [good.replace("0:1 0:2", "0:1 0-2"), "line 8: the byte 45, which no text has"],
  [good.replace("0:1 0:2", "0:1 0:4"), "line 8: “0:4”, which it can't have"],
  [good.replace("apart", "parts"), "line 15: its first word isn't row or apart"],
  [good.replace("mqc 1", "mqc 2"), "line 1: mqc 2, and by its numbers it is mqc 1"],
  [good.replace("period 3", "period 0"), "line 5: 0, which isn't 1 to 4096"],
];

test("the first fault of a text is told, with its line", () => {
  for (const [text, fault] of [...EXPLAINED, ...MORE]) assert.equal(faultOfText(text), fault);
  for (let at = 5; at < 15; at++) {
    const wrong = lines.map((line, nth) => (nth === at ? line.replace(/\d$/, "9") : line)).join("\n");
    assert.match(faultOfText(wrong), new RegExp(`^line ${at + 1}: `));
  }
});

test("a fault is found in what spells no certificate, and in nothing else", () => {
  const decoder = new TextDecoder("latin1");
  const refused = samples.filter(({name}) => name.includes("/refused/text_"));
  assert.ok(refused.length > 10);
  for (const {name, bytes} of refused) assert.notEqual(faultOfText(decoder.decode(bytes)), "", name);
  for (const {name, bytes} of samples.filter((it) => !refused.includes(it)))
    assert.equal(faultOfText(decoder.decode(bytes)), "", name);
  for (const {code, bytes} of [...atlas, ...parts]) assert.equal(faultOfText(decoder.decode(bytes)), "", code);
  for (const {name, bytes} of [...infinite, ...refusedPresented])
    assert.equal(faultOfText(decoder.decode(bytes)), "", name);
});

test("behind the verdict stands the line, or which command may name it", () => {
  const failure = new Failure("refused", "1 Text", 1), bytes = encoder.encode(good.replace("order 6", "order 6 6"));
  assert.equal(lineTold(failure, bytes), ". As this page reads it: line 3: words after its name: 2, not 1.");
  assert.match(lineTold(failure, encoder.encode(good)), /misere explain FILE/);
  for (const other of [new Failure("refused", "2 Law", 2), new Failure("failed", "it ended"), new Error("x")])
    assert.equal(lineTold(other, bytes), "");
});

/** @type {[string, string, string][]} What is changed in the presentation of 0.75 to heap 22, and the fault. */
const PRESENTED = [
  ["mqp 1", "mqp 2", "line 1: 2, which isn't 1 to 1"],
  ["heaps 22", "heaps 22 period", "line 3: “period”, which it can't have"],
  ["heaps 22", "heaps 22 period 23", "line 3: “23”, which it can't have"],
  ["heaps 22", "heaps 23", "line 5: words after its name: 22, not 23"],
  ["letters 1 2 5", "letters 1 2 0", "line 4: 0, which isn't 1 to 16384"],
  ["letters 1 2 5", "letters 1 2", "line 10: words after its name: 3, not 2"],
  ["words a b", "words a ba", "line 5: “ba”, which it can't have"],
  ["words a b", "words a b^1", "line 5: “b^1”, which it can't have"],
  ["b^3 b", "b^1001 b", "line 7: “b^1001”, which it can't have"],
  ["b^3 b", "b^3 b b", "line 7: words after its name: 3, not 2"],
  ["relation b^3", "relations b^3", "line 7: its first word isn't relation or cycle"],
  ["cycle 2:1", "cycle 2:0", "line 10: “2:0”, which it can't have"],
  ["portion a", "portion A", "line 11: the byte 65, which no text has"],
  ["end\n", "", "the last line isn't \"end\""],
];

test("so it is of presentations, which are told as they stand there", () => {
  const bytes = sample("0.75_heaps_22.mqp"), text = bytes.toString();
  assert.equal(faultOfText(text), "");
  faultsAre(text, PRESENTED);
  assert.deepEqual([isPresented(bytes), isPresented(encoder.encode(good))], [true, false]);
  const {code, heaps, period, letters, relations, portion} = presentedOf(text);
  assert.deepEqual([code, heaps, period, letters.join("")], ["0.75", 22, 0, "abc"]);
  assert.deepEqual([relations, portion], [["a^2=1", "b^3=b", "bc=ab", "c^2=b^2"], ["a", "b^2"]]);
  const whole =
      "mqp 1\ncode 0.001\nheaps 4 period 1\nletters 3\nwords 1 1 a 1\nrelation a^2 1\ncycle 2:1\nportion a\nend\n";
  assert.deepEqual([faultOfText(whole), presentedOf(whole).period], ["", 1]);
});

test("a presentation has a name, a verdict, and heaps of which it speaks", () => {
  const [part, kayles] = ["0.75_heaps_22.mqp", "0.77.mqp"].map((file) => presentedOf(sample(file).toString()));
  const without = presentedOf(sample("refused/part_heap_left_out.mqp").toString());
  assert.deepEqual([part, kayles, without].map(fields.presentedName), [
    "0.75/presented-22",
    "0.77/presented",
    "0.75/presented-22-10",
  ]);
  assert.deepEqual([part, kayles, without].map(fields.reachOf), [
    "the heaps 1 to 22",
    "all heaps",
    "the heaps 1 to 22 without 10",
  ]);
  assert.equal(fields.presentedVerdict(part, 8), "yes 0.75 order 8 heaps 22");
  assert.equal(fields.presentedVerdict(part, null), "infinite 0.75 heaps 22 relations 4");
  assert.equal(fields.presentedVerdict(kayles, 40), "yes 0.77 order 40 start 71 period 12");
  assert.deepEqual([[22], [23], [1n, 10n ** 18n]].map((heaps) => fields.speaksOf(part, heaps)), [true, false, false]);
  assert.deepEqual([[82], [83], [1n, 10n ** 18n]].map((heaps) => fields.speaksOf(kayles, heaps)), [true, true, true]);
  assert.deepEqual([[9], [10]].map((heaps) => fields.speaksOf(without, heaps)), [true, false]);
  const {usual, reach, code} = readingOf(kayles.text);
  assert.deepEqual([usual, reach, code], [[1, 2, 5], "all heaps", "0.77"]);
});

test("third positions are of the heaps of letters, fewer heaps first", () => {
  assert.deepEqual(
      thirdsOf([1, 2]), [[], [1], [2], [1, 1], [1, 2], [2, 2], [1, 1, 1], [1, 1, 2], [1, 2, 2], [2, 2, 2]]);
  assert.equal(thirdsOf(Array.from({length: 26}, (_, at) => at + 1)).length, 2000);
});
