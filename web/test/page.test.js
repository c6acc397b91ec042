/**
 * What the page does by itself with what it holds: the texts of certificates, what is listed, addresses. No module and
 * no browser are needed (test/quick).
 */
import assert from "node:assert/strict";
import {readFileSync} from "node:fs";
import path from "node:path";
import process from "node:process";
import test from "node:test";

import {Atlas} from "../page/atlas.js";
import {chosenOf, isRead, rowsOf, unread, wordOf} from "../page/atlas/choosing.js";
import {csvOf, jsonOf, listedOf} from "../page/atlas/listing.js";
import {fieldsOf, lastHeap, nameOf, verdictOf} from "../page/certificate.js";
import {certificateText} from "../page/certificate_text.js";
import {codeOfName, GAME_NAMES, isCode} from "../page/codes.js";
import {Collection} from "../page/collection.js";
import {describedOf} from "../page/description.js";
import {AIMS, soughtOf, soughtWord} from "../page/find/plan.js";
import {thirdOf} from "../page/game/compare.js";
import {otherWins} from "../page/game/wins.js";
import {heapsTold, partOf} from "../page/infinite/part.js";
import {readingOf} from "../page/play/reading.js";
import {outcomeByPlays} from "../page/plays.js";
import {heapsOfText, listOf} from "../page/positions.js";
import {presentedName, presentedOf, reachOf} from "../page/presented/fields.js";
import {Failure} from "../page/prover.js";
import {reasonOf, told, toldOfCertificate} from "../page/refusals.js";
import {TERMS} from "../page/terms.js";

import {atlas, fileOf, infinite, parts, printed, refusedPresented, root, sample, samples, wholeTexts} from "./setup.js";

const folder = process.env.MISERE_HELD ?? path.join(root, "web/out");
const heldIn = (/** @type {string} */ name) => JSON.parse(readFileSync(path.join(folder, name), "utf8"));
const made = new Atlas(heldIn("atlas.json"));
const heldInfinite = heldIn("infinite.json");

test("the texts that the page makes again are those of the catalogues", () => {
  const all = [...atlas, ...parts];
  assert.equal(made.entries.length, all.length);
  for (const {code, bytes, last} of all)
    assert.equal(made.text(last ? `${code}/${last}` : code), new TextDecoder().decode(bytes), code);
});

test("the certificate of a code is the full one, or else that of the most heaps", () => {
  const all = [...atlas, ...parts], codes = [...new Set(all.map(({code}) => code))];
  assert.deepEqual([...made.games.keys()].sort(), [...codes].sort());
  for (const code of codes) {
    const lasts = all.filter((it) => it.code === code).map(({last}) => last);
    assert.equal(made.entry(code)?.last, lasts.includes(null) ? null : Math.max(...lasts.map(Number)), code);
  }
  assert.deepEqual(["0.77", "0.07", "0.07/24"].map((it) => made.entry(it)?.order), [40, 638, 24]);
  for (const none of ["0.07/25", "0.77/5", "0.07/34-33", "0.123456", ""]) assert.equal(made.entry(none), null, none);
});

/**
 * What is told of the sums modulo the order, where as many first elements are those of heaps.
 * @param {number} order
 * @param {number} firsts
 */
function toldOf(order, firsts) {
  /** @type {number[]} */
  const told = [];
  for (let x = 1, next = firsts + 1; x < order; x++) {
    for (let g = 1; g <= firsts; g++) {
      // (of other elements than those of heaps the key ends in the largest of these)
      const isKnown = x <= firsts ? g < x : g < firsts;
      if (isKnown) continue;
      const sum = (x + g) % order;
      told.push(sum === next ? 0 : sum + 1);
      if (sum === next) next++;
    }
  }
  return told;
}

/**
 * What a page would hold of the powers of one element, with a heap for each.
 * @param {number} order
 * @param {number} heaps
 */
function powers(order, heaps) {
  const phi = Array.from({length: heaps}, (_, at) => (at + 1) % order);
  return {
    order,
    start: heaps,
    period: 1,
    phi,
    portion: [1],
    products: toldOf(order, Math.max(...phi)),
  };
}

test("a text in the third format leaves rows out, which are read all the same", () => {
  for (const [order, heaps, format, said] of [[512, 3, 2, 512], [513, 3, 3, 3], [3, 1024, 1, 3], [3, 1025, 3, 2]]) {
    const quotient = powers(order, heaps);
    const text = certificateText("0.3", quotient);
    assert.ok(text.startsWith(`mqc ${format}\ncode 0.3\norder ${order}\n`), text.slice(0, 40));
    assert.equal(text.match(/^row /gm)?.length, said);
    assert.equal(text.includes("\napart "), format !== 3);
    const {table, phi} = fieldsOf(text);
    const sums = table.map((_, x) => Array.from({length: order}, (_, y) => (x + y) % order));
    assert.deepEqual(table, sums);
    assert.deepEqual(phi, quotient.phi);
  }
});

test("the verdict's line is the program's", () => {
  for (const name of ["0.33", "0.77", "0.75_heaps_8"]) {
    const certificate = fieldsOf(sample(name).toString());
    assert.equal(verdictOf(certificate), printed("check", path.join(root, `certificates/${name}.mqc`)).trim());
  }
  assert.equal(nameOf(fieldsOf(sample("0.75_heaps_8").toString())), "0.75/8");
});

test("a description has all its parts, also with an index", () => {
  const {letters, relations, portion, heaps, kind} =
      describedOf("Q_3(0.33) = < a,b | a^2=1, b^3=b >\nP_3 = { a, b^2 }\norder 6 portion 2 tame 2\n0+ a b 1\n");
  assert.deepEqual({letters, relations, portion, heaps, kind}, {
    letters: ["a", "b"],
    relations: ["a^2=1", "b^3=b"],
    portion: ["a", "b^2"],
    heaps: ["a", "b", "1"],
    kind: "tame 2",
  });
});

test("the last heap of a partial certificate", () => {
  assert.equal(lastHeap({start: 9, period: 0}), 8);
  assert.equal(lastHeap({start: 9, period: 2}), null);
});

/** The games that an address lists, row by row. */
const listed = (/** @type {string} */ word) => rowsOf(made, chosenOf(word));

test("as many games are listed as docs/ATLAS.md counts", () => {
  const page = readFileSync(path.join(root, "docs/ATLAS.md"), "utf8");
  const counts = (page.match(/^\| all \| (.*) \|$/m)?.[1] ?? "").split(" | ");
  const words =
      ["", "speaks=full", "speaks=full&kind=tame", "speaks=full&kind=wild", "speaks=partial", "each=quotient"];
  // (the page counts the further parts too, each of a game that is counted there)
  const further = new Set(parts.map(({bytes}) => new TextDecoder().decode(bytes).split("\n").slice(2).join()));
  const wanted = counts.map((it) => Number(it.replaceAll(",", "")));
  wanted[words.indexOf("each=quotient")] += further.size;
  assert.deepEqual(words.map((it) => listed(it).length), wanted);
  assert.equal(listed("each=certificate").length, atlas.length + parts.length);
});

const isSolved = new Set(wholeTexts.map(([code]) => code));
const endless = new Set([...infinite.map(({name}) => name.split("_")[0]), ...isSolved]);
/** The codes of docs/WHOLE.md. */
const tailRows = readFileSync(path.join(root, "docs/WHOLE.md"), "utf8").match(/^\| \d+ \| \d+ \| `.*$/gm) ?? [];
const tails = new Set(tailRows.flatMap((row) => [...row.matchAll(/`([^`]*)`/g)].map(([, code]) => code)));

/** @type {[string, string, (entry: import("../page/atlas.js").Entry) => boolean][]} */
const CHOICES = [
  ["a beginning", "code=0.77", ({code}) => code.startsWith("0.77")],
  ["digits anywhere", "code=77", ({code}) => code.includes("77")],
  ["digits that are letters", "code=ff", ({code}) => code.includes("ff")],
  ["an order of a further part", "order=638", ({order}) => order === 638],
  ["an order of a smaller part", "order=24&code=0.07", ({code, order}) => order === 24 && code.startsWith("0.07")],
  ["a name", "code=kayles", ({code}) => ["0.77", "0.07"].includes(code)],
  ["a name with its sign", "code=Dawson's c", ({code}) => code === "0.137"],
  ["a period", "period=3", ({last, quotient}) => last === null && quotient.period === 3],
  ["periods", "period=1-19", ({last, quotient}) => last === null && quotient.period < 20],
  ["a tame index", "tame=2", ({tame}) => tame === 2],
  ["tame indices", "tame=0-1", ({tame}) => tame !== null && tame <= 1],
  ["no finite quotient", "speaks=infinite", ({code}) => endless.has(code)],
  ["each outcome known", "speaks=solved", ({code, last}) => last === null || isSolved.has(code) || tails.has(code)],
  ["orders", "order=20-36", ({order}) => order >= 20 && order <= 36],
];

test("games are chosen by what the fields say", async (t) => {
  for (const [name, word, holds] of CHOICES) {
    await t.test(name, () => {
      const names = listed(`${word}&each=certificate`).map(([{name}]) => name), all = made.entries.filter(holds);
      assert.deepEqual(names, all.map(({name}) => name));
      assert.ok(names.length > 0 && names.length < made.entries.length);
      const games = listed(word).map(([{code}]) => code);
      assert.deepEqual(games, [...new Set(all.map(({code}) => code))]);
      assert.deepEqual(chosenOf(wordOf(chosenOf(word)).slice(1)), chosenOf(word));
    });
  }
});

/** The fields of a line of CSV in which no field has a comma. */
const fieldsOfLine = (/** @type {string} */ line) => line.split(",");

test("what is listed is saved, as CSV and as JSON", () => {
  const names = [
    "code", "name", "order", "portion", "start", "period", "last_heap", "tame", "infinite_to", "whole", "normal_above",
    "same"
  ];
  for (const word of ["", "code=0.0", "each=certificate", "each=quotient&kind=wild", "each=monoid", "code=none"]) {
    const rows = listed(word), data = listedOf(rows);
    assert.deepEqual(JSON.parse(jsonOf(data)), data);
    assert.deepEqual(data.map(({code, same}) => [code, ...same]), rows.map((row) => row.map(({code}) => code)));
    const [head, ...lines] = csvOf(data).trimEnd().split("\r\n").map(fieldsOfLine);
    assert.deepEqual(head, names);
    const told = data.map((it) => Object.values({...it, same: it.same.join(" ")}).map((value) => String(value ?? "")));
    assert.deepEqual(lines, told);
  }
  const quoted = csvOf([{...listedOf(listed("code=0.77"))[0], name: "a \"b\", c"}]);
  assert.match(quoted, /^0\.77,"a ""b"", c",40,/m);
});

test("a row is told by its numbers", () => {
  const {same, ...kayles} = listedOf(listed("code=kayles"))[1];
  assert.deepEqual(kayles, {
    code: "0.77",
    name: "Kayles",
    order: 40,
    portion: fieldsOf(sample("0.77").toString()).portion.size,
    start: 71,
    period: 12,
    last_heap: null,
    tame: null,
    infinite_to: null,
    whole: false,
    normal_above: null,
  });
  const {start, period, last_heap, infinite_to} = listedOf(listed("code=0.07"))[0];
  assert.deepEqual(
      {start, period, last_heap, infinite_to}, {start: null, period: null, last_heap: 33, infinite_to: 34});
  assert.deepEqual([listedOf(listed("code=0.26"))[0].whole, listedOf(listed("code=0.561"))[0].normal_above], [true, 6]);
});

test("two elements are distinguished by the position of the separator that the certificate has", () => {
  for (const name of ["0.33", "0.77", "0.75_heaps_8", "0.b"]) {
    const certificate = fieldsOf(sample(name).toString()), {order, phi, table, portion, text} = certificate;
    const apart = (text.match(/^apart (.*)$/m)?.[1] ?? "").split(" ").map(Number);
    const pairs = table.flatMap((_, x) => Array.from({length: order - 1 - x}, (_, at) => [x, x + 1 + at]));
    pairs.forEach(([x, y], at) => {
      const element = thirdOf(certificate, x, y).reduce((product, heap) => table[product][phi[heap - 1]], 0);
      assert.equal(element, apart[at], `${name}: ${x} and ${y}`);
      assert.notEqual(portion.has(table[x][element]), portion.has(table[y][element]));
    });
  }
});

/**
 * Found by hand: in 0.33 a heap is worth its size modulo 3.
 * @type {[bigint[], bigint[], string][]}
 */
const WINS = [
  [[2n, 3n], [2n, 1n], " Also by 3 → 2."],
  [[5n], [5n, 4n], " No other move wins."],
  [[2n, 2n, 2n], [2n], " No other move wins."],
  [[5n, 5n, 2n, 2n, 2n], [2n], " Also by 5 → 3."],
  // (of so large a heap the page makes no list)
  [[10n ** 17n], [10n ** 17n], ""],
];

test("all winning moves are told, of positions with few moves", async () => {
  const outcomesOf = async (/** @type {number[][]} */ positions) =>
      Uint32Array.from(positions, (heaps) => Number(outcomeByPlays("0.33", heaps) === "N"));
  for (const [heaps, [heap, ...left], wanted] of WINS) {
    const answer = /** @type {const} */ ({kind: "wins", heap, left});
    assert.equal(await otherWins("0.33", heaps, answer, outcomesOf), wanted, String(heaps));
  }
  assert.equal(await otherWins("0.33", [3n], {kind: "lost"}, outcomesOf), "");
});

test("a name is that of a code", () => {
  for (const [code, name] of GAME_NAMES) {
    assert.ok(isCode(code));
    for (const said of [name, name.toLowerCase(), name.replace("’", "'")]) assert.equal(codeOfName(said), code);
  }
  assert.deepEqual(["0.77", "0.123456", "nothing", ""].map(codeOfName), ["0.77", "0.123456", "nothing", ""]);
});

test("an address of a search says what is sought", () => {
  for (const word of ["0.75", "0.75/8", "0.07:deep", "0.07:furthest:64", "0.07:whole", "0.31011:infinite:64"])
    assert.equal(soughtWord(soughtOf(word)), word);
  assert.deepEqual(soughtOf("Kayles:deep"), {code: "0.77", aim: "deep", number: 0});
  assert.deepEqual(AIMS.partial.steps(33).at(-1)?.search, {aim: "part", heaps: 33, order: 4096});
  assert.deepEqual(AIMS.all.steps(0).at(-1)?.search, {aim: "infinite", heaps: 64});
});

test("the presentations of infinite quotients that the page holds are those of the atlas", async () => {
  const page = new Collection(made, async () => heldInfinite);
  for (const {name, bytes} of infinite) {
    const text = bytes.toString(), presented = presentedOf(text), named = presentedName(presented);
    assert.equal(await page.find(named), text, name);
    const file = named.replace("/", "_heaps_").replace("-", "_without_").replaceAll("-", "_");
    assert.equal(`${file}.mqp`, name);
    const [code, part] = named.split("/"), {last, leftOut} = partOf(code, part);
    assert.deepEqual({code, last, leftOut}, {code: presented.code, last: presented.heaps, leftOut: presented.leftOut});
    assert.equal(heapsTold(partOf(code, part)), reachOf(presented));
  }
  assert.equal(await page.find("0.07/35"), null);
});

test("a part of a code is found by its last heap", async () => {
  const page = new Collection(made, async () => heldInfinite);
  const [furthest, first] = [await page.find("0.07/33"), await page.find("0.07/24")];
  assert.equal(furthest, sample("0.07_heaps_33").toString());
  assert.equal(furthest, await page.find("0.07"));
  assert.equal(page.keep(furthest ?? ""), "0.07");
  assert.equal(page.keep(first ?? ""), "0.07/24");
  assert.deepEqual(made.games.get("0.07")?.map(({name}) => name), ["0.07/33", "0.07/24"]);
  for (const name of ["0.07/25", "0.77/5", "0.123456"]) assert.equal(await page.find(name), null);
});

test("what a play needs of a presentation is read", () => {
  const text = sample("0.07_heaps_34_without_33.mqp").toString(), {reach, usual, speaksOf} = readingOf(text);
  assert.equal(reach, "the heaps 1 to 34 without 33");
  assert.deepEqual([[34], [33], [35], []].map(speaksOf), [true, false, false, true]);
  assert.deepEqual([usual.length, speaksOf(usual)], [3, true]);
  assert.equal(readingOf(sample("0.75_heaps_8").toString()).reach, "heaps up to 8");
});

test("a position is a list of heaps", () => {
  assert.deepEqual(heapsOfText("2, 5+7"), [2n, 5n, 7n]);
  assert.deepEqual(heapsOfText("1000000000000000000"), [10n ** 18n]);
  for (const empty of ["0", " 0 ", ""]) assert.deepEqual(heapsOfText(empty), []);
  for (const none of ["1000000000000000001", "-1", "2.5", "two", "3 5 0", "0 0", "03"])
    assert.equal(heapsOfText(none), null, none);
});

test("a long run of equal heaps is counted", () => {
  assert.equal(listOf([]), "");
  assert.equal(listOf([1n, 1n, 1n, 1n, 3n]), "1, 1, 1, 1, 3");
  assert.equal(listOf([...Array(4094).fill(1n), 3n, 3n]), "4094·1, 3, 3");
  const failure = new Failure("refused", `7 Outcome at [${Array(9).fill(2).join(", ")}]`, 7, Array(9).fill(2n));
  assert.match(told(failure), /^no 7 Outcome at \[9·2\]: /);
});

test("a field of numbers that says none is named", () => {
  for (const read of ["", " ", "8", "6-20", "6–", "-9", " 6 - 20 "]) assert.ok(isRead(read), read);
  for (const none of ["6-x", "abc", "-", "6-7-8", "1.5"]) assert.deepEqual(unread(chosenOf(`order=${none}`)), [none]);
  assert.deepEqual(unread(chosenOf("order=8&period=x&code=abc")), ["x"]);
});

/**
 * Of a certificate that fails at a position: its code, the position, and its outcome as the program prints it.
 * @param {string} command
 * @param {{name: string, bytes: Uint8Array}} it
 */
function failureOf(command, {name, bytes}) {
  const [first, place, outcome] = printed(command, fileOf(bytes, path.basename(name))).split("\n");
  if (first !== "no 7 Outcome") return [];
  const [, code] = new TextDecoder().decode(bytes).split("\n")[1].split(" ");
  return [{code, heaps: heapsOfText(place.replace("rule fails at ", "")) ?? [], outcome}];
}

test("the true outcome of a position at which a certificate fails is the program's", () => {
  const failures = [
    ...samples.flatMap((it) => failureOf("check", it)), ...refusedPresented.flatMap((it) => failureOf("infinite", it))
  ];
  assert.ok(failures.length > 5);
  for (const {code, heaps, outcome} of failures)
    assert.equal(`outcome ${outcomeByPlays(code, heaps) ?? "unknown"}`, outcome, code);
});

/**
 * @type {[string, (number | bigint)[], "P" | "N" | null][]} In 0.b a position is P where the sum of its heaps is odd.
 */
const BY_HAND = [
  ["0.33", [], "N"],
  ["0.33", [1], "P"],
  ["0.33", [1, 1], "N"],
  ["0.33", [3], "N"],
  ["0.33", [4], "P"],
  ["0.33", [2n, 2n], "P"],
  ["0.33", [1, 2, 2], "N"],
  ["0.b", [3, 9], "N"],
  ["0.b", [2, 5, 6], "P"],
  ["0.75", [10n ** 18n], null],
  ["0.77", [40, 41], null],
];

test("outcomes by a search of all plays are those that are found by hand", () => {
  for (const [code, heaps, outcome] of BY_HAND) assert.equal(outcomeByPlays(code, heaps), outcome, `${code} ${heaps}`);
});

test("a certificate that fails at a position is told with who wins that", () => {
  const failing = (/** @type {bigint[]} */ heaps) => new Failure("refused", "7 Outcome", 7, heaps);
  const [short, long, other] = [[2n, 3n], [10n ** 18n]]
                                   .map((heaps) => toldOfCertificate(failing(heaps), () => "0.33"))
                                   .concat(toldOfCertificate(new Failure("refused", "2 Law", 2), () => "0.33"));
  assert.match(
      short,
      /^no 7 Outcome at \[2, 3\]: .* fails at this position\. Its true outcome is N, won by the player to move, /);
  assert.match(long, /^no 7 Outcome at \[1000000000000000000\]: .* This page doesn’t tell its true outcome/);
  assert.match(other, /^no 2 Law: [^.]*$/);
});

test("the reason of a search is told in words", () => {
  const page = readFileSync(path.join(root, "docs/MESSAGES.md"), "utf8").split("### Reasons")[1].split("```")[0];
  const reasons = [...page.matchAll(/^\| `([^`]+)` \|/gm)].map(([, it]) => it.replace(/[A-Z]+/g, "24"));
  assert.ok(reasons.length > 5);
  for (const reason of reasons) assert.match(reasonOf(reason), /^since /, reason);
  assert.equal(reasonOf("no period 24 40"), "since 24 heaps, with 40 elements, show no period that goes on");
  assert.equal(reasonOf("a new reason"), "a new reason");
});

test("each explanation is told in sentences", () => {
  for (const [term, text] of Object.entries(TERMS)) assert.match(text, /^[A-Z].*\.$/su, term);
});
