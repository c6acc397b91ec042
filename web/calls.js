/**
 * The calls of misere.h over misere.wasm, for a page's worker and for Node.
 *
 *     const misere = new Misere(new WebAssembly.Module(bytes));
 *     misere.check(certificate);                     // throws Refused where it isn't accepted
 *     misere.outcome(certificate, [2, 10n ** 12n]);  // 0: lost for the player to move; 1: won
 *
 * Each call checks the certificate anew, and keeps nothing: what misere_open opens would be lost with an instance that
 * failed, so that call and its kin stand in the module and not here. Of whole games and presentations, whose checks
 * take longer, the last one that was asked stays open; with an instance that failed it is lost, and opened anew. What
 * is thrown as `Refused` is an answer of the library; whatever else is thrown is no verdict.
 */

import {Failed, Instance} from "./instance.js";

export {Failed};

// The bounds of the calls, of which each has its one place in JavaScript here (scripts/calls_stand compares them).

/** What the closure of a check may keep, where nobody asks for more or less. */
export const LIMIT = 100000;
/** As many bytes are room for any certificate. */
export const MOST = 1 << 22;
/** How far a search goes, where nobody asks for more or less: its rounds, heaps and elements. */
export const [ROUNDS, HEAPS, ELEMENTS] = [64, 24, 64];
/** The last heap up to which a search for an infinite quotient goes, where nobody asks for more or less. */
export const INFINITE_HEAPS = 64;
/** The most heaps that a search for a whole quotient looks at: an octal code's certificate can need no more. */
export const MOST_HEAPS = 8210;
/** The most elements of a quotient, and those of a whole one that is sought by at most 64 heaps. */
export const [MOST_ELEMENTS, MOST_BY_FEW] = [4096, 256];
/** The largest last heap of a part that is sought. */
export const MOST_PART = 1024;
/** The largest heap. */
export const LARGEST_HEAP = 10n ** 18n;
/** Room for most positions at which a certificate is told to fail. */
const USUAL_HEAPS = 64;
/** Room for most descriptions. */
const USUAL_TEXT = 1 << 16;

/** The names of the statuses but 0, which is yes. */
export const STATUSES = {
  1: "Text",
  2: "Law",
  3: "Word",
  4: "Order",
  5: "Period",
  6: "Apart",
  7: "Outcome",
  8: "Limit",
  9: "Memory",
  10: "NotAHeap",
  11: "NotEnds",
  12: "NotACode",
  13: "GaveUp",
  14: "NoRoom",
  15: "NotInRange",
  16: "NotDescribed",
  17: "NotOpen",
  23: "Beyond",
  31: "Part",
  33: "Undecided",
  34: "Finite",
};
const [OUTCOME, MEMORY, NOT_A_HEAP, GAVE_UP, NO_ROOM, NOT_IN_RANGE] = [7, 9, 10, 13, 14, 15];

/**
 * What each call is given, as the crates declare it (scripts/calls_stand compares). A slice is passed as a pointer and
 * a length, a reference as a pointer.
 */
const CALLS = {
  misere_version: [],
  misere_check: ["&[u8]", "u32"],
  misere_outcome: ["&[u8]", "u32", "&[u64]", "&mut u32"],
  misere_value: ["&[u8]", "u32", "&[u64]", "&mut u32"],
  misere_answer: ["&[u8]", "u32", "&[u64]", "&mut MisereAnswer"],
  misere_outcomes: ["&[u8]", "u32", "&[u64]", "&[u64]", "&mut [u32]"],
  misere_values: ["&[u8]", "u32", "&[u64]", "&[u64]", "&mut [u32]"],
  misere_answers: ["&[u8]", "u32", "&[u64]", "&[u64]", "&mut [MisereAnswer]"],
  misere_failure: ["&[u8]", "u32", "&mut [u64]", "&mut u64"],
  misere_solve: ["&[u8]", "u32", "u32", "u32", "u32", "u32", "&mut [u8]", "&mut u64"],
  misere_solve_why: ["&[u8]", "u32", "u32", "u32", "u32", "u32", "&mut [u8]", "&mut u64"],
  misere_describe: ["&[u8]", "u32", "u32", "u32", "&mut [u8]", "&mut u64"],
};
/** Those for whole games and for presentations, in a module that has them. */
const INFINITE_CALLS = {
  misere_check_infinite: ["&[u8]"],
  misere_infinite_failure: ["&[u8]", "&mut [u64]", "&mut u64"],
  misere_infinite_open: ["&[u8]", "&mut OpenedInfinite"],
  misere_infinite_close: ["&mut OpenedInfinite"],
  misere_infinite_kind: ["&mut OpenedInfinite", "&mut u64"],
  misere_infinite_code: ["&mut OpenedInfinite", "&mut [u8]", "&mut u64"],
  misere_infinite_outcomes: ["&mut OpenedInfinite", "&[u64]", "&[u64]", "&mut [u32]"],
  misere_infinite_answers: ["&mut OpenedInfinite", "&[u64]", "&[u64]", "&mut [MisereAnswer]"],
  misere_infinite_describe: ["&mut OpenedInfinite", "u32", "&mut [u8]", "&mut u64"],
  misere_infinite_value: ["&mut OpenedInfinite", "&[u64]", "&mut [u8]", "&mut u64"],
  misere_solve_infinite: ["&[u8]", "u32", "&mut [u8]", "&mut u64"],
};
/** The fields of a MisereAnswer, each a number of 64 bits. */
const FIELDS = ["kind", "heap", "first", "second", "third"];

const OUTPUTS = ["description", "latex", "relations", "json", "singular", "gap"];
const AIMS = ["whole", "part", "furthest"];

/**
 * @typedef {(number | bigint)[]} Position the sizes of its heaps, 1 to 10^18
 * @typedef {{kind: "ended"} | {kind: "lost"} | {kind: "wins", heap: bigint, left: bigint[]}} Answer whether the game is
 *     over, or every move loses, or which the first winning move is: the heap that it takes, and what it leaves of it
 * @typedef {import("./instance.js").Numbers} Numbers
 * @typedef {{bytes: Uint8Array, failures: number, owner: BigUint64Array}} Opened a whole game or a presentation, and
 *     how often the instance had failed
 * @typedef {"description" | "latex" | "relations" | "json" | "singular" | "gap"} Output
 * @typedef {object} Search how far a search goes
 * @property {"whole" | "part" | "furthest"} [aim] of all heaps; of the heaps 1 to `heaps`; or of the most first ones
 * @property {number} [heaps] the heaps that a search for the whole looks at, or those of the part
 * @property {number} [order] the most elements of the quotient
 * @property {number} [rounds] how often a guess is mended
 * @property {number} [limit] what the closure of a check may keep
 */

/** An answer of the library that isn't yes. */
export class Refused extends Error {
  /**
   * @param {number} status
   * @param {bigint[] | null} heaps the position at which the rule of the code's game fails, where one is told
   * @param {string} why why a search was given up, as `misere solve CODE --why` prints it, such as `no period 24 24`
   */
  constructor(status, heaps = null, why = "") {
    const name = STATUSES[/** @type {keyof STATUSES} */ (status)] ?? "Unknown";
    super(`${status} ${name}` + (heaps ? ` at [${heaps.join(", ")}]` : "") + (why ? `: ${why}` : ""));
    this.name = "Refused";
    this.status = status;
    this.heaps = heaps;
    this.why = why;
  }
}

/**
 * The numbers of 64 bits in a list.
 * @param {Position} numbers
 */
function heapsOf(numbers) {
  return BigUint64Array.from(numbers, (it) => {
    if (typeof it === "number" && !Number.isSafeInteger(it)) throw new Refused(NOT_A_HEAP);
    const number = BigInt(it);
    if (BigInt.asUintN(64, number) !== number) throw new Refused(NOT_A_HEAP);
    return number;
  });
}

/**
 * A number of 32 bits, where it is one.
 * @param {number} number
 */
function bounded(number) {
  if (number >>> 0 !== number) throw new Refused(NOT_IN_RANGE);
  return number;
}

/**
 * @param {BigUint64Array} told the fields of an answer
 * @returns {Answer}
 */
function answerOf([kind, heap, ...left]) {
  if (kind === 0n) return {kind: "ended"};
  return kind === 1n ? {kind: "lost"} : {kind: "wins", heap, left: left.filter((it) => it)};
}

/** @param {BigUint64Array} told the fields of answers, one after another */
function answersOf(told) {
  const size = FIELDS.length;
  return Array.from({length: told.length / size}, (_, at) => answerOf(told.subarray(size * at, size * (at + 1))));
}

/**
 * @param {Uint8Array} one
 * @param {Uint8Array} other
 */
function isSame(one, other) {
  return one.length === other.length && one.every((byte, at) => byte === other[at]);
}

/**
 * Why a search was given up: the second of its two lines, or behind the words of its one line.
 * @param {string} text
 */
function whyOf(text) {
  const [first, second] = text.split("\n");
  return second || first.replace("gave up: ", "");
}

/** The calls, over one instance of the module. */
export class Misere {
  #instance;
  /** @type {Opened | null} */
  #opened = null;

  /** @param {WebAssembly.Module} module */
  constructor(module) {
    this.#instance = new Instance(module, {MisereAnswer: FIELDS.length});
  }

  /** The version of the calls. */
  version() {
    return this.#call("misere_version");
  }

  /**
   * Whether the bytes are an accepted certificate: throws the refusal where they aren't.
   * @param {Uint8Array} bytes
   */
  check(bytes, limit = LIMIT) {
    this.#check("misere_failure", [bytes, bounded(limit)]);
  }

  /**
   * Who wins the position under misère play: 0 (P) where the player who has just moved does, else 1 (N).
   * @param {Uint8Array} bytes
   * @param {Position} position
   */
  outcome(bytes, position, limit = LIMIT) {
    return this.#one("misere_outcome", bytes, position, limit, new Uint32Array(1))[0];
  }

  /**
   * The element of the quotient that is the position's.
   * @param {Uint8Array} bytes
   * @param {Position} position
   */
  value(bytes, position, limit = LIMIT) {
    return this.#one("misere_value", bytes, position, limit, new Uint32Array(1))[0];
  }

  /**
   * The first winning move in the position, if there is one.
   * @param {Uint8Array} bytes
   * @param {Position} position
   */
  answer(bytes, position, limit = LIMIT) {
    return answerOf(this.#one("misere_answer", bytes, position, limit, new BigUint64Array(FIELDS.length)));
  }

  /**
   * The outcome of each of many positions, by one check.
   * @param {Uint8Array} bytes
   * @param {Position[]} positions
   */
  outcomes(bytes, positions, limit = LIMIT) {
    return this.#many("misere_outcomes", [bytes, bounded(limit)], positions, new Uint32Array(positions.length));
  }

  /**
   * The element of each of many positions, by one check.
   * @param {Uint8Array} bytes
   * @param {Position[]} positions
   */
  values(bytes, positions, limit = LIMIT) {
    return this.#many("misere_values", [bytes, bounded(limit)], positions, new Uint32Array(positions.length));
  }

  /**
   * The first winning move in each of many positions, by one check.
   * @param {Uint8Array} bytes
   * @param {Position[]} positions
   */
  answers(bytes, positions, limit = LIMIT) {
    const told = new BigUint64Array(FIELDS.length * positions.length);
    return answersOf(this.#many("misere_answers", [bytes, bounded(limit)], positions, told));
  }

  /**
   * The description of the quotient that the bytes certify, as plain text, for LaTeX or in JSON; or its relations as
   * one word, or their ideal for Singular or GAP.
   * @param {Uint8Array} bytes
   * @param {{output?: Output, basis?: boolean, limit?: number}} how with `basis`, by the relations of the reduced
   *     Gröbner basis
   */
  describe(bytes, {output = "description", basis = false, limit = LIMIT} = {}) {
    return this.#text("misere_describe", [bytes, bounded(limit), bounded(OUTPUTS.indexOf(output)), Number(basis)]);
  }

  /**
   * Looks for a quotient of the game of a code, and tells the text of its certificate, which is accepted. Where the
   * search is given up, `why` of the refusal says for which reason.
   * @param {string} code
   * @param {Search} search
   */
  solve(code, {aim = "whole", heaps = HEAPS, order = ELEMENTS, rounds = ROUNDS, limit = LIMIT} = {}) {
    const bounds = [limit, rounds, AIMS.indexOf(aim), heaps, order].map(bounded);
    return this.#text("misere_solve_why", [new TextEncoder().encode(code), ...bounds], MOST);
  }

  /** Whether the module has the calls for whole games and presentations, which the next seven need. */
  knowsInfinite() {
    return Object.keys(INFINITE_CALLS).every((it) => it in this.#instance.exports);
  }

  /**
   * Looks for an infinite quotient of the game of a code, and tells its text, which is accepted: of the whole game, or
   * else a presentation of some of the heaps 1 to `heaps`. Where the search is given up, `why` of the refusal says how.
   * @param {string} code
   * @param {{heaps?: number}} search
   */
  solveInfinite(code, {heaps = INFINITE_HEAPS} = {}) {
    return this.#text("misere_solve_infinite", [new TextEncoder().encode(code), bounded(heaps)], MOST);
  }

  /**
   * Whether the bytes are an accepted text of a whole game, or an accepted presentation: throws the refusal where they
   * aren't.
   * @param {Uint8Array} bytes
   */
  checkInfinite(bytes) {
    try {
      this.#open(bytes);
    } catch (refused) {
      // (a second check tells the position at which the rule fails)
      if (refused instanceof Refused && refused.status === OUTCOME) this.#check("misere_infinite_failure", [bytes]);
      throw refused;
    }
  }

  /**
   * The outcome of each of many positions, by such a text.
   * @param {Uint8Array} bytes
   * @param {Position[]} positions
   */
  infiniteOutcomes(bytes, positions) {
    const told = new Uint32Array(positions.length);
    return this.#many("misere_infinite_outcomes", [this.#open(bytes)], positions, told);
  }

  /**
   * The first winning move in each of many positions, by such a text.
   * @param {Uint8Array} bytes
   * @param {Position[]} positions
   */
  infiniteAnswers(bytes, positions) {
    const told = new BigUint64Array(FIELDS.length * positions.length);
    return answersOf(this.#many("misere_infinite_answers", [this.#open(bytes)], positions, told));
  }

  /**
   * The element of a position by a presentation, as a word in its letters, such as `ab^2`, or `1`.
   * @param {Uint8Array} bytes
   * @param {Position} position
   */
  infiniteValue(bytes, position) {
    return this.#text("misere_infinite_value", [this.#open(bytes), heapsOf(position)]);
  }

  /**
   * What a presentation says, as plain text, for LaTeX or in JSON.
   * @param {Uint8Array} bytes
   * @param {{output?: "description" | "latex" | "json"}} how
   */
  describeInfinite(bytes, {output = "description"} = {}) {
    return this.#text("misere_infinite_describe", [this.#open(bytes), OUTPUTS.indexOf(output)]);
  }

  /** Gives back the memory of a whole game or a presentation that is open, if there is one. */
  close() {
    const last = this.#kept();
    this.#opened = null;
    if (last) this.#call("misere_infinite_close", last.owner);
  }

  /** The bytes of the heap that are taken, that ever were at most, and those of the whole memory. */
  memory() {
    const {heap_live, heap_peak, memory} = this.#instance.exports;
    return {live: Number(heap_live()), peak: Number(heap_peak()), size: memory.buffer.byteLength};
  }

  /**
   * For tests: bounds the heap, which then refuses memory past that place.
   * @param {number} place
   */
  bound(place) {
    this.#instance.exports.heap_most(BigInt(place));
  }

  /**
   * A check, and a second one where the position at which the rule fails is longer than the room for it.
   * @param {"misere_failure" | "misere_infinite_failure"} name
   * @param {(number | Numbers)[]} asked a text, and for a finite quotient the limit
   * @param {number} room
   * @returns {void}
   */
  #check(name, asked, room = USUAL_HEAPS) {
    const [told, count] = [new BigUint64Array(room), new BigUint64Array(1)];
    const status = this.#call(name, ...asked, told, count);
    const length = Number(count[0]);
    if (status === OUTCOME && length > room) return this.#check(name, asked, length);
    if (status) throw new Refused(status, status === OUTCOME ? [...told.subarray(0, length)] : null);
  }

  /**
   * The owner of the whole game or the presentation that the bytes spell.
   * @param {Uint8Array} bytes
   */
  #open(bytes) {
    const last = this.#kept();
    if (last && isSame(last.bytes, bytes)) return last.owner;
    this.close();
    const owner = new BigUint64Array(2);
    const status = this.#call("misere_infinite_open", bytes, owner);
    if (status) throw new Refused(status);
    this.#opened = {bytes: bytes.slice(), failures: this.#instance.failures, owner};
    return owner;
  }

  /** What is open. */
  #kept() {
    return this.#opened?.failures === this.#instance.failures ? this.#opened : null;
  }

  /**
   * The status of a call. Behind it the arrays of what it may change hold what it told.
   * @param {keyof (CALLS & INFINITE_CALLS)} name
   * @param {(number | Numbers)[]} words
   */
  #call(name, ...words) {
    return this.#instance.call(name, {...CALLS, ...INFINITE_CALLS}[name], words);
  }

  /**
   * What a call tells of one position, in the array.
   * @template {Numbers} T
   * @param {keyof CALLS} name
   * @param {Uint8Array} bytes
   * @param {Position} position
   * @param {number} limit
   * @param {T} told
   */
  #one(name, bytes, position, limit, told) {
    const status = this.#call(name, bytes, bounded(limit), heapsOf(position), told);
    if (status) throw new Refused(status);
    return told;
  }

  /**
   * What a call tells of many positions, in the array.
   * @template {Numbers} T
   * @param {keyof (CALLS & INFINITE_CALLS)} name
   * @param {(number | Numbers)[]} asked a certificate and a limit, or what is opened
   * @param {Position[]} positions
   * @param {T} told
   */
  #many(name, asked, positions, told) {
    let end = 0;
    const ends = positions.map((it) => (end += it.length));
    const status = this.#call(name, ...asked, heapsOf(positions.flat()), heapsOf(ends), told);
    if (status) throw new Refused(status);
    return told;
  }

  /**
   * The text that a call tells, by a second call where it is longer than the room for it.
   * @param {keyof (CALLS & INFINITE_CALLS)} name
   * @param {(number | Numbers)[]} words
   * @returns {string}
   */
  #text(name, words, room = USUAL_TEXT) {
    const [told, count] = [new Uint8Array(room), new BigUint64Array(1)];
    const status = this.#call(name, ...words, told, count);
    const length = Number(count[0]);
    if (status === NO_ROOM && length > room) return this.#text(name, words, length);
    const text = new TextDecoder().decode(told.subarray(0, length));
    if (status === GAVE_UP) throw new Refused(status, null, whyOf(text));
    if (status) throw new Refused(status);
    return text;
  }
}
