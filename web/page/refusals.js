// Refusals in words.

import {LIMIT} from "../calls.js";

import {make} from "./dom.js";
import {lettersOf} from "./letters.js";
import {outcomeByPlays} from "./plays.js";
import {listOf} from "./positions.js";
import {Failure} from "./prover.js";
import {faultOfText} from "./text_faults.js";

/** @type {Record<number, string>} */
const REASONS = {
  1: "the bytes spell no certificate",
  2: "the table is no commutative monoid with identity 0; or the relations leave some word two normal forms",
  3: "a key has no smaller element, or another product than its element",
  4: "the keys do not rise, or a product has a smaller key",
  5: "a smaller period serves, or the period serves from an earlier start",
  6: "a separating element is not the least one",
  7: "the rule of the code’s game fails at this position",
  8: `more than the limit of ${LIMIT} different transition pairs; or a presentation is larger than the check takes`,
  9: "memory was refused, so there is no verdict",
  10: "a heap is not of 1 to 10^18",
  12: "the text is no code",
  13: "no certificate was found within these bounds",
  15: "a bound of the search is out of its range",
  16: "the quotient is not described within the bounds",
  23: "the certificate does not speak of all these heaps",
  31: "an option of a heap has a heap of which the certificate does not speak",
  33: "the rule was not seen to hold, and no position was found at which it fails; nothing is proved",
  34: "the quotient is finite",
};
/** The refusal of a text, and the one with a position. */
const [TEXT, OUTCOME] = [1, 7];
/** The refusals that say nothing of the certificate. */
const NO_VERDICTS = [9, 33];

/** @type {[RegExp, string][]} */
const SEARCHES = [
  [/^too large (\d+)$/, "since up to heap $1 there are more elements than are allowed"],
  [/^repairs (\d+) (\d+)$/, "since with heap $1 the rule failed, and no repair came to something better"],
  [/^work (\d+) (\d+)$/, "since at heap $1 it had done or kept as much as it may"],
  [/^no period (\d+) (\d+)$/, "since $1 heaps, with $2 elements, show no period that goes on"],
  [/^one element$/, "since all these heaps have one element, and a certificate has two at least"],
  [/^members$/, "since the check of the likeliest guess met the limit"],
  [/^rounds$/, "since as many guesses were made as are allowed"],
  [/^refused$/, "since the likeliest guess was refused"],
  [/^(each part to heap \d+ seems to have a finite quotient)$/, "since $1"],
  [/^(to heap \d+ no shape that was tried is right)$/, "since $1"],
  [/^to heap (\d+) the work that is allowed was done$/, "since at heap $1 it had done or kept as much as it may"],
  [/^what was found was refused by the check$/, "since what was found was refused"],
];

/**
 * Why a search was given up, in words.
 * @param {string} why as `misere solve CODE --why` prints it
 */
export function reasonOf(why) {
  const [pattern, words] = SEARCHES.find(([pattern]) => pattern.test(why)) ?? [/^.*$/, "$&"];
  return why.replace(pattern, words);
}

/**
 * Whether a failure is the checker's no.
 * @param {unknown} failure
 */
export function isNo(failure) {
  return failure instanceof Failure && failure.kind === "refused" && !NO_VERDICTS.includes(failure.status ?? 0);
}

/**
 * @param {unknown} failure
 * @returns {string}
 */
export function told(failure) {
  if (!(failure instanceof Failure))
    return `No verdict: this page failed (${failure instanceof Error ? failure.message : failure}).`;
  if (failure.kind === "stopped") return "Stopped.";
  if (failure.kind === "failed") return `No verdict: the module or its worker failed (${failure.message}).`;
  return `no ${messageOf(failure)}: ${REASONS[failure.status ?? 0] ?? "refused"}`;
}

/**
 * The message of a refusal, with its position in short.
 * @param {Failure} failure
 */
function messageOf({message, heaps}) {
  return heaps ? `${message.split(" at [")[0]} at [${listOf(heaps)}]` : message;
}

/**
 * Which line of a text is at fault that spells no certificate.
 * @param {unknown} failure
 * @param {Uint8Array} bytes
 */
export function lineTold(failure, bytes) {
  if (!(failure instanceof Failure) || failure.status !== TEXT) return "";
  const fault = faultOfText(lettersOf(bytes));
  return fault ? `. As this page reads it: ${fault}.` : ". This page finds no line at fault; misere explain FILE may.";
}

/**
 * What is told of a certificate that isn't accepted: of one that fails at a position also who wins that.
 * @param {unknown} failure
 * @param {() => string} codeOf the code of the certificate
 */
export function toldOfCertificate(failure, codeOf) {
  if (!(failure instanceof Failure) || failure.status !== OUTCOME || !failure.heaps) return told(failure);
  const outcome = outcomeByPlays(codeOf(), failure.heaps);
  const won = outcome === "P" ? "lost for the player to move" : "won by the player to move";
  return `${told(failure)}. ` +
      (outcome ? `Its true outcome is ${outcome}, ${won}, by a search of all plays that this page made.` :
                 "This page doesn’t tell its true outcome, which takes a long search.");
}

/**
 * A paragraph that tells a failure, and is read out.
 * @param {unknown} failure
 */
export function alertOf(failure) {
  return make("p", {class: "verdict none", role: "alert"}, told(failure));
}
