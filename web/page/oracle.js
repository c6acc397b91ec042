// What is asked of a certificate: by the calls for finite quotients, or by those for whole games and presentations.

import {isPresented} from "./presented/fields.js";
import {isWhole} from "./whole/fields.js";

/** @typedef {import("../calls.js").Answer} Answer */
/** @typedef {import("../calls.js").Position} Position */

export class Oracle {
  #prover;
  #bytes;
  #isInfinite;

  /**
   * @param {import("./prover.js").Prover} prover
   * @param {Uint8Array} bytes the certificate
   */
  constructor(prover, bytes) {
    this.#prover = prover;
    this.#bytes = bytes;
    this.#isInfinite = isWhole(bytes) || isPresented(bytes);
  }

  /**
   * Whether the module can be asked. (One may lack the calls for whole games and presentations.)
   * @returns {Promise<boolean>}
   */
  async isAble() {
    return !this.#isInfinite || (await this.#prover.ask("knowsInfinite")).answer;
  }

  /**
   * How many milliseconds the check took; or a `Failure` is thrown.
   * @returns {Promise<number>}
   */
  async check() {
    return (await this.#prover.ask(this.#isInfinite ? "checkInfinite" : "check", this.#bytes)).time;
  }

  /**
   * For each position 0 where it is lost for the player to move, else 1.
   * @param {Position[]} positions
   * @returns {Promise<Uint32Array>}
   */
  async outcomes(positions) {
    return (await this.#prover.ask(this.#isInfinite ? "infiniteOutcomes" : "outcomes", this.#bytes, positions)).answer;
  }

  /**
   * What it says, as a text: plain, for LaTeX or in JSON.
   * @param {string} output
   * @returns {Promise<string>}
   */
  async describe(output) {
    return (await this.#prover.ask(this.#isInfinite ? "describeInfinite" : "describe", this.#bytes, {output})).answer;
  }

  /**
   * The element of a position by a presentation, as a word.
   * @param {Position} heaps
   * @returns {Promise<string>}
   */
  async word(heaps) {
    return (await this.#prover.ask("infiniteValue", this.#bytes, heaps)).answer;
  }

  /**
   * The first winning move in a position, if there is one.
   * @param {Position} heaps
   * @returns {Promise<Answer>}
   */
  async answer(heaps) {
    if (!this.#isInfinite) return (await this.#prover.ask("answer", this.#bytes, heaps)).answer;
    return (await this.#prover.ask("infiniteAnswers", this.#bytes, [heaps])).answer[0];
  }
}
