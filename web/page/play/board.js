// The board of a play: it shows whose turn it is, takes moves and answers them.

import {gameAddress, playAddress} from "../address.js";
import {ruleOf} from "../codes.js";
import {fill, focusOn, make} from "../dom.js";
import {arrowOf} from "../positions.js";
import {told} from "../refusals.js";

import {chosenWith, heapRow} from "./heap_row.js";
import {chosenButton, otherMoves} from "./move_form.js";
import {review} from "./review.js";

/** @typedef {import("../oracle.js").Oracle} Oracle */
/** @typedef {import("./session.js").Session} Session */
/** @typedef {import("../codes.js").Move} Move */

/** @typedef {{heap: number, left: number[]} | null} Win a winning move, if there is one */

export class Board {
  /** @type {import("./heap_row.js").Choice | null} */
  #chosen = null;
  /** @type {Win} */
  #win = null;
  #isWinning = false;
  // (what is told stays one element, so that it is read out where it changes)
  #told = make("p", {class: "verdict", id: "told", role: "status"});
  #heaps = make("div", {class: "heaps"});
  #controls = make("div");
  #log = make("ol", {class: "log", "aria-label": "Moves"});
  #review = make("div");
  #isReplying = false;

  /**
   * @param {HTMLElement} root
   * @param {Oracle} oracle
   * @param {Session} session
   */
  constructor(root, oracle, session) {
    this.oracle = oracle;
    this.session = session;
    const game = make("a", {href: gameAddress(session.name)}, session.name);
    const rule = make("p", {class: "soft", id: "rule"}, game, `: ${ruleOf(session.code).join(" ")}`);
    fill(root, rule, this.#told, this.#heaps, this.#controls, this.#log, this.#review);
  }

  /** It is your turn. */
  async turn() {
    return this.#attempt(() => this.#turn());
  }

  /** Lets the program move, and then it is your turn. Tells whether that came to pass. */
  async reply() {
    return this.#attempt(async () => {
      if (!this.session.isOver) {
        const win = await this.#winOf();
        if (!this.#told.isConnected) return;
        this.#isWinning = win !== null;
        this.session = this.session.after("program", win ?? this.session.smallestMove);
      }
      this.#keep();
      await this.#turn();
      focusOn(this.#heaps.querySelector(".token") ?? this.#controls.querySelector("select"));
    });
  }

  async #turn() {
    this.#chosen = null;
    this.#win = await this.#winOf();
    this.#show();
    fill(this.#review, this.session.turns.length > 0 && review(this.oracle, this.session));
  }

  /**
   * Where the module fails, that is told.
   * @param {() => Promise<void>} action
   */
  async #attempt(action) {
    try {
      await action();
      return true;
    } catch (failure) {
      fill(this.#told, told(failure));
      return false;
    }
  }

  /** @returns {Promise<Win>} */
  async #winOf() {
    const answer = await this.oracle.answer(this.session.heaps);
    return answer.kind === "wins" ? {heap: Number(answer.heap), left: answer.left.map(Number)} : null;
  }

  /** Gives the position an address, so that going back takes a move back. */
  #keep() {
    const {name, heaps, record} = this.session;
    history.pushState({play: record}, "", playAddress(name, heaps));
  }

  /**
   * Makes your move. Where no reply comes to it, it is taken back.
   * @param {Move} move
   */
  async #play(move) {
    if (this.#isReplying) return;
    this.#isReplying = true;
    const before = this.session;
    this.session = before.after("you", move);
    if (!(await this.reply())) this.session = before;
    this.#isReplying = false;
  }

  /**
   * @param {number} at
   * @param {number} token
   */
  #choose(at, token) {
    this.#chosen = chosenWith(this.#chosen, at, token);
    this.#show();
    focusOn(this.#heaps.children[at].querySelectorAll(".token")[token]);
  }

  #show() {
    const {session} = this;
    const row = (/** @type {number} */ heap, /** @type {number} */ at) =>
        heapRow(heap, at, this.#chosen, (token) => this.#choose(at, token));
    const said = this.#said();
    if (this.#told.textContent !== said) fill(this.#told, said);
    fill(this.#heaps, ...session.heaps.map(row));
    fill(this.#controls, ...(session.isOver ? [] : this.#ways()));
    fill(this.#log, ...session.turns.map((turn) => make("li", {}, `${NAMES[turn.player]}: ${arrowOf(turn)}`)));
  }

  #said() {
    const {session} = this;
    const last = session.turns[session.turns.length - 1];
    if (!session.isOver) return `Your move.${this.#isWinning ? " (The program is on its way to win.)" : ""}`;
    if (!last) return "There is no move in this position.";
    return last.player === "you" ? "You made the last move: the program has won." :
                                   "The program made the last move: you have won!";
  }

  /** What you can do in your turn. */
  #ways() {
    const play = (/** @type {Move} */ move) => this.#play(move);
    const tell = () => fill(hint, this.#win ? `${arrowOf(this.#win)} wins` : "No move wins");
    const hint = make("button", {type: "button", id: "hint", onclick: tell}, "Hint");
    const onclick = () => history.back();
    const back = this.session.turns.length > 0 && make("button", {type: "button", id: "back", onclick}, "Take back");
    const row = make("div", {class: "row"}, chosenButton(this.session, this.#chosen, play), hint, back);
    return [row, otherMoves(this.session, play)];
  }
}

const NAMES = {
  you: "You",
  program: "Program"
};
