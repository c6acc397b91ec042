// A play of a game: its positions and moves, without anything that is shown.

import {movesFrom, moveTo} from "../codes.js";

/** @typedef {import("../codes.js").Move} Move */
/** @typedef {"you" | "program"} Player */

/**
 * @typedef {object} Turn
 * @property {Player} player
 * @property {number} heap the heap that is taken
 * @property {number[]} left what is left of it
 *
 * @typedef {{name: string, first: number[], turns: Turn[]}} Record a play as it is kept in the history of the browser
 */

export class Session {
  /**
   * @param {string} code
   * @param {Record} record
   */
  constructor(code, {name, first, turns}) {
    this.code = code;
    this.name = name;
    this.first = first;
    this.turns = turns;
  }

  /** The position at the beginning and behind each turn. */
  get positions() {
    const positions = [this.first];
    for (const turn of this.turns) positions.push(behind(positions[positions.length - 1], turn));
    return positions;
  }

  /** The heaps of the position. */
  get heaps() {
    return this.positions[this.turns.length];
  }

  get record() {
    return {name: this.name, first: this.first, turns: this.turns};
  }

  /**
   * The session behind a move.
   * @param {Player} player
   * @param {{heap: number, left: number[]}} move
   */
  after(player, {heap, left}) {
    return new Session(this.code, {...this.record, turns: [...this.turns, {player, heap, left}]});
  }

  /**
   * The moves, one heap of each size after the other; none behind the most.
   * @param {number} most
   */
  moves(most = Infinity) {
    /** @type {Move[]} */
    const moves = [];
    for (const heap of new Set(this.heaps))
      for (const move of movesFrom(this.code, heap)) {
        if (moves.length >= most) return moves;
        moves.push(move);
      }
    return moves;
  }

  get isOver() {
    return this.moves(1).length === 0;
  }

  /**
   * The move that leaves this of a heap, or null.
   * @param {number} heap
   * @param {number[]} left
   */
  move(heap, left) {
    return this.heaps.includes(heap) ? moveTo(this.code, heap, left) : null;
  }

  /**
   * A move that takes as little as there can be taken, of the largest heap: what the program does where no move wins.
   */
  get smallestMove() {
    const firsts = [...new Set(this.heaps)].sort((a, b) => b - a).flatMap((heap) => {
      const {value} = movesFrom(this.code, heap).next();
      return value ? [value] : [];
    });
    return firsts.reduce((least, it) => (it.taken < least.taken ? it : least));
  }
}

/**
 * A position behind a move. (What is left stands in the place of the heap.)
 * @param {number[]} heaps
 * @param {{heap: number, left: number[]}} move
 */
function behind(heaps, {heap, left}) {
  const at = heaps.indexOf(heap);
  return [...heaps.slice(0, at), ...left, ...heaps.slice(at + 1)];
}
