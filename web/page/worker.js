// Runs in a worker: answers each message by one call of the module.

import {Misere, Refused} from "../calls.js";

/**
 * @typedef {object} Question
 * @property {number} id
 * @property {ArrayBuffer} [module] the bytes of the module, in the first message
 * @property {string} [call] the name of a call, and what it is given
 * @property {any[]} [words]
 */

/** @type {any} */
let misere = null;

/** @param {Question} question */
function told({module, call, words = []}) {
  if (module) misere = new Misere(new WebAssembly.Module(module));
  return call ? misere[call](...words) : null;
}

/** @param {MessageEvent<Question>} event */
self.onmessage = ({data}) => {
  const begin = performance.now();
  const {id} = data;
  try {
    const answer = told(data);
    self.postMessage({id, answer, time: performance.now() - begin});
  } catch (failure) {
    const {message} = /** @type {Error} */ (failure);
    const refusal = failure instanceof Refused ? {status: failure.status, heaps: failure.heaps, why: failure.why} : {};
    self.postMessage({id, failure: {message, ...refusal}});
  }
};
