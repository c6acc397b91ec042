// The module, in a worker. A call can't be stopped, so stopping ends the worker, and another one begins with the next
// question.

/**
 * No answer: `stopped` by the one who asked; `refused` by a call of the library, with its status; or `failed`, which is
 * never a verdict.
 */
export class Failure extends Error {
  /**
   * @param {"stopped" | "refused" | "failed"} kind
   * @param {string} message
   * @param {number} [status]
   * @param {bigint[] | null} heaps the position at which a rule fails
   * @param {string} why why a search was given up
   */
  constructor(kind, message, status, heaps = null, why = "") {
    super(message);
    this.kind = kind;
    this.status = status;
    this.heaps = heaps;
    this.why = why;
  }
}

/** @typedef {{done: (told: {answer: any, time: number}) => void, failed: (failure: Failure) => void}} Asker */

/**
 * @typedef {object} Helper a worker
 * @property {(question: any) => void} postMessage
 * @property {() => void} terminate
 * @property {((event: MessageEvent) => void) | null} onmessage
 * @property {((event: any) => void) | null} onerror
 * @property {((event: MessageEvent) => void) | null} [onmessageerror]
 */

export class Prover {
  #makeWorker;
  #bytes;
  /** @type {Helper | null} */
  #worker = null;
  /** @type {Map<number, Asker>} */
  #askers = new Map();
  #last = 0;

  /**
   * @param {() => Helper} makeWorker
   * @param {ArrayBuffer} bytes the module
   */
  constructor(makeWorker, bytes) {
    this.#makeWorker = makeWorker;
    this.#bytes = bytes;
  }

  /**
   * What a call tells, and how many milliseconds it took. Else it throws a `Failure`.
   * @param {string} call
   * @param {any[]} words
   * @returns {Promise<{answer: any, time: number}>}
   */
  async ask(call, ...words) {
    this.begin();
    return this.#post({call, words});
  }

  /** Makes a worker with the module, where there is none. */
  begin() {
    if (this.#worker) return;
    const worker = this.#makeWorker();
    // (what an ended worker still says is no answer)
    worker.onmessage = ({data}) => worker === this.#worker && this.#hear(data);
    worker.onerror = (event) => {
      event.preventDefault?.();
      if (worker === this.#worker) this.#end(new Failure("failed", event.message || "the worker ended"));
    };
    worker.onmessageerror = () => {
      if (worker === this.#worker) this.#end(new Failure("failed", "an answer could not be read"));
    };
    this.#worker = worker;
    this.#post({module: this.#bytes}).catch((failure) => worker === this.#worker && this.#end(failure));
  }

  /** Ends what is at work. */
  stop() {
    if (this.#askers.size) this.#end(new Failure("stopped", "stopped"));
  }

  /**
   * @param {object} question
   * @returns {Promise<{answer: any, time: number}>}
   */
  #post(question) {
    return new Promise((done, failed) => {
      const id = ++this.#last;
      this.#askers.set(id, {done, failed});
      this.#worker?.postMessage({id, ...question});
    });
  }

  /**
   * @param {{id: number, answer: any, time: number,
   *     failure?: {message: string, status?: number, heaps?: bigint[], why?: string}}} told
   */
  #hear({id, answer, time, failure}) {
    const asker = this.#askers.get(id);
    this.#askers.delete(id);
    if (!failure)
      asker?.done({answer, time});
    else if (failure.status)
      asker?.failed(new Failure("refused", failure.message, failure.status, failure.heaps, failure.why));
    else
      asker?.failed(new Failure("failed", failure.message));
  }

  /**
   * Ends the worker. All who wait are told why.
   * @param {Failure} failure
   */
  #end(failure) {
    this.#worker?.terminate();
    this.#worker = null;
    const askers = [...this.#askers.values()];
    this.#askers.clear();
    for (const {failed} of askers) failed(failure);
  }
}
