/** An instance of misere.wasm, and how numbers and arrays are passed to its calls. */

/** The status of a call for which memory was refused. */
const MEMORY = 9;

/** @typedef {Uint8Array | Uint32Array | BigUint64Array} Numbers */

/** The module failed, as with a stack that is full: no verdict. */
export class Failed extends Error {
  /** @param {unknown} cause */
  constructor(cause) {
    super(`the module failed: ${cause instanceof Error ? cause.message : cause}`, {cause});
    this.name = "Failed";
  }
}

/**
 * The places of as many arrays in the module's memory, which hold what these hold; or null where memory is refused.
 * @param {any} exports
 * @param {Numbers[]} arrays
 */
function placesOf(exports, arrays) {
  /** @type {bigint[]} */
  const places = [];
  for (const array of arrays) {
    const place = exports.heap_take(BigInt(array.byteLength));
    if (place === 0n) {
      places.forEach(exports.heap_give);
      return null;
    }
    places.push(place);
    bytesAt(exports, place, array).set(new Uint8Array(array.buffer, array.byteOffset, array.byteLength));
  }
  return places;
}

/**
 * The bytes of an array's place. (The memory is another buffer after each growth.)
 * @param {any} exports
 * @param {bigint} place
 * @param {Numbers} array
 */
function bytesAt(exports, place, array) {
  return new Uint8Array(exports.memory.buffer, Number(place), array.byteLength);
}

export class Instance {
  /** @type {any} */
  #exports = null;
  #module;
  #sizes;
  /** How often it failed: what a call has kept is lost each time. */
  failures = 0;

  /**
   * @param {WebAssembly.Module} module
   * @param {Record<string, number>} sizes of how many numbers each struct is made that stands in arrays
   */
  constructor(module, sizes) {
    this.#module = module;
    this.#sizes = sizes;
  }

  /** The exports: of a new instance where the last failed, since that stopped amid its work. */
  get exports() {
    return (this.#exports ??= new WebAssembly.Instance(this.#module).exports);
  }

  /**
   * The status of a call. Behind it the arrays of what it may change hold what it told.
   * @param {string} name
   * @param {string[]} kinds what it is given, as the crates declare it
   * @param {(number | Numbers)[]} words
   * @returns {number}
   */
  call(name, kinds, words) {
    try {
      const {exports} = this;
      const arrays = words.flatMap((it) => (typeof it === "number" ? [] : [it]));
      const places = placesOf(exports, arrays);
      if (!places) return MEMORY;
      const status = exports[name](...this.#passed(kinds, words, places)) >>> 0;
      const isTold = kinds.filter((it) => it !== "u32").map((it) => it.startsWith("&mut"));
      arrays.forEach((array, at) => {
        if (isTold[at]) new Uint8Array(array.buffer, array.byteOffset).set(bytesAt(exports, places[at], array));
      });
      places.forEach(exports.heap_give);
      return status;
    } catch (cause) {
      this.#exports = null;
      this.failures++;
      throw new Failed(cause);
    }
  }

  /**
   * The words of a call in WebAssembly. A slice is passed as a pointer and a length, a reference as a pointer.
   * @param {string[]} kinds
   * @param {(number | Numbers)[]} words
   * @param {bigint[]} places those of the arrays among the words
   */
  #passed(kinds, words, places) {
    let next = 0;
    return kinds.flatMap(/** @returns {(number | bigint)[]} */ (kind, at) => {
      const word = words[at];
      if (typeof word === "number") return [word];
      const place = places[next++];
      const [, struct] = kind.match(/(\w+)\]$/) ?? [];
      return struct ? [place, BigInt(word.length / (this.#sizes[struct] ?? 1))] : [place];
    });
  }
}
