/** The module with another stack, less memory, or no code: for tests of what happens then. */

const [MEMORY, GLOBAL, CODE] = [5, 6, 10];
const [I64, I64_CONST, END, UNREACHABLE] = [0x7e, 0x42, 0x0b, 0x00];

/** Reads numbers in LEB128. */
class Reader {
  /**
   * @param {Uint8Array} bytes
   * @param {number} at
   */
  constructor(bytes, at) {
    this.bytes = bytes;
    this.at = at;
  }

  byte() {
    return this.bytes[this.at++];
  }

  number() {
    let [value, scale, byte] = [0, 1, 0];
    do {
      byte = this.byte();
      value += (byte & 127) * scale;
      scale *= 128;
    } while (byte > 127);
    return value;
  }
}

/**
 * A number in LEB128, in so many bytes; as a signed number too where the last byte is below 64.
 * @param {number} value
 * @param {number} size
 */
function leb(value, size) {
  return Uint8Array.from({length: size}, (_, at) => (value >> 7 * at & 127) | (at < size - 1 ? 128 : 0));
}

/**
 * Where a section begins, where what it holds does, and where it ends.
 * @param {Uint8Array} module
 * @param {number} wanted
 */
function sectionOf(module, wanted) {
  const read = new Reader(module, 8);
  while (read.at < module.length) {
    const [head, kind, size, start] = [read.at, read.byte(), read.number(), read.at];
    if (kind === wanted) return {head, start, end: start + size};
    read.at = start + size;
  }
  throw new Error(`no section ${wanted}`);
}

/**
 * The module with a smaller stack: its first global, the stack's pointer, begins there.
 * @param {Uint8Array} module
 * @param {number} size
 */
export function withStack(module, size) {
  const made = new Uint8Array(module), read = new Reader(made, sectionOf(made, GLOBAL).start);
  read.number();
  const [kind, isChanged, op, start] = [read.byte(), read.byte(), read.byte(), read.at];
  const was = read.number();
  if (kind !== I64 || !isChanged || op !== I64_CONST || made[read.at] !== END || was < size)
    throw new Error("no stack");
  made.set(leb(size, read.at - start), start);
  return made;
}

/**
 * The module whose memory can grow by so many pages of 64 KiB, and no more.
 * @param {Uint8Array} module
 * @param {number} more
 */
export function withPages(module, more) {
  const made = new Uint8Array(module), read = new Reader(made, sectionOf(made, MEMORY).start);
  const [count, flags, least, start] = [read.number(), read.byte(), read.number(), read.at];
  read.number();
  if (count !== 1 || flags !== 1) throw new Error("no bound of the memory");
  made.set(leb(least + more, read.at - start), start);
  return made;
}

/**
 * The module with `unreachable` in place of the code of each function.
 * @param {Uint8Array} module
 */
export function withoutCode(module) {
  const {head, start, end} = sectionOf(module, CODE), count = new Reader(module, start).number();
  const body = [...leb(3, 1), 0, UNREACHABLE, END];
  const codes = [...leb(count, 5), ...Array.from({length: count}, () => body).flat()];
  return Uint8Array.from([...module.slice(0, head), CODE, ...leb(codes.length, 5), ...codes, ...module.slice(end)]);
}
