/** Each instruction that lower.py changes, in modules that are written out here; and what it refuses. */
import assert from "node:assert/strict";
import {spawnSync} from "node:child_process";
import {readFileSync} from "node:fs";
import path from "node:path";
import test from "node:test";

import {fileOf, root} from "./setup.js";

const [I32, I64, F32, F64, FUNCTION, FUNCTIONS] = [0x7f, 0x7e, 0x7d, 0x7c, 0x60, 0x70];
const [GET, END, I32_CONST, I64_CONST, DROP] = [0x20, 0x0b, 0x41, 0x42, 0x1a];
/** What the memory begins with. */
const DATA = [0x81, 0x92, 0xa3, 0xb4, 0x3f, 0xf6, 0x07, 0x40, 0x11, 0xee, 0xdd, 0xcc];
const PAGE = 65536;

/** @param {number[][]} parts */
const vector = (parts) => [...leb(parts.length), ...parts.flat()];
/** @param {number[]} bytes */
const bytes = (bytes) => vector(bytes.map((it) => [it]));

/**
 * A number below 2^14 in LEB128.
 * @param {number} it
 */
const leb = (it) => it < 128 ? [it] : [it & 127 | 128, it >> 7];

/**
 * A number in ten bytes, as the linker writes those of 64 bits.
 * @param {number} it
 */
const wide = (it) => [it | 128, ...Array(8).fill(128), 0];

/**
 * A module with a memory of 64 bits, which exports f, of this type and code, and the memory. Its table holds two
 * functions, which give 7 and 9.
 * @param {number[]} takes
 * @param {number[]} gives
 * @param {number[]} code
 * @param {[number, number[]][]} more further sections, behind that of the types
 */
function moduleOf(takes, gives, code, more = []) {
  const types = [[FUNCTION, ...bytes(takes), ...bytes(gives)], [FUNCTION, 0, 1, I32]];
  const bodies = [code, [I32_CONST, 7], [I32_CONST, 9]].map((it) => [...leb(it.length + 2), 0, ...it, END]);
  /** @type {[number, number[]][]} */
  const sections = [
    [1, vector(types)],
    ...more,
    [3, bytes([0, 1, 1])],
    [4, vector([[FUNCTIONS, 5, 2, 2]])],
    [5, vector([[5, 1, 3]])],
    [7, vector([[1, 0x66, 0, 0], [1, 0x6d, 2, 0]])],
    [9, vector([[0, I64_CONST, ...wide(0), END, ...bytes([1, 2])]])],
    [10, vector(bodies)],
    [11, vector([[0, I64_CONST, ...wide(0), END, ...bytes(DATA)]])],
  ];
  const parts = sections.flatMap(([kind, it]) => [kind, ...leb(it.length), ...it]);
  return Uint8Array.from([0, 0x61, 0x73, 0x6d, 1, 0, 0, 0, ...parts].flat());
}

/**
 * The lowered module, or what lower.py says.
 * @param {Uint8Array} module
 */
function lowered(module) {
  const [from, to] = [fileOf(module, "from.wasm"), fileOf("", "to.wasm")];
  const run = spawnSync("python3", [path.join(root, "web/module/lower.py"), from, to], {encoding: "utf8"});
  return run.status ? run.stderr.trim() : readFileSync(to);
}

/** @param {Parameters<typeof moduleOf>} parts */
function exportsOf(...parts) {
  const module = lowered(moduleOf(...parts));
  if (typeof module === "string") throw new Error(module);
  const {f, m} = /** @type {any} */ (new WebAssembly.Instance(new WebAssembly.Module(module)).exports);
  return {f, memory: new DataView(m.buffer), grown: () => m.buffer.byteLength};
}

/** @type {[string, number, number, keyof DataView][]} */
const LOADS = [
  ["i32.load", 0x28, I32, "getInt32"],
  ["i64.load", 0x29, I64, "getBigInt64"],
  ["f32.load", 0x2a, F32, "getFloat32"],
  ["f64.load", 0x2b, F64, "getFloat64"],
  ["i32.load8_s", 0x2c, I32, "getInt8"],
  ["i32.load8_u", 0x2d, I32, "getUint8"],
  ["i32.load16_s", 0x2e, I32, "getInt16"],
  ["i32.load16_u", 0x2f, I32, "getUint16"],
  ["i64.load8_s", 0x30, I64, "getInt8"],
  ["i64.load8_u", 0x31, I64, "getUint8"],
  ["i64.load16_s", 0x32, I64, "getInt16"],
  ["i64.load16_u", 0x33, I64, "getUint16"],
  ["i64.load32_s", 0x34, I64, "getInt32"],
  ["i64.load32_u", 0x35, I64, "getUint32"],
];

test("loads", async (t) => {
  for (const [name, op, kind, get] of LOADS) {
    await t.test(name, () => {
      const {f, memory} = exportsOf([I64], [kind], [GET, 0, op, 0, ...wide(2)]);
      for (const at of [0, 1, 2]) {
        const wanted = /** @type {any} */ (memory)[get](at + 2, true);
        assert.equal(f(BigInt(at)), kind === I64 ? BigInt(wanted) : wanted);
      }
      for (const at of [PAGE, 2 ** 31, 2 ** 32 - 1]) assert.throws(() => f(BigInt(at)), WebAssembly.RuntimeError);
      assert.throws(() => f(-1n), WebAssembly.RuntimeError);
    });
  }
});

/** @type {[string, number, number, keyof DataView, number | bigint][]} */
const STORES = [
  ["i32.store", 0x36, I32, "getInt32", -123456789],
  ["i64.store", 0x37, I64, "getBigInt64", -1234567890123456789n],
  ["f32.store", 0x38, F32, "getFloat32", 1.5],
  ["f64.store", 0x39, F64, "getFloat64", -2.25],
  ["i32.store8", 0x3a, I32, "getInt8", -77],
  ["i32.store16", 0x3b, I32, "getInt16", -7777],
  ["i64.store8", 0x3c, I64, "getInt8", -77n],
  ["i64.store16", 0x3d, I64, "getInt16", -7777n],
  ["i64.store32", 0x3e, I64, "getInt32", -123456789n],
];

test("stores", async (t) => {
  for (const [name, op, kind, get, value] of STORES) {
    await t.test(name, () => {
      const {f, memory} = exportsOf([I64, kind], [], [GET, 0, GET, 1, op, 0, ...wide(20)]);
      f(4n, value);
      const stored = /** @type {any} */ (memory)[get](24, true);
      assert.equal(kind === I64 ? BigInt(stored) : stored, value);
      assert.throws(() => f(BigInt(PAGE), value), WebAssembly.RuntimeError);
    });
  }
});

test("memory.size and memory.grow", () => {
  const {f, grown} = exportsOf([I64], [I64, I64], [GET, 0, 0x40, 0, 0x3f, 0]);
  assert.deepEqual(f(1n), [1n, 2n]);
  assert.equal(grown(), 2 * PAGE);
  assert.deepEqual(f(2n), [-1n, 2n]);
  assert.deepEqual(f(1n), [2n, 3n]);
});

test("memory.copy", () => {
  const {f, memory} = exportsOf([I64, I64, I64], [], [GET, 0, GET, 1, GET, 2, 0xfc, 10, 0, 0]);
  f(3n, 0n, 9n);
  const copied = Array.from({length: DATA.length}, (_, at) => memory.getUint8(at));
  assert.deepEqual(copied, [...DATA.slice(0, 3), ...DATA.slice(0, 9)]);
});

test("memory.fill", () => {
  const {f, memory} = exportsOf([I64, I32, I64], [], [GET, 0, GET, 1, GET, 2, 0xfc, 11, 0]);
  f(1n, 0x55, 2n);
  assert.deepEqual([0, 1, 2, 3].map((at) => memory.getUint8(at)), [DATA[0], 0x55, 0x55, DATA[3]]);
});

test("call_indirect", () => {
  const {f} = exportsOf([I64], [I32], [GET, 0, 0x11, 1, 0]);
  assert.deepEqual([f(0n), f(1n)], [7, 9]);
  assert.throws(() => f(2n), WebAssembly.RuntimeError);
});

test("what stays: br_table, constants with a point, a conversion", () => {
  const blocks = [0x02, 0x40, 0x02, 0x40, GET, 0, 0x0e, 1, 0, 1, END, I32_CONST, 3, 0x0f, END, I32_CONST, 4];
  const {f} = exportsOf([I32], [I32], blocks);
  assert.deepEqual([f(0), f(1), f(5)], [3, 4, 4]);
  const half = exportsOf([F64], [F64], [0x43, 0, 0, 0, 0x3f, DROP, 0x44, 0, 0, 0, 0, 0, 0, 0xe0, 0x3f, GET, 0, 0xa0]);
  assert.equal(half.f(2), 2.5);
  const whole = exportsOf([F64], [I64], [GET, 0, 0xfc, 6]);
  assert.deepEqual([whole.f(-7.9), whole.f(1e300)], [-7n, 2n ** 63n - 1n]);
});

test("several stores of one kind in one function", () => {
  const store = (/** @type {number} */ at) => [GET, 0, GET, 1, 0x37, 3, at];
  const {f, memory} = exportsOf([I64, I64], [I64], [...store(16), ...store(32), GET, 0, 0x29, 3, 16]);
  assert.equal(f(8n, 99n), 99n);
  assert.deepEqual([memory.getBigInt64(24, true), memory.getBigInt64(40, true)], [99n, 99n]);
});

/** @type {[string, Uint8Array, RegExp][]} */
const REFUSED = [
  ["no module", Uint8Array.from(DATA), /not a module of WebAssembly/],
  ["an import", moduleOf([], [], [], [[2, [1, 1, 0x61, 1, 0x62, 0, 1]]]), /without imports/],
  ["an instruction of vectors", moduleOf([], [], [0xfd, 12, ...Array(16).fill(0), DROP]), /doesn't know: 0xfd/],
  ["an instruction of atomics", moduleOf([], [], [0xfe, 3, 0]), /doesn't know: 0xfe/],
  ["data that are copied later", moduleOf([], [], [0xfc, 9, 0]), /not a change/],
  ["an offset of 33 bits", moduleOf([I64], [I32], [GET, 0, 0x28, 0, 128, 128, 128, 128, 16]), /not an offset/],
];

test("refused", async (t) => {
  for (const [name, module, said] of REFUSED) {
    await t.test(name, () => assert.match(String(lowered(module)), said));
  }
  await t.test("a module that is lowered already", () => {
    assert.match(String(lowered(/** @type {any} */ (lowered(moduleOf([], [], []))))), /not limits of 64 bits/);
  });
});
