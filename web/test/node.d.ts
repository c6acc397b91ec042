/** What the tests use of Node: Debian 12 has no types for it. */
declare module "node:*";

declare module "node:fs" {
  export function mkdtempSync(prefix: string): string;
  export function readdirSync(folder: string): string[];
  export function readFileSync(file: string): Uint8Array;
  export function readFileSync(file: string, encoding: "utf8"): string;
  export function rmSync(file: string, how: {recursive: boolean}): void;
  export function writeFileSync(file: string, data: string | Uint8Array): void;
}

declare module "node:test" {
  interface Row {
    test(name: string, body: (t: Row) => unknown): Promise<void>;
    diagnostic(text: string): void;
  }
  export default function test(name: string, body: (t: Row) => unknown): Promise<void>;
  export default function test(name: string, how: {skip: string | false}, body: (t: Row) => unknown): Promise<void>;
}

declare module "node:zlib" {
  export function gzipSync(data: string): Uint8Array;
}
