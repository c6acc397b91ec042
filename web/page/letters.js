// Bytes as letters, a letter for each.

/** So many are made at once. */
const AT_ONCE = 4096;

/** @param {Uint8Array} bytes */
export function lettersOf(bytes) {
  let letters = "";
  for (let at = 0; at < bytes.length; at += AT_ONCE)
    letters += String.fromCharCode(...bytes.subarray(at, at + AT_ONCE));
  return letters;
}
