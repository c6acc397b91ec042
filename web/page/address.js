// The addresses of views, such as `#game=0.77` and `#play=0.77:3,5,9`.

/**
 * The view that an address names, and what stands behind it.
 * @param {string} hash
 */
export function viewOf(hash) {
  const [, view = "", word = ""] = hash.match(/^#([a-z]*)=?(.*)$/s) ?? [];
  return {view: view || "atlas", word: decoded(word)};
}

/** @param {string} word */
function decoded(word) {
  try {
    return decodeURIComponent(word);
  } catch {
    return word;
  }
}

/** @param {string} name */
export function gameAddress(name) {
  return `#game=${name}`;
}

/**
 * The address of a position of a game.
 * @param {string} name
 * @param {(number | bigint)[]} heaps
 */
export function playAddress(name, heaps) {
  return `#play=${name}:${heaps.join(",")}`;
}

/**
 * The name and the heaps of such an address. The heaps are null where it tells none.
 * @param {string} word
 */
export function playOf(word) {
  const [name, heaps] = word.split(":");
  return {name, heaps: heaps === undefined ? null : heaps};
}
