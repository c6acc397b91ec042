// A third position beside which the outcomes of two differ.

/** So many are tried at most, and of so many heaps. */
const [MOST_TRIED, MOST_HEAPS] = [2000, 3];

/**
 * Positions of the heaps of letters, those of fewer heaps first.
 * @param {number[]} heaps rising
 */
export function thirdsOf(heaps) {
  /** @type {number[][]} */
  const tried = [[]];
  for (const position of tried) {
    if (position.length === MOST_HEAPS || tried.length >= MOST_TRIED) break;
    tried.push(...heaps.filter((heap) => heap >= (position.at(-1) ?? 0)).map((heap) => [...position, heap]));
  }
  return tried.slice(0, MOST_TRIED);
}
