// How much a board shows.

/** The most heaps of a play. */
export const MOST_HEAPS_PLAYED = 24;
/** The largest heap of a play: numbers up to it are exact in JavaScript. */
export const LARGEST_HEAP_PLAYED = 10 ** 15;
/** The largest heap whose tokens are drawn. */
export const LARGEST_HEAP_DRAWN = 40;
