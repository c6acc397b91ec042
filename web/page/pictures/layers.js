// A layered drawing: where boxes stand that lie over each other, and the ways of the lines between them.

/** Between boxes, and between layers. */
const [BESIDE, BELOW] = [16, 34];

/**
 * @typedef {object} Box
 * @property {number} width
 * @property {number} height
 * @property {number[]} below the numbers of the boxes right below it
 *
 * @typedef {object} Placed a box, or the narrow place of a line that goes beside boxes
 * @property {number} width
 * @property {number} height
 * @property {number} x
 * @property {number} y
 * @property {Placed[]} above
 */

/**
 * Places boxes in layers.
 * @param {Box[]} boxes
 * @returns {{placed: Placed[], lines: Placed[][], width: number, height: number}} `lines` are the ways from a box to
 *     one below
 */
export function layered(boxes) {
  const depths = depthsOf(boxes);
  const placed = boxes.map(({width, height}) => placeOf(width, height));
  /** @type {Placed[][]} */
  const layers = Array.from({length: Math.max(...depths) + 1}, () => []);
  placed.forEach((it, at) => layers[depths[at]].push(it));
  const lines =
      boxes.flatMap(({below}, at) => below.map((to) => wayOf(placed[at], placed[to], layers, depths[at], depths[to])));
  const width = Math.max(...layers.map(widthOf));
  const height = arrange(layers, width);
  return {placed, lines, width, height};
}

/**
 * @param {number} width
 * @param {number} height
 * @returns {Placed}
 */
function placeOf(width, height) {
  return {width, height, x: 0, y: 0, above: []};
}

/**
 * The layer of each box: one below the lowest of those above it.
 * @param {Box[]} boxes
 */
function depthsOf(boxes) {
  /** @type {number[]} */
  const depths = [];
  /** @type {(at: number) => number} */
  const depthOf = (at) => {
    const above = boxes.flatMap(({below}, other) => (below.includes(at) ? [other] : []));
    return (depths[at] ??= 1 + Math.max(-1, ...above.map(depthOf)));
  };
  return boxes.map((_, at) => depthOf(at));
}

/**
 * The way of a line: a narrow place in each layer between its ends.
 * @param {Placed} from
 * @param {Placed} to
 * @param {Placed[][]} layers
 * @param {number} first
 * @param {number} last
 */
function wayOf(from, to, layers, first, last) {
  const way = [from];
  for (const layer of layers.slice(first + 1, last)) {
    const place = placeOf(4, 0);
    place.above.push(way[way.length - 1]);
    layer.push(place);
    way.push(place);
  }
  to.above.push(way[way.length - 1]);
  return [...way, to];
}

/** @param {Placed[]} layer */
function widthOf(layer) {
  return layer.reduce((sum, {width}) => sum + width + BESIDE, -BESIDE);
}

/**
 * Places the layers under each other, each by what lies above; tells the height.
 * @param {Placed[][]} layers
 * @param {number} width
 */
function arrange(layers, width) {
  let y = 0;
  for (const layer of layers) {
    const middles = new Map(layer.map((it) => [it, middleOf(it.above)]));
    layer.sort((a, b) => (middles.get(a) ?? 0) - (middles.get(b) ?? 0));
    const height = Math.max(...layer.map((it) => it.height));
    let x = (width - widthOf(layer)) / 2;
    for (const it of layer) {
      Object.assign(it, {x, y, height: it.height || height});
      x += it.width + BESIDE;
    }
    y += height + BELOW;
  }
  return y - BELOW;
}

/** @param {Placed[]} places */
function middleOf(places) {
  return places.reduce((sum, it) => sum + it.x + it.width / 2, 0) / Math.max(1, places.length);
}
