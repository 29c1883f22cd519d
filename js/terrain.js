// Tiles of heights to meshes: for MapLibre, deck.gl, loaders.gl, three.js and Cesium, in a page or in a worker.
// `await load()` of calfrewin has to be done before.

import { Fitter } from "./lib/fitter.js";
import { gridOf, meshWithin, toleranceFor } from "./lib/grids.js";
import { shown } from "./lib/numbers.js";
import { quantizedMesh } from "./lib/quantized.js";

export { heightsOfPng } from "./lib/png.js";

/** Metres of a pixel's red, green and blue, by the encoding's name. */
export const DECODERS = {
  mapbox: { r: 6553.6, g: 25.6, b: 0.1, offset: -10000 },
  terrarium: { r: 256, g: 1, b: 1 / 256, offset: -32768 },
};
const TRIANGLES = 4; // the mode of loaders.gl and of WebGL
const TENTH = 0.1; // metres: the step of terrain-RGB

function decoderOf(decoder) {
  const found = typeof decoder === "string" ? DECODERS[decoder] : decoder;
  if (!found) throw new RangeError(`decoder is ${shown(decoder)}, and has to be one of ${Object.keys(DECODERS)} or { r, g, b, offset }`);
  return found;
}

/**
 * Heights of a tile of raster-dem with a row and a column more: (width + 1) x (height + 1). `image`: ImageData, or
 * { data, width, height } of four bytes a pixel. The row and the column more are those of the neighbours `right`, `below` and
 * `corner`, so that tiles meet; where one is not given they repeat the last.
 */
export function heightsOf(image, decoder = "mapbox", { right, below, corner } = {}) {
  const { r, g, b, offset } = decoderOf(decoder);
  const { width, height } = image;
  const heights = new Float32Array((width + 1) * (height + 1));
  const at = (it, x, y) => {
    const k = 4 * (y * it.width + x);
    return it.data[k] * r + it.data[k + 1] * g + it.data[k + 2] * b + offset;
  };
  const last = () => {
    if (corner) return at(corner, 0, 0);
    if (right) return at(right, 0, height - 1);
    return below ? at(below, width - 1, 0) : at(image, width - 1, height - 1);
  };
  let k = 0;
  for (let y = 0; y < height; y++) {
    for (let x = 0; x < width; x++) heights[k++] = at(image, x, y);
    heights[k++] = right ? at(right, 0, y) : at(image, width - 1, y);
  }
  for (let x = 0; x < width; x++) heights[k++] = below ? at(below, x, 0) : at(image, x, height - 1);
  heights[k] = last();
  return heights;
}

/** The mesh of side x side heights within an error, as columns, rows and heights of its vertices. */
function meshOf(heights, side, error, required, unit) {
  const span = heights.reduce(([low, high], it) => [Math.min(low, it), Math.max(high, it)], [Infinity, -Infinity]);
  const grid = gridOf(heights, side, side, { fill: 0, unit: (span[1] - span[0]) / unit <= 65534 ? unit : undefined });
  const fitter = new Fitter(grid.numbers);
  try {
    fitter.fit(toleranceFor(error, grid) ?? 0, required);
    const deviation = fitter.deviation() * grid.unit + grid.rounding;
    const { points, triangles } = meshWithin(fitter.indices(), grid, side, side);
    const z = Float64Array.from({ length: points.length / 3 }, (_, k) => grid.base + grid.unit * points[3 * k + 2]);
    return { points, triangles, z, deviation, border: fitter.border().slice() };
  } finally {
    fitter.close();
  }
}

/**
 * The mesh of a tile in the form of loaders.gl's mesh attributes, as deck.gl takes it: POSITION within `bounds` [west, south,
 * east, north] and heights times `scale`, TEXCOORD_0, indices. `required`: places on the border that the neighbours' meshes
 * have; `border`: those of this one. `unit`: heights are rounded to multiples of it.
 */
export function tileMesh(heights, side, { error, bounds = [0, 0, 1, 1], required = [], unit = TENTH, scale = 1 } = {}) {
  const { points, triangles, z, deviation, border } = meshOf(heights, side, error, required, unit);
  const [west, south, east, north] = bounds;
  const position = new Float32Array(points.length);
  const texture = new Float32Array((2 * points.length) / 3);
  for (let k = 0; k < z.length; k++) {
    const [u, v] = [points[3 * k] / (side - 1), points[3 * k + 1] / (side - 1)];
    texture.set([u, v], 2 * k);
    position.set([west + u * (east - west), north - v * (north - south), z[k] * scale], 3 * k);
  }
  const [low, high] = z.reduce(([a, b], it) => [Math.min(a, it), Math.max(b, it)], [Infinity, -Infinity]);
  return {
    header: { vertexCount: triangles.length, boundingBox: [[west, south, low * scale], [east, north, high * scale]] },
    mode: TRIANGLES,
    indices: { value: triangles, size: 1 },
    attributes: { POSITION: { value: position, size: 3 }, TEXCOORD_0: { value: texture, size: 2 } },
    border,
    deviation,
  };
}

/** Bounds and scale of `tileMesh` for tile (z, x, y) of web maps, as MapLibre's custom layers want them: x and y from 0 to 1. */
export function mercatorTile(z, x, y) {
  const size = 2 ** -z;
  const latitude = Math.atan(Math.sinh(Math.PI * (1 - 2 * (y + 0.5) * size)));
  return { bounds: [x * size, (y + 1) * size, (x + 1) * size, y * size], scale: 1 / (2 * Math.PI * 6378137 * Math.cos(latitude)) };
}

/**
 * The bytes of a quantized-mesh tile of Cesium, not zipped, of side x side heights whose points lie evenly within `bounds`
 * [west, south, east, north] in degrees, the northern row first.
 */
export function quantizedTile(heights, side, { error, bounds, required = [], unit = TENTH }) {
  const { points, triangles, z } = meshOf(heights, side, error, required, unit);
  const u = z.map((_, k) => points[3 * k] / (side - 1));
  const v = z.map((_, k) => 1 - points[3 * k + 1] / (side - 1));
  return quantizedMesh(u, v, z, triangles, bounds);
}
