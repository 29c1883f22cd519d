// In the place of @mapbox/martini: the same calls. `await load()` of calfrewin has to be done before, or `loadSync` in a worker.
//
// Where it differs: maxError holds at each grid point, and the mesh has the fewest triangles of all that keep it; tiles of
// neighbours meet without skirts by `required`; a tile takes memory until `close`, or until it is garbage.

import { Fitter } from "./lib/fitter.js";
import { gridOf, meshWithin, toleranceFor } from "./lib/grids.js";

export default class Martini {
  constructor(gridSize = 257) {
    const tileSize = gridSize - 1;
    if (!(tileSize >= 2) || tileSize & (tileSize - 1)) {
      throw new RangeError(`Expected grid size to be 2^n+1, got ${String(gridSize)}.`);
    }
    this.gridSize = gridSize;
  }

  createTile(terrain) { return new Tile(terrain, this.gridSize); }
}
export { Martini };

class Tile {
  #grid;
  #fitter = null;

  constructor(terrain, size) {
    if (terrain?.length !== size * size) {
      throw new RangeError(`Expected terrain data of length ${size * size} (${size} x ${size}), got ${terrain?.length}.`);
    }
    this.terrain = terrain;
    this.size = size;
    this.update();
  }

  /** Takes the terrain's numbers anew. */
  update() {
    const grid = gridOf(this.terrain, this.size, this.size, { fill: 0 });
    const fitter = new Fitter(grid.numbers);
    this.#fitter?.close();
    [this.#grid, this.#fitter] = [grid, fitter];
  }

  /** { vertices, triangles }: column and row of each vertex, three vertices of each triangle. */
  getMesh(maxError = 0, { required = [] } = {}) {
    // Whoever takes the vertices' heights from the terrain has them unrounded, which is off by another rounding.
    this.#fitter.fit(toleranceFor(maxError, this.#grid, 2) ?? 0, required);
    const { points, triangles } = meshWithin(this.#fitter.indices(), this.#grid, this.size, this.size);
    const vertices = new Uint16Array((2 * points.length) / 3);
    for (let k = 0, j = 0; k < points.length; k += 3) {
      vertices[j++] = points[k];
      vertices[j++] = points[k + 1];
    }
    return { vertices, triangles };
  }

  /** The places of the vertices on the border except the corners: what neighbours' meshes have to have. */
  border() { return this.#fitter.border().slice(); }
  /** How far the terrain is from the last mesh at a grid point, at most. */
  deviation() { return this.#fitter.deviation() * this.#grid.unit + 2 * this.#grid.rounding; }
  close() { this.#fitter.close(); }
}
