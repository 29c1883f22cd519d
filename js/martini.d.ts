import type { Numbers } from "./index.js";

export interface TileMesh { vertices: Uint16Array; triangles: Uint32Array }
export interface Tile {
  update(): void;
  getMesh(maxError?: number, options?: { required?: Numbers }): TileMesh;
  border(): Uint32Array;
  deviation(): number;
  close(): void;
}
/** In the place of @mapbox/martini. */
export default class Martini {
  constructor(gridSize?: number);
  readonly gridSize: number;
  createTile(terrain: Numbers): Tile;
}
export { Martini };
