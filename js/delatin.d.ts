import type { Numbers } from "./index.js";

/** In the place of delatin. */
export default class Delatin {
  constructor(data: Numbers, width: number, height?: number);
  coords: Float64Array;
  triangles: Uint32Array;
  run(maxError?: number): void;
  heightAt(x: number, y: number): number;
  getMaxError(): number;
}
export { Delatin };
