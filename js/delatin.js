// In the place of delatin: `new Delatin(heights, width, height)`, `run(maxError)`, then `coords` and `triangles`. Any shape; the
// error is kept, and there are more triangles, since they are right ones. `await load()` of calfrewin has to be done before.

import { fit } from "./lib/fit.js";

export default class Delatin {
  constructor(data, width, height = width) {
    Object.assign(this, { data, width, height, coords: new Float64Array(), triangles: new Uint32Array() });
    this.#deviation = 0;
  }
  #deviation;

  run(maxError = 1) {
    const { positions, indices, deviation } = fit(this.data, this.width, this.height, { error: maxError, fill: 0 });
    this.coords = new Float64Array((2 * positions.length) / 3);
    for (let k = 0, j = 0; k < positions.length; k += 3) {
      this.coords[j++] = positions[k];
      this.coords[j++] = this.height - 1 - positions[k + 1];
    }
    this.triangles = indices;
    this.#deviation = deviation;
  }

  heightAt(x, y) { return this.data[this.width * y + x]; }
  /** How far the mesh is off at a grid point, at most. */
  getMaxError() { return this.#deviation; }
}
export { Delatin };
