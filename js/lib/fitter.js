import { ANY, MOST, gridHeights, listOf, places, sideOf, thousandths } from "./numbers.js";
import { Owner } from "./owner.js";

/** The heights of one grid, and its mesh of the fewest triangles that has required points as vertices. */
export class Fitter extends Owner {
  #side;
  #triangles = 2;

  constructor(heights) {
    const grid = gridHeights(heights);
    super("fitter_", "close");
    this._open(() => this._with(grid, (at, count) => this._call("open", at, count)));
    this.#side = sideOf(grid.length);
  }

  get side() { return this.#side; }

  /**
   * Makes the mesh, and tells how many triangles it has. `error`: a number, or a Uint32Array of thousandths for each point,
   * 0xffffffff where a point does not count. `required`: places in the heights.
   */
  fit(error, required = []) { return this.#settle("fit", error, required); }
  /** The same, going on from the mesh that is there. */
  more(error, required = []) { return this.#settle("more", error, required); }

  #settle(name, error, required) {
    const count = this.#side ** 2;
    const each = error instanceof Uint32Array ? tolerancesOf(error, count) : new Uint32Array();
    const one = each.length ? 0 : thousandths("error", error);
    const points = places("a required place", required, count - 1);
    this._with(each, (at, n) => this._with(points, (place, m) =>
      this._call(name, one, at, n, place, m, BigInt(this._core.note))));
    [this.#triangles] = this._core.u32(this._core.note, 1);
    return this.#triangles;
  }

  indices(out) { return this._list("indices", 3, this.#triangles, out); }
  leaves(out) { return this._list("leaves", 1, this.#triangles, out); }
  /** The vertices on the border except the corners: places in the heights, rising. */
  border(out) { return this._list("border", 1, 4 * (this.#side - 2), out); }
  /** How far the heights are from the mesh at a grid point, at most. */
  deviation() { return this._deviation(); }

  /** The mesh of these addresses, as `leaves` gave them, becomes the mesh. */
  restore(leaves) {
    const list = places("a leaf", listOf("leaves", leaves), ANY);
    this._with(list, (at, count) => this._call("restore", at, count));
    this.#triangles = list.length;
  }
}

function tolerancesOf(list, count) {
  if (list.length !== count) throw new RangeError(`error has ${list.length} numbers, and has to have ${count}`);
  const most = 1000 * MOST.error;
  for (const it of list) {
    if (it > most && it !== ANY) throw new RangeError(`a tolerance is ${it}, and has to be at most ${most}, or 0xffffffff`);
  }
  return list;
}
