import { MOST, areaOf, gridHeights, shown, sideOf, whole } from "./numbers.js";
import { Owner, Viewed } from "./owner.js";

const DEEPEST = 14; // a terrain has at most 2^14 grid steps a side

/** The heights of one page of a world. */
export class Page extends Owner {
  #side;

  constructor(heights) {
    const grid = gridHeights(heights);
    super("page_", "drop");
    this._open(() => this._with(grid, (at, count) => this._call("make", at, count)));
    this.#side = sideOf(grid.length);
  }

  get side() { return this.#side; }

  set(x, y, height) {
    const last = this.#side - 1;
    this._call("set_height", whole("x", x, 0, last), whole("y", y, 0, last), whole("height", height, 0, MOST.height));
    return this;
  }
  raise(x0, y0, x1, y1, dz) {
    this._call("raise", ...areaOf(this.#side - 1, x0, y0, x1, y1), whole("dz", dz, -MOST.height, MOST.height));
    return this;
  }
}

/** One mesh over a terrain of 2^large grid steps a side whose pages come and go. */
export class World extends Viewed {
  #large;
  #spacing;
  #pageSide;

  /** `coarsest` covers the whole terrain; it goes into the world, and is closed. */
  constructor(coarsest, large, budget, { spacing = 1 } = {}) {
    const page = pageOf("coarsest", coarsest);
    const steps = whole("large", large, 1, DEEPEST);
    const most = whole("budget", budget, 2, MOST.triangles);
    const step = whole("spacing", spacing, 1, MOST.spacing);
    if (coarsest.side - 1 > 2 ** steps) throw new RangeError(`coarsest has ${coarsest.side} points a side, more than the terrain`);
    super("world_", "close");
    this._open(() => this._call("open", page, steps, most, step));
    this.#pageSide = coarsest.side;
    coarsest.close(); // its handle is empty now
    [this._most, this.#large, this.#spacing] = [most, steps, step];
  }

  get large() { return this.#large; }
  get spacing() { return this.#spacing; }
  /** Points a side of each page. */
  get pageSide() { return this.#pageSide; }

  #square(q, column, row) {
    const last = 2 ** DEEPEST - 1;
    return [whole("q", q, 0, DEEPEST), whole("column", column, 0, last), whole("row", row, 0, last)];
  }

  /** Puts a page of resolution q into its square; the page is closed then. */
  load(q, column, row, page) {
    const handle = pageOf("page", page);
    this._call("load", ...this.#square(q, column, row), handle);
    page.close();
    return this;
  }
  /** Takes the page out of a square, and drops it. */
  unload(q, column, row) {
    const square = this.#square(q, column, row);
    void this._handle;
    this._meanwhile(16, (at) => {
      this._core.u64(at, 2).fill(0n);
      this._call("unload", ...square, BigInt(at));
      this._core.enter("roam_page_drop", BigInt(at));
    });
    return this;
  }

  /** In grid steps of the terrain, in each loaded page that has the point. */
  set(x, y, height) {
    const last = 2 ** this.#large;
    this._call("set_height", whole("x", x, 0, last), whole("y", y, 0, last), whole("height", height, 0, MOST.height));
    return this;
  }
  raise(x0, y0, x1, y1, dz) {
    this._call("raise", ...areaOf(2 ** this.#large, x0, y0, x1, y1), whole("dz", dz, -MOST.height, MOST.height));
    return this;
  }

  /** Makes the best mesh of what is loaded and seen, and tells of it. */
  frame() {
    this._call("frame", BigInt(this._core.note));
    const [worst, evaluations] = this._core.u64(this._core.note, 2);
    const [triangles, splits, merges, blocking, need] = this._core.u32(this._core.note + 16, 5);
    return { worst, evaluations, triangles, splits, merges, blocking, need };
  }

  /** What to draw: runs of triangles, each of one page, and indices into that page's heights. */
  draws() {
    void this._handle;
    const indices = this._room("indices", 12 * this._most);
    const runs = this._room("draws", 20 * this._most);
    const { note } = this._core;
    this._call("draws", BigInt(runs), BigInt(this._most), BigInt(note), BigInt(indices), BigInt(3 * this._most), BigInt(note + 8));
    const [count, triangles] = this._core.counts(2);
    const numbers = this._core.u32(runs, 5 * count);
    const draws = Array.from({ length: count }, (_, k) => {
      const [q, column, row, first, length] = numbers.subarray(5 * k, 5 * k + 5);
      return { q, column, row, first, triangles: length };
    });
    return { draws, indices: this._core.u32(indices, 3 * triangles) };
  }
}

function pageOf(name, page) {
  if (!(page instanceof Page)) throw new TypeError(`${name} is ${shown(page)}, and has to be a Page`);
  return page._handle;
}
