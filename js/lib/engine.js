import { thousandths, areaOf, gridHeights, MOST, planeOf, coordinate, sideOf, whole } from "./numbers.js";
import { Viewed } from "./owner.js";

/** An engine over a copy of a grid of heights: for a camera the best mesh within a budget, frame by frame. */
export class Engine extends Viewed {
  #side;

  /**
   * heights: side x side whole numbers from 0 to 65535, the far row first; side 3, 5, 9, .. 16385. budget: the most triangles
   * of a mesh. spacing: the length of a grid step in units of height, from 1 to 1024.
   */
  constructor(heights, budget, { spacing = 1 } = {}) {
    const grid = gridHeights(heights);
    const most = whole("budget", budget, 2, MOST.triangles);
    const step = whole("spacing", spacing, 1, MOST.spacing);
    super("", "close");
    this._open(() => this._with(grid, (at, count) => this._call("open", at, count, most, step)));
    this._most = most;
    this.#side = sideOf(grid.length);
  }

  get side() { return this.#side; }

  addPlane(a, b, c, d) {
    this._call("add_plane", ...planeOf([a, b, c, d]));
    return this;
  }
  clearPlanes() {
    this._call("clear_planes");
    return this;
  }
  /** Lets frames count from 0 on again. */
  renew() {
    this._call("renew");
    return this;
  }

  /** Sets the height of a grid point; (0, 0) is the near left one. */
  set(x, y, height) {
    const last = this.#side - 1;
    this._call("set", whole("x", x, 0, last), whole("y", y, 0, last), whole("height", height, 0, MOST.height));
    return this;
  }
  /** Raises the points from (x0, y0) to (x1, y1), both included; heights stay within 0 .. 65535. */
  raise(x0, y0, x1, y1, dz) {
    this._call("raise", ...areaOf(this.#side - 1, x0, y0, x1, y1), whole("dz", dz, -MOST.height, MOST.height));
    return this;
  }

  /** Makes the best mesh of what stands now, and tells of it. */
  frame() {
    this._call("frame", BigInt(this._core.note));
    const [worst] = this._core.u64(this._core.note, 1);
    const [triangles, vertices, splits, merges, blocking, need, inside, cut, outside] = this._core.u32(this._core.note + 8, 9);
    return { worst, triangles, vertices, splits, merges, blocking, need, inside, cut, outside };
  }

  /** Three places in the heights for each triangle, counterclockwise from above. */
  indices(out) { return this._list("indices", 3, this._most, out); }
  /** The same in the order of one strip. */
  strip(out) { return this._list("strip", 3, this._most, out); }
  /** x, y and z of the mesh's vertices, in world units. */
  positions(out) { return this._list("positions", 3, this._most + 2, out); }
  /** Three numbers for each triangle, which count these positions. */
  compact(out) { return this._list("compact", 3, this._most, out); }

  /** The addresses that the last frame took out of the mesh, and those that it put in. */
  changed() {
    void this._handle;
    const gone = this._room("gone", 4 * this._most);
    const come = this._room("come", 4 * this._most);
    const places = BigInt(this._most);
    this._call("changed", BigInt(gone), places, BigInt(come), places, BigInt(this._core.note));
    const [went, came] = this._core.counts(2);
    return { gone: this._core.u32(gone, went), come: this._core.u32(come, came) };
  }

  /** How far the heights are from the last frame's mesh at a grid point, at most. */
  deviation() { return this._deviation(); }

  /** The mesh of the fewest triangles within an error, or of the least error within a budget, whatever the camera. */
  fit({ error, triangles } = {}) {
    if (error === undefined && triangles === undefined) throw new TypeError("one of error and triangles is wanted");
    const finest = 2 * (this.#side - 1) ** 2;
    const tolerance = error === undefined ? 0 : thousandths("error", error);
    const most = triangles === undefined ? finest : whole("triangles", triangles, 2, 0xffffffff);
    const places = 3 * Math.min(most, finest);
    void this._handle;
    return this._meanwhile(4 * places, (at) => {
      this._call("fit", tolerance, most, BigInt(at), BigInt(places), BigInt(this._core.note));
      const [count, vertices] = this._core.u32(this._core.note + 16, 2);
      const deviation = this._core.quotient();
      return { triangles: count, vertices, deviation, indices: this._core.u32(at, 3 * count).slice() };
    });
  }

  /** A text from which a checker of one's own sees that from a place no mesh of the budget is better. */
  certificate(x, y, z) {
    const place = [coordinate("x", x), coordinate("y", y), coordinate("z", z)];
    const bytes = 48 + 30 * this.state().budget;
    return this._meanwhile(bytes, (at) => {
      this._call("certificate", ...place, BigInt(at), BigInt(bytes), BigInt(this._core.note));
      return new TextDecoder("ascii").decode(this._core.bytes(at, this._core.counts(1)[0]).slice());
    });
  }

  state() {
    this._call("state", BigInt(this._core.note));
    const [side, way, evaluations] = this._core.u64(this._core.note, 3);
    const [frames, most, budget, planes] = this._core.u32(this._core.note + 24, 4);
    return { side: Number(side), way, evaluations, frames, most, budget, planes };
  }
}
