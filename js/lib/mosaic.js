import { MOST, places, sideOf, whole } from "./numbers.js";
import { Owner } from "./owner.js";

/** Which border points the meshes of a terrain's tiles have, and which tile has to be fitted next, until all meet. */
export class Mosaic extends Owner {
  #columns;
  #rows;
  #side;

  constructor(columns, rows, side) {
    const wide = whole("columns", columns, 1, 65536);
    const high = whole("rows", rows, 1, 65536);
    const points = whole("side", side, 3, MOST.side);
    if (!sideOf(points * points)) throw new RangeError(`side is ${points}, and has to be one of 3, 5, 9, .. 16385`);
    super("mosaic_", "close");
    this._open(() => this._call("open", wide, high, points));
    [this.#columns, this.#rows, this.#side] = [wide, high, points];
  }

  #tile(column, row) { return [whole("column", column, 0, this.#columns - 1), whole("row", row, 0, this.#rows - 1)]; }

  /** The next tile that has to be fitted, as [column, row], or null. Column 0 is the left one, row 0 the near one. */
  next() {
    this._call("next", BigInt(this._core.note));
    const [column, row, waits] = this._core.u32(this._core.note, 3);
    return waits ? [column, row] : null;
  }

  /** The places that the tile's mesh has to have, and whether it lacks one of them. */
  required(column, row) {
    const tile = this.#tile(column, row);
    const most = 4 * (this.#side - 1);
    void this._handle;
    const room = this._room("required", 4 * most);
    this._call("required", ...tile, BigInt(room), BigInt(most), BigInt(this._core.note));
    const [lacks] = this._core.u32(this._core.note + 8, 1);
    return { places: this._core.u32(room, this._core.counts(1)[0]).slice(), lacks: lacks === 1 };
  }

  /** Keeps the border points of the tile's mesh, as `border` of a fitter gives them. */
  put(column, row, border) {
    const tile = this.#tile(column, row);
    const list = places("a border place", border, this.#side ** 2 - 1);
    this._with(list, (at, count) => this._call("put", ...tile, at, count));
  }
}
