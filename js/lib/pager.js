import { CalfrewinError } from "./errors.js";
import { real, shown, whole } from "./numbers.js";
import { Page, World } from "./world.js";

const keyOf = (q, column, row) => `${q}/${column}/${row}`;

/**
 * Keeps the pages near a camera in a world: of each resolution those that are less far away, over ground, than `reach` times
 * their side, coarse before fine and near before far; what is more than half a side farther away goes. Nobody else loads or
 * unloads pages of the world.
 */
export class Pager {
  #world;
  #heights;
  #reach;
  #most;
  #atOnce;
  #coarsest;
  #pages = new Map(); // of each square near: its page, that it is loaded, or why it is not to be had
  #queue = [];
  #making = new Map();
  #isClosed = false;

  /**
   * heights(q, column, row): the heights of a square's page, at once or as a promise; nothing where there is no page. An update
   * puts in at most `most` pages, and takes out as many; `atOnce` are asked for side by side. A reach below 2 counts as 2.
   */
  constructor(world, heights, { reach = 2, most = 4, atOnce = 4 } = {}) {
    if (!(world instanceof World)) throw new TypeError(`world is ${shown(world)}, and has to be a World`);
    if (typeof heights !== "function") throw new TypeError(`heights is ${shown(heights)}, and has to be a function`);
    this.#world = world;
    this.#heights = heights;
    this.#reach = Math.max(2, real("reach", reach, 0, 1e6));
    this.#most = whole("most", most, 1, 1e6);
    this.#atOnce = whole("atOnce", atOnce, 1, 1e6);
    this.#coarsest = world.large - Math.log2(world.pageSide - 1);
  }

  /**
   * A step towards the pages near (x, y), a place as for `camera`: answers how many are left to be taken out, put in or made;
   * at 0 all are there that are to be had.
   */
  update(x, y) {
    real("x", x, -Infinity, Infinity);
    real("y", y, -Infinity, Infinity);
    let left = this.#letGo(x, y);
    let room = this.#most;
    const lacking = [];
    for (const square of this.#wanted(x, y)) {
      const it = this.#pages.get(keyOf(...square));
      if (!it) lacking.push(square);
      else if (it.page && this.#isReady(...square)) {
        if (room-- > 0) this.#load(square, it);
        else left++;
      }
    }
    this.#queue = lacking.filter((it) => !this.#making.has(keyOf(...it)));
    this.#make();
    return left + lacking.length;
  }

  /** Until all is made that the last update asked for. */
  async wait() {
    while (this.#making.size) await Promise.race(this.#making.values());
  }

  /** Once other heights stand in the world, and `heights` gives them: what is not loaded is made anew. */
  renew() {
    for (const [key, it] of this.#pages) {
      if (it.isLoaded) continue;
      it.page?.close();
      this.#pages.delete(key);
    }
    this.#making.clear(); // what comes of these is dropped
  }

  isLoaded(q, column, row) {
    if (q === this.#coarsest) return column === 0 && row === 0;
    return this.#pages.get(keyOf(q, column, row))?.isLoaded === true;
  }

  /** The squares near the camera whose page is not to be had, and why, by "q/column/row". */
  refused() {
    return new Map([...this.#pages].filter(([, it]) => it.why).map(([key, it]) => [key, it.why]));
  }

  /** Drops what is made and not loaded; what is in the world stays there. */
  close() {
    this.#isClosed = true;
    this.#queue = [];
    this.renew();
  }

  #side(q) { return (this.#world.pageSide - 1) * 2 ** q * this.#world.spacing; }

  /** How many of its sides a square is away from a place. */
  #away([q, column, row], x, y) {
    const off = (place, at) => Math.max(0, at - place, place - at - 1);
    return Math.hypot(off(x / this.#side(q), column), off(y / this.#side(q), row));
  }

  #wanted(x, y) {
    const found = [];
    for (let q = this.#coarsest - 1; q >= 0; q--) {
      const near = this.#near(q, x, y).map((it) => [this.#away(it, x, y), it]);
      found.push(...near.filter(([away]) => away < this.#reach).sort((a, b) => a[0] - b[0]).map(([, it]) => it));
    }
    return found;
  }

  /** The squares of a resolution in a box around a place. */
  #near(q, x, y) {
    const last = 2 ** (this.#coarsest - q) - 1;
    const within = (at) => Math.min(Math.max(Math.floor(at), 0), last);
    const [column, row] = [x / this.#side(q), y / this.#side(q)];
    const found = [];
    for (let r = within(row - this.#reach); r <= within(row + this.#reach); r++) {
      for (let c = within(column - this.#reach); c <= within(column + this.#reach); c++) found.push([q, c, r]);
    }
    return found;
  }

  /** Whether a page may be loaded: the next coarser one over its square is loaded, and those beside that. */
  #isReady(q, column, row) {
    const [c, r, end] = [column >> 1, row >> 1, 2 ** (this.#coarsest - q - 1)];
    const isThere = (x, y) => x < 0 || y < 0 || x >= end || y >= end || this.isLoaded(q + 1, x, y);
    return isThere(c, r) && isThere(c - 1, r) && isThere(c + 1, r) && isThere(c, r - 1) && isThere(c, r + 1);
  }

  #load(square, it) {
    try {
      this.#world.load(...square, it.page);
      it.isLoaded = true;
    } catch (why) {
      if (!(why instanceof CalfrewinError) || this.#world.isClosed) throw why;
      it.page.close();
      it.why = why;
    }
    it.page = null;
  }

  /** Lets go of what is far, of loaded pages at most `most`; answers how many of these are left. */
  #letGo(x, y) {
    let left = 0;
    let room = this.#most;
    for (const [key, it] of this.#pages) {
      if (this.#away(it.square, x, y) <= this.#reach + 0.5) continue;
      if (it.isLoaded && (room <= 0 || !this.#unload(it.square))) {
        left++;
        continue;
      }
      if (it.isLoaded) room--;
      it.page?.close();
      this.#pages.delete(key);
    }
    return left;
  }

  #unload(square) {
    try {
      this.#world.unload(...square);
      return true;
    } catch (why) {
      if (why.name === "BadPage") return false; // a finer page is still there, and goes first
      throw why;
    }
  }

  #make() {
    while (this.#queue.length && this.#making.size < this.#atOnce && !this.#isClosed) {
      const square = this.#queue.shift();
      const key = keyOf(...square);
      const made = this.#made(square).then((it) => {
        if (this.#making.get(key) !== made) return it.page?.close(); // renewed meanwhile
        this.#making.delete(key);
        this.#pages.set(key, { square, ...it });
        this.#make();
      });
      this.#making.set(key, made);
    }
  }

  async #made(square) {
    try {
      const heights = await this.#heights(...square);
      if (!heights) return { why: new CalfrewinError("there is no such page") };
      const page = new Page(heights);
      if (page.side === this.#world.pageSide) return { page };
      page.close();
      return { why: new RangeError(`the page has ${page.side} points a side, and the world's have ${this.#world.pageSide}`) };
    } catch (why) {
      return { why };
    }
  }
}
