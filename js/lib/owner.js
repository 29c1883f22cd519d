// What owns something of the module by a handle.

import { Closed, errorOf } from "./errors.js";
import { loaded } from "./module.js";
import { MOST, coordinate, planeOf, shown, whole } from "./numbers.js";

const dispose = Symbol.dispose ?? Symbol.for("Symbol.dispose");
const HANDLE_BYTES = 16;

export class Owner {
  #core = loaded();
  #rooms = new Map();
  #prefix;
  #held;

  /** `prefix` and `end` are those of its calls in roam.h, after `roam_`. */
  constructor(prefix, end) {
    this.#prefix = `roam_${prefix}`;
    const handle = this.#core.take(HANDLE_BYTES);
    this.#core.u64(handle, 2).fill(0n);
    this.#held = { handle, end: this.#prefix + end, rooms: this.#rooms };
    this.#core.registry.register(this, this.#held, this);
  }

  get isClosed() { return this.#held === null; }

  /** Lets go of what is owned; closing twice does nothing. Views that calls gave must not be used any more. */
  close() {
    const held = this.#held;
    if (!held) return;
    this.#held = null;
    this.#core.registry.unregister(this);
    this.#core.release(held);
  }

  [dispose]() { this.close(); }

  get _core() { return this.#core; }
  get _handle() {
    if (!this.#held) throw new Closed(`this ${this.constructor.name} is closed`);
    return BigInt(this.#held.handle);
  }

  /** One call; an answer that is not OK becomes an error. */
  _call(name, ...words) {
    const call = this.#prefix + name;
    const answer = this.#core.enter(call, this._handle, ...words);
    if (answer !== 0) throw errorOf(call, answer);
  }

  /** The first call; where it is refused nothing stays behind. */
  _open(open) {
    try {
      open();
    } catch (why) {
      this.close();
      throw why;
    }
  }

  /** Room that stays with the owner; a larger one takes the place of a smaller. */
  _room(name, bytes) {
    const it = this.#rooms.get(name);
    if (it && it.bytes >= bytes) return it.at;
    if (it) {
      this.#rooms.delete(name);
      this.#core.give(it.at);
    }
    const at = this.#core.take(Math.max(bytes, 16));
    this.#rooms.set(name, { at, bytes });
    return at;
  }

  /** Room for one use. */
  _meanwhile(bytes, use) {
    const at = this.#core.take(Math.max(bytes, 16));
    try {
      return use(at);
    } finally {
      this.#core.give(at);
    }
  }

  /** A list in the module for one call, which is given its place and its length. */
  _with(list, use) {
    if (!list.length) return use(BigInt(this.#core.empty), 0n);
    const bytes = list.BYTES_PER_ELEMENT;
    // A view of the module's memory is lost where the room for it makes memory grow.
    const kept = list.buffer === this.#core.exports.memory.buffer ? list.slice() : list;
    return this._meanwhile(bytes * kept.length, (at) => {
      (bytes === 2 ? this.#core.u16(at, kept.length) : this.#core.u32(at, kept.length)).set(kept);
      return use(BigInt(at), BigInt(kept.length));
    });
  }

  /** The list that a call writes, `each` numbers for each of at most `most`: a view of memory, or copied into `out`. */
  _list(name, each, most, out) {
    if (out !== undefined && !(out instanceof Uint32Array)) throw new TypeError(`out is ${shown(out)}, and has to be a Uint32Array`);
    const { note } = this.#core;
    void this._handle;
    const room = this._room(name, 4 * each * most);
    this._call(name, BigInt(room), BigInt(each * most), BigInt(note));
    const found = this.#core.u32(room, each * this.#core.counts(1)[0]);
    if (out === undefined) return found;
    if (out.length < found.length) throw new RangeError(`out has ${out.length} places, and ${found.length} are wanted`);
    out.set(found);
    return out.subarray(0, found.length);
  }

  _deviation() {
    this._call("deviation", BigInt(this.#core.note));
    return this.#core.quotient();
  }
}

/** What makes a mesh for a view. */
export class Viewed extends Owner {
  _most = 0; // the budget at opening

  /** Puts the camera to a place in world units; numbers are rounded. */
  camera(x, y, z) {
    this._call("camera", coordinate("x", x), coordinate("y", y), coordinate("z", z));
    return this;
  }

  /** Puts at most six planes [a, b, c, d] in force, in the place of those before; inside is a x + b y + c z + d >= 0. */
  look(planes) {
    const found = Array.from(planes, planeOf);
    if (found.length > MOST.planes) throw new RangeError(`planes are ${found.length}, and may be ${MOST.planes}`);
    void this._handle;
    const at = this._room("planes", 32 * MOST.planes);
    this._core.i64(at, 4 * found.length).set(found.flat());
    this._call("look", BigInt(at), BigInt(found.length));
    return this;
  }

  /** Puts a threshold in force: what `pixelThreshold` gives. */
  threshold(ratio) {
    this._call("threshold", BigInt(whole("ratio", ratio, 0, Number.MAX_SAFE_INTEGER)));
    return this;
  }

  /** Puts another budget in force, from 2 to that at opening. */
  budget(triangles) {
    this._call("budget", whole("triangles", triangles, 2, this._most));
    return this;
  }

  /** The address of each triangle of the last frame's mesh: a number that names it in every frame. */
  leaves(out) { return this._list("leaves", 1, this._most, out); }
}
