// The module of WebAssembly: compiled once, with one memory for all that this package opens.

import { BadModule, Broken, CalfrewinError, NotLoaded, OutOfMemory } from "./errors.js";

/** The calls of roam.h that this package makes; a module of another version may lack some. */
const CALLS = [
  "open", "close", "camera", "add_plane", "clear_planes", "look", "renew", "threshold", "budget", "set", "raise", "frame",
  "indices", "leaves", "positions", "compact", "strip", "deviation", "fit", "certificate", "changed", "state",
  "fitter_open", "fitter_close", "fitter_fit", "fitter_more", "fitter_indices", "fitter_leaves", "fitter_border",
  "fitter_deviation", "fitter_restore", "mosaic_open", "mosaic_close", "mosaic_next", "mosaic_required", "mosaic_put",
  "page_make", "page_drop", "page_set_height", "page_raise", "world_open", "world_close", "world_load", "world_unload",
  "world_set_height", "world_raise", "world_camera", "world_look", "world_threshold", "world_budget", "world_frame",
  "world_leaves", "world_draws",
].map((it) => `roam_${it}`);
const NOTE_BYTES = 128;

let core = null;
let loading = null;

/**
 * Compiles the module once; later calls give the same promise. `source`: bytes, a URL, a Response or a promise of one, or a
 * WebAssembly.Module, as a worker is sent; without it the file beside this package.
 */
export function load(source) {
  loading ??= moduleOf(source).then(
    (module) => { core ??= new Core(module); },
    (why) => { throw why; });
  return loading.catch((why) => {
    if (!core) loading = null;
    throw why;
  });
}

/** The same at once, of bytes or a WebAssembly.Module: for workers and Node, where a thread may wait for the compiler. */
export function loadSync(source) {
  if (core) return;
  core = new Core(source instanceof WebAssembly.Module ? source : bytesTo((it) => new WebAssembly.Module(it), source));
  loading = Promise.resolve();
}

function bytesTo(compile, source) {
  try {
    return compile(source);
  } catch (why) {
    throw new BadModule(`this is not the module of calfrewin: ${why.message}`, { cause: why });
  }
}

async function moduleOf(source) {
  if (source instanceof WebAssembly.Module) return source;
  if (ArrayBuffer.isView(source) || source instanceof ArrayBuffer) return compiledOf(source);
  if (source === undefined || typeof source === "string" || source instanceof URL) return moduleAt(source);
  return moduleOfReply(await source);
}

async function compiledOf(bytes) {
  try {
    return await WebAssembly.compile(bytes);
  } catch (why) {
    throw new BadModule(`this is not the module of calfrewin: ${why.message}`, { cause: why });
  }
}

async function moduleAt(place) {
  const base = globalThis.document?.baseURI ?? globalThis.location?.href ?? import.meta.url;
  const url = place === undefined ? new URL("../calfrewin.wasm", import.meta.url) : new URL(place, base);
  if (url.protocol === "file:" && globalThis.process?.versions?.node) {
    const { readFile } = await import("node:fs/promises");
    return compiledOf(await readFile(url));
  }
  return moduleOfReply(await fetch(url));
}

async function moduleOfReply(reply) {
  if (typeof reply?.arrayBuffer !== "function") throw new TypeError("load() takes bytes, a URL, a Response or a module");
  if (!reply.ok) throw new CalfrewinError(`${reply.url} cannot be read: ${reply.status} ${reply.statusText}`);
  return compiledOf(await reply.arrayBuffer());
}

export class Core {
  constructor(module) {
    let made;
    try {
      made = new WebAssembly.Instance(module).exports;
    } catch (why) {
      throw new BadModule(`this is not the module of calfrewin: ${why.message}`, { cause: why });
    }
    const lacking = ["memory", "take", "give", ...CALLS].filter((it) => !(it in made));
    if (lacking.length) throw new BadModule(`the module is of another version: it has no ${lacking[0]}`);
    this.module = module;
    this.exports = made;
    this.isBroken = false;
    this.note = this.take(NOTE_BYTES); // answers of fixed size, each read before another call is made
    this.empty = this.take(16); // a place for a list without numbers, since roam.h takes no null
    this.registry = new FinalizationRegistry((held) => this.release(held)); // what nobody closed and nobody has any more
  }

  /** One call; once one has trapped, all throw. */
  enter(name, ...words) {
    if (this.isBroken) throw new Broken("the module has trapped: it has to be loaded anew, as in a new worker");
    try {
      return this.exports[name](...words);
    } catch (why) {
      this.isBroken = true;
      throw new Broken(`the module trapped: ${why.message}`, { cause: why });
    }
  }

  take(bytes) {
    const at = Number(BigInt.asUintN(32, this.enter("take", BigInt(bytes))));
    if (!at) throw new OutOfMemory(`there is no room for ${bytes} bytes`);
    return at;
  }

  give(at) {
    if (at && !this.isBroken) this.enter("give", BigInt(at));
  }

  /** Closes what a handle owns, and gives back its rooms. */
  release({ handle, end, rooms }) {
    if (this.isBroken) return;
    this.enter(end, BigInt(handle));
    this.give(handle);
    for (const it of rooms.values()) this.give(it.at);
    rooms.clear();
  }

  // Memory moves when it grows, so each use makes its view anew.
  u16(at, count) { return new Uint16Array(this.exports.memory.buffer, at, count); }
  u32(at, count) { return new Uint32Array(this.exports.memory.buffer, at, count); }
  u64(at, count) { return new BigUint64Array(this.exports.memory.buffer, at, count); }
  i64(at, count) { return new BigInt64Array(this.exports.memory.buffer, at, count); }
  bytes(at, count) { return new Uint8Array(this.exports.memory.buffer, at, count); }
  /** The numbers of 64 bits of the last answer, as numbers. */
  counts(count) { return Array.from(this.u64(this.note, count), Number); }
  /** A fraction of the last answer. */
  quotient() {
    const [off, over] = this.counts(2);
    return off / over;
  }
}

export function loaded() {
  if (!core) throw new NotLoaded("call and await load() first");
  return core;
}
/** The compiled module, to be sent to a worker, where `load(module)` compiles nothing. */
export function compiled() { return loaded().module; }
/** The bytes of memory that the module has; they stay taken, and serve what is opened later. */
export function memoryBytes() { return loaded().exports.memory.buffer.byteLength; }
