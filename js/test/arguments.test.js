// Bad arguments of every kind: each call does its work or throws an error with a name, and the module stays as good as before.
import assert from "node:assert/strict";
import test from "node:test";
import { Broken, CalfrewinError, Closed, Engine, Fitter, Mosaic, OutOfMemory, Page, Refused, World, fit, load, pixelThreshold } from "../index.js";
import { loaded } from "../lib/module.js";
import Martini from "../martini.js";
import { words } from "./places.mjs";

await load();
const core = loaded();
const word = words(1);
const pick = (list) => list[word() % list.length];
const detached = () => {
  const it = new Uint16Array(9);
  structuredClone(it, { transfer: [it.buffer] });
  return it;
};
const odd = () => pick([
  NaN, Infinity, -Infinity, -1, 0, 1, 2, 3, 0.5, 8, 9, 25, 100, 1e9, 2 ** 31, 2 ** 32, 2 ** 53, 1e300, -0, "", "3", "x", null, undefined,
  true, {}, [], [1, 2, 3], [0, 0, 0, 0], () => 1, Symbol("s"), 1n, -(2n ** 70n), new Date(0), detached(), new Uint16Array(9),
  new Uint16Array(new SharedArrayBuffer(18)), new Uint32Array(9), new Float32Array(9).fill(NaN), new Float64Array(25).fill(1e300),
  new BigInt64Array(9), new ArrayBuffer(18), new DataView(new ArrayBuffer(18)), new Array(9), { length: 9 },
  { valueOf() { throw new Error("mine"); } }, { valueOf: () => 3 }, new Proxy([], {}), [[1, 0, 0, 0]], [[1, 2, 3]], [null], [[NaN, 0, 0, 0]],
]);
const hill = Uint16Array.of(0, 0, 0, 0, 100, 0, 0, 0, 0);
const isNamed = (why) => [TypeError, RangeError, CalfrewinError].some((it) => why instanceof it) || why?.message === "mine";
const open = [
  () => new Engine(hill, 8, { spacing: 10 }), () => new Fitter(hill), () => new Mosaic(2, 2, 5), () => new Page(new Uint16Array(25)),
  () => new World(new Page(new Uint16Array(9)), 2, 50),
];

function callsOf(it) {
  const names = new Set();
  for (let from = Object.getPrototypeOf(it); from !== Object.prototype; from = Object.getPrototypeOf(from)) {
    for (const name of Object.getOwnPropertyNames(from)) {
      const { value } = Object.getOwnPropertyDescriptor(from, name);
      if (name !== "constructor" && !name.startsWith("_") && typeof value === "function") names.add(name);
    }
  }
  return [...names];
}

test("any arguments of any call", () => {
  let thrown = 0;
  let done = 0;
  const attempt = (call) => {
    try {
      call();
      done++;
    } catch (why) {
      thrown++;
      assert.ok(isNamed(why) && !(why instanceof Broken) && !(why instanceof Refused), why?.stack);
    }
  };
  const held = open.map((it) => it());
  const options = () => pick([{ error: odd() }, { triangles: odd() }, { error: 1, spacing: odd() }, { error: 1, unit: odd() }, { error: 1, fill: odd() }, odd()]);
  const others = [
    () => new (pick([Engine, Fitter, Mosaic, Page, World, Martini]))(...Array.from({ length: word() % 5 }, odd)),
    () => fit(...Array.from({ length: 4 }, odd)),
    () => fit(pick([hill, odd()]), pick([3, odd()]), pick([3, odd()]), options()),
    () => pixelThreshold(odd(), odd(), odd()),
    () => new Martini(3).createTile(pick([hill, odd()])).getMesh(odd(), { required: odd() ?? [] }),
  ];
  for (let k = 0; k < 30000; k++) {
    const which = word() % held.length;
    const it = held[which];
    const name = pick(callsOf(it));
    const given = Array.from({ length: word() % 6 }, () => (word() % 3 ? word() % 4 : odd()));
    if (name !== "close" || word() % 20 === 0) attempt(() => it[name](...given));
    if (it.isClosed) {
      assert.throws(() => it._call("state", 0n), Closed);
      held[which] = open[which]();
    }
    attempt(others[k % others.length]);
  }
  assert.ok(thrown > 15000 && done > 2500, `${thrown} thrown, ${done} done`);
  assert.equal(core.isBroken, false);
  for (const it of held) it.close();
  assert.equal(fit(hill, 3, 3, { error: 0 }).indices.length, 12);
});
test("each wrong argument has an error that names it", () => {
  const engine = new Engine(hill, 8);
  const cases = [
    [() => new Engine(detached(), 8), TypeError, /heights has no buffer|heights are 0 numbers/],
    [() => new Engine(new Uint16Array(new SharedArrayBuffer(16)), 8), RangeError, /heights are 8 numbers/],
    [() => new Engine(new BigInt64Array(9), 8), TypeError, /heights has BigInts/],
    [() => new Engine([0, 0, 0, 0, NaN, 0, 0, 0, 0], 8), RangeError, /height 4 is NaN/],
    [() => new Engine(hill, 8n), TypeError, /budget is 8/],
    [() => engine.camera(1n, 0, 0), TypeError, /x is 1/],
    [() => engine.camera(NaN, 0, 0), RangeError, /x is NaN/],
    [() => engine.indices(new Uint16Array(99)), TypeError, /out is/],
    [() => engine.frame() && engine.indices(new Uint32Array(2)), RangeError, /out has 2 places/],
    [() => fit(hill, 3, 2, { error: 1 }), RangeError, /width x height is 6/],
    [() => fit([1, NaN, 2, 3], 2, 2, { error: 1 }), RangeError, /1 heights are NaN/],
    [() => fit(hill, 3, 3, { error: 1, triangles: 4 }), TypeError, /one of error and triangles/],
    [() => fit([0.1, 0.2, 0.3, 60000.4], 2, 2, { error: 1e-9 }), RangeError, /give a finer unit/],
  ];
  for (const [call, kind, words_] of cases) {
    assert.throws(call, (why) => (why instanceof kind || /detached|0 numbers/.test(why.message)) && words_.test(why.message), String(call));
  }
});
test("arguments that call back", () => {
  const engine = new Engine(hill, 8);
  const sly = { [Symbol.iterator]: function* closing() { engine.close(); yield [1, 0, 0, 0]; } };
  assert.throws(() => engine.look(sly), Closed);
  const other = new Engine(hill, 8);
  const list = [0, 1];
  Object.defineProperty(list, 0, { get() { other.close(); return 4; } });
  assert.throws(() => new Fitter(hill).restore(list), RangeError);
  assert.ok(other.isClosed);
  const fitter = new Fitter(hill);
  const closes = new Proxy([1], { get(target, name) { if (name === "0") fitter.close(); return target[name]; } });
  assert.throws(() => fitter.fit(1, closes), Closed);
  assert.throws(() => new Engine(hill, 8).fit({ get error() { return NaN; } }), RangeError);
});
test("sizes beyond memory, and all goes on", () => {
  assert.throws(() => new Engine({ length: 1e18 }, 8), TypeError);
  assert.throws(() => fit(new Uint8Array(4), 2 ** 20, 2 ** 20, { error: 1 }), RangeError);
  const many = [];
  const heights = new Uint16Array(2049 * 2049);
  try {
    assert.throws(() => { for (let k = 0; k < 100; k++) many.push(new Engine(heights, 1048576)); }, OutOfMemory);
  } finally {
    for (const it of many) it.close();
  }
  assert.equal(core.isBroken, false);
  assert.equal(fit(hill, 3, 3, { error: 0 }).indices.length, 12);
});
