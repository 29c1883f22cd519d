import assert from "node:assert/strict";
import { readFile } from "node:fs/promises";
import test from "node:test";
import { BadModule, Closed, Engine, Fitter, Mosaic, NotLoaded, Page, World, compiled, fit, frustum, load, loadSync, memoryBytes, pixelThreshold } from "../index.js";
import { measured, wavy } from "./places.mjs";

const hill = [0, 0, 0, 0, 100, 0, 0, 0, 0];
const file = new URL("../calfrewin.wasm", import.meta.url);

test("nothing works before load", () => assert.throws(() => fit([0, 0, 0, 0], 2, 2, { error: 1 }), NotLoaded));
test("what is no module of this package is refused, and load can be tried again", async () => {
  await assert.rejects(load(new Uint8Array([1, 2, 3])), BadModule);
  const empty = new Uint8Array([0, 97, 115, 109, 1, 0, 0, 0]);
  await assert.rejects(load(empty), { name: "BadModule", message: /another version: it has no memory/ });
  assert.throws(() => loadSync(empty), BadModule);
  await assert.rejects(load(42), TypeError);
  await assert.rejects(load(new Response("", { status: 404 })), /404/);
});
test("load of a Response, and then of anything", async () => {
  await load(Promise.resolve(new Response(await readFile(file))));
  await Promise.all([load(), load("nowhere")]);
  loadSync(new Uint8Array());
  assert.ok(compiled() instanceof WebAssembly.Module);
});
test("fit for an error, squares and other shapes: within it, without cracks", () => {
  for (const [width, height] of [[3, 3], [65, 65], [2, 2], [60, 65], [100, 37], [2, 90], [129, 65]]) {
    const heights = wavy(width, height);
    for (const error of [0.01, 1, 7.5, 1000]) {
      const mesh = fit(heights, width, height, { error, spacing: 3 });
      assert.ok(mesh.deviation <= error * (1 + 1e-12), `${width} x ${height}: ${mesh.deviation} for ${error}`);
      assert.ok(measured(heights, mesh, width, height, 3) <= mesh.deviation + 1e-4, `${width} x ${height} at ${error}`);
    }
  }
});
test("fit for a budget", () => {
  for (const [width, height] of [[65, 65], [60, 33], [100, 37]]) {
    const heights = wavy(width, height);
    for (const triangles of [40, 300, 2000, 1e6]) {
      const mesh = fit(heights, width, height, { triangles });
      assert.ok(mesh.indices.length / 3 <= triangles);
      assert.ok(measured(heights, mesh, width, height) <= mesh.deviation + 1e-4);
    }
  }
});
test("the least mesh of a hill", () => {
  assert.equal(fit(hill, 3, 3, { error: 100 }).indices.length, 6);
  assert.equal(fit(hill, 3, 3, { error: 99.9 }).indices.length, 12);
  assert.deepEqual([...fit(hill, 3, 3, { error: 100, spacing: 10 }).positions], [0, 0, 0, 20, 0, 0, 0, 20, 0, 20, 20, 0]);
});
test("heights of each kind of array, shared ones too", () => {
  const kinds = [Uint8Array, Int8Array, Uint8ClampedArray, Int16Array, Uint16Array, Int32Array, Uint32Array, Float32Array, Float64Array, Array];
  for (const kind of kinds) assert.equal(fit(kind.from(hill), 3, 3, { triangles: 4 }).indices.length, 12, kind.name);
  const shared = new Uint16Array(new SharedArrayBuffer(18));
  shared.set(hill);
  assert.equal(fit(shared, 3, 3, { error: 1 }).indices.length, 12);
  assert.equal(new Engine(shared, 8).fit({ error: 1 }).triangles, 4);
  assert.equal(fit([NaN, 0, 0, 0, 100, 0, 0, null, 0], 3, 3, { error: 1, fill: 0 }).indices.length, 12);
  assert.deepEqual(fit([-5, -5, -5, -5], 2, 2, { error: 0 }).positions.filter((_, k) => k % 3 === 2), new Float32Array(4).fill(-5));
});
test("an engine", () => {
  const engine = new Engine(hill, 8, { spacing: 10 });
  engine.camera(10, 10, 150);
  const told = engine.frame();
  assert.deepEqual([told.triangles, told.vertices, told.blocking, typeof told.worst], [4, 5, 0, "bigint"]);
  assert.deepEqual([...engine.indices().subarray(0, 3)], [4, 6, 8]);
  assert.deepEqual([...engine.leaves()], [4, 5, 6, 7]);
  const { gone, come } = engine.changed();
  assert.deepEqual([[...gone], [...come]], [[2, 3], [4, 5, 6, 7]]);
  const own = new Uint32Array(24);
  assert.deepEqual([...engine.indices(own)], [...engine.indices()]);
  assert.equal(engine.indices(own).buffer, own.buffer);
  assert.equal(engine.threshold(257_003).frame().triangles, 2);
  assert.equal(engine.threshold(257_002).frame().triangles, 4);
  assert.equal(engine.fit({ error: 100 }).indices.length, 6);
  assert.equal(engine.fit({ triangles: 3 }).deviation, 100);
  assert.equal(engine.look([[1, 0, 0, 0], [0, 1, 0, 0]]).state().planes, 2);
  assert.equal(engine.addPlane(1, 0, 0, -5).clearPlanes().state().planes, 0);
  assert.equal(engine.set(1, 1, 0).raise(0, 0, 2, 2, 7).frame().worst, 0n);
  assert.ok(engine.positions().every((it, k) => k % 3 !== 2 || it === 7));
  assert.ok(engine.certificate(0, 0, 0).startsWith("camera 0 0 0"));
  assert.deepEqual([engine.state().side, engine.state().most, engine.deviation()], [3, 8, 0]);
  engine.close();
  engine.close();
  const calls = [() => engine.frame(), () => engine.indices(), () => engine.fit({ error: 1 }), () => engine.look([]), () => engine.changed(), () => engine.state(), () => engine.certificate(0, 0, 0), () => engine.camera(0, 0, 0)];
  for (const call of calls) assert.throws(call, Closed);
});
test("disposal", () => {
  const engine = new Engine(hill, 8);
  engine[Symbol.dispose ?? Symbol.for("Symbol.dispose")]();
  assert.ok(engine.isClosed);
});
test("tiles that meet", () => {
  const side = 17;
  const at = (column, row) => Uint16Array.from({ length: side * side }, (_, k) =>
    500 + 400 * Math.sin((column * 16 + (k % side)) / 5) * Math.cos((row * 16 + 16 - Math.floor(k / side)) / 4));
  const mosaic = new Mosaic(3, 2, side);
  const meshes = new Map();
  for (let tile = mosaic.next(); tile; tile = mosaic.next()) {
    const { places, lacks } = mosaic.required(...tile);
    assert.ok(lacks);
    const fitter = new Fitter(at(...tile));
    fitter.fit(30, places);
    mosaic.put(...tile, fitter.border());
    meshes.set(`${tile}`, new Set(fitter.indices()));
    fitter.close();
  }
  for (let column = 0; column < 2; column++) {
    for (let row = 0; row < 2; row++) {
      for (let k = 0; k < side; k++) {
        assert.equal(meshes.get(`${column},${row}`).has(k * side + 16), meshes.get(`${column + 1},${row}`).has(k * side));
      }
    }
  }
});
test("a fitter goes on with leaves that were kept, and a view of memory may be given back to the module", () => {
  const fitter = new Fitter(Uint16Array.from(wavy(65, 65), (it) => it + 60));
  const count = fitter.fit(2);
  const leaves = fitter.leaves();
  const other = new Fitter(new Uint16Array(65 * 65));
  other.restore(leaves);
  assert.deepEqual([other.leaves().length, [...other.leaves()]], [count, [...fitter.leaves()]]);
  const points = fitter.indices().subarray(0, 30);
  assert.ok(other.more(65000, points) >= count);
  assert.throws(() => other.restore([2, 2]), RangeError);
});
test("a world", () => {
  const flat = () => new Page(new Uint16Array(25).fill(9));
  const world = new World(flat(), 3, 100, { spacing: 5 });
  const page = new Page(Uint16Array.from({ length: 25 }, (_, k) => (k === 6 ? 3000 : 9)));
  world.load(0, 0, 0, page);
  assert.throws(() => page.set(0, 0, 0), Closed);
  world.camera(10, 10, 50).frame();
  const { draws, indices } = world.draws();
  assert.equal(draws.reduce((sum, it) => sum + it.triangles, 0) * 3, indices.length);
  assert.ok(draws.some((it) => it.q === 0));
  assert.throws(() => world.load(0, 0, 0, flat()), { name: "BadPage" });
  world.unload(0, 0, 0);
  assert.throws(() => world.unload(0, 0, 0), { name: "BadPage" });
  assert.ok(world.frame().triangles >= 2);
  world.close();
  assert.throws(() => world.frame(), Closed);
});
test("memory is used again", () => {
  const heights = new Uint16Array(257 * 257).fill(3);
  let before;
  for (let k = 0; k < 40; k++) {
    const engine = new Engine(heights, 20000);
    engine.camera(k, k, 100).frame();
    engine.indices();
    fit(heights, 257, 257, { error: 1 });
    engine.close();
    if (k === 10) before = memoryBytes();
  }
  assert.equal(memoryBytes(), before);
});
test("what nobody closed is closed once it is garbage", async (t) => {
  if (!globalThis.gc) return t.skip("node --expose-gc");
  const heights = new Uint16Array(513 * 513);
  const open = () => { for (let k = 0; k < 3; k++) new Engine(heights, 50000).frame(); };
  let before;
  for (let k = 0; k < 12; k++) {
    open();
    globalThis.gc();
    await new Promise((done) => setTimeout(done, 20));
    if (k === 5) before = memoryBytes();
  }
  assert.ok(memoryBytes() <= before * 1.5, `${memoryBytes()} after ${before}`);
});
test("pixels and planes", () => {
  assert.equal(pixelThreshold(1, 45, 1080), Math.floor((262144 * Math.tan(Math.PI / 8)) / 1080));
  const planes = frustum([100, 100, 50], [1, 1, -0.2], 60);
  const within = (x, y, z) => planes.every(([a, b, c, d]) => a * x + b * y + c * z + d >= 0);
  assert.ok(within(200, 200, 30) && !within(0, 0, 80) && !within(200, 0, 30));
  assert.throws(() => frustum([0, 0, 0], [0, 0, 1], 60), RangeError);
});
