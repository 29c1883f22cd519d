import assert from "node:assert/strict";
import { deflateSync } from "node:zlib";
import test from "node:test";
import { Worker } from "node:worker_threads";
import { compiled, load } from "../index.js";
import Delatin from "../delatin.js";
import Martini from "../martini.js";
import { heightsOf, heightsOfPng, mercatorTile, quantizedTile, tileMesh } from "../terrain.js";
import { measured } from "./places.mjs";

await load();
const side = 65;
const ground = (x, y) => 300 + 200 * Math.sin(x / 11) * Math.cos(y / 7) + 3 * Math.sin(x * 1.3) + 90 * Math.exp(-((x - 58) ** 2 + (y - 30) ** 2) / 30);
const at = (left, top) => Float32Array.from({ length: side * side }, (_, k) => Math.round(ground(left + (k % side), top + Math.floor(k / side))));
/** A mesh of columns and rows with the terrain's heights, as `measured` takes it. */
const raised = ({ vertices, triangles }, terrain, wide, high) => ({
  indices: triangles,
  positions: Float64Array.from({ length: (vertices.length / 2) * 3 }, (_, k) => {
    const [x, y] = vertices.slice(2 * Math.floor(k / 3));
    return [x, high - 1 - y, terrain[y * wide + x]][k % 3];
  }),
});

test("in the place of MARTINI: its calls and its sense of rotation, and maxError holds at each point", () => {
  const terrain = at(0, 0);
  const tile = new Martini(side).createTile(terrain);
  for (const most of [0, 0.5, 2, 10, 60, 500]) {
    const mesh = tile.getMesh(most);
    assert.ok(mesh.vertices instanceof Uint16Array && mesh.triangles instanceof Uint32Array);
    assert.ok(measured(terrain, raised(mesh, terrain, side, side), side, side) <= most + 1e-6);
    assert.ok(tile.deviation() <= most + 1e-9);
  }
  assert.throws(() => new Martini(64), /2\^n\+1/);
  assert.throws(() => new Martini(65).createTile(new Float32Array(64)), /Expected terrain data/);
  terrain.fill(7);
  tile.update();
  assert.equal(tile.getMesh(0).triangles.length, 6);
});
test("neighbouring tiles crack without `required`, and meet with it", () => {
  const left = new Martini(side).createTile(at(0, 0));
  const right = new Martini(side).createTile(at(side - 1, 0));
  const rows = ({ vertices }, column) => new Set([...vertices].filter((_, k) => k % 2 && vertices[k - 1] === column));
  const isSame = (a, b) => a.size === b.size && [...a].every((it) => b.has(it));
  assert.ok(!isSame(rows(left.getMesh(3), side - 1), rows(right.getMesh(3), 0)), "these two happen to meet");
  let [need, other, mine, theirs] = [[], [], null, null];
  for (let k = 0; k < 10; k++) {
    mine = rows(left.getMesh(3, { required: need }), side - 1);
    theirs = rows(right.getMesh(3, { required: other }), 0);
    other = [...mine].map((row) => row * side);
    need = [...theirs].map((row) => row * side + side - 1);
    if (isSame(mine, theirs)) break;
  }
  assert.ok(isSame(mine, theirs));
});
test("in the place of delatin", () => {
  const terrain = at(0, 0).subarray(0, 40 * 65);
  const it = new Delatin(terrain, 65, 40);
  it.run(5);
  assert.ok(it.getMaxError() <= 5 && it.heightAt(3, 2) === terrain[2 * 65 + 3]);
  const mesh = raised({ vertices: [...it.coords], triangles: it.triangles }, terrain, 65, 40);
  assert.ok(measured(terrain, mesh, 65, 40) <= 5 + 1e-6);
});
const encoded = (heights) => {
  const data = new Uint8ClampedArray(4 * heights.length);
  heights.forEach((it, k) => {
    const v = Math.round((it + 10000) * 10);
    data.set([v >> 16, (v >> 8) & 255, v & 255, 255], 4 * k);
  });
  return data;
};
test("a tile of raster-dem, with the rows of its neighbours", () => {
  const width = 64;
  const image = (left, top) => ({ width, height: width, data: encoded(Array.from({ length: width * width }, (_, k) => ground(left + (k % width), top + Math.floor(k / width)))) });
  const [here, right, below, corner] = [image(0, 0), image(width, 0), image(0, width), image(width, width)];
  const heights = heightsOf(here, "mapbox", { right, below, corner });
  for (const [x, y] of [[0, 0], [64, 3], [5, 64], [64, 64]]) assert.ok(Math.abs(heights[y * 65 + x] - ground(x, y)) <= 0.0501, `${x} ${y}`);
  assert.equal(heightsOf(here)[64], heightsOf(here)[63]);
  assert.throws(() => heightsOf(here, "other"), RangeError);
  const mesh = tileMesh(heights, 65, { error: 2, bounds: [0, 0, 64, 64] });
  const { POSITION, TEXCOORD_0 } = mesh.attributes;
  assert.ok(mesh.deviation <= 2 && measured(heights, { positions: POSITION.value, indices: mesh.indices.value }, 65, 65) <= mesh.deviation + 1e-3);
  assert.equal(POSITION.value.length / 3, TEXCOORD_0.value.length / 2);
  const terrarium = heightsOf({ width: 1, height: 1, data: Uint8Array.of(128, 7, 128, 255) }, "terrarium");
  assert.deepEqual([...terrarium], [7.5, 7.5, 7.5, 7.5]);
});
test("a tile in the coordinates of MapLibre's custom layers", () => {
  const { bounds, scale } = mercatorTile(1, 0, 0);
  assert.deepEqual(bounds, [0, 0.5, 0.5, 0]);
  assert.ok(scale > 1 / 40075017 && scale < 3 / 40075017);
});
function pngOf(width, height, bits, rows) {
  const chunk = (name, data) => {
    const head = Buffer.alloc(8);
    head.writeUInt32BE(data.length);
    head.write(name, 4);
    return Buffer.concat([head, data, Buffer.alloc(4)]);
  };
  const ihdr = Buffer.alloc(13);
  ihdr.writeUInt32BE(width);
  ihdr.writeUInt32BE(height, 4);
  ihdr[8] = bits;
  return Buffer.concat([Buffer.from([137, 80, 78, 71, 13, 10, 26, 10]), chunk("IHDR", ihdr), chunk("IDAT", deflateSync(Buffer.from(rows.flat()))), chunk("IEND", Buffer.alloc(0))]);
}
test("PNG of 16 bits, by each filter", async () => {
  // Worked by hand: none, left, above, half of both, Paeth's.
  const rows = [[0, 1, 2, 2, 3], [1, 1, 3, 1, 2], [2, 0, 1, 0, 2], [3, 1, 3, 1, 131], [4, 0, 1, 0, 2]];
  const { heights, width, height } = await heightsOfPng(pngOf(2, 5, 16, rows));
  assert.deepEqual([width, height], [2, 5]);
  assert.deepEqual([...heights], [258, 515, 259, 517, 260, 519, 261, 649, 262, 651]);
  await assert.rejects(heightsOfPng(pngOf(2, 5, 4, rows)), /4 bits/);
  await assert.rejects(heightsOfPng(pngOf(2, 5, 16, [[9, 0, 0, 0, 0], ...rows.slice(1)])), /filter 9/);
  await assert.rejects(heightsOfPng(pngOf(2, 9, 16, rows)), /ends too early/);
  await assert.rejects(heightsOfPng(Uint8Array.of(1, 2)), /no PNG/);
});
test("a tile of quantized-mesh: its triangles cover the tile, its heights are kept", () => {
  const heights = at(0, 0);
  const bytes = quantizedTile(heights, side, { error: 4, bounds: [7, 46, 7.1, 46.1] });
  const view = new DataView(bytes.buffer);
  const count = view.getUint32(88, true);
  const numbers = (from, n) => Array.from({ length: n }, (_, k) => view.getUint16(from + 2 * k, true));
  const values = [0, 1, 2].map((k) => {
    let sum = 0;
    return numbers(92 + 2 * count * k, count).map((it) => (sum += (it >> 1) ^ -(it & 1)));
  });
  const from = 92 + 6 * count;
  const triangles = view.getUint32(from, true);
  let highest = 0;
  const indices = numbers(from + 4, 3 * triangles).map((it) => (it === 0 ? highest++ : highest - it));
  const [low, high] = [view.getFloat32(24, true), view.getFloat32(28, true)];
  const positions = Float64Array.from({ length: 3 * count }, (_, k) => {
    const it = values[k % 3][Math.floor(k / 3)] / 32767;
    return k % 3 === 2 ? low + it * (high - low) : Math.round(it * (side - 1) * 1e6) / 1e6;
  });
  const snapped = { indices, positions: positions.map((it, k) => (k % 3 === 2 ? it : Math.round(it))) };
  assert.ok(measured(heights, snapped, side, side) <= 4.1);
  const sides = [];
  for (let place = from + 4 + 6 * triangles; place < bytes.length; place += 4 + 2 * sides.at(-1).length) sides.push(numbers(place + 4, view.getUint32(place, true)));
  assert.equal(sides.length, 4);
  for (const [k, axis, end] of [[0, 0, 0], [1, 1, 0], [2, 0, 32767], [3, 1, 32767]]) {
    assert.equal(sides[k].length, values[axis].filter((it) => it === end).length);
    assert.ok(sides[k].every((it) => values[axis][it] === end));
  }
  const radius = Math.hypot(...[0, 8, 16].map((it) => view.getFloat64(it, true)));
  assert.ok(radius > 6.3e6 && radius < 6.4e6);
});
test("in a worker, with the module that is compiled already", async () => {
  const code = `import("${new URL("../index.js", import.meta.url)}").then(async ({ load, fit }) => {
    const { parentPort, workerData } = await import("node:worker_threads");
    await load(workerData);
    const mesh = fit(new Uint16Array(81), 9, 9, { error: 1 });
    parentPort.postMessage(mesh, [mesh.positions.buffer, mesh.indices.buffer]);
  })`;
  const worker = new Worker(code, { eval: true, workerData: compiled() });
  const mesh = await new Promise((done, failed) => {
    worker.on("message", done);
    worker.on("error", failed);
  });
  assert.equal(mesh.indices.length, 6);
  await worker.terminate();
});
