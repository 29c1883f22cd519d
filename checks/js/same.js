// The calls of same.c through the package: lines of checksums, to be compared with its. In Node: node same.js FIRST LAST; a page
// imports `linesOf`.
import { Engine, Fitter, Page, World, load } from "../../js/index.js";
import { loaded } from "../../js/lib/module.js";

let seed = 0;
let sum = 0;
const word = () => {
  seed ^= seed << 13;
  seed ^= seed >>> 17;
  seed ^= seed << 5;
  return (seed >>>= 0);
};
const below = (end) => word() % end;
const note = (it) => {
  for (let k = 0; k < 4; k++) sum = Math.imul(sum ^ ((it >>> (8 * k)) & 255), 16777619) >>> 0;
};
const note64 = (it) => {
  note(Number(BigInt(it) & 0xffffffffn));
  note(Number(BigInt(it) >> 32n));
};
const list = (it) => it.forEach(note);
/** The exact fraction of the last answer, which the classes turn into a number. */
const fraction = () => [...loaded().u64(loaded().note, 2)];

const heights = new Uint16Array(257 * 257);
function draw(side) {
  const [kind, rough, a, b] = [below(4), below(17), below(1000), below(1000)];
  const heightOf = [
    () => (word() & 0xffff) >>> rough,
    (x, y) => (x * a + y * b) % 65536,
    (x, y) => (x * x + y * y + (word() & 15)) % 65536,
    () => (below(50) === 0 ? word() & 0xffff : 1000),
  ][kind];
  for (let k = 0; k < side * side; k++) heights[k] = heightOf(k % side, Math.floor(k / side));
}

function moved(engine, side, spacing, budget, place) {
  const steps = [0, 1].map(() => below(2 * spacing + 1) - spacing);
  [...steps, below(201) - 100].forEach((it, k) => { place[k] += it; });
  engine.camera(...place);
  if (below(4) === 0) {
    engine.look(Array.from({ length: below(5) }, () => {
      const [a, b, c] = [0, 1, 2].map(() => below(2001) - 1000);
      return [a, b, c, -(a * place[0] + b * place[1] + c * place[2])];
    }));
  }
  if (below(5) === 0) engine.set(below(side), below(side), below(65536));
  if (below(5) === 0) {
    const [x, y] = [below(side), below(side)];
    engine.raise(x, y, x + below(side - x), y + below(side - y), below(2001) - 1000);
  }
  if (below(6) === 0) engine.budget(2 + below(budget - 1));
  if (below(6) === 0) engine.threshold(below(1000000));
}

function engineOf(side) {
  const most = 2 * (side - 1) ** 2;
  const [budget, spacing, frames] = [2 + below(Math.min(most, 60000)), 1 + below(100), 3 + below(8)];
  const engine = new Engine(heights.subarray(0, side * side), budget, { spacing });
  const wide = (side - 1) * spacing + 1;
  const place = [below(wide), below(wide), below(70000)];
  for (let f = 0; f < frames; f++) {
    moved(engine, side, spacing, budget, place);
    const { worst, ...told } = engine.frame();
    note64(worst);
    list(Object.values(told));
    list(engine.indices());
    list(engine.leaves());
    const { gone, come } = engine.changed();
    list(gone);
    list(come);
  }
  for (const name of ["positions", "compact", "strip"]) list(engine[name]());
  engine.deviation();
  fraction().forEach(note64);
  for (let k = 0; k < 3; k++) {
    const error = (below(2) ? below(2000000) : 0) / 1000;
    const found = engine.fit({ error, triangles: 2 + below(most) });
    fraction().forEach(note64);
    list([found.triangles, found.vertices]);
    list(found.indices);
  }
  if (budget < 3000) list(new TextEncoder().encode(engine.certificate(...place)));
  engine.close();
}

function fitterOf(side) {
  const [count, thousandths] = [below(20), below(3000000)];
  const required = Array.from({ length: count }, () => below(side * side));
  const fitter = new Fitter(heights.subarray(0, side * side));
  note(fitter.fit(thousandths / 1000, required));
  list(fitter.indices());
  list(fitter.border());
  fitter.deviation();
  note64(fraction()[0]);
  note(fitter.more(thousandths / 1000, [below(side * side)]));
  list(fitter.leaves());
  fitter.close();
}

const terrain = new Uint16Array(65 * 65);
const pageOf = (q, column, row) => new Page(Uint16Array.from({ length: 289 }, (_, k) => {
  const [x, y] = [(column * 16 + (k % 17)) << q, (row * 16 + 16 - Math.floor(k / 17)) << q];
  return terrain[(64 - y) * 65 + x];
}));

function worldOf() {
  const [rough, budget] = [below(10), 50 + below(3000)];
  for (let k = 0; k < 65 * 65; k++) terrain[k] = (word() & 0xffff) >>> rough;
  const world = new World(pageOf(2, 0, 0), 6, budget, { spacing: 10 });
  for (let f = 0; f < 8; f++) {
    if (f < 4) world.load(1, f % 2, f >> 1, pageOf(1, f % 2, f >> 1));
    else if (f === 4) world.load(0, 1, 1, pageOf(0, 1, 1));
    else if (f === 6) world.unload(0, 1, 1);
    world.camera(below(640), below(640), below(3000));
    const { worst, evaluations, ...told } = world.frame();
    [worst, evaluations].forEach(note64);
    list(Object.values(told));
    const { draws, indices } = world.draws();
    for (const it of draws) list(Object.values(it));
    list(indices);
  }
  world.close();
}

/** The lines of the cases from `first` to `last`. */
export async function linesOf(first, last) {
  await load();
  const lines = [];
  for (let k = first; k <= last; k++) {
    [seed, sum] = [(Math.imul(k, 2654435761) + 12345) >>> 0, 2166136261];
    const side = (1 << (1 + below(8))) + 1;
    draw(side);
    const sums = [() => engineOf(side), () => fitterOf(side), worldOf].map((run) => {
      run();
      return sum.toString(16).padStart(8, "0");
    });
    lines.push(`${k} side ${side} engine ${sums[0]} fitter ${sums[1]} world ${sums[2]}`);
  }
  return lines;
}

if (globalThis.process?.argv?.[1]?.endsWith("same.js")) {
  const [first, last] = process.argv.slice(2).map(Number);
  console.log((await linesOf(first, last)).join("\n"));
}
