// A tile of heights to vertices and triangles: the package for JavaScript, and MARTINI's way in plain JavaScript (rtin.js), by turns; and
// the engine's frames. Processor milliseconds, the least of the runs.
//
// usage: node bench/javascript.js MODULE.wasm [SIDE..]      sides of 2^n + 1; 257 513 1025 2049, if none is given
import { readFileSync } from "node:fs";
import { Engine, loadSync, memoryBytes } from "../js/index.js";
import Martini from "../js/martini.js";
import { Rtin, deviationOf } from "./rtin.js";

const ERRORS = [20, 100];
const TRIES = 12; // halvings of MARTINI's tolerance, to be within the error
const FRAMES = 60;
const [module, ...sides] = process.argv.slice(2);
loadSync(readFileSync(module));
const clock = () => {
  const { user, system } = process.cpuUsage();
  return (user + system) / 1000;
};

/** Mountains of waves by halves, with a little noise: the same for each run. */
function made(side) {
  let seed = 12345;
  const noise = () => (seed = (Math.imul(seed, 1664525) + 1013904223) >>> 0) / 2 ** 32;
  const waves = Array.from({ length: 11 }, (_, k) => [2 ** k * 3, 6000 / 2 ** k, noise() * 6, noise() * 6]);
  return Float32Array.from({ length: side * side }, (_, k) => {
    const [x, y] = [(k % side) / (side - 1), Math.floor(k / side) / (side - 1)];
    const sum = waves.reduce((all, [often, high, a, b]) => all + high * Math.sin(often * x + a) * Math.cos(often * y + b), 0);
    return Math.round(20000 + sum + noise() * 4);
  });
}

/** The ways by turns; of each the least time and its last answer. */
function timed(ways, runs) {
  const best = Object.fromEntries(Object.keys(ways).map((name) => [name, { time: Infinity }]));
  for (let k = 0; k < runs; k++) {
    for (const [name, work] of Object.entries(ways)) {
      const from = clock();
      const mesh = work();
      best[name] = { time: Math.min(best[name].time, clock() - from), mesh };
    }
  }
  return best;
}

/** Of MARTINI's tolerances the greatest whose mesh is within the error, by halving: its triangles. */
function tuned(rtin, terrain, side, error) {
  const errors = rtin.errors(terrain);
  let [low, high, found] = [0, 2 * error, rtin.mesh(errors, 0)];
  for (let k = 0; k < TRIES; k++) {
    const middle = (low + high) / 2;
    const mesh = rtin.mesh(errors, middle);
    if (deviationOf(terrain, side, mesh.vertices) <= error) [low, found] = [middle, mesh];
    else high = middle;
  }
  return found.triangles.length / 3;
}

function tell(side) {
  const terrain = made(side);
  const rtin = new Rtin(side);
  const runs = side > 600 ? 5 : 20;
  for (const error of ERRORS) {
    const ours = () => {
      const tile = new Martini(side).createTile(terrain);
      const mesh = tile.getMesh(error);
      tile.close();
      return mesh;
    };
    const found = timed({ calfrewin: ours, rtin: () => rtin.mesh(rtin.errors(terrain), error) }, runs);
    for (const [name, { time, mesh }] of Object.entries(found)) {
      const off = deviationOf(terrain, side, mesh.vertices);
      console.log(`| ${side} | ${error} | ${name} | ${time.toFixed(1)} | ${mesh.triangles.length / 3} | ${off.toFixed(1)} |`);
    }
    console.log(`| ${side} | ${error} | rtin, tuned | | ${tuned(rtin, terrain, side, error)} | at most ${error} |`);
  }
  console.log(`memory: the module ${(memoryBytes() / 1e6).toFixed(1)} MB, rtin ${((rtin.bytes + 4 * side * side) / 1e6).toFixed(1)} MB`);
  frames(terrain, side);
}

function frames(terrain, side) {
  const engine = new Engine(Uint16Array.from(terrain), 20000, { spacing: 30 });
  let [x, least] = [(side - 1) * 10, Infinity];
  engine.camera(x, (side - 1) * 15, 40000).frame();
  for (let run = 0; run < 3; run++) {
    const from = clock();
    for (let k = 0; k < FRAMES; k++) engine.camera((x += 30), (side - 1) * 15, 40000).frame();
    least = Math.min(least, (clock() - from) / FRAMES);
  }
  engine.close();
  console.log(`a frame of 20,000 triangles at side ${side}: ${least.toFixed(2)} ms`);
}

console.log("| side | error | way | ms | triangles | off |\n|---|---|---|---|---|---|");
for (const side of sides.length ? sides.map(Number) : [257, 513, 1025, 2049]) tell(side);
