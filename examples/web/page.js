// A file of heights to a mesh, to a flight, to a GLB, all in this page.
import { Engine, fit, frustum, gridOf, load } from "calfrewin";
import { Drawing, viewMatrix } from "./drawing.js";
import { glbOf } from "./glb.js";
import { readHeights } from "./readers.js";

const EXAMPLE = "../jacksboro/grid.pgm";
const BUDGET = 20000; // triangles of a frame of the flight
const DEGREES = 45;
const of = (id) => document.getElementById(id);
const told = (text, isWrong = false) => {
  of("told").value = text;
  of("told").className = isWrong ? "wrong" : "";
};
const numberOf = (id) => (of(id).value === "" ? undefined : Number(of(id).value));

const drawing = new Drawing(of("view"));
let terrain = null; // { heights, width, height, fill }
let mesh = null;
let flight = null;
let [turn, tilt] = [0.6, 0.7]; // radians

/** What a step reads, fits or draws; what goes wrong is told. */
async function attempt(work) {
  try {
    await work();
  } catch (why) {
    told(`${why.name === "Error" ? "" : `${why.name}: `}${why.message}`, true);
  }
}

async function open(name, buffer) {
  told(`Reading ${name}`);
  let found;
  try {
    found = await readHeights(name, buffer);
  } catch (why) {
    throw new Error(`${name} cannot be read: ${why.message}`);
  }
  const low = found.heights.reduce((least, it) => (it < least ? it : least), Infinity);
  if (low === Infinity) throw new Error(`${name} has no heights`);
  terrain = { ...found, name, fill: low };
  if (found.spacing) of("spacing").value = found.spacing < 0.1 ? found.spacing * 111320 : found.spacing; // degrees to metres
  endFlight();
  refit();
}

function refit() {
  if (!terrain) return;
  const { name, heights, width, height, fill } = terrain;
  const triangles = numberOf("budget");
  const bound = triangles === undefined ? { error: numberOf("error") ?? 0 } : { triangles };
  const from = performance.now();
  mesh = fit(heights, width, height, { ...bound, spacing: numberOf("spacing") || 1, fill });
  const time = performance.now() - from;
  const count = (mesh.indices.length / 3).toLocaleString("en");
  told(`${name}: ${width} x ${height} points\n${count} triangles, off by at most ${mesh.deviation.toFixed(2)}\n${time.toFixed(0)} ms`);
  if (!flight) show();
}

function spanOf(positions) {
  let [low, high] = [Infinity, -Infinity];
  for (let k = 2; k < positions.length; k += 3) [low, high] = [Math.min(low, positions[k]), Math.max(high, positions[k])];
  return [low, high];
}

/** How much heights are raised in the picture, and the places from and to which it is seen. */
function outside() {
  const spacing = numberOf("spacing") || 1;
  const [wide, deep] = [(terrain.width - 1) * spacing, (terrain.height - 1) * spacing];
  const [low, high] = drawing.span;
  const size = Math.max(wide, deep);
  const lift = Math.min(8, Math.max(1, (0.12 * size) / (high - low || 1)));
  const middle = [wide / 2, deep / 2, ((low + high) / 2) * lift];
  const aside = innerWidth > 700 ? [Math.cos(turn), Math.sin(turn), 0].map((it) => it * size * -0.15) : [0, 0, 0]; // beside the panel
  const away = [Math.sin(turn) * Math.cos(tilt), -Math.cos(turn) * Math.cos(tilt), Math.sin(tilt)].map((it) => it * size * 1.35);
  const to = middle.map((it, k) => it + aside[k]);
  return { lift, from: to.map((it, k) => it + away[k]), to, size };
}

function show() {
  drawing.setPositions(mesh.positions, spanOf(mesh.positions));
  drawing.setIndices(mesh.indices, of("wire").checked);
  redraw();
}

function redraw() {
  if (!mesh || flight) return;
  const { from, to, size, lift } = outside();
  drawing.draw(viewMatrix(from, to, DEGREES, innerWidth / innerHeight, size / 100, size * 4, lift), lift, of("wire").checked);
}

// --- The flight: the engine's mesh for each frame, over one buffer of all points. ---

function beginFlight() {
  const { heights, width, height, fill } = terrain;
  const grid = gridOf(heights, width, height, { fill });
  const spacing = Math.min(1024, Math.max(1, Math.round((numberOf("spacing") || 1) / grid.unit)));
  const { side, numbers } = grid;
  const positions = new Float32Array(3 * side * side);
  numbers.forEach((it, k) => {
    positions.set([(k % side) * spacing, (side - 1 - Math.floor(k / side)) * spacing, it], 3 * k);
  });
  flight = {
    engine: new Engine(numbers, Math.min(BUDGET, 2 * (side - 1) ** 2), { spacing }),
    side, spacing, numbers, wide: (width - 1) * spacing, deep: (height - 1) * spacing, bottom: (side - height) * spacing,
    frame: 0, places: [], sum: 2166136261, indices: new Uint32Array(3 * BUDGET),
  };
  drawing.setPositions(positions, spanOf(positions));
}

function endFlight() {
  flight?.engine.close();
  flight = null;
  of("fly").checked = false;
}

/** Where the camera stands in a frame, in world units: once around, a little above the ground. */
function placeOf({ frame, wide, deep, bottom, side, spacing, numbers }) {
  const turned = (frame / 900) * 2 * Math.PI;
  const [x, y] = [wide * (0.5 + 0.36 * Math.cos(turned)), bottom + deep * (0.5 + 0.36 * Math.sin(turned))];
  const ground = numbers[(side - 1 - Math.round(y / spacing)) * side + Math.round(x / spacing)];
  const place = [x, y, ground + 0.03 * Math.max(wide, deep)].map(Math.round);
  return { place, direction: [-Math.sin(turned) - 0.5 * Math.cos(turned), Math.cos(turned) - 0.5 * Math.sin(turned), -0.35] };
}

/** The next frame's mesh: its indices, how many triangles they are, and how long that took. */
function step() {
  const { place, direction } = placeOf(flight);
  const aspect = innerWidth / innerHeight;
  const across = (Math.atan(Math.tan((DEGREES * Math.PI) / 360) * aspect) * 360) / Math.PI;
  const planes = frustum(place, direction, across, aspect);
  const from = performance.now();
  const { triangles } = flight.engine.camera(...place).look(planes).frame();
  const indices = flight.engine.indices(flight.indices);
  Object.assign(flight, { direction, frame: flight.frame + 1 });
  flight.places.push({ place, planes });
  return { indices, triangles, time: performance.now() - from };
}

function drawFrame({ indices, triangles, time }) {
  const { place } = flight.places.at(-1);
  const { direction, frame, wide, deep } = flight;
  drawing.setIndices(indices, of("wire").checked);
  const far = Math.max(wide, deep) * 2;
  const ahead = place.map((it, k) => it + direction[k] * 1000);
  drawing.draw(viewMatrix(place, ahead, DEGREES, innerWidth / innerHeight, far / 5000, far, 1), 1, of("wire").checked);
  if (frame % 10 === 1) {
    told(`Frame ${frame}\n${triangles.toLocaleString("en")} triangles of at most ${BUDGET.toLocaleString("en")}\n${time.toFixed(1)} ms`);
  }
}

function fly() {
  if (!flight) return;
  attempt(() => {
    drawFrame(step());
    flight.places.length = 0; // which nobody asks for here
    requestAnimationFrame(fly);
  });
}

/** For whoever tries this page: flies on, and draws the last frame; the camera's places so far and a sum of all indices. */
globalThis.flown = (frames) => {
  if (!flight) beginFlight();
  let last;
  for (let k = 0; k < frames; k++) {
    last = step();
    const sum = last.indices.reduce((all, it, at) => (all + Math.imul(it, 2 * at + 1)) >>> 0, 0);
    flight.sum = Math.imul(flight.sum ^ sum, 16777619) >>> 0;
  }
  drawFrame(last);
  const { sum, places, spacing } = flight;
  return { sum, spacing, budget: BUDGET, places };
};

// --- What the visitor does. ---

function save() {
  const link = document.createElement("a");
  link.href = URL.createObjectURL(glbOf(mesh));
  link.download = "terrain.glb";
  link.click();
  URL.revokeObjectURL(link.href);
}

const take = (file) => file && attempt(async () => open(file.name, await file.arrayBuffer()));
addEventListener("dragover", (event) => {
  event.preventDefault();
  document.body.classList.add("over");
});
addEventListener("dragleave", () => document.body.classList.remove("over"));
addEventListener("drop", (event) => {
  event.preventDefault();
  document.body.classList.remove("over");
  take(event.dataTransfer.files[0]);
});
addEventListener("resize", redraw);
of("panel").addEventListener("submit", (event) => event.preventDefault());
of("file").addEventListener("change", () => take(of("file").files[0]));
for (const id of ["error", "budget", "spacing"]) of(id).addEventListener("change", () => attempt(refit));
of("wire").addEventListener("change", () => attempt(() => mesh && !flight && show()));
of("fly").addEventListener("change", () => attempt(() => {
  if (!of("fly").checked || !terrain) {
    endFlight();
    if (mesh) show();
    return;
  }
  beginFlight();
  fly();
}));
of("save").addEventListener("click", () => attempt(save));
of("view").addEventListener("pointermove", (event) => {
  if (!event.buttons) return;
  turn -= event.movementX / 200;
  tilt = Math.min(1.5, Math.max(0.1, tilt + event.movementY / 200));
  redraw();
});

await attempt(async () => {
  await load();
  const reply = await fetch(EXAMPLE);
  if (reply.ok) await open("Jacksboro fault", await reply.arrayBuffer());
  else told("Drop a file");
});
