// The types of the package: what is right compiles, and what is wrong does not.
import { CalfrewinError, Engine, Fitter, Mosaic, Page, Pager, World, compiled, fit, frustum, gridOf, load, loadSync, pixelThreshold, type Mesh } from "calfrewin";
import Delatin from "calfrewin/delatin";
import Martini from "calfrewin/martini";
import { heightsOf, heightsOfPng, mercatorTile, quantizedTile, tileMesh } from "calfrewin/terrain";

await load(new URL("module.wasm", "https://example.invalid"));
loadSync(compiled());
const mesh: Mesh = fit([1, 2, 3, 4], 2, 2, { error: 1, unit: 0.1, fill: 0 });
const grid = gridOf(mesh.positions, 3, 4, { unit: 2 });
const engine = new Engine(grid.numbers, 8, { spacing: 3 });
engine.camera(1, 2, 3).look(frustum([0, 0, 0], [1, 0, 0], 60)).threshold(pixelThreshold(1, 45, 1080)).frame().worst;
const fitter = new Fitter(grid.numbers);
fitter.fit(new Uint32Array(9), [1, 2]).toFixed();
const next = new Mosaic(2, 2, 3).next();
if (next) next[0].toFixed();
const world = new World(new Page(grid.numbers), 5, 100);
const pager = new Pager(world, async () => (await heightsOfPng(new Uint8Array())).heights, { reach: 3 });
pager.update(1, 2).toFixed();
const tile = new Martini(257).createTile(grid.numbers);
tile.getMesh(1, { required: tile.border() }).vertices.BYTES_PER_ELEMENT;
const delatin = new Delatin(grid.numbers, 3, 3);
delatin.run(1);
const heights = heightsOf({ data: new Uint8ClampedArray(4), width: 1, height: 1 }, "terrarium");
tileMesh(heights, 2, { error: 1, ...mercatorTile(1, 0, 0) }).attributes.POSITION.value;
quantizedTile(heights, 2, { error: 1, bounds: [0, 0, 1, 1] });
new CalfrewinError("").name;

// @ts-expect-error heights of BigInt
fit(new BigInt64Array(4), 2, 2, { error: 1 });
// @ts-expect-error an error that is no number
fit([1], 1, 1, { error: "1" });
// @ts-expect-error no buffer of 16 bits
engine.indices(new Uint16Array(3));
// @ts-expect-error a plane of three numbers
engine.look([[1, 2, 3]]);
// @ts-expect-error no Page
new World(grid, 5, 100);
// @ts-expect-error an unknown encoding
heightsOf({ data: new Uint8Array(4), width: 1, height: 1 }, "srtm");
