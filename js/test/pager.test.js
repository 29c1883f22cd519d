import assert from "node:assert/strict";
import test from "node:test";
import { Page, Pager, World, load } from "../index.js";

await load();
const n = 3;
const large = 6; // 64 grid steps a side, pages of 8
const height = (x, y) => 500 + ((x * 37 + y * 11) % 97);
const heightsAt = (q, column, row) => Uint16Array.from({ length: 81 }, (_, k) =>
  height((column * 8 + (k % 9)) * 2 ** q, (row * 8 + 8 - Math.floor(k / 9)) * 2 ** q));
const world = () => new World(new Page(heightsAt(3, 0, 0)), large, 2000, { spacing: 10 });
async function settled(pager, x, y) {
  for (let k = 0; k < 100 && pager.update(x, y); k++) await pager.wait();
  return pager.update(x, y);
}

test("pages near the camera are loaded, coarse before fine, and those far away go", async () => {
  const terrain = world();
  const asked = [];
  const pager = new Pager(terrain, async (q, column, row) => {
    asked.push(q);
    return heightsAt(q, column, row);
  });
  assert.equal(await settled(pager, 20, 20), 0);
  assert.ok(pager.isLoaded(0, 0, 0) && pager.isLoaded(3, 0, 0) && !pager.isLoaded(0, 7, 7));
  assert.equal(asked[0], 2);
  terrain.camera(20, 20, 600).frame();
  assert.ok(terrain.draws().draws.some((it) => it.q === 0));
  assert.equal(await settled(pager, 620, 620), 0);
  assert.ok(!pager.isLoaded(0, 0, 0) && pager.isLoaded(0, 7, 7));
  assert.equal(pager.refused().size, 0);
  pager.close();
  terrain.close();
});
test("pages that are not to be had are told, and asked for again after renew", async () => {
  const terrain = world();
  let fails = true;
  const pager = new Pager(terrain, (q, column, row) => {
    if (!fails || q > 0) return heightsAt(q, column, row);
    if (column === 0 && row === 0) throw new Error("offline");
    if (column === 1 && row === 0) return null;
    return column === 0 ? new Uint16Array(25) : Uint16Array.from(heightsAt(0, column, row), (it) => it + 1);
  });
  assert.equal(await settled(pager, 20, 20), 0);
  const refused = pager.refused();
  assert.deepEqual([refused.get("0/0/0").message, refused.get("0/1/0").message], ["offline", "there is no such page"]);
  assert.match(refused.get("0/0/1").message, /5 points a side/);
  assert.equal(refused.get("0/1/1").name, "BadPage");
  fails = false;
  pager.renew();
  assert.equal(await settled(pager, 20, 20), 0);
  assert.ok(pager.refused().size === 0 && pager.isLoaded(0, 1, 1));
});
