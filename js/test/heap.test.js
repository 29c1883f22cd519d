import assert from "node:assert/strict";
import test from "node:test";
import { OutOfMemory, load, memoryBytes } from "../index.js";
import { loaded } from "../lib/module.js";
import { words } from "./places.mjs";

test("blocks of the module's heap: aligned, apart from each other, and used again", async () => {
  await load();
  const core = loaded();
  const word = words(7);
  const held = [];
  let bytes;
  const checked = ({ place, size, mark }) => assert.ok(core.bytes(place, size).every((it) => it === mark));
  for (let round = 0; round < 3; round++) {
    for (let k = 0; k < 20000; k++) {
      if (held.length && (word() % 5 < 2 || held.length > 400)) {
        const at = word() % held.length;
        checked(held[at]);
        core.give(held[at].place);
        held[at] = held.at(-1);
        held.pop();
      } else {
        const size = 1 + (word() % (word() % 50 === 0 ? 300000 : 1 << (1 + (word() % 11))));
        const it = { place: core.take(size), size, mark: word() & 255 };
        assert.equal(it.place % 16, 0);
        core.bytes(it.place, size).fill(it.mark);
        held.push(it);
      }
    }
    for (const { place } of held.splice(0)) core.give(place);
    if (round === 0) bytes = memoryBytes();
  }
  assert.ok(memoryBytes() <= 1.3 * bytes, `${memoryBytes()} after ${bytes}`);
  core.give(core.take(memoryBytes() - 2 ** 21)); // all is one block again
  for (const size of [2 ** 32 - 16, 2 ** 32, 2 ** 45, 2 ** 52]) assert.throws(() => core.take(size), OutOfMemory);
  core.give(core.take(16));
});
