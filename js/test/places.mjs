// What a mesh is at each point of its grid, for the tests.
import assert from "node:assert/strict";

/** The height of a mesh at each point, by a walk over each triangle's points; no point is left out, and none has two heights. */
export function surface({ positions, indices }, width, height, spacing = 1) {
  const found = new Float64Array(width * height).fill(NaN);
  const corner = (at) => [positions[3 * at] / spacing, height - 1 - positions[3 * at + 1] / spacing, positions[3 * at + 2]];
  for (let k = 0; k < indices.length; k += 3) cover(found, width, [0, 1, 2].map((j) => corner(indices[k + j])));
  assert.ok(!found.some(Number.isNaN), "all points are covered");
  return found;
}

function cover(found, width, [a, b, c]) {
  const twice = (b[0] - a[0]) * (c[1] - a[1]) - (b[1] - a[1]) * (c[0] - a[0]);
  assert.ok(twice < 0, "counterclockwise from above, rows counted downwards");
  const span = (axis) => [Math.ceil(Math.min(a[axis], b[axis], c[axis])), Math.floor(Math.max(a[axis], b[axis], c[axis]))];
  const [left, right] = span(0);
  const [top, bottom] = span(1);
  for (let y = top; y <= bottom; y++) {
    for (let x = left; x <= right; x++) {
      const u = ((b[0] - x) * (c[1] - y) - (b[1] - y) * (c[0] - x)) / twice;
      const v = ((c[0] - x) * (a[1] - y) - (c[1] - y) * (a[0] - x)) / twice;
      if (Math.min(u, v, 1 - u - v) < -1e-9) continue;
      const z = u * a[2] + v * b[2] + (1 - u - v) * c[2];
      const at = y * width + x;
      if (!Number.isNaN(found[at])) assert.ok(Math.abs(found[at] - z) < 1e-2, `a crack at ${x}, ${y}`);
      found[at] = z;
    }
  }
}

/** How far heights are from a mesh at a grid point, at most. */
export const measured = (heights, mesh, ...how) =>
  surface(mesh, ...how).reduce((most, z, k) => Math.max(most, Math.abs(z - heights[k])), 0);

export const wavy = (width, height) =>
  Float64Array.from({ length: width * height }, (_, k) => 50 * Math.sin((k % width) / 9) * Math.cos(Math.floor(k / width) / 7));

/** Random words from a seed. */
export function words(seed) {
  return () => {
    seed ^= seed << 13;
    seed ^= seed >>> 17;
    seed ^= seed << 5;
    return (seed >>>= 0);
  };
}
