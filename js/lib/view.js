// What a view asks of an engine: a threshold in pixels, and the planes of what it sees.

import { MOST, real } from "./numbers.js";

const WIDEST = 170; // degrees
const SLOPES = 50000; // of a plane's normal, rounded: well within what a plane takes

/** The threshold of an error of so many pixels, on a screen of `rows` pixels that shows `degrees` from bottom to top. */
export function pixelThreshold(pixels, degrees, rows) {
  real("pixels", pixels, 0, 1e6);
  real("degrees", degrees, 1e-3, WIDEST);
  real("rows", rows, 1, 1e6);
  return Math.floor((262144 * pixels * Math.tan((degrees * Math.PI) / 360)) / rows);
}

/**
 * The left, right, bottom and top plane of a view, for `look`: from where the camera stands, where it looks (a direction of any
 * length, neither straight up nor down), the degrees from left to right, and the picture's width over its height.
 */
export function frustum([x, y, z], [dx, dy, dz], degrees, aspect = 4 / 3) {
  [x, y, z].forEach((it) => real("a place", it, -MOST.coordinate, MOST.coordinate));
  const flat = Math.hypot(dx, dy);
  const length = Math.hypot(flat, dz);
  if (!(flat > 0 && length < Infinity)) throw new RangeError("the direction has to be finite, and neither straight up nor down");
  const across = Math.tan((real("degrees", degrees, 1e-3, WIDEST) * Math.PI) / 360);
  const along = across / real("aspect", aspect, 1e-3, 1e3);
  const forward = [dx / length, dy / length, dz / length];
  const right = [dy / flat, -dx / flat, 0];
  const up = [(-forward[0] * dz) / flat, (-forward[1] * dz) / flat, flat / length];
  const place = [x, y, z].map(Math.round);
  return [[right, across, 1], [right, across, -1], [up, along, 1], [up, along, -1]].map(([axis, reach, sign]) => {
    const slopes = forward.map((it, k) => Math.round(SLOPES * (reach * it + sign * axis[k])));
    return [...slopes, -slopes.reduce((sum, it, k) => sum + it * place[k], 0)];
  });
}
