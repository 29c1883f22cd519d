// Arguments of calls: each is converted before the module is entered, so that one that throws leaves nothing half done.

export const MOST = {
  triangles: 1048576, spacing: 1024, coordinate: 2 ** 30, slope: 2 ** 20, offset: 2 ** 50, height: 65535, error: 65535.999,
  planes: 6, side: 16385,
};
/** Of a point whose height does not count, in a list of tolerances. */
export const ANY = 0xffffffff;

/** A value as an error shows it. */
export function shown(value) {
  try {
    return (typeof value === "string" ? JSON.stringify(value) : String(value)).slice(0, 60);
  } catch {
    return typeof value;
  }
}

export function real(name, value, low, high) {
  const wanted = `${name} is ${shown(value)}, and has to be a number from ${low} to ${high}`;
  if (typeof value !== "number") throw new TypeError(wanted);
  if (!(value >= low && value <= high)) throw new RangeError(wanted);
  return value;
}

export function whole(name, value, low, high) {
  const wanted = `${name} is ${shown(value)}, and has to be a whole number from ${low} to ${high}`;
  if (typeof value !== "number") throw new TypeError(wanted);
  if (!Number.isInteger(value) || value < low || value > high) throw new RangeError(wanted);
  return value;
}

/** A place of a camera, rounded, as the module takes it. */
export function coordinate(name, value) {
  return BigInt(Math.round(real(name, value, -MOST.coordinate, MOST.coordinate)));
}

/** A tolerance in thousandths, by the decimals that a number prints as; what is finer is rounded down. */
export function thousandths(name, value) {
  const [digits, power = "0"] = String(real(name, value, 0, MOST.error)).split("e");
  const [before, after = ""] = digits.split(".");
  const places = 3 + Number(power) - after.length;
  const number = BigInt(before + after);
  return Number(places >= 0 ? number * 10n ** BigInt(places) : number / 10n ** BigInt(-places));
}

/** An array of numbers, of any kind but those of BigInt. */
export function listOf(name, value) {
  const isView = ArrayBuffer.isView(value) && !(value instanceof DataView);
  if (!Array.isArray(value) && !isView) throw new TypeError(`${name} is ${shown(value)}, and has to be an array of numbers`);
  if (value instanceof BigInt64Array || value instanceof BigUint64Array) {
    throw new TypeError(`${name} has BigInts, and has to have numbers`);
  }
  if (isView && value.buffer.detached) throw new TypeError(`${name} has no buffer any more: it was transferred`);
  return value;
}

/** A list of whole numbers as the module takes it. */
export function places(name, list, last) {
  return Uint32Array.from(listOf(name, list), (it) => whole(name, it, 0, last));
}

/** The side of a square of so many points, or 0 where it is not one of 3, 5, 9, .. 16385. */
export function sideOf(count) {
  const side = Math.round(Math.sqrt(count));
  const isSide = side >= 3 && side <= MOST.side && ((side - 1) & (side - 2)) === 0;
  return isSide && side * side === count ? side : 0;
}

/** Heights of a grid of the engine, as the module takes them; those of a Uint16Array are not looked at one by one. */
export function gridHeights(heights) {
  listOf("heights", heights);
  if (!sideOf(heights.length)) {
    throw new RangeError(
      `heights are ${heights.length} numbers, and have to be side x side, side one of 3, 5, 9, .. 16385; fit() takes any shape`);
  }
  if (heights instanceof Uint16Array) return heights;
  return Uint16Array.from(heights, (it, k) => {
    if (!Number.isInteger(it) || it < 0 || it > MOST.height) {
      throw new RangeError(`height ${k} is ${shown(it)}, and has to be a whole number from 0 to 65535; fit() takes any numbers`);
    }
    return it;
  });
}

/** A plane [a, b, c, d] as four BigInts. */
export function planeOf(plane) {
  const numbers = Array.from(plane);
  if (numbers.length !== 4) throw new RangeError(`a plane has ${numbers.length} numbers, and has to have four`);
  return numbers.map((it, k) => {
    const most = k < 3 ? MOST.slope : MOST.offset;
    return BigInt(whole("abcd"[k], it, -most, most));
  });
}

/** The corners of an area, the second no less than the first. */
export function areaOf(last, x0, y0, x1, y1) {
  const west = whole("x0", x0, 0, last);
  const south = whole("y0", y0, 0, last);
  return [west, south, whole("x1", x1, west, last), whole("y1", y1, south, last)];
}
