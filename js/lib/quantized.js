// quantized-mesh-1.0, the terrain tiles of Cesium. Numbers are little-endian: a head of 88 bytes; vertices as differences of u, v
// and height from 0 to 32767; triangles by how far each index is below the number of vertices named before; the four sides.

const [A, B] = [6378137, 6356752.314245179]; // half axes of WGS 84
const MOST = 32767;
const NARROW = 65536; // vertices that indices of 16 bits count

function geocentric(longitude, latitude, height) {
  const [lon, lat] = [(longitude * Math.PI) / 180, (latitude * Math.PI) / 180];
  const squared = 1 - (B / A) ** 2;
  const normal = A / Math.sqrt(1 - squared * Math.sin(lat) ** 2);
  const flat = (normal + height) * Math.cos(lat);
  return [flat * Math.cos(lon), flat * Math.sin(lon), (normal * (1 - squared) + height) * Math.sin(lat)];
}

const dot = (a, b) => a[0] * b[0] + a[1] * b[1] + a[2] * b[2];

/** The point of which nothing is seen unless something of the tile may be, over the half axes. */
function horizon(points, middle) {
  const scaled = (it) => [it[0] / A, it[1] / A, it[2] / B];
  const way = scaled(middle);
  const wayLength = Math.hypot(...way);
  const unit = way.map((it) => it / wayLength);
  let far = 0;
  for (const point of points) {
    const place = scaled(point);
    const length = Math.hypot(...place);
    const cos = Math.min(1, dot(place, unit) / length);
    const above = Math.max(length, 1);
    const seen = cos / above - Math.sqrt(1 - cos * cos) * (Math.sqrt(above * above - 1) / above);
    far = Math.max(far, 1 / Math.max(seen, 1e-6));
  }
  return unit.map((it) => it * far);
}

function headOf(points, low, high) {
  const ends = [0, 1, 2].map((k) => points.reduce(([a, b], it) => [Math.min(a, it[k]), Math.max(b, it[k])], [Infinity, -Infinity]));
  const middle = ends.map(([a, b]) => (a + b) / 2);
  const radius = Math.max(...points.map((it) => Math.hypot(...it.map((v, k) => v - middle[k]))));
  const view = new DataView(new ArrayBuffer(88));
  middle.forEach((it, k) => view.setFloat64(8 * k, it, true));
  view.setFloat32(24, low, true);
  view.setFloat32(28, high, true);
  [...middle, radius, ...horizon(points, middle)].forEach((it, k) => view.setFloat64(32 + 8 * k, it, true));
  return new Uint8Array(view.buffer);
}

/** Vertices in the order in which triangles name them first, which the coding of triangles wants. */
function renamed(indices, count) {
  const numbers = new Int32Array(count).fill(-1);
  const order = [];
  const flat = indices.map((it) => {
    if (numbers[it] < 0) numbers[it] = order.push(it) - 1;
    return numbers[it];
  });
  return { order, flat };
}

function differences(values) {
  let before = 0;
  return Uint16Array.from(values, (it) => {
    const delta = it - before;
    before = it;
    return (delta << 1) ^ (delta >> 31);
  });
}

/**
 * The bytes of a tile, not zipped. u, v: of each vertex, 0 to 1 from west to east and from south to north; heights: metres over
 * the ellipsoid; indices: counterclockwise from above; bounds: west, south, east, north in degrees.
 */
export function quantizedMesh(u, v, heights, indices, bounds) {
  const { order, flat } = renamed(indices, u.length);
  const [west, south, east, north] = bounds;
  const columns = order.map((it) => Math.round(u[it] * MOST));
  const rows = order.map((it) => Math.round(v[it] * MOST));
  const levels = order.map((it) => heights[it]);
  const low = levels.reduce((a, b) => Math.min(a, b), Infinity);
  const high = levels.reduce((a, b) => Math.max(a, b), -Infinity);
  const steps = levels.map((it) => Math.round(((it - low) / (high - low || 1)) * MOST));
  const points = levels.map((it, k) =>
    geocentric(west + ((east - west) * columns[k]) / MOST, south + ((north - south) * rows[k]) / MOST, it));
  const isWide = order.length > NARROW;
  const Kind = isWide ? Uint32Array : Uint16Array;
  let highest = 0;
  const coded = Kind.from(flat, (it) => {
    const code = highest - it;
    if (code === 0) highest++;
    return code;
  });
  const parts = [headOf(points, low, high), Uint32Array.of(order.length), ...[columns, rows, steps].map(differences)];
  parts.push(new Uint8Array((isWide ? 4 : 2) - 1 - ((lengthOf(parts) + (isWide ? 3 : 1)) % (isWide ? 4 : 2))));
  parts.push(Uint32Array.of(flat.length / 3), coded);
  for (const [on, at, along] of [[columns, 0, rows], [rows, 0, columns], [columns, MOST, rows], [rows, MOST, columns]]) {
    const side = on.flatMap((it, k) => (it === at ? [k] : [])).sort((a, b) => along[a] - along[b]);
    parts.push(Uint32Array.of(side.length), Kind.from(side));
  }
  return joined(parts);
}

const lengthOf = (parts) => parts.reduce((sum, it) => sum + it.byteLength, 0);

function joined(parts) {
  const bytes = new Uint8Array(lengthOf(parts));
  let at = 0;
  for (const it of parts) {
    bytes.set(new Uint8Array(it.buffer, it.byteOffset, it.byteLength), at);
    at += it.byteLength;
  }
  return bytes;
}
