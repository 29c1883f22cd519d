// Right triangles as MARTINI has them, after Evans, Kirkpatrick and Townsend, "Right-triangulated irregular networks" (2001), written
// anew in plain JavaScript for comparison: the same arrays, the same map of errors from the smallest triangles up, the same walks.
// And how far a terrain is from such a mesh.

export class Rtin {
  constructor(size) {
    const last = size - 1;
    this.size = size;
    this.triangles = last * last * 2 - 2;
    this.parents = this.triangles - last * last;
    this.numbers = new Uint32Array(size * size);
    this.ends = new Uint16Array(4 * this.triangles); // of each triangle's longest side
    for (let k = 0; k < this.triangles; k++) this.ends.set(this.#endsOf(k + 2, last), 4 * k);
  }

  get bytes() { return this.numbers.byteLength + this.ends.byteLength; }

  #endsOf(id, last) {
    let [ax, ay, bx, by, cx, cy] = id & 1 ? [0, 0, last, last, last, 0] : [last, last, 0, 0, 0, last];
    for (let rest = id >> 1; rest > 1; rest >>= 1) {
      const [mx, my] = [(ax + bx) >> 1, (ay + by) >> 1];
      if (rest & 1) [bx, by, ax, ay] = [ax, ay, cx, cy];
      else [ax, ay, bx, by] = [bx, by, cx, cy];
      [cx, cy] = [mx, my];
    }
    return [ax, ay, bx, by];
  }

  /** The error of each point: that of the triangles which it halves, and of all below. */
  errors(terrain) {
    const { size, ends, triangles, parents } = this;
    const found = new Float32Array(terrain.length);
    for (let k = triangles - 1; k >= 0; k--) {
      const ax = ends[4 * k];
      const ay = ends[4 * k + 1];
      const bx = ends[4 * k + 2];
      const by = ends[4 * k + 3];
      const mx = (ax + bx) >> 1;
      const my = (ay + by) >> 1;
      const cx = mx + my - ay;
      const cy = my + ax - mx;
      const at = my * size + mx;
      const off = Math.abs((terrain[ay * size + ax] + terrain[by * size + bx]) / 2 - terrain[at]);
      found[at] = Math.max(found[at], off);
      if (k < parents) {
        const left = found[((ay + cy) >> 1) * size + ((ax + cx) >> 1)];
        const right = found[((by + cy) >> 1) * size + ((bx + cx) >> 1)];
        found[at] = Math.max(found[at], left, right);
      }
    }
    return found;
  }

  #walk(errors, most, leaf) {
    const { size } = this;
    const split = (ax, ay, bx, by, cx, cy) => {
      const mx = (ax + bx) >> 1;
      const my = (ay + by) >> 1;
      if (Math.abs(ax - cx) + Math.abs(ay - cy) > 1 && errors[my * size + mx] > most) {
        split(cx, cy, ax, ay, mx, my);
        split(bx, by, cx, cy, mx, my);
      } else leaf(ay * size + ax, by * size + bx, cy * size + cx);
    };
    const last = size - 1;
    split(0, 0, last, last, last, 0);
    split(last, last, 0, 0, 0, last);
  }

  /** { vertices, triangles } of the triangles whose errors are at most `most`. */
  mesh(errors, most) {
    const { size, numbers } = this;
    let [points, count] = [0, 0];
    numbers.fill(0);
    this.#walk(errors, most, (...corners) => {
      count++;
      for (const it of corners) numbers[it] ||= ++points;
    });
    const vertices = new Uint16Array(2 * points);
    const triangles = new Uint32Array(3 * count);
    let at = 0;
    this.#walk(errors, most, (...corners) => {
      for (const it of corners) {
        const number = numbers[it] - 1;
        vertices[2 * number] = it % size;
        vertices[2 * number + 1] = Math.floor(it / size);
        triangles[at++] = number;
      }
    });
    return { vertices, triangles };
  }
}

/** How far a terrain is from a mesh of right triangles with these vertices, at most: other points have the mean of an edge's ends. */
export function deviationOf(terrain, size, vertices) {
  const found = Float64Array.from(terrain);
  const isVertex = new Uint8Array(size * size);
  for (let k = 0; k < vertices.length; k += 2) isVertex[vertices[k + 1] * size + vertices[k]] = 1;
  const settle = (at, one, other) => {
    if (!isVertex[at]) found[at] = (found[one] + found[other]) / 2;
  };
  const last = size - 1;
  for (let step = last; step > 1; step /= 2) {
    const half = step / 2;
    for (let r = 0; r < last; r += step) {
      for (let c = 0; c < last; c += step) {
        const isEven = (r / step + c / step) % 2 === 0;
        const [top, bottom] = [r * size + c, (r + step) * size + c];
        settle((r + half) * size + c + half, isEven ? top : top + step, isEven ? bottom + step : bottom);
      }
    }
    for (let r = 0; r <= last; r += step) {
      for (let c = half; c < last; c += step) {
        settle(r * size + c, r * size + c - half, r * size + c + half);
        settle(c * size + r, (c - half) * size + r, (c + half) * size + r);
      }
    }
  }
  return found.reduce((worst, it, k) => Math.max(worst, Math.abs(it - terrain[k])), 0);
}
