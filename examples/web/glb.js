// A mesh as a GLB file: y up, in metres.

const [GLTF, JSON_PART, BINARY_PART] = [0x46546c67, 0x4e4f534a, 0x004e4942];
const [FLOAT, UINT, VERTICES, INDICES] = [5126, 5125, 34962, 34963];

/** Padded with `fill` to a multiple of four bytes, behind its length and kind. */
function part(kind, bytes, fill) {
  const length = Math.ceil(bytes.length / 4) * 4;
  const found = new Uint8Array(8 + length).fill(fill);
  new Uint32Array(found.buffer, 0, 2).set([length, kind]);
  found.set(bytes, 8);
  return found;
}

export function glbOf({ positions, indices }) {
  const points = new Float32Array(positions.length);
  const low = [Infinity, Infinity, Infinity];
  const high = low.map((it) => -it);
  for (let k = 0; k < points.length; k += 3) {
    points.set([positions[k], positions[k + 2], -positions[k + 1]], k);
    for (let axis = 0; axis < 3; axis++) {
      low[axis] = Math.min(low[axis], points[k + axis]);
      high[axis] = Math.max(high[axis], points[k + axis]);
    }
  }
  const scene = {
    asset: { version: "2.0", generator: "calfrewin" },
    scene: 0, scenes: [{ nodes: [0] }], nodes: [{ mesh: 0 }],
    meshes: [{ primitives: [{ attributes: { POSITION: 0 }, indices: 1 }] }],
    accessors: [
      { bufferView: 0, componentType: FLOAT, count: points.length / 3, type: "VEC3", min: low, max: high },
      { bufferView: 1, componentType: UINT, count: indices.length, type: "SCALAR" },
    ],
    bufferViews: [
      { buffer: 0, byteLength: points.byteLength, target: VERTICES },
      { buffer: 0, byteOffset: points.byteLength, byteLength: indices.byteLength, target: INDICES },
    ],
    buffers: [{ byteLength: points.byteLength + indices.byteLength }],
  };
  const data = new Uint8Array(points.byteLength + indices.byteLength);
  data.set(new Uint8Array(points.buffer));
  data.set(new Uint8Array(indices.buffer, indices.byteOffset, indices.byteLength), points.byteLength);
  const parts = [part(JSON_PART, new TextEncoder().encode(JSON.stringify(scene)), 32), part(BINARY_PART, data, 0)];
  const head = Uint32Array.of(GLTF, 2, parts.reduce((sum, it) => sum + it.length, 12));
  return new Blob([head, ...parts], { type: "model/gltf-binary" });
}
