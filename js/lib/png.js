// PNG rasters of 16 bits, of which a canvas keeps 8 only: gray, not interlaced, of 8 or 16 bits.

import { CalfrewinError } from "./errors.js";

const SIGNATURE = [137, 80, 78, 71, 13, 10, 26, 10];

async function inflated(parts) {
  const stream = new Blob(parts).stream().pipeThrough(new DecompressionStream("deflate"));
  try {
    return new Uint8Array(await new Response(stream).arrayBuffer());
  } catch (why) {
    throw new CalfrewinError(`the PNG's data are damaged: ${why.message}`, { cause: why });
  }
}

function chunksOf(bytes) {
  const view = new DataView(bytes.buffer, bytes.byteOffset, bytes.byteLength);
  const found = [];
  for (let at = SIGNATURE.length; at + 12 <= bytes.length;) {
    const length = view.getUint32(at);
    const name = String.fromCharCode(...bytes.subarray(at + 4, at + 8));
    if (at + 12 + length > bytes.length) break;
    found.push([name, bytes.subarray(at + 8, at + 8 + length)]);
    at += 12 + length;
  }
  return found;
}

/** The numbers of a gray PNG, as { heights, width, height }; the first row is the northern one. */
export async function heightsOfPng(data) {
  const bytes = data instanceof ArrayBuffer ? new Uint8Array(data) : new Uint8Array(data.buffer, data.byteOffset, data.byteLength);
  if (SIGNATURE.some((it, k) => bytes[k] !== it)) throw new CalfrewinError("this is no PNG");
  const chunks = chunksOf(bytes);
  const head = chunks.find(([name]) => name === "IHDR")?.[1];
  if (head?.length !== 13) throw new CalfrewinError("the PNG has no head");
  const view = new DataView(head.buffer, head.byteOffset, head.byteLength);
  const [width, height, bits, color, interlaced] = [view.getUint32(0), view.getUint32(4), head[8], head[9], head[12]];
  if (color !== 0 || (bits !== 8 && bits !== 16) || interlaced) {
    throw new CalfrewinError(`the PNG has color type ${color}, ${bits} bits${interlaced ? ", interlaced" : ""}: wanted is gray of 8 or 16 bits`);
  }
  const rows = await inflated(chunks.filter(([name]) => name === "IDAT").map(([, part]) => part));
  const each = bits / 8;
  if (rows.length < height * (1 + width * each)) throw new CalfrewinError("the PNG ends too early");
  unfiltered(rows, width * each, height, each);
  const heights = new Uint16Array(width * height);
  for (let y = 0, k = 0; y < height; y++) {
    for (let x = 0, at = y * (1 + width * each) + 1; x < width; x++, at += each) {
      heights[k++] = each === 2 ? (rows[at] << 8) | rows[at + 1] : rows[at];
    }
  }
  return { heights, width, height };
}

/** Takes the filters of PNG off each row, in place; `each` bytes make a pixel. */
function unfiltered(rows, wide, height, each) {
  for (let y = 0; y < height; y++) {
    const from = y * (wide + 1) + 1;
    const filter = rows[from - 1];
    if (filter > 4) throw new CalfrewinError(`the PNG has the filter ${filter}, which there is not`);
    for (let x = 0; x < wide; x++) {
      const left = x >= each ? rows[from + x - each] : 0;
      const up = y ? rows[from + x - wide - 1] : 0;
      const corner = y && x >= each ? rows[from + x - wide - 1 - each] : 0;
      rows[from + x] += guessed(filter, left, up, corner);
    }
  }
}

function guessed(filter, left, up, corner) {
  if (filter === 1) return left;
  if (filter === 2) return up;
  if (filter === 3) return (left + up) >> 1;
  if (filter === 0) return 0;
  const [a, b, c] = [Math.abs(up - corner), Math.abs(left - corner), Math.abs(left + up - 2 * corner)];
  return a <= b && a <= c ? left : b <= c ? up : corner;
}
