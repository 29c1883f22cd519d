// A file of heights, by its first bytes or its name, as { heights, width, height, spacing }.
import { heightsOf, heightsOfPng } from "calfrewin/terrain";
import { readGeotiff } from "./geotiff.js";

const DEGREE = 111320; // metres, of latitude

/** A tile of the Shuttle mission: a square of big-endian numbers of 16 bits over one degree. */
function readHgt(buffer) {
  const side = Math.sqrt(buffer.byteLength / 2);
  if (!Number.isInteger(side)) throw new Error("its size is not that of a square");
  const view = new DataView(buffer);
  const heights = Float32Array.from({ length: side * side }, (_, k) => {
    const it = view.getInt16(2 * k);
    return it === -32768 ? NaN : it;
  });
  return { heights, width: side, height: side, spacing: DEGREE / (side - 1) };
}

/** A raw PGM. */
function readPgm(buffer) {
  const bytes = new Uint8Array(buffer);
  const head = /^P5\s+(?:#.*\n\s*)*(\d+)\s+(\d+)\s+(\d+)\s/.exec(String.fromCharCode(...bytes.subarray(0, 1000)));
  if (!head) throw new Error("its head is not that of a raw PGM");
  const [width, height, most] = head.slice(1).map(Number);
  const view = new DataView(buffer, head[0].length);
  const heights = Uint16Array.from({ length: width * height }, (_, k) => (most > 255 ? view.getUint16(2 * k) : view.getUint8(k)));
  return { heights, width, height };
}

/** A gray PNG as its numbers, a colored one as a tile of terrain-RGB. */
async function readPng(buffer) {
  const isGray = new Uint8Array(buffer)[25] === 0;
  if (isGray) return heightsOfPng(buffer);
  const image = await createImageBitmap(new Blob([buffer]), { colorSpaceConversion: "none", premultiplyAlpha: "none" });
  const { width, height } = image;
  const context = new OffscreenCanvas(width, height).getContext("2d", { willReadFrequently: true });
  context.drawImage(image, 0, 0);
  return { heights: heightsOf(context.getImageData(0, 0, width, height)), width: width + 1, height: height + 1 };
}

export async function readHeights(name, buffer) {
  const bytes = new Uint8Array(buffer, 0, Math.min(4, buffer.byteLength));
  const begin = String.fromCharCode(...bytes);
  if (begin.startsWith("II") || begin.startsWith("MM")) return readGeotiff(buffer);
  if (begin === "\x89PNG") return readPng(buffer);
  if (begin.startsWith("P5")) return readPgm(buffer);
  if (/\.hgt$/i.test(name)) return readHgt(buffer);
  throw new Error("it is no GeoTIFF, PNG, HGT or raw PGM");
}
