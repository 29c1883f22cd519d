// GeoTIFF: the first band of an image of numbers, in strips or tiles, not compressed or deflated, of both byte orders.

const TAGS = {
  width: 256, height: 257, bits: 258, compression: 259, stripOffsets: 273, samples: 277, rowsPerStrip: 278, stripBytes: 279,
  planes: 284, predictor: 317, tileWidth: 322, tileHeight: 323, tileOffsets: 324, tileBytes: 325, format: 339, scale: 33550,
  nodata: 42113,
};
const SIZES = { 1: 1, 2: 1, 3: 2, 4: 4, 5: 8, 11: 4, 12: 8, 16: 8 };
const DEFLATE = [8, 32946];

function reader(view, isLittle) {
  const get = {
    1: (at) => view.getUint8(at), 2: (at) => view.getUint8(at), 3: (at) => view.getUint16(at, isLittle),
    4: (at) => view.getUint32(at, isLittle), 11: (at) => view.getFloat32(at, isLittle), 12: (at) => view.getFloat64(at, isLittle),
  };
  return (type, count, at) => Array.from({ length: count }, (_, k) => get[type](at + k * SIZES[type]));
}

/** The tags of the first image, by their names here. */
function tagsOf(view, isLittle) {
  const read = reader(view, isLittle);
  const names = Object.fromEntries(Object.entries(TAGS).map(([name, tag]) => [tag, name]));
  const found = {};
  const from = view.getUint32(4, isLittle);
  for (let k = 0, count = view.getUint16(from, isLittle); k < count; k++) {
    const at = from + 2 + 12 * k;
    const [tag, type, length] = [view.getUint16(at, isLittle), view.getUint16(at + 2, isLittle), view.getUint32(at + 4, isLittle)];
    if (!(tag in names) || !(type in SIZES) || type === 5 || type === 16) continue;
    const place = length * SIZES[type] <= 4 ? at + 8 : view.getUint32(at + 8, isLittle);
    const values = read(type, length, place);
    found[names[tag]] = type === 2 ? String.fromCharCode(...values).replace(/\0.*$/, "") : values;
  }
  return found;
}

async function inflated(bytes) {
  const stream = new Blob([bytes]).stream().pipeThrough(new DecompressionStream("deflate"));
  return new Uint8Array(await new Response(stream).arrayBuffer());
}

/** Takes the differences of neighbours out of a block's rows; `size` bytes a number. */
function undone(block, predictor, wide, each, size, isLittle) {
  const row = wide * each * size;
  for (let from = 0; from + row <= block.length; from += row) {
    const part = block.subarray(from, from + row);
    if (predictor === 3) part.set(floats(part, wide * each, size, each, isLittle));
    else sums(new DataView(part.buffer, part.byteOffset, row), wide * each, size, each, isLittle);
  }
}

function sums(view, count, size, each, isLittle) {
  const [get, set] = { 1: ["getUint8", "setUint8"], 2: ["getUint16", "setUint16"], 4: ["getUint32", "setUint32"] }[size] ?? [];
  if (!get) throw new Error(`numbers of ${8 * size} bits cannot have differences`);
  for (let k = each; k < count; k++) view[set](k * size, view[get](k * size, isLittle) + view[get]((k - each) * size, isLittle), isLittle);
}

/** Floats whose bytes stand by their weight, the greatest first, as differences. */
function floats(part, count, size, each, isLittle) {
  for (let k = each; k < part.length; k++) part[k] += part[k - each];
  const found = new Uint8Array(part.length);
  for (let k = 0; k < count; k++) {
    for (let b = 0; b < size; b++) found[k * size + (isLittle ? size - 1 - b : b)] = part[b * count + k];
  }
  return found;
}

function numberOf(format, bits) {
  const kind = { 1: "Uint", 2: "Int", 3: "Float" }[format];
  const get = `get${kind}${bits}`;
  if (!kind || !(get in DataView.prototype) || bits === 64 && format !== 3) throw new Error(`its numbers are of ${bits} bits, format ${format}`);
  return get;
}

/** { heights, width, height, spacing }: NaN where there is no height; spacing is undefined where the file has none. */
export async function readGeotiff(buffer) {
  const view = new DataView(buffer);
  const isLittle = view.getUint16(0) === 0x4949;
  if (view.getUint16(2, isLittle) !== 42) throw new Error("it is a BigTIFF, or no TIFF");
  const tags = tagsOf(view, isLittle);
  const one = (name, otherwise) => tags[name]?.[0] ?? otherwise;
  const [width, height, bits, compression] = [one("width"), one("height"), one("bits", 1), one("compression", 1)];
  const isTiled = "tileOffsets" in tags;
  const [wide, high] = isTiled ? [one("tileWidth"), one("tileHeight")] : [width, one("rowsPerStrip", height)];
  const each = one("planes", 1) === 1 ? one("samples", 1) : 1;
  if (compression !== 1 && !DEFLATE.includes(compression)) throw new Error(`its compression is ${compression}; gdal_translate -co COMPRESS=DEFLATE mends it`);
  const get = numberOf(one("format", 1), bits);
  const heights = new Float32Array(width * height);
  const nodata = tags.nodata === undefined ? NaN : Number(tags.nodata);
  const [offsets, lengths] = isTiled ? [tags.tileOffsets, tags.tileBytes] : [tags.stripOffsets, tags.stripBytes];
  const across = Math.ceil(width / wide);
  for (let k = 0; k < across * Math.ceil(height / high); k++) {
    const stored = new Uint8Array(buffer, offsets[k], lengths[k]);
    const block = compression === 1 ? stored.slice() : await inflated(stored);
    if (one("predictor", 1) > 1) undone(block, one("predictor"), wide, each, bits / 8, isLittle);
    const numbers = new DataView(block.buffer, block.byteOffset, block.byteLength);
    const [left, top] = [(k % across) * wide, Math.floor(k / across) * high];
    for (let y = top; y < Math.min(top + high, height); y++) {
      for (let x = left; x < Math.min(left + wide, width); x++) {
        const it = numbers[get]((((y - top) * wide + x - left) * each * bits) / 8, isLittle);
        heights[y * width + x] = it === nodata ? NaN : it;
      }
    }
  }
  return { heights, width, height, spacing: tags.scale?.[0] };
}
