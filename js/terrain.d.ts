import type { Numbers } from "./index.js";

export interface Decoder { r: number; g: number; b: number; offset: number }
export interface Pixels { data: Uint8Array | Uint8ClampedArray; width: number; height: number }
export type Bounds = readonly [west: number, south: number, east: number, north: number];
export const DECODERS: { mapbox: Decoder; terrarium: Decoder };
/** (width + 1) x (height + 1) metres of a tile of raster-dem, the last row and column those of the neighbours. */
export function heightsOf(
  image: Pixels, decoder?: "mapbox" | "terrarium" | Decoder, neighbours?: { right?: Pixels; below?: Pixels; corner?: Pixels },
): Float32Array;
/** The numbers of a gray PNG of 8 or 16 bits. */
export function heightsOfPng(data: BufferSource): Promise<{ heights: Uint16Array; width: number; height: number }>;
export interface TileOptions { error: number; bounds?: Bounds; required?: Numbers; unit?: number; scale?: number }
export interface MeshAttributes {
  header: { vertexCount: number; boundingBox: [number[], number[]] };
  mode: 4;
  indices: { value: Uint32Array; size: 1 };
  attributes: { POSITION: { value: Float32Array; size: 3 }; TEXCOORD_0: { value: Float32Array; size: 2 } };
  border: Uint32Array;
  deviation: number;
}
/** The mesh of a tile as mesh attributes of loaders.gl. */
export function tileMesh(heights: Numbers, side: number, options: TileOptions): MeshAttributes;
/** Bounds and scale for `tileMesh` of a tile of web maps, in the coordinates of MapLibre's custom layers. */
export function mercatorTile(z: number, x: number, y: number): { bounds: Bounds; scale: number };
/** The bytes of a quantized-mesh tile of Cesium, not zipped; bounds in degrees. */
export function quantizedTile(
  heights: Numbers, side: number, options: { error: number; bounds: Bounds; required?: Numbers; unit?: number },
): Uint8Array;
