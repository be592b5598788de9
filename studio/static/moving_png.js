// A film as a moving PNG (Portable Network Graphics, third edition), which browsers show, without sound: as
// the server's moving_png.py makes it, byte for byte where the browser compresses as zlib does.
import { Refusal } from "../page/refusals.js";

const SIDE = 160; // pixels of an image
const SCALE = 4; // pixels of the film to one of these
const RATE = 60; // frames a second
const HEADER = new TextEncoder().encode("P6\n160 160\n255\n");
const LONGEST = 65535; // what a frame's delay can count
const WIDE = SIDE * SCALE;
const ROW = 1 + 3 * WIDE; // bytes of a row, its filter first
const AS_ABOVE = 2; // the filter of a row that is counted from the one above it
const SIGNATURE = Uint8Array.of(0x89, 0x50, 0x4e, 0x47, 0x0d, 0x0a, 0x1a, 0x0a);
const POLYNOMIAL = 0xedb88320; // of CRC-32, its highest power in the lowest bit

const remainders = Uint32Array.from({ length: 256 }, (_, byte) => {
  let rest = byte;
  for (let bit = 0; bit < 8; bit += 1) rest = rest % 2 ? (rest >>> 1) ^ POLYNOMIAL : rest >>> 1;
  return rest;
});

function checksum(bytes) {
  let rest = 0xffffffff;
  for (const byte of bytes) rest = remainders[(rest ^ byte) & 255] ^ (rest >>> 8);
  return (rest ^ 0xffffffff) >>> 0;
}

// Numbers of four bytes, the highest first.
function words(...numbers) {
  const bytes = new Uint8Array(4 * numbers.length);
  const view = new DataView(bytes.buffer);
  numbers.forEach((number, at) => view.setUint32(4 * at, number));
  return bytes;
}

function joined(parts) {
  const bytes = new Uint8Array(parts.reduce((length, part) => length + part.length, 0));
  let at = 0;
  for (const part of parts) {
    bytes.set(part, at);
    at += part.length;
  }
  return bytes;
}

function chunk(name, ...parts) {
  const data = joined([new TextEncoder().encode(name), ...parts]);
  return joined([words(data.length - 4), data, words(checksum(data))]);
}

// A row of the film, without its filter: each pixel of an image's row as often as it is wide.
function wideRow(image, row) {
  const bytes = new Uint8Array(3 * WIDE);
  for (let at = 0; at < WIDE; at += 1) {
    const from = HEADER.length + 3 * (SIDE * row + Math.floor(at / SCALE));
    bytes[3 * at] = image[from];
    bytes[3 * at + 1] = image[from + 1];
    bytes[3 * at + 2] = image[from + 2];
  }
  return bytes;
}

// The rows of an image, each pixel of it a square.
function rowsOf(image) {
  const rows = new Uint8Array(ROW * WIDE);
  for (let row = 0; row < WIDE; row += 1) {
    if (row % SCALE) rows[ROW * row] = AS_ABOVE;
    else rows.set(wideRow(image, row / SCALE), ROW * row + 1);
  }
  return rows;
}

async function compressed(image) {
  const stream = new Blob([rowsOf(image)]).stream().pipeThrough(new CompressionStream("deflate"));
  return new Uint8Array(await new Response(stream).arrayBuffer());
}

function isImage(bytes) {
  const length = HEADER.length + 3 * SIDE * SIDE;
  return bytes.length === length && HEADER.every((byte, at) => byte === bytes[at]);
}

function areSame(image, other) {
  return other !== null && image.every((byte, at) => byte === other[at]);
}

// Takes images as they come, and holds of each that differs from the one before it what a film needs.
export class MovingPng {
  constructor() {
    this.frames = []; // { data: a promise of the compressed rows, length: for how many frames it stands }
    this.last = null;
  }

  add(image) {
    if (!isImage(image)) throw new Refusal("those places aren't there");
    const frame = this.frames.at(-1);
    if (areSame(image, this.last) && frame.length < LONGEST) {
      frame.length += 1;
      return;
    }
    this.last = image;
    this.frames.push({ data: compressed(image), length: 1 });
  }

  // The film, played without an end.
  async bytes() {
    const head = joined([words(WIDE, WIDE), Uint8Array.of(8, 2, 0, 0, 0)]);
    const parts = [SIGNATURE, chunk("IHDR", head), chunk("acTL", words(this.frames.length, 0))];
    let number = 0; // of the chunks that belong to a frame
    for (const [at, { data, length }] of this.frames.entries()) {
      const delay = Uint8Array.of(length >> 8, length & 255, 0, RATE, 0, 0);
      parts.push(chunk("fcTL", words(number, WIDE, WIDE, 0, 0), delay));
      number += 1;
      if (at) parts.push(chunk("fdAT", words(number), await data));
      else parts.push(chunk("IDAT", await data));
      if (at) number += 1;
    }
    return joined([...parts, chunk("IEND")]);
  }
}
