// The bytes of a recording, as far as the page reads them itself: see docs/FORMATS.md.
import { Refusal } from "../page/refusals.js";

const HEAD = 47; // bytes without the disk and the frames
const MAGIC = [0x57, 0x34, 0x52, 0x43];
const DIGEST = 5; // where the digest of its cart is
const BUDGET = 37;
const DISK = 41;
const COUNT = 43; // where the number of frames is, behind the disk

function view(bytes) {
  return new DataView(bytes.buffer, bytes.byteOffset, bytes.byteLength);
}

function hexadecimal(bytes) {
  return Array.from(bytes, (byte) => byte.toString(16).padStart(2, "0")).join("");
}

// Its budget, its frames and the digest of its cart.
export function factsOf(bytes) {
  const isRecording = bytes.length >= HEAD && MAGIC.every((byte, at) => bytes[at] === byte) && bytes[4] <= 2;
  if (!isRecording) throw new Refusal("that isn't a recording");
  const width = 8 + bytes[4];
  const disk = view(bytes).getUint16(DISK, true);
  const frames = bytes.length >= HEAD + disk ? view(bytes).getUint32(COUNT + disk, true) : 0;
  if (bytes.length !== HEAD + disk + width * frames) throw new Refusal("that isn't a recording");
  return { budget: view(bytes).getUint32(BUDGET, true), frames, digest: hexadecimal(bytes.subarray(DIGEST, BUDGET)) };
}

// The digest of a cart, as a recording of it names it.
export async function digestOf(cart) {
  return hexadecimal(new Uint8Array(await crypto.subtle.digest("SHA-256", cart)));
}

// A recording of the first inputs alone.
export function shortened(bytes, frames) {
  const disk = view(bytes).getUint16(DISK, true);
  const cut = bytes.slice(0, HEAD + disk + (8 + bytes[4]) * frames);
  view(cut).setUint32(COUNT + disk, frames, true);
  return cut;
}
