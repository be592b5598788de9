// What a file is that the user brings, by its bytes, and why one can't be opened, as a sentence.
import { Refusal } from "../page/refusals.js";

export const CART_MOST = 65536; // bytes
const RECORDING_MOST = 361071;
const FONT_LENGTH = 1792;
const BEGINNING = 512; // bytes that are looked at of a file that is none of these

const ARCHIVES = [[0x50, 0x4b], [0x1f, 0x8b], [0x37, 0x7a, 0xbc, 0xaf], [0xfd, 0x37, 0x7a], [0x52, 0x61, 0x72, 0x21]];
const WASM = [0x00, 0x61, 0x73, 0x6d];
const RECORDING = [0x57, 0x34, 0x52, 0x43];

function begins(bytes, wanted) {
  return wanted.every((byte, at) => bytes[at] === byte);
}

// How many bytes a file has, for people.
export function sizeText(bytes) {
  const units = [[1e9, "GB"], [1e6, "MB"], [1e3, "KB"]];
  const [unit, name] = units.find(([least]) => bytes >= least) || [1, "bytes"];
  return `${(bytes / unit).toLocaleString("en", { maximumFractionDigits: unit === 1 ? 0 : 1 })} ${name}`;
}

function foreignSentence(name, size, bytes) {
  if (!size) return `${name} is empty`;
  if (ARCHIVES.some((magic) => begins(bytes, magic))) {
    return `${name} is an archive: unpack it, and bring the cart (.wasm) and the recording (.w4rec) that are in it`;
  }
  const text = new TextDecoder("latin1").decode(bytes).trimStart().toLowerCase();
  if (text.startsWith("<!doctype html") || text.startsWith("<html")) {
    return `${name} is a web page; what is wanted is the cart of a game, a file that ends in .wasm`;
  }
  if (text.startsWith("(module")) return `${name} is WebAssembly as text: wat2wasm makes a cart of it`;
  return `${name} is neither a cart (.wasm), a recording (.w4rec) nor a font of ${FONT_LENGTH} bytes`;
}

// The kind of a file of this beginning: cart, recording or font.
function kindOf(name, size, bytes) {
  if (begins(bytes, WASM) && size > CART_MOST) {
    throw new Refusal(`${name} has ${sizeText(size)}; a cart has at most ${CART_MOST.toLocaleString("en")} bytes`);
  }
  if (begins(bytes, WASM)) return "cart";
  if (begins(bytes, RECORDING) && size <= RECORDING_MOST) return "recording";
  if (size === FONT_LENGTH) return "font";
  if (size > RECORDING_MOST && !ARCHIVES.some((magic) => begins(bytes, magic))) {
    throw new Refusal(`${name} has ${sizeText(size)}, and wasn't read: a cart has at most 65,536 bytes, and a `
      + "recording 361,071");
  }
  throw new Refusal(foreignSentence(name, size, bytes));
}

async function bytesOf(blob, name) {
  try {
    return new Uint8Array(await blob.arrayBuffer());
  } catch (fault) {
    throw new Refusal(`${name} can't be read: it is a folder, or was moved or changed meanwhile`);
  }
}

// Kind, name and bytes of a file.
export async function readFile(file) {
  const beginning = await bytesOf(file.slice(0, BEGINNING), file.name);
  const kind = kindOf(file.name, file.size, beginning);
  return { kind, name: file.name, bytes: await bytesOf(file, file.name) };
}

// The files of a drop or a choice, by their kinds.
export async function readFiles(files) {
  const found = {};
  for (const file of await Promise.all(files.map(readFile))) {
    if (found[file.kind]) {
      throw new Refusal(`${found[file.kind].name} and ${file.name} are two ${file.kind}s: bring one at a time`);
    }
    found[file.kind] = file;
  }
  if (!files.length) throw new Refusal("there was no file in what was dropped");
  return found;
}

// What was dropped, as files; a folder is refused by its name.
export function droppedFiles(transfer) {
  for (const item of transfer.items) {
    const entry = item.kind === "file" && item.webkitGetAsEntry ? item.webkitGetAsEntry() : null;
    if (entry && entry.isDirectory) {
      throw new Refusal(`${entry.name} is a folder: open it, and drop the cart and the recording that are in it`);
    }
  }
  return [...transfer.files];
}
