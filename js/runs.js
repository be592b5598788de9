// A command from bytes to bytes: its files are in memory, and it runs to its end in this thread.
import { MemoryFiles } from "./memory_files.js";
import { Run } from "./program.js";

/**
 * What a command has done.
 * @typedef {object} Result
 * @property {number} status the exit status, as docs/FORMATS.md has it
 * @property {Uint8Array} output what it wrote to standard output
 * @property {string} error what it wrote to standard error: a line, or nothing
 * @property {Record<string, Uint8Array>} files the files that it made or wrote, by name
 */

/** @typedef {Record<string, Uint8Array>} FilesByName */

/**
 * Bytes one behind the other.
 * @param {Uint8Array[]} parts
 */
export function joined(parts) {
  if (parts.length === 1) return parts[0];
  const bytes = new Uint8Array(parts.reduce((sum, part) => sum + part.length, 0));
  let at = 0;
  for (const part of parts) {
    bytes.set(part, at);
    at += part.length;
  }
  return bytes;
}

const BLOCK = 1 << 20; // bytes of output that are gathered in one array, where it isn't known how many there will be
const LINE = 1 << 10; // bytes that a line of errors seldom has more than
const IMAGE = 76_815; // bytes of one of the images that `frames` writes
const MOST_AT_ONCE = 1 << 28;

/**
 * How many bytes a command will write, where its words tell that, so that they needn't be moved once more.
 * @param {string[]} words
 */
function likelyLength(words) {
  const [from, to] = words.slice(-2).map(Number);
  const length = words[0] === "frames" ? (to - from + 1) * IMAGE : 0;
  return length > 0 && length <= MOST_AT_ONCE ? length : BLOCK;
}

/** What a run writes, as it comes. */
class Output {
  /** @type {Uint8Array[]} */
  #full = [];
  #at = 0;
  #block;

  /** @param {number} length how many bytes are likely to come */
  constructor(length) {
    this.#block = new Uint8Array(length);
  }

  /** @param {Uint8Array} bytes */
  add(bytes) {
    let left = bytes;
    while (left.length > 0) {
      if (this.#at === this.#block.length) this.#begin();
      const part = left.subarray(0, this.#block.length - this.#at);
      this.#block.set(part, this.#at);
      this.#at += part.length;
      left = left.subarray(part.length);
    }
  }

  #begin() {
    this.#full.push(this.#block);
    this.#block = new Uint8Array(BLOCK);
    this.#at = 0;
  }

  bytes() {
    const isWhole = this.#full.length === 0 && this.#at === this.#block.length;
    return isWhole ? this.#block : joined([...this.#full, this.#block.slice(0, this.#at)]);
  }
}

/**
 * Bytes as text.
 * @param {Uint8Array} bytes
 */
export function textOf(bytes) {
  return new TextDecoder().decode(bytes);
}

/**
 * Files in memory with these in them.
 * @param {FilesByName} files
 * @param {import("./memory_files.js").Streams} streams
 */
export function filesOf(files, streams) {
  const house = new MemoryFiles(streams);
  Object.entries(files).forEach(([name, bytes]) => house.put(name, bytes));
  return house;
}

/**
 * Runs a command over files in memory. Its standard input is empty.
 * @param {WebAssembly.Module} module
 * @param {string[]} words the command and its arguments
 * @param {FilesByName} files
 * @returns {Promise<Result>}
 */
export async function runInMemory(module, words, files) {
  const output = new Output(likelyLength(words));
  const error = new Output(LINE);
  const house = filesOf(files, {
    input: () => 0,
    output: (bytes) => output.add(bytes),
    error: (bytes) => error.add(bytes),
  });
  const run = await Run.of(module, house);
  const status = /** @type {number} */ (run.start(words));
  return { status, output: output.bytes(), error: textOf(error.bytes()), files: house.changed() };
}
