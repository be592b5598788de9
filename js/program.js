// The program w4 as a WebAssembly module, and one run of it. ports/wasm/HOST.md says what the module asks and gives.
import { Fault, numberOf } from "./linux.js";

/**
 * What a run gets its files and streams from. A call that fails throws an error whose `code` is one of Linux's; file
 * 0, 1 and 2 are the standard streams.
 * @typedef {object} Files
 * @property {(file: number, to: Uint8Array) => number | null} read how many bytes were read, 0 at the end; null of file
 *   0 where nothing has come as yet and the run is to stand still
 * @property {(file: number, from: Uint8Array) => number} write how many bytes were written
 * @property {(name: string, flags: number, mode: number) => number} open
 * @property {(file: number) => void} close
 * @property {(name: string, follows: boolean) => Stat} stat
 * @property {(file: number) => Stat} fstat
 * @property {(file: number, offset: number, whence: number) => number} seek
 * @property {(file: number, size: number) => void} truncate
 * @property {(file: number, mode: number) => void} chmod
 * @property {(file: number) => void} sync
 * @property {(name: string) => Uint8Array} readlink
 * @property {(name: string, other: string) => void} rename
 * @property {(name: string) => void} unlink
 */

/** @typedef {{ mode: number, user: number, group: number, size: number }} Stat */

/** The status where memory ran out. */
export const OUT_OF_MEMORY = 9;

const NAME = "w4";
const UNWINDING = 1;
const REWINDING = 2;

/** Thrown by the module's call of `exit`. */
class Exit {
  /** @param {number} status */
  constructor(status) {
    this.status = status;
  }
}

/**
 * Words as the module takes them, the program's name first.
 * @param {string[]} words
 */
function encoded(words) {
  if (words.some((word) => word.includes("\0"))) throw new TypeError("a word of a command has no character 0");
  return new TextEncoder().encode([NAME, ...words].map((word) => `${word}\0`).join(""));
}

/** A run of the program: an instance of the module, over files. It is done with when it has ended. */
export class Run {
  /** @type {any} */
  #exports = null;
  #files;
  #count = 0;
  #unwound = 0;

  /** @param {Files} files */
  constructor(files) {
    this.#files = files;
  }

  /**
   * A run that hasn't begun.
   * @param {WebAssembly.Module} module
   * @param {Files} files
   */
  static async of(module, files) {
    const run = new Run(files);
    const instance = await WebAssembly.instantiate(module, { host: run.#host() });
    run.#exports = instance.exports;
    return run;
  }

  /**
   * Runs with these words, a command and its arguments: the exit status, or null where it stands still for input.
   * @param {string[]} words
   */
  start(words) {
    const bytes = encoded(words);
    const address = this.#exports.args_at(bytes.length) >>> 0;
    if (address === 0) return OUT_OF_MEMORY;
    this.#bytes(address, bytes.length).set(bytes);
    this.#count = words.length + 1;
    return this.#go();
  }

  /** Goes on where it stood still: the exit status, or null again. */
  resume() {
    this.#exports.asyncify_start_rewind(this.#unwound);
    return this.#go();
  }

  #go() {
    let status;
    try {
      status = this.#exports.run(this.#count);
    } catch (end) {
      if (end instanceof Exit) return end.status;
      throw end;
    }
    if (this.#exports.asyncify_get_state() !== UNWINDING) return status;
    this.#exports.asyncify_stop_unwind();
    return null;
  }

  // The memory may have grown since the last call, and has another buffer then.
  /** @param {number} address @param {number} count */
  #bytes(address, count) {
    return new Uint8Array(this.#exports.memory.buffer, address >>> 0, count >>> 0);
  }

  /** @param {number} address @param {number} length */
  #name(address, length) {
    const decoder = new TextDecoder("utf-8", { fatal: true, ignoreBOM: true });
    try {
      return decoder.decode(this.#bytes(address, length));
    } catch {
      throw new Fault("EINVAL");
    }
  }

  /** @param {number} address @param {Stat} stat */
  #putStat(address, { mode, user, group, size }) {
    const view = new DataView(this.#exports.memory.buffer, address >>> 0);
    [mode, user, group].forEach((number, at) => view.setUint32(4 * at, number, true));
    view.setBigUint64(16, BigInt(size), true);
  }

  /** @param {number} file @param {number} to @param {number} count */
  #read(file, to, count) {
    if (file === 0 && this.#exports.asyncify_get_state() === REWINDING) this.#exports.asyncify_stop_rewind();
    const read = this.#files.read(file, this.#bytes(to, count));
    if (read !== null) return read;
    this.#unwound = this.#exports.unwind_at();
    this.#exports.asyncify_start_unwind(this.#unwound);
    return 0;
  }

  /** @param {string} name @param {number} to @param {number} size */
  #readlink(name, to, size) {
    const target = this.#files.readlink(name).subarray(0, size >>> 0);
    this.#bytes(to, target.length).set(target);
    return target.length;
  }

  /** What the module imports. */
  #host() {
    const files = this.#files;
    const name = this.#name.bind(this);
    return {
      ...answered({
        read: (file, to, count) => this.#read(file, to, count),
        write: (file, from, count) => files.write(file, this.#bytes(from, count)),
        open: (at, length, flags, mode) => files.open(name(at, length), flags, mode),
        close: (file) => files.close(file),
        stat: (at, length, follows, out) => this.#putStat(out, files.stat(name(at, length), follows !== 0)),
        fstat: (file, out) => this.#putStat(out, files.fstat(file)),
        truncate: (file, size) => files.truncate(file, Number(size)),
        chmod: (file, mode) => files.chmod(file, mode),
        sync: (file) => files.sync(file),
        readlink: (at, length, to, size) => this.#readlink(name(at, length), to, size),
        rename: (at, length, other, otherLength) => files.rename(name(at, length), name(other, otherLength)),
        unlink: (at, length) => files.unlink(name(at, length)),
      }),
      seek: (/** @type {number} */ file, /** @type {bigint} */ offset, /** @type {number} */ whence) =>
        BigInt(answer(() => files.seek(file, Number(offset), whence))),
      exit(/** @type {number} */ status) {
        throw new Exit(status & 0xff);
      },
    };
  }
}

/**
 * What a call returns to the module: its number, 0 where it has none, or the error's, negated.
 * @param {() => number | void} call
 */
function answer(call) {
  try {
    return call() ?? 0;
  } catch (error) {
    return -numberOf(error);
  }
}

/** @param {Record<string, (...words: any[]) => number | void>} calls */
function answered(calls) {
  const pairs = Object.entries(calls).map(([name, call]) => [name, (/** @type {any[]} */ ...words) =>
    answer(() => call(...words))]);
  return Object.fromEntries(pairs);
}
