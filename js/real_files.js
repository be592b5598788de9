// The files of the system, by node. Names and numbers of files are node's; what Windows hasn't is left out there.
import fs from "node:fs";
import { Fault, OPENING } from "./linux.js";

/** @typedef {import("./program.js").Stat} Stat */

/**
 * @typedef {object} Given
 * @property {number[]} [streams] the files that are standard input, output and error
 * @property {any} [system] node's module of files
 * @property {string} [platform]
 */

/** Files of a run that are the system's. */
export class RealFiles {
  #streams;
  #system;
  #isWindows;

  /** @param {Given} given */
  constructor(given = {}) {
    const { streams = [0, 1, 2], system = fs, platform = process.platform } = given;
    this.#streams = streams;
    this.#system = system;
    this.#isWindows = platform === "win32";
  }

  /** @param {number} file */
  #own(file) {
    return this.#streams[file] ?? file;
  }

  /** @param {number} file @param {Uint8Array} to @returns {number} */
  read(file, to) {
    try {
      return this.#system.readSync(this.#own(file), to, 0, to.length, null);
    } catch (/** @type {any} */ error) {
      // The end of a pipe or a terminal, as Windows tells it.
      if (error.code === "EOF") return 0;
      throw error;
    }
  }

  /** @param {number} file @param {Uint8Array} from @returns {number} */
  write(file, from) {
    return this.#system.writeSync(this.#own(file), from, 0, from.length, null);
  }

  /** @param {string} name @param {number} flags @param {number} mode @returns {number} */
  open(name, flags, mode) {
    return this.#system.openSync(name, this.#flags(flags), mode);
  }

  // The numbers of flags differ from system to system.
  /** @param {number} flags */
  #flags(flags) {
    const { O_RDONLY, O_WRONLY, O_RDWR, O_CREAT, O_EXCL, O_TRUNC, O_APPEND } = this.#system.constants;
    const wanted = [
      [OPENING.makes, O_CREAT], [OPENING.isAlone, O_EXCL], [OPENING.empties, O_TRUNC], [OPENING.appends, O_APPEND],
    ];
    const access = [O_RDONLY, O_WRONLY, O_RDWR][flags & OPENING.access];
    return wanted.reduce((sum, [flag, own]) => (flags & flag ? sum | own : sum), access);
  }

  /** @param {number} file */
  close(file) {
    this.#system.closeSync(this.#own(file));
  }

  /** @param {string} name @param {boolean} follows */
  stat(name, follows) {
    return statOf(follows ? this.#system.statSync(name) : this.#system.lstatSync(name));
  }

  /** @param {number} file */
  fstat(file) {
    return statOf(this.#system.fstatSync(this.#own(file)));
  }

  /** @returns {number} */
  seek() {
    // Node has no such call, and the program doesn't make it.
    throw new Fault("ESPIPE");
  }

  /** @param {number} file @param {number} size */
  truncate(file, size) {
    this.#system.ftruncateSync(this.#own(file), size);
  }

  /** @param {number} file @param {number} mode */
  chmod(file, mode) {
    this.#system.fchmodSync(this.#own(file), mode);
  }

  /** @param {number} file */
  sync(file) {
    const own = this.#own(file);
    // Windows synchronises no folder, and answers as if that weren't permitted.
    if (this.#isWindows && this.#system.fstatSync(own).isDirectory()) throw new Fault("EINVAL");
    this.#system.fsyncSync(own);
  }

  /** @param {string} name @returns {Uint8Array} */
  readlink(name) {
    return this.#system.readlinkSync(name, { encoding: "buffer" });
  }

  /** @param {string} name @param {string} other */
  rename(name, other) {
    this.#system.renameSync(name, other);
  }

  /** @param {string} name */
  unlink(name) {
    this.#system.unlinkSync(name);
  }
}

/**
 * @param {{ mode: number, uid: number, gid: number, size: number }} found
 * @returns {Stat}
 */
function statOf({ mode, uid, gid, size }) {
  return { mode, user: uid, group: gid, size };
}
