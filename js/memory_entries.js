// What has a name among files in memory: plain files, folders and links.
import { Fault, KIND } from "./linux.js";

const SMALLEST = 256; // bytes that a file has room for when it is first written

/** A plain file. */
export class PlainFile {
  #room = new Uint8Array(0);
  #size = 0;
  kind = KIND.file;
  /** Whether a run has made or written it. */
  isChanged = true;

  /** @param {number} mode */
  constructor(mode) {
    this.mode = mode;
  }

  get size() {
    return this.#size;
  }

  /** A copy of its bytes. */
  get bytes() {
    return this.#room.slice(0, this.#size);
  }

  /** @param {number} at @param {Uint8Array} to */
  read(at, to) {
    const part = this.#room.subarray(at, Math.min(at + to.length, this.#size));
    to.set(part);
    return part.length;
  }

  /** @param {number} at @param {Uint8Array} from */
  write(at, from) {
    const end = at + from.length;
    if (end > this.#size) this.resize(end);
    this.#room.set(from, at);
    this.isChanged = true;
    return from.length;
  }

  /** @param {number} size */
  resize(size) {
    if (size > this.#room.length) this.#grow(size);
    this.#room.fill(0, size, this.#size);
    this.#size = size;
    this.isChanged = true;
  }

  // By half as much again, so that writing a file in many parts takes no longer than in few.
  /** @param {number} size */
  #grow(size) {
    try {
      const room = new Uint8Array(Math.max(size, SMALLEST, Math.ceil(this.#room.length * 1.5)));
      room.set(this.#room);
      this.#room = room;
    } catch {
      throw new Fault("ENOMEM");
    }
  }
}

/** A folder; that of the root is the root itself. */
export class Folder {
  /** @type {Map<string, Entry>} */
  entries = new Map();
  kind = KIND.folder;
  size = 0;

  /** @param {number} mode @param {Folder | null} parent */
  constructor(mode, parent) {
    this.mode = mode;
    /** @type {Folder} */
    this.parent = parent ?? this;
  }
}

/** A link to another name. */
export class Link {
  kind = KIND.link;
  mode = 0o777;

  /** @param {string} target */
  constructor(target) {
    this.target = target;
    this.size = new TextEncoder().encode(target).length;
  }
}

/** @typedef {PlainFile | Folder | Link} Entry */
