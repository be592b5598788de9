// Files in memory, for where a system's aren't to be touched or aren't there, as in a page. They are as Linux has them
// for a user who owns them all: folders, links and permissions, as far as the program asks.
import { Fault, KIND, MOST_LINKS, OPENING } from "./linux.js";
import { Folder, Link, PlainFile } from "./memory_entries.js";

/** @typedef {import("./memory_entries.js").Entry} Entry */
/** @typedef {import("./program.js").Stat} Stat */
/** @typedef {{ folder: Folder, part: string, entry: Entry | undefined }} Place */

/**
 * The standard streams of a run.
 * @typedef {object} Streams
 * @property {(to: Uint8Array) => number | null} input how many bytes came, 0 at the end, null where none has come yet
 * @property {(bytes: Uint8Array) => void} output gets bytes of the program's memory, which stand until it returns
 * @property {(bytes: Uint8Array) => void} error likewise
 */

const MAY_READ = 0o400;
const MAY_WRITE = 0o200;
const MAY_ENTER = 0o100;
const PERMISSIONS = 0o7777;
const UMASK = 0o022;
const LONGEST_PART = 255; // bytes between two slashes of a name
const FIRST_FILE = 3; // behind the standard streams

/** Files of a run that are in memory. Names count from its root, with or without a slash before them. */
export class MemoryFiles {
  #root = new Folder(0o755, null);
  #streams;
  /** @type {Map<number, { entry: PlainFile | Folder, at: number, flags: number }>} */
  #open = new Map();
  #next = FIRST_FILE;

  /** @param {Streams} streams */
  constructor(streams) {
    this.#streams = streams;
  }

  // ---- what stands there before a run and after it

  /**
   * Puts a file there, in folders that are made where they aren't there.
   * @param {string} name
   * @param {Uint8Array} bytes
   * @param {number} [mode]
   */
  put(name, bytes, mode = 0o644) {
    const { folder, part } = this.#made(name);
    const file = new PlainFile(mode);
    file.write(0, bytes);
    file.isChanged = false;
    folder.entries.set(part, file);
  }

  /** @param {string} name @param {string} target */
  putLink(name, target) {
    const { folder, part } = this.#made(name);
    folder.entries.set(part, new Link(target));
  }

  /** @param {string} name @param {number} [mode] */
  putFolder(name, mode = 0o755) {
    const { folder, part } = this.#made(name);
    folder.entries.set(part, new Folder(mode, folder));
  }

  /**
   * The bytes of a file, or nothing where there is none of that name.
   * @param {string} name
   */
  get(name) {
    try {
      const { entry } = this.#place(name, true);
      return entry instanceof PlainFile ? entry.bytes : null;
    } catch {
      return null;
    }
  }

  /** The plain files that runs have made or written, by name. */
  changed() {
    /** @type {Record<string, Uint8Array>} */
    const changed = {};
    const folders = [{ path: "", folder: this.#root }];
    for (const { path, folder } of folders) {
      folder.entries.forEach((entry, part) => {
        if (entry instanceof Folder) folders.push({ path: `${path}${part}/`, folder: entry });
        if (entry instanceof PlainFile && entry.isChanged) changed[path + part] = entry.bytes;
      });
    }
    return changed;
  }

  // The place of a name, with the folders before it made.
  /** @param {string} name */
  #made(name) {
    const parts = partsOf(name);
    const part = parts.pop() ?? "";
    let folder = this.#root;
    for (const each of parts) {
      if (!folder.entries.has(each)) folder.entries.set(each, new Folder(0o755, folder));
      folder = this.#entered(folder, each, 0);
    }
    return { folder, part };
  }

  // ---- names

  /**
   * Where a name leads: a folder and a part in it, with what is there, if anything is.
   * @param {string} name
   * @param {boolean} follows whether a link at its end is followed
   * @param {Folder} from
   * @param {number} links how many links have led here
   * @returns {Place}
   */
  #place(name, follows, from = this.#root, links = 0) {
    const parts = partsOf(name);
    const part = parts.pop();
    let folder = name.startsWith("/") ? this.#root : from;
    for (const each of parts) folder = this.#entered(folder, each, links);
    if (part === undefined) return { folder, part: ".", entry: folder };
    if (part === "..") return { folder, part, entry: folder.parent };
    requires(folder, MAY_ENTER);
    const entry = folder.entries.get(part);
    if (!(entry instanceof Link && follows)) return { folder, part, entry };
    if (links === MOST_LINKS) throw new Fault("ELOOP");
    return this.#place(entry.target, true, folder, links + 1);
  }

  /** @param {Folder} folder @param {string} part @param {number} links @returns {Folder} */
  #entered(folder, part, links) {
    const entry = present(this.#place(part, true, folder, links));
    if (!(entry instanceof Folder)) throw new Fault("ENOTDIR");
    return entry;
  }

  /** @param {string} name @param {boolean} follows */
  stat(name, follows) {
    return statOf(present(this.#place(name, follows)));
  }

  /** @param {string} name */
  readlink(name) {
    const entry = present(this.#place(name, false));
    if (!(entry instanceof Link)) throw new Fault("EINVAL");
    return new TextEncoder().encode(entry.target);
  }

  /** @param {string} name */
  unlink(name) {
    const place = this.#place(name, false);
    if (present(place) instanceof Folder) throw new Fault("EISDIR");
    requires(place.folder, MAY_WRITE);
    place.folder.entries.delete(place.part);
  }

  /** @param {string} name @param {string} other */
  rename(name, other) {
    const [from, to] = [this.#place(name, false), this.#place(other, false)];
    const entry = present(from);
    if (to.entry instanceof Folder) throw new Fault("EISDIR");
    requires(from.folder, MAY_WRITE);
    requires(to.folder, MAY_WRITE);
    from.folder.entries.delete(from.part);
    to.folder.entries.set(to.part, entry);
  }

  // ---- open files

  /** @param {string} name @param {number} flags @param {number} mode */
  open(name, flags, mode) {
    const makesAlone = has(flags, OPENING.makes) && has(flags, OPENING.isAlone);
    const place = this.#place(name, !makesAlone);
    if (place.entry && makesAlone) throw new Fault("EEXIST");
    const entry = place.entry ? opened(place.entry, flags) : newFile(place, flags, mode);
    this.#open.set(this.#next, { entry, at: 0, flags });
    this.#next += 1;
    return this.#next - 1;
  }

  /** @param {number} file */
  #opened(file) {
    const opened = this.#open.get(file);
    if (!opened) throw new Fault("EBADF");
    return opened;
  }

  /** @param {number} file */
  #plain(file) {
    const { entry, flags } = this.#opened(file);
    if (entry instanceof Folder || !writes(flags)) throw new Fault("EINVAL");
    return entry;
  }

  /** @param {number} file */
  close(file) {
    if (!this.#open.delete(file)) throw new Fault("EBADF");
  }

  /** @param {number} file @param {Uint8Array} to */
  read(file, to) {
    if (file === 0) return this.#streams.input(to);
    const opened = this.#opened(file);
    if (opened.entry instanceof Folder) throw new Fault("EISDIR");
    if ((opened.flags & OPENING.access) === OPENING.writes) throw new Fault("EBADF");
    const count = opened.entry.read(opened.at, to);
    opened.at += count;
    return count;
  }

  /** @param {number} file @param {Uint8Array} from */
  write(file, from) {
    if (file === 1 || file === 2) {
      this.#streams[file === 1 ? "output" : "error"](from);
      return from.length;
    }
    const opened = this.#opened(file);
    if (opened.entry instanceof Folder || !writes(opened.flags)) throw new Fault("EBADF");
    if (has(opened.flags, OPENING.appends)) opened.at = opened.entry.size;
    opened.at += opened.entry.write(opened.at, from);
    return from.length;
  }

  /** @param {number} file @returns {Stat} */
  fstat(file) {
    if (file < FIRST_FILE) return { mode: KIND.pipe | 0o600, user: 0, group: 0, size: 0 };
    return statOf(this.#opened(file).entry);
  }

  /** @param {number} file @param {number} offset @param {number} whence */
  seek(file, offset, whence) {
    if (file < FIRST_FILE) throw new Fault("ESPIPE");
    const opened = this.#opened(file);
    const base = [0, opened.at, opened.entry.size][whence];
    if (base === undefined || base + offset < 0) throw new Fault("EINVAL");
    opened.at = base + offset;
    return opened.at;
  }

  /** @param {number} file @param {number} size */
  truncate(file, size) {
    if (size < 0) throw new Fault("EINVAL");
    this.#plain(file).resize(size);
  }

  /** @param {number} file @param {number} mode */
  chmod(file, mode) {
    this.#opened(file).entry.mode = mode & PERMISSIONS;
  }

  /** @param {number} file */
  sync(file) {
    this.#opened(file);
  }
}

/** @param {string} name */
function partsOf(name) {
  if (name === "") throw new Fault("ENOENT");
  const parts = name.split("/").filter((part) => part !== "" && part !== ".");
  const isLong = (/** @type {string} */ part) => new TextEncoder().encode(part).length > LONGEST_PART;
  if (parts.some(isLong)) throw new Fault("ENAMETOOLONG");
  return parts;
}

/** @param {number} flags @param {number} flag */
function has(flags, flag) {
  return (flags & flag) !== 0;
}

/** @param {number} flags */
function writes(flags) {
  return (flags & OPENING.access) !== OPENING.reads;
}

/** @param {Place} place @returns {Entry} */
function present({ entry }) {
  if (!entry) throw new Fault("ENOENT");
  return entry;
}

/** @param {{ mode: number }} entry @param {number} permission */
function requires({ mode }, permission) {
  if (!has(mode, permission)) throw new Fault("EACCES");
}

/** @param {Entry} entry @returns {Stat} */
function statOf({ kind, mode, size }) {
  return { mode: kind | mode, user: 0, group: 0, size };
}

/**
 * What is there, if it may be opened so.
 * @param {Entry} entry
 * @param {number} flags
 */
function opened(entry, flags) {
  if (entry instanceof Link) throw new Fault("ELOOP");
  if (entry instanceof Folder && writes(flags)) throw new Fault("EISDIR");
  if ((flags & OPENING.access) !== OPENING.writes) requires(entry, MAY_READ);
  if (writes(flags)) requires(entry, MAY_WRITE);
  if (entry instanceof PlainFile && has(flags, OPENING.empties)) entry.resize(0);
  return entry;
}

/** @param {Place} place @param {number} flags @param {number} mode */
function newFile({ folder, part }, flags, mode) {
  if (!has(flags, OPENING.makes)) throw new Fault("ENOENT");
  requires(folder, MAY_WRITE);
  const file = new PlainFile(mode & PERMISSIONS & ~UMASK);
  folder.entries.set(part, file);
  return file;
}
