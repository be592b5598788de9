// Linux's numbers. The module asks for these on every system (ports/wasm/HOST.md).

/** Errors of system calls by name, as the `code` of node's errors and of a `Fault` has them. */
export const ERRORS = Object.freeze({
  EPERM: 1, ENOENT: 2, EINTR: 4, EIO: 5, EBADF: 9, EAGAIN: 11, ENOMEM: 12, EACCES: 13, EBUSY: 16, EEXIST: 17,
  EXDEV: 18, ENOTDIR: 20, EISDIR: 21, EINVAL: 22, ENFILE: 23, EMFILE: 24, ETXTBSY: 26, EFBIG: 27, ENOSPC: 28,
  ESPIPE: 29, EROFS: 30, EPIPE: 32, ENAMETOOLONG: 36, ENOSYS: 38, ENOTEMPTY: 39, ELOOP: 40, EOPNOTSUPP: 95,
  ENOTSUP: 95, EDQUOT: 122,
});

/** How a file is opened. */
export const OPENING = Object.freeze({
  access: 0o3, reads: 0, writes: 1, readsAndWrites: 2, makes: 0o100, isAlone: 0o200, empties: 0o1000, appends: 0o2000,
});

/** The kind of a file, in its mode. */
export const KIND = Object.freeze({ pipe: 0o010000, folder: 0o040000, file: 0o100000, link: 0o120000 });

/** How many links are followed from a name. */
export const MOST_LINKS = 40;

/** A call on files that fails. */
export class Fault extends Error {
  /** @param {keyof typeof ERRORS} code */
  constructor(code) {
    super(code);
    this.code = code;
  }
}

/**
 * The number of an error that a call on files threw. What isn't one of a system call is thrown on.
 * @param {any} error
 * @returns {number}
 */
export function numberOf(error) {
  if (typeof error?.code !== "string" || !error.code.startsWith("E")) throw error;
  return ERRORS[/** @type {keyof typeof ERRORS} */ (error.code)] ?? ERRORS.EIO;
}
