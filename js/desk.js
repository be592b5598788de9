// Who waits for which answer. Each line has one answer, in turn: pieces, each with its length in decimal and byte 10
// before it, and `0` and byte 10 as its end (docs/FORMATS.md, "Live session").
import { joined, textOf } from "./runs.js";

const NEWLINE = 10;
const LONGEST_REFUSAL = 40;
const REFUSAL = /^refused ([a-z ]+)\n$/;

/** An order that can't be carried out in the state that it meets. The session goes on. */
export class Refused extends Error {
  /** @param {string} order @param {string} why */
  constructor(order, why) {
    super(`${order}: refused ${why}`);
    this.name = "Refused";
    this.order = order;
    this.why = why;
  }
}

/** The answer to a line. */
export class Answer {
  /** @param {Uint8Array[]} pieces */
  constructor(pieces) {
    this.pieces = pieces;
  }

  /** All pieces, one behind the other. */
  get bytes() {
    return joined(this.pieces);
  }

  /** All pieces as text. */
  get text() {
    return this.pieces.map(textOf).join("");
  }
}

/**
 * @typedef {object} AskOptions
 * @property {(piece: Uint8Array) => void} [onPiece] gets each piece as it comes; the answer has none then
 * @property {boolean} [cannotBeRefused] the answer is taken as it is, even where it reads like a refusal, as the bytes
 *   of a disk may
 */

/**
 * @typedef {object} Asked
 * @property {string} line
 * @property {AskOptions} options
 * @property {Uint8Array[]} pieces those that were kept so far
 * @property {number} count how many came
 * @property {(answer: Answer) => any} value what the answer is made into, at the moment of its end
 * @property {(value: any) => void} resolve
 * @property {(reason: any) => void} reject
 */

/** Parts output into pieces and ends, however it is cut. */
class Parts {
  #length = 0;
  #filled = 0;
  /** @type {Uint8Array | null} */
  #piece = null;

  /** @param {(piece: Uint8Array) => void} onPiece @param {() => void} onEnd */
  constructor(onPiece, onEnd) {
    this.onPiece = onPiece;
    this.onEnd = onEnd;
  }

  /** @param {Uint8Array} bytes */
  take(bytes) {
    let at = 0;
    while (at < bytes.length) at += this.#piece ? this.#fill(this.#piece, bytes.subarray(at)) : this.#count(bytes[at]);
  }

  /** @param {number} byte */
  #count(byte) {
    if (byte !== NEWLINE) this.#length = 10 * this.#length + byte - 48;
    else if (this.#length === 0) this.onEnd();
    else this.#piece = new Uint8Array(this.#length);
    return 1;
  }

  /** @param {Uint8Array} piece @param {Uint8Array} bytes */
  #fill(piece, bytes) {
    const part = bytes.subarray(0, piece.length - this.#filled);
    piece.set(part, this.#filled);
    this.#filled += part.length;
    if (this.#filled === piece.length) {
      [this.#piece, this.#length, this.#filled] = [null, 0, 0];
      this.onPiece(piece);
    }
    return part.length;
  }
}

/** Sends lines, and gives each asker its answer. */
export class Desk {
  /** @type {Asked[]} */
  #waiting = [];
  /** @type {string[]} */
  #lines = [];
  /** @type {{ why: any } | null} */
  #ended = null;
  #parts = new Parts((piece) => this.#takePiece(piece), () => this.#takeEnd());

  /**
   * @param {(text: string) => void} write sends lines
   * @param {(isWaiting: boolean) => void} told is told when the first asks, and when nobody waits any more
   */
  constructor(write, told = () => {}) {
    this.write = write;
    this.told = told;
  }

  /**
   * Asks for the answer to a line.
   * @template T
   * @param {string} line
   * @param {(answer: Answer) => T} value
   * @param {AskOptions} options
   * @returns {Promise<T>}
   */
  ask(line, value, options) {
    if (/[\n\0]/.test(line)) throw new TypeError(`${JSON.stringify(line)} is no line: it has a line break or character 0`);
    if (this.#ended) return Promise.reject(this.#ended.why);
    return new Promise((resolve, reject) => {
      if (!this.#waiting.length) this.told(true);
      this.#waiting.push({ line, options, pieces: [], count: 0, value, resolve, reject });
      this.#lines.push(line);
      // Lines of one moment go as one message.
      if (this.#lines.length === 1) queueMicrotask(() => this.flush());
    });
  }

  /** Sends the lines that were asked for. */
  flush() {
    const lines = this.#lines;
    this.#lines = [];
    if (lines.length && !this.#ended) this.write(lines.map((line) => `${line}\n`).join(""));
  }

  /**
   * Takes output of the session.
   * @param {Uint8Array} bytes
   */
  take(bytes) {
    this.#parts.take(bytes);
  }

  /**
   * No answer comes any more; those who wait, and who ask from now on, are told why.
   * @param {any} why
   */
  end(why) {
    if (this.#ended) return;
    this.#ended = { why };
    const waiting = this.#waiting;
    this.#waiting = [];
    waiting.forEach(({ reject }) => reject(why));
    if (waiting.length) this.told(false);
  }

  // The first may be a refusal: only what follows it tells.
  /** @param {Uint8Array} piece */
  #takePiece(piece) {
    const asked = this.#waiting[0];
    asked.pieces.push(piece);
    asked.count += 1;
    if (asked.options.onPiece && refusalOf(asked) === null) pass(asked);
  }

  #takeEnd() {
    const asked = /** @type {Asked} */ (this.#waiting.shift());
    settle(asked);
    if (!this.#waiting.length) this.told(false);
  }
}

/**
 * Gives the pieces to who wants each. What that throws is the asker's, and the session goes on.
 * @param {Asked} asked
 */
function pass(asked) {
  const { pieces, options, reject } = asked;
  asked.pieces = [];
  try {
    pieces.forEach((piece) => options.onPiece?.(piece));
  } catch (error) {
    reject(error);
  }
}

/** @param {Asked} asked */
function settle(asked) {
  const why = refusalOf(asked);
  if (why !== null) {
    asked.reject(new Refused(asked.line, why));
    return;
  }
  try {
    asked.resolve(asked.value(new Answer(asked.pieces)));
  } catch (error) {
    asked.reject(error);
  }
}

/** @param {Asked} asked */
function refusalOf({ pieces, count, options }) {
  if (options.cannotBeRefused || count !== 1 || pieces[0].length > LONGEST_REFUSAL) return null;
  return REFUSAL.exec(textOf(pieces[0]))?.[1] ?? null;
}
