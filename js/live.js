// A live session (`serve`) over files in memory, in this thread: lines come in, output goes out. It stands still in its
// read of standard input until a line comes.
import { Run } from "./program.js";
import { filesOf, joined, textOf } from "./runs.js";

/** @typedef {{ cart: Uint8Array, recording: Uint8Array, font: Uint8Array }} RunFiles */

/**
 * How a session has ended. The recording is as it was left or last saved, if it was.
 * @typedef {{ status: number, error: string, recording: Uint8Array | null }} Ending
 */

/**
 * Who is told what a session does, in order.
 * @typedef {object} Listener
 * @property {() => void} began cart, recording and font are accepted
 * @property {(bytes: Uint8Array) => void} output
 * @property {(recording: Uint8Array) => void} saved comes before the end of the answer to `save`
 * @property {(ending: Ending) => void} ended
 */

const [CART, RECORDING, FONT, OUT] = ["CART", "REC", "FONT", "OUT"];
const MOST_HELD = 1 << 18; // bytes of output that are held back to go as one

/** The lines that came and weren't read yet. */
class Inbox {
  /** @type {Uint8Array[]} */
  #parts = [];
  isAtEnd = false;

  /** @param {string} text */
  put(text) {
    if (text !== "") this.#parts.push(new TextEncoder().encode(text));
  }

  /** @param {Uint8Array} to */
  read(to) {
    const [first] = this.#parts;
    if (!first) return this.isAtEnd ? 0 : null;
    const part = first.subarray(0, to.length);
    to.set(part);
    if (part.length === first.length) this.#parts.shift();
    else this.#parts[0] = first.subarray(part.length);
    return part.length;
  }
}

/** A session that runs. */
export class Live {
  #told;
  #inbox = new Inbox();
  /** @type {Uint8Array[]} */
  #held = [];
  #heldBytes = 0;
  /** @type {Uint8Array[]} */
  #errors = [];
  #house;
  /** @type {Run | null} */
  #run = null;

  /** @param {RunFiles} files @param {Listener} told */
  constructor({ cart, recording, font }, told) {
    this.#told = told;
    this.#house = filesOf({ [CART]: cart, [RECORDING]: recording, [FONT]: font }, {
      input: (to) => this.#inbox.read(to),
      output: (bytes) => this.#hold(bytes),
      error: (bytes) => this.#errors.push(bytes.slice()),
    });
    // Nothing but OUT takes another's name.
    const rename = this.#house.rename.bind(this.#house);
    this.#house.rename = (name, other) => {
      rename(name, other);
      this.#flush();
      told.saved(/** @type {Uint8Array} */ (this.#house.get(OUT)));
    };
  }

  /**
   * Begins, up to the read of the first line or to the end.
   * @param {WebAssembly.Module} module
   */
  async start(module) {
    const run = await Run.of(module, this.#house);
    this.#run = run;
    const status = run.start(["serve", CART, RECORDING, FONT, OUT]);
    if (status === null) this.#told.began();
    this.#after(status);
  }

  /**
   * Answers lines.
   * @param {string} text each line with byte 10 at its end
   */
  write(text) {
    this.#inbox.put(text);
    this.#goOn();
  }

  /** No line comes any more: it saves and ends. */
  end() {
    this.#inbox.isAtEnd = true;
    this.#goOn();
  }

  #goOn() {
    if (this.#run) this.#after(this.#run.resume());
  }

  /** @param {number | null} status */
  #after(status) {
    this.#flush();
    if (status === null) return;
    this.#run = null;
    this.#told.ended({ status, error: textOf(joined(this.#errors)), recording: this.#house.get(OUT) });
  }

  /** @param {Uint8Array} bytes */
  #hold(bytes) {
    this.#held.push(bytes.slice());
    this.#heldBytes += bytes.length;
    if (this.#heldBytes >= MOST_HELD) this.#flush();
  }

  #flush() {
    if (this.#held.length) this.#told.output(joined(this.#held));
    this.#held = [];
    this.#heldBytes = 0;
  }
}
