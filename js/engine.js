// A live session: the recording is edited, and each edit's effect is seen at once. It runs in a worker or in this thread.
import { Answer, Desk } from "./desk.js";
import { Failure } from "./failure.js";
import { moduleOf } from "./module.js";
import { Orders } from "./orders.js";
import { OwnSeat, WorkerSeat } from "./seats.js";

/** @typedef {import("./desk.js").AskOptions} AskOptions */
/** @typedef {import("./live.js").Ending} Ending */
/** @typedef {Uint8Array | ArrayBuffer} Bytes */

/**
 * @typedef {object} OpenOptions
 * @property {Bytes} cart
 * @property {Bytes} recording
 * @property {Bytes} font
 * @property {import("./module.js").ModuleSource} [module] w4.wasm, where it isn't that beside these files
 * @property {import("./threads.js").WorkerChoice} [worker] false: in this thread, which waits for each answer
 * @property {AbortSignal} [signal] gives the session up, whatever it is at: what wasn't saved is lost. In this thread
 *   that happens between two answers
 */

/** The session was closed, or is about to be. */
class Closed extends Error {
  constructor() {
    super("this session is closed: open another");
    this.name = "Closed";
  }
}

/** @param {Bytes} bytes */
export function bytesOf(bytes) {
  if (bytes instanceof Uint8Array) return bytes;
  if (bytes instanceof ArrayBuffer) return new Uint8Array(bytes);
  throw new TypeError("the bytes of a file are a Uint8Array or an ArrayBuffer");
}

/** A session that is open, with a method for each order. */
export class Session extends Orders {
  #seat;
  #desk;
  /** @type {Uint8Array | null} */
  #saved = null;
  #isClosing = false;
  /** @type {(ending: Ending) => void} */
  #settle = () => {};
  /** @type {(value?: any) => void} */
  #began = () => {};
  /** @type {AbortSignal | undefined} */
  #signal;
  #giveUp = () => this.#end({ status: 0, error: "", recording: this.#saved }, this.#signal?.reason);

  /** How it has ended, once it has: status, line of standard error, and the recording as it was left or last saved. */
  ended = new Promise((/** @type {(ending: Ending) => void} */ resolve) => {
    this.#settle = resolve;
  });

  /** @param {Pick<OpenOptions, "worker" | "signal">} options */
  constructor({ worker = true, signal }) {
    super();
    this.#signal = signal;
    const told = this.#listener();
    this.#seat = worker ? new WorkerSeat(worker, told) : new OwnSeat(told);
    this.#desk = new Desk((text) => this.#seat.write(text), (isWaiting) => this.#seat.hold(isWaiting));
  }

  /**
   * Starts the program, which judges cart, recording and font.
   * @param {WebAssembly.Module} module
   * @param {import("./live.js").RunFiles} files
   */
  async begin(module, files) {
    this.#signal?.throwIfAborted();
    this.#signal?.addEventListener("abort", this.#giveUp, { once: true });
    await new Promise((resolve, reject) => {
      this.#began = resolve;
      this.ended.then(() => reject(this.#why));
      this.#seat.start(module, files).catch(reject);
    });
    this.#seat.hold(false);
  }

  /** @type {any} */
  #why = null;

  /** @returns {import("./seats.js").Listener} */
  #listener() {
    return {
      began: () => this.#began(),
      output: (bytes) => this.#desk.take(bytes),
      saved: (recording) => {
        this.#saved = recording;
      },
      ended: (ending) => this.#end(ending, ending.status ? new Failure(ending.status, ending.error) : new Closed()),
      broke: (error) => this.#end({ status: 0, error: error.message, recording: this.#saved }, error),
    };
  }

  /** @param {Ending} ending @param {any} why */
  #end(ending, why) {
    this.#why = why;
    this.#signal?.removeEventListener("abort", this.#giveUp);
    this.#seat.giveUp();
    this.#settle(ending);
    this.#desk.end(why);
  }

  /**
   * The answer to a line, whatever it is: its pieces, its bytes and its text. One that is refused rejects with `Refused`.
   * @param {string} line
   * @param {AskOptions} [options]
   * @returns {Promise<Answer>}
   */
  ask(line, options) {
    return this.order(line, (answer) => answer, options);
  }

  /**
   * The text of the answer to a line.
   * @param {string} line
   */
  text(line) {
    return this.order(line, ({ text }) => text);
  }

  /**
   * @template T
   * @param {string} line
   * @param {(answer: Answer) => T} value
   * @param {AskOptions} [options]
   * @returns {Promise<T>}
   */
  async order(line, value, options = {}) {
    if (this.#isClosing) throw new Closed();
    return this.#desk.ask(line, value, options);
  }

  /** The recording as it is now. */
  save() {
    return this.order("save", () => /** @type {Uint8Array} */ (this.#saved));
  }

  /** Ends the session, behind all that was asked for: the recording as it is left. */
  async close() {
    if (!this.#isClosing) {
      this.#isClosing = true;
      this.#seat.hold(true);
      this.#desk.flush();
      this.#seat.end();
    }
    const { recording } = await this.ended;
    if (!(this.#why instanceof Closed)) throw this.#why;
    return /** @type {Uint8Array} */ (recording);
  }
}

/**
 * Opens a session. Where cart, recording or font is refused, it rejects with `Failure`.
 * @param {OpenOptions} options
 */
export async function open({ cart, recording, font, module, ...options }) {
  const files = { cart: bytesOf(cart), recording: bytesOf(recording), font: bytesOf(font) };
  const session = new Session(options);
  await session.begin(await moduleOf(module), files);
  return session;
}
