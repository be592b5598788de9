// Where a session takes place: in a worker, which can be given up at any time, or in this thread, which it holds until it
// waits for a line or has ended.
import { Live } from "./live.js";
import { Broken, startThread } from "./threads.js";

/** @typedef {import("./live.js").RunFiles} RunFiles */
/** @typedef {import("./live.js").Listener & { broke: (error: Error) => void }} Listener */
/** @typedef {import("./threads.js").Thread} Thread */

/** A session in a worker. */
export class WorkerSeat {
  /** @type {Thread | null} */
  #thread = null;

  /** @param {import("./threads.js").WorkerChoice} worker @param {Listener} told */
  constructor(worker, told) {
    this.worker = worker;
    this.told = told;
  }

  /** @param {WebAssembly.Module} module @param {RunFiles} files */
  async start(module, files) {
    const thread = await startThread(this.worker);
    this.#thread = thread;
    thread.listen((message) => this.#take(message));
    thread.post({ kind: "serve", module, files });
  }

  /** @param {any} message */
  #take({ kind, bytes, recording, ending, error }) {
    if (kind === "ended" || kind === "broke") this.giveUp();
    if (kind === "began") this.told.began();
    else if (kind === "output") this.told.output(bytes);
    else if (kind === "saved") this.told.saved(recording);
    else if (kind === "ended") this.told.ended(ending);
    else this.told.broke(new Broken(error));
  }

  /** @param {string} text */
  write(text) {
    this.#thread?.post({ kind: "lines", text });
  }

  end() {
    this.#thread?.post({ kind: "end" });
  }

  /** @param {boolean} isHeld */
  hold(isHeld) {
    this.#thread?.hold(isHeld);
  }

  giveUp() {
    this.#thread?.stop();
    this.#thread = null;
  }
}

/** A session in this thread. */
export class OwnSeat {
  /** @type {Live | null} */
  #live = null;

  /** @param {Listener} told */
  constructor(told) {
    this.told = told;
  }

  /** @param {WebAssembly.Module} module @param {RunFiles} files */
  async start(module, files) {
    const live = new Live(files, this.told);
    this.#live = live;
    await this.#tried(() => live.start(module));
  }

  /** @param {string} text */
  write(text) {
    this.#tried(() => this.#live?.write(text));
  }

  end() {
    this.#tried(() => this.#live?.end());
  }

  hold() {}

  giveUp() {
    this.#live = null;
  }

  /** @param {() => void | Promise<void>} act */
  async #tried(act) {
    try {
      await act();
    } catch (error) {
      this.giveUp();
      this.told.broke(new Broken(String(error)));
    }
  }
}
