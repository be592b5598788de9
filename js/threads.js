// A worker, of a browser or of node, by the calls that both have.

/**
 * @typedef {object} Thread
 * @property {(message: any) => void} post
 * @property {(take: (message: any) => void) => void} listen who gets its messages from now on
 * @property {(isHeld: boolean) => void} hold whether node's process waits for it
 * @property {() => void} stop
 */

/**
 * Whether a run takes place in a worker, or what makes the worker, where it isn't to be made of worker.js beside this
 * file.
 * @typedef {boolean | (() => Worker)} WorkerChoice
 */

/** The program has stopped by a fault, as by a signal natively, or its worker can't run. */
export class Broken extends Error {
  /** @param {string} what */
  constructor(what) {
    super(`w4 has stopped: ${what}`);
    this.name = "Broken";
  }
}

function workerOfPage() {
  return new Worker(new URL("./worker.js", import.meta.url), { type: "module" });
}

/** @param {Worker} worker @returns {Thread} */
function threadOfPage(worker) {
  return {
    post: (message) => worker.postMessage(message),
    listen: (take) => {
      worker.onmessage = ({ data }) => take(data);
      // An event without a text comes where the file isn't there or may not be run.
      worker.onerror = ({ message }) => take({ kind: "broke", error: message ?? "its worker can't be started" });
    },
    hold: () => {},
    stop: () => worker.terminate(),
  };
}

/** @returns {Promise<Thread>} */
async function threadOfNode() {
  // Not a literal, so that what packs modules for a browser doesn't look for it.
  const threads = "node:worker_threads";
  const worker = new (await import(threads)).Worker(new URL("./worker.js", import.meta.url));
  return {
    post: (message) => worker.postMessage(message),
    listen: (take) => {
      worker.removeAllListeners();
      worker.on("message", take);
      worker.on("error", (/** @type {Error} */ error) => take({ kind: "broke", error: error.message }));
    },
    hold: (isHeld) => (isHeld ? worker.ref() : worker.unref()),
    stop: () => worker.terminate(),
  };
}

/**
 * @param {WorkerChoice} worker
 * @returns {Promise<Thread>}
 */
export async function startThread(worker) {
  if (typeof worker === "function") return threadOfPage(worker());
  return typeof Worker === "function" ? threadOfPage(workerOfPage()) : threadOfNode();
}
