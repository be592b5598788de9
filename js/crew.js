// Commands in workers, each of which runs one after another, and in this thread.
import { runInMemory } from "./runs.js";
import { Broken, startThread } from "./threads.js";

/** @typedef {import("./runs.js").FilesByName} FilesByName */
/** @typedef {import("./runs.js").Result} Result */
/** @typedef {import("./threads.js").Thread} Thread */
/** @typedef {import("./threads.js").WorkerChoice} WorkerChoice */

const MOST_IDLE = 4; // workers that are kept for a next command

/** Workers that wait for a command, by what made them. */
/** @type {Map<WorkerChoice, Thread[]>} */
const idle = new Map();

/** @param {WorkerChoice} worker @param {Thread} thread */
function dismiss(worker, thread) {
  const waiting = idle.get(worker) ?? [];
  idle.set(worker, waiting);
  if (waiting.length < MOST_IDLE) waiting.push(thread);
  else thread.stop();
}

/**
 * What a worker makes of a message, or the signal's reason. A worker that doesn't answer as it should is stopped.
 * @param {Thread} thread
 * @param {object} message
 * @param {AbortSignal | undefined} signal
 * @returns {Promise<Result>}
 */
function answerOf(thread, message, signal) {
  return new Promise((resolve, reject) => {
    const giveUp = (/** @type {any} */ reason) => {
      thread.stop();
      reject(reason);
    };
    const abandon = () => giveUp(signal?.reason);
    signal?.addEventListener("abort", abandon, { once: true });
    thread.listen(({ kind, result, error }) => {
      signal?.removeEventListener("abort", abandon);
      if (kind === "ran") resolve(result);
      else giveUp(new Broken(error));
    });
    thread.hold(true);
    thread.post(message);
  });
}

/**
 * Runs a command in a worker.
 * @param {WebAssembly.Module} module
 * @param {string[]} words
 * @param {FilesByName} files
 * @param {{ worker: WorkerChoice, signal?: AbortSignal }} options
 */
export async function runInWorker(module, words, files, { worker, signal }) {
  const thread = idle.get(worker)?.pop() ?? await startThread(worker);
  if (signal?.aborted) {
    dismiss(worker, thread);
    throw signal.reason;
  }
  const result = await answerOf(thread, { kind: "run", module, words, files }, signal);
  thread.hold(false);
  dismiss(worker, thread);
  return result;
}

/**
 * Runs a command in this thread, which waits for it.
 * @param {WebAssembly.Module} module
 * @param {string[]} words
 * @param {FilesByName} files
 */
export async function runHere(module, words, files) {
  try {
    return await runInMemory(module, words, files);
  } catch (error) {
    throw error instanceof TypeError ? error : new Broken(String(error));
  }
}
