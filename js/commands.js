// The commands of w4, from bytes to bytes: what README's table has, by the command's name. Each resolves to what the
// command writes, and rejects with `Failure` where it is refused.
import { runHere, runInWorker } from "./crew.js";
import { bytesOf } from "./engine.js";
import { Failure } from "./failure.js";
import { moduleOf } from "./module.js";

/** @typedef {import("./engine.js").Bytes} Bytes */
/** @typedef {{ cart: Bytes, recording: Bytes, font: Bytes }} RunOf */

/**
 * @typedef {object} RunOptions
 * @property {import("./module.js").ModuleSource} [module] w4.wasm, where it isn't that beside these files
 * @property {import("./threads.js").WorkerChoice} [worker] false: in this thread, which waits for it
 * @property {AbortSignal} [signal] gives the command up; in this thread only before it has begun
 */

/**
 * A file that is text may be given so.
 * @param {Bytes | string} bytes
 */
function fileOf(bytes) {
  return typeof bytes === "string" ? new TextEncoder().encode(bytes) : bytesOf(bytes);
}

/**
 * Runs any command line of w4 over files in memory, and tells its status, output and files.
 * @param {(string | number)[]} words the command and its arguments, which name files of `files`
 * @param {Record<string, Bytes | string>} files
 * @param {RunOptions} [options]
 */
export async function run(words, files, options = {}) {
  const { module, worker = true, signal } = options;
  signal?.throwIfAborted();
  const given = Object.fromEntries(Object.entries(files).map(([name, bytes]) => [name, fileOf(bytes)]));
  const compiled = await moduleOf(module);
  signal?.throwIfAborted();
  if (!worker) return runHere(compiled, words.map(String), given);
  return runInWorker(compiled, words.map(String), given, { worker, signal });
}

/**
 * Runs a command that has to end with one of these statuses.
 * @param {(string | number)[]} words
 * @param {Record<string, Bytes | string>} files
 * @param {RunOptions} [options]
 * @param {number} most the greatest status that isn't a failure
 */
async function done(words, files, options, most = 0) {
  const result = await run(words, files, options);
  if (result.status > most) throw new Failure(result.status, result.error);
  return result;
}

/** @type {(...given: Parameters<typeof done>) => Promise<Uint8Array>} */
const output = async (...given) => (await done(...given)).output;

/**
 * The files of a run, by the words of the table.
 * @param {RunOf} given
 */
const runOf = ({ cart, recording, font }) => ({ CART: cart, REC: recording, FONT: font });

/**
 * `ok`, where the cart is accepted.
 * @param {{ cart: Bytes }} given
 * @param {RunOptions} [options]
 */
export function check({ cart }, options) {
  return output(["check", "CART"], { CART: cart }, options);
}

/**
 * A recording of the cart without frames.
 * @param {{ cart: Bytes, budget: number, disk?: Bytes }} given
 * @param {RunOptions} [options]
 */
export function blank({ cart, budget, disk }, options) {
  if (disk === undefined) return output(["blank", "CART", budget], { CART: cart }, options);
  return output(["blank", "CART", budget, "DISK"], { CART: cart, DISK: disk }, options);
}

/**
 * The answers to a script's orders, and the edited recording.
 * @param {RunOf & { script: Bytes | string }} given
 * @param {RunOptions} [options]
 */
export async function edit({ script, ...given }, options) {
  const files = { ...runOf(given), SCRIPT: script };
  const result = await done(["edit", "CART", "REC", "FONT", "SCRIPT", "OUT"], files, options);
  return { answers: result.output, recording: result.files.OUT };
}

/**
 * The images of places.
 * @param {RunOf & { from: number, to: number }} given
 * @param {RunOptions} [options]
 */
export function frames({ from, to, ...given }, options) {
  return output(["frames", "CART", "REC", "FONT", from, to], runOf(given), options);
}

/**
 * The schedule of all places.
 * @param {RunOf} given
 * @param {RunOptions} [options]
 */
export function tones(given, options) {
  return output(["tones", "CART", "REC", "FONT"], runOf(given), options);
}

/**
 * The lines that the cart traced, of all places.
 * @param {RunOf} given
 * @param {RunOptions} [options]
 */
export function trace(given, options) {
  return output(["trace", "CART", "REC", "FONT"], runOf(given), options);
}

/**
 * The bytes of the disk at a place.
 * @param {RunOf & { place: number }} given
 * @param {RunOptions} [options]
 */
export function disk({ place, ...given }, options) {
  return output(["disk", "CART", "REC", "FONT", place], runOf(given), options);
}

/**
 * What the reset and each frame took of their budgets.
 * @param {RunOf} given
 * @param {RunOptions} [options]
 */
export function units(given, options) {
  return output(["units", "CART", "REC", "FONT"], runOf(given), options);
}

/**
 * The first places at which two runs differ, six lines.
 * @param {RunOf & { cart2: Bytes, recording2: Bytes }} given
 * @param {RunOptions} [options]
 */
export async function compare({ cart2, recording2, ...given }, options) {
  const files = { ...runOf(given), CART2: cart2, REC2: recording2 };
  // Status 1 says that they differ.
  return (await done(["compare", "CART", "REC", "CART2", "REC2", "FONT"], files, options, 1)).output;
}

/**
 * A recording, whatever its cart, as one of this cart.
 * @param {{ cart: Bytes, recording: Bytes }} given
 * @param {RunOptions} [options]
 */
export function rebind({ cart, recording }, options) {
  return output(["rebind", "CART", "REC"], { CART: cart, REC: recording }, options);
}

/**
 * A recording as text.
 * @param {{ recording: Bytes }} given
 * @param {RunOptions} [options]
 */
export function inputs({ recording }, options) {
  return output(["inputs", "REC"], { REC: recording }, options);
}

/**
 * The answers to a query's lines.
 * @param {RunOf & { query: Bytes | string }} given
 * @param {RunOptions} [options]
 */
export function ram({ query, ...given }, options) {
  return output(["ram", "CART", "REC", "FONT", "QUERY"], { ...runOf(given), QUERY: query }, options);
}

/**
 * The sound of all places, a WAV file.
 * @param {RunOf} given
 * @param {RunOptions} [options]
 */
export function wave(given, options) {
  return output(["wave", "CART", "REC", "FONT"], runOf(given), options);
}

/**
 * A line for each recording, in the order of their names.
 * @param {{ cart: Bytes, font: Bytes, recordings: Record<string, Bytes> }} given the recordings by name
 * @param {RunOptions} [options]
 */
export function batch({ cart, font, recordings }, options) {
  const names = Object.keys(recordings);
  const bad = names.find((name) => name === "" || /[\n\r\0]/.test(name));
  if (bad !== undefined) throw new TypeError(`${JSON.stringify(bad)} can't be the name of a recording in a list`);
  // What else is read has names that no recording has.
  const [CART, FONT, LIST] = ["CART", "FONT", "LIST"].map((name) => `\u0001/${name}`);
  const files = { ...recordings, [CART]: cart, [FONT]: font, [LIST]: names.join("\n") };
  return output(["batch", CART, FONT, LIST, 1], files, options);
}

/**
 * The answers to a log's lines, of a session with rollback.
 * @param {{ cart: Bytes, font: Bytes, budget: number, log: Bytes | string }} given
 * @param {RunOptions} [options]
 */
export function net({ cart, font, budget, log }, options) {
  return output(["net", "CART", "FONT", budget, "LOG"], { CART: cart, FONT: font, LOG: log }, options);
}

/**
 * Five lines about a large generated cart.
 * @param {{ number: number }} given
 * @param {RunOptions} [options]
 */
export function make({ number }, options) {
  return output(["make", number], {}, options);
}
