// The module w4.wasm, compiled once for all runs.

/**
 * What the module is made of: it itself, its bytes, or where these are.
 * @typedef {WebAssembly.Module | ArrayBuffer | ArrayBufferView | URL | string} ModuleSource
 */

/** Where the module is: in the package beside this file, in a checkout among the shipped programs. */
const PLACES = ["./w4.wasm", "../release/w4.wasm"];

/** @type {Map<string, Promise<WebAssembly.Module>>} */
const compiled = new Map();

/** @param {URL} place */
async function fetched(place) {
  const response = await fetch(place);
  if (!response.ok) throw new Error(`${place}: status ${response.status}; this is where w4.wasm has to be`);
  // A browser keeps what it compiles while it loads; a server that calls it something else prevents that.
  if (response.headers.get("content-type") === "application/wasm") return WebAssembly.compileStreaming(response);
  return WebAssembly.compile(await response.arrayBuffer());
}

/** @param {URL} place */
async function read(place) {
  const files = "node:fs/promises";
  return WebAssembly.compile(await (await import(files)).readFile(place));
}

/** @param {URL} place @returns {Promise<WebAssembly.Module>} */
function loaded(place) {
  const known = compiled.get(place.href) ?? (place.protocol === "file:" && isNode() ? read(place) : fetched(place));
  compiled.set(place.href, known);
  // What failed may succeed later.
  known.catch(() => compiled.delete(place.href));
  return known;
}

function isNode() {
  return typeof process === "object" && Boolean(process.versions?.node);
}

/** The module that comes with these files. */
async function own() {
  const [beside, ...others] = PLACES.map((place) => new URL(place, import.meta.url));
  // A page is served the package as it is, and shouldn't ask for what may not be there.
  if (!isNode()) return loaded(beside);
  for (const place of [beside, ...others]) {
    try {
      return await loaded(place);
    } catch (/** @type {any} */ error) {
      if (error.code !== "ENOENT") throw error;
    }
  }
  throw new Error(`${beside.pathname}: there is no w4.wasm, nor in release/; js/pack puts it into the package`);
}

/**
 * The compiled module.
 * @param {ModuleSource} [source] where none is given, that which comes with these files
 * @returns {Promise<WebAssembly.Module>}
 */
export async function moduleOf(source) {
  if (source === undefined) return own();
  if (source instanceof WebAssembly.Module) return source;
  if (typeof source === "string" || source instanceof URL) return loaded(new URL(source, import.meta.url));
  return WebAssembly.compile(/** @type {BufferSource} */ (source));
}
