// One w4 in a worker, of a browser or of node: a live session, or commands one after another. What it is sent and what
// it sends are the messages of seats.js.
import { Live } from "./live.js";
import { runInMemory } from "./runs.js";

/** @type {(message: object, transfer?: ArrayBuffer[]) => void} */
let post = () => {};
/** @type {Live | null} */
let live = null;

/**
 * Passes on what the session does.
 * @type {import("./live.js").Listener}
 */
const told = {
  began: () => post({ kind: "began" }),
  output: (bytes) => post({ kind: "output", bytes }, [bytes.buffer]),
  saved: (recording) => post({ kind: "saved", recording }, [recording.buffer]),
  ended: (ending) => post({ kind: "ended", ending }),
};

const acts = {
  /** @param {any} message */
  async serve({ module, files }) {
    live = new Live(files, told);
    await live.start(module);
  },
  /** @param {any} message */
  async run({ module, words, files }) {
    const result = await runInMemory(module, words, files);
    post({ kind: "ran", result }, [result.output.buffer]);
  },
  /** @param {any} message */
  lines({ text }) {
    live?.write(text);
  },
  end() {
    live?.end();
  },
};

/** @param {any} message */
async function take(message) {
  try {
    await acts[/** @type {keyof acts} */ (message.kind)](message);
  } catch (error) {
    post({ kind: "broke", error: String(error) });
  }
}

if (typeof globalThis.postMessage === "function") {
  post = (message, transfer = []) => globalThis.postMessage(message, { transfer });
  globalThis.onmessage = ({ data }) => take(data);
} else {
  // Not a literal, so that what packs modules for a browser doesn't look for it.
  const threads = "node:worker_threads";
  import(threads).then(({ parentPort }) => {
    post = (message, transfer) => parentPort.postMessage(message, transfer);
    parentPort.on("message", take);
  });
}
