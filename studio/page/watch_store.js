// The watches as they are stored beside the recording. What isn't a watch is left out: another version, a
// full disk or a hand may have written the file.
import { request } from "./services.js";
import { Refusal } from "./refusals.js";

const END = 65536; // of memory
const KEPT = "a watch that you add replaces the file watches.json in the studio's folder";

function isWatch(row) {
  if (row === null || typeof row !== "object") return false;
  const { address, width, name } = row;
  const isThere = Number.isInteger(address) && address >= 0 && address + width <= END;
  return [1, 2, 4].includes(width) && isThere && typeof name === "string";
}

function parseWatches(text) {
  try {
    return JSON.parse(text);
  } catch (fault) {
    return null;
  }
}

// Those that are watches; `complain` gets a sentence where others were left out.
export async function storedWatches(complain) {
  try {
    const rows = parseWatches(await request("watches"));
    if (!Array.isArray(rows)) {
      complain(`the stored watches can't be read, and none is shown; ${KEPT}`);
      return [];
    }
    const watches = rows.filter(isWatch);
    const others = rows.length - watches.length;
    const some = `${others} of ${rows.length} stored watches`;
    if (others) complain(`${some} can't be read, and aren't shown; ${KEPT}`);
    return watches;
  } catch (refusal) {
    if (!(refusal instanceof Refusal)) throw refusal;
    complain(refusal.message);
    return [];
  }
}

export function storeWatches(watches) {
  const body = JSON.stringify(watches, ["address", "width", "name"]);
  return request("watches", {}, { method: "POST", body });
}
