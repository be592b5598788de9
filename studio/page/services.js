// What the host makes beside the session's orders. A refusal says what wasn't made, why, and what to do.
import { Refusal } from "./refusals.js";

const FAILED = {
  "GET film": ["no film was made", "select other rows, or fewer, and try again"],
  "GET wave": ["no sound was made", "select other rows, or fewer, and try again"],
  "GET recording": ["no copy was made", "try again"],
  "GET run": ["no page was made", "try again"],
  "POST compare": ["nothing was compared", "try again, or choose another recording"],
  "GET branches": ["the branches weren't read", "close and open this pane to try again"],
  "POST branches": ["no branch was made", "try again, or under another name"],
  "DELETE branches": ["the branch wasn't removed", "close and open this pane to see which there are"],
  "GET branch": ["the branch wasn't read", "close and open this pane to see which there are"],
  "GET watches": ["the stored watches weren't read", "reload to try again"],
  "POST watches": ["the watches weren't stored", "change one to try again"],
};

let host = null; // who answers

export function answerBy(other) {
  host = other;
}

// The answer's body, read as text, a blob or an array buffer.
export async function request(name, query = {}, { read = "text", ...options } = {}) {
  const [what, remedy] = FAILED[`${options.method || "GET"} ${name}`];
  let why = `${host.name} didn't answer`;
  try {
    const response = await host.request(name, query, options);
    if (response.ok) return await response[read]();
    why = (await response.text()) || `${host.name} answered ${response.status}`;
  } catch (fault) {
    if (!(fault instanceof TypeError)) throw fault;
  }
  throw new Refusal(`${what}: ${why}; ${remedy}`);
}

// Gives the user bytes as a file. The link stays, for where the browser holds a download back, as it does
// with one that comes long after the key.
export function download(blob, name) {
  const link = document.getElementById("made");
  if (link.href) URL.revokeObjectURL(link.href);
  link.href = URL.createObjectURL(blob);
  link.download = name;
  link.textContent = name;
  link.hidden = false;
  link.click();
}
