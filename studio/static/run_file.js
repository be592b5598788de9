// A run in one file: the page's frame, which was published beside this one, is filled with cart, recording and
// font, as studio/run_file.py does it.

const FRAME = new URL("../run_frame.html", import.meta.url);
const BLOCK = 0x8000; // bytes that are made text at once

// Bytes as a block of the file has them.
async function packed(bytes) {
  const stream = new Blob([bytes]).stream().pipeThrough(new CompressionStream("deflate"));
  const data = new Uint8Array(await new Response(stream).arrayBuffer());
  let text = "";
  for (let at = 0; at < data.length; at += BLOCK) text += String.fromCharCode(...data.subarray(at, at + BLOCK));
  return btoa(text);
}

function escaped(text) {
  const entities = { "&": "&amp;", "<": "&lt;", ">": "&gt;", '"': "&quot;", "'": "&#x27;", "@": "&#64;" };
  return text.replace(/[&<>"'@]/g, (letter) => entities[letter]);
}

// Replaces what stands between two @, each once and in the order of the frame.
function replaced(text, parts) {
  return Object.entries(parts).reduce((page, [name, part]) => {
    const [before, behind] = page.split(`@${name}@`);
    return before + part + behind;
  }, text);
}

// The text of the file.
export async function runFile({ cart, cartName, recording, recordingName, font }) {
  const response = await fetch(FRAME);
  const frame = await response.text();
  const [, program] = /<meta name="generator" content="([^"]*)">/.exec(frame);
  const title = recordingName.replace(/\.w4rec$/, "") || recordingName;
  const names = { title, cart: cartName, recording: recordingName, program };
  const [namesBlock, cartBlock, recordingBlock, fontBlock] = await Promise.all(
    [new TextEncoder().encode(JSON.stringify(names)), cart, recording, font].map(packed));
  return replaced(frame, {
    TITLE: escaped(title), NAMES: namesBlock, CART: cartBlock, RECORDING: recordingBlock, FONT: fontBlock,
  });
}
