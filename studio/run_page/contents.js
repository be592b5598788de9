// What the file holds beside its page: blocks of base64, each of compressed bytes.

function block(name) {
  return document.getElementById(`data-${name}`).textContent.trim();
}

// The bytes of a block.
export async function content(name) {
  const packed = Uint8Array.from(atob(block(name)), (letter) => letter.charCodeAt(0));
  const stream = new Blob([packed]).stream().pipeThrough(new DecompressionStream("deflate"));
  return new Uint8Array(await new Response(stream).arrayBuffer());
}

// A block that is text.
export async function text(name) {
  return new TextDecoder().decode(await content(name));
}

// Why this browser can't open what the file holds, as a sentence; null where it can.
export function lacking() {
  const needed = { DecompressionStream: "DecompressionStream", WebAssembly: "WebAssembly" };
  const [missing] = Object.keys(needed).filter((name) => typeof window[name] === "undefined");
  if (!missing) return null;
  return `This browser can't show the run, since it doesn't have ${missing}. Any browser of 2023 or later has it: `
    + "open the file there.";
}
