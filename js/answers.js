// What the answers of a session say, from text to values (docs/FORMATS.md has the lines).

/**
 * What the players do in a frame.
 * @typedef {object} Input
 * @property {number[]} [pads] gamepads 1 to 4, a byte each; those that aren't given are 0
 * @property {number} [x] where the mouse is; one that isn't used is at 32767, 32767
 * @property {number} [y]
 * @property {number} [mouse] its buttons, a byte
 * @property {boolean} [reset] whether the frame begins with a reset
 */

/** @typedef {{ place: number, inputs: number, halt: string, disk: number, kept: number[] }} State */
/**
 * Units that were taken, or `trap`, `spent` or `halted`.
 * @typedef {number | string} Taken
 */
/**
 * What a frame took, and what its reset took, where it has one.
 * @typedef {{ frame: number, taken: Taken, start: Taken | null }} Units
 */

const UNUSED = 32767;
const PADS = 4;
const STATE = /^state (\d+) of (\d+) halt (.+) disk (\d+) kept ([\d ]+)\n$/;
const UNITS = /^units (\d+) (\w+)(?: start (\w+))?\n$/;

/**
 * An input as an order has it.
 * @param {Input} input
 */
export function inputText({ pads = [], x = UNUSED, y = UNUSED, mouse = 0, reset = false }) {
  const all = [...pads, ...new Array(PADS).fill(0)].slice(0, Math.max(PADS, pads.length));
  return [...all, x, y, mouse, ...(reset ? ["reset"] : [])].join(" ");
}

/**
 * The inputs of lines `set K ..`.
 * @param {string} text
 * @returns {Required<Input>[]}
 */
export function inputsOf(text) {
  return text.split("\n").filter(Boolean).map((line) => {
    const words = line.split(" ").slice(2);
    const numbers = words.slice(0, PADS + 3).map(Number);
    const [x, y, mouse] = numbers.slice(PADS);
    return { pads: numbers.slice(0, PADS), x, y, mouse, reset: words[PADS + 3] === "reset" };
  });
}

/**
 * The parts of a text that has to have this form.
 * @param {RegExp} form
 * @param {string} text
 */
function parts(form, text) {
  const found = form.exec(text);
  if (!found) throw new Error(`${JSON.stringify(text)} isn't what this version of w4 answers`);
  return found.slice(1);
}

/** @param {string} text @returns {State} */
export function stateOf(text) {
  const [place, inputs, halt, disk, kept] = parts(STATE, text);
  return { place: Number(place), inputs: Number(inputs), halt, disk: Number(disk), kept: kept.split(" ").map(Number) };
}

/** @param {string} word @returns {Taken} */
function takenOf(word) {
  return /^\d+$/.test(word) ? Number(word) : word;
}

/** @param {string} line @returns {Units} */
export function unitsOf(line) {
  const [frame, taken, start] = parts(UNITS, line);
  return { frame: Number(frame), taken: takenOf(taken), start: start === undefined ? null : takenOf(start) };
}

/**
 * The numbers behind the first words of a line.
 * @param {string} line
 * @param {number} words how many come first
 */
export function numbersAfter(line, words) {
  return line.trim().split(" ").slice(words).map(Number);
}
