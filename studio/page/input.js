// An input: what the players do in a frame. It has the numbers of a `set` order.

export const BUTTONS = [
  { bit: 16, title: "←", name: "left" },
  { bit: 32, title: "→", name: "right" },
  { bit: 64, title: "↑", name: "up" },
  { bit: 128, title: "↓", name: "down" },
  { bit: 1, title: "1", name: "button 1" },
  { bit: 2, title: "2", name: "button 2" },
];
export const FRAME_LIMIT = 36000;
export const AWAY = 32767; // where a mouse stands that isn't used
const LONGEST_LINE = 1024; // as the program's own; a longer one is no input, and isn't quoted whole

const NO_PADS = Object.freeze([0, 0, 0, 0]);
export const EMPTY = Object.freeze({ pads: NO_PADS, x: AWAY, y: AWAY, mouse: 0, reset: false });

export function inputText(input) {
  const numbers = [...input.pads, input.x, input.y, input.mouse].join(" ");
  return input.reset ? `${numbers} reset` : numbers;
}

// A line of a text isn't an input; the message has its number and what is wrong with it.
export class BadLine extends Error {
  constructor(number, fault) {
    super(`line ${number} isn't an input: ${fault}`);
    this.number = number; // the first line is 1
  }
}

const NUMBERS = 7; // of an input: four gamepads, the mouse's x, y and buttons
const BYTE = { least: 0, most: 255 };
const COORDINATE = { least: -32768, most: 32767 };
const RANGES = [BYTE, BYTE, BYTE, BYTE, COORDINATE, COORDINATE, BYTE];

// What is wrong with a word of an input; null where it is right.
function faultOfWord(word, place) {
  if (place === NUMBERS) return word === "reset" ? null : `"${word}" isn't the word reset`;
  const { least, most } = RANGES[place];
  const number = Number(word);
  if (/^-?\d{1,5}$/.test(word) && number >= least && number <= most) return null;
  return `"${word}" isn't a number from ${least} to ${most}`;
}

// What is wrong with words that should be as `32 0 0 0 32767 32767 0 reset`; null where they are.
function faultOfWords(words) {
  const checked = words.slice(0, NUMBERS + 1);
  const faults = checked.map(faultOfWord).filter((fault) => fault !== null);
  if (faults.length) return faults[0];
  if (words.length < NUMBERS) return `it has ${words.length} numbers, and an input has ${NUMBERS}`;
  return words.length > checked.length ? `"${words[checked.length]}" is a word too many` : null;
}

function inputOf(words) {
  const numbers = words.slice(0, NUMBERS).map(Number);
  const [x, y, mouse] = numbers.slice(4);
  return { pads: numbers.slice(0, 4), x, y, mouse, reset: words.length > NUMBERS };
}

// Inputs of lines, each an input or an order `set K ..` or `insert K ..`. One that is neither is a BadLine.
export function parseInputs(text) {
  const inputs = [];
  text.split("\n").forEach((line, at) => {
    const words = line.slice(0, LONGEST_LINE).split(/\s+/).filter(Boolean);
    if (!words.length || words[0].startsWith("#")) return;
    const parts = /^(set|insert)$/.test(words[0]) ? words.slice(2) : words;
    const fault = faultOfWords(parts);
    if (fault !== null) throw new BadLine(at + 1, fault);
    inputs.push(inputOf(parts));
  });
  return inputs;
}

export function withPad(input, pad, byte) {
  return { ...input, pads: input.pads.map((old, at) => (at === pad ? byte : old)) };
}

export function hasButton(input, pad, bit) {
  return (input.pads[pad] & bit) !== 0;
}

export function withButton(input, pad, bit, isPressed) {
  const old = input.pads[pad];
  return withPad(input, pad, isPressed ? old | bit : old & ~bit);
}

export function isSame(one, other) {
  return inputText(one) === inputText(other);
}

// An input in words, for who listens.
export function spokenInput(input) {
  const parts = [];
  input.pads.forEach((byte, pad) => {
    const names = BUTTONS.filter(({ bit }) => byte & bit).map(({ name }) => name);
    if (names.length) parts.push((pad ? `gamepad ${pad + 1} ` : "") + names.join(", "));
  });
  if (input.mouse) parts.push(`mouse ${input.mouse} at ${input.x}, ${input.y}`);
  if (input.reset) parts.push("reset");
  return parts.join("; ") || "nothing";
}
