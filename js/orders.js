// A method for each order of a session, by the order's word (docs/FORMATS.md has them: "Script", "Memory query" and "Live
// session"). Where an order is refused, the promise is rejected with `Refused`, and nothing has changed.
import { inputText, inputsOf, numbersAfter, stateOf, unitsOf } from "./answers.js";
import { Refused } from "./desk.js";
import { textOf } from "./runs.js";

/** @typedef {import("./answers.js").Input} Input */
/** @typedef {import("./desk.js").Answer} Answer */
/** @typedef {import("./desk.js").AskOptions} AskOptions */

/** @param {Answer} answer */
const nothing = (answer) => void answer;
/** @param {Answer} answer */
const bytes = (answer) => answer.bytes;
/** @param {Answer} answer */
const pieces = (answer) => answer.pieces;
/** @param {Answer} answer */
const texts = (answer) => answer.pieces.map(textOf);

/** The orders, over whatever asks for the answer to a line. */
export class Orders {
  /**
   * @template T
   * @param {string} line
   * @param {(answer: Answer) => T} value what the answer is made into
   * @param {AskOptions} [options]
   * @returns {Promise<T>}
   */
  async order(line, value, options) {
    throw new Error(`nobody is asked for ${line}, ${value}, ${options}`);
  }

  // ---- edits

  /**
   * Input K becomes this one.
   * @param {number} frame
   * @param {Input} input
   */
  set(frame, input) {
    return this.order(`set ${frame} ${inputText(input)}`, nothing);
  }

  /**
   * Puts an input before input K.
   * @param {number} frame
   * @param {Input} input
   */
  insert(frame, input) {
    return this.order(`insert ${frame} ${inputText(input)}`, nothing);
  }

  /**
   * Removes input K.
   * @param {number} frame
   */
  delete(frame) {
    return this.order(`delete ${frame}`, nothing);
  }

  /** Back to the draft before the last edit. */
  undo() {
    return this.order("undo", nothing);
  }

  /** Reverses the last undo. */
  redo() {
    return this.order("redo", nothing);
  }

  // ---- kept places

  /**
   * Keeps the state of a place.
   * @param {number} place
   */
  keep(place) {
    return this.order(`keep ${place}`, nothing);
  }

  /**
   * Keeps each multiple.
   * @param {number} every
   */
  keepEvery(every) {
    return this.order(`keep-every ${every}`, nothing);
  }

  /**
   * Stops keeping a place.
   * @param {number} place
   */
  drop(place) {
    return this.order(`drop ${place}`, nothing);
  }

  /**
   * Brings all kept states up to date.
   * @param {number} [workers]
   */
  settle(workers = 1) {
    return this.order(`settle ${workers}`, nothing);
  }

  // ---- what is at a place

  /**
   * The image of a place, a PPM file.
   * @param {number} place
   */
  show(place) {
    return this.order(`show ${place}`, bytes);
  }

  /**
   * The images of places, each a PPM file.
   * @param {number} from
   * @param {number} to the last
   * @param {AskOptions} [options]
   */
  film(from, to, options) {
    return this.order(`film ${from} ${to} 1`, pieces, options);
  }

  /**
   * The schedule text of each place.
   * @param {number} from
   * @param {number} to the last
   */
  tones(from, to) {
    return this.order(`tones ${from} ${to}`, texts);
  }

  /**
   * The trace text of each place.
   * @param {number} from
   * @param {number} to the last
   */
  traces(from, to) {
    return this.order(`traces ${from} ${to}`, texts);
  }

  /**
   * The bytes of the disk at a place.
   * @param {number} place
   */
  async disk(place) {
    // What a disk holds may read like a refusal; `state` is refused where `disk` is.
    const line = `disk ${place}`;
    const [, held] = await Promise.all([this.state(place), this.order(line, bytes, { cannotBeRefused: true })])
      .catch((error) => {
        throw error instanceof Refused ? new Refused(line, error.why) : error;
      });
    return held;
  }

  /**
   * What is known of a place.
   * @param {number} place
   */
  state(place) {
    return this.order(`state ${place}`, ({ text }) => stateOf(text));
  }

  /**
   * The 65,536 bytes of memory at a place.
   * @param {number} place
   */
  page(place) {
    return this.order(`page ${place}`, bytes);
  }

  /**
   * Each global at a place, without a sign: of 64 bits there may be more than a number holds.
   * @param {number} place
   */
  globals(place) {
    return this.order(`globals ${place}`, ({ text }) => text.trim().split(" ").slice(1).map(BigInt));
  }

  /**
   * Inputs as they are.
   * @param {number} from
   * @param {number} to the one after the last
   */
  inputs(from, to) {
    return this.order(`inputs ${from} ${to}`, ({ text }) => inputsOf(text));
  }

  /**
   * What frames take of their budget.
   * @param {number} from
   * @param {number} to the one after the last
   */
  units(from, to) {
    return this.order(`units ${from} ${to}`, (answer) => texts(answer).map(unitsOf));
  }

  // ---- values in memory, and a search for them

  /**
   * A number in memory at each of these places.
   * @param {number} address
   * @param {number} width 1, 2 or 4 bytes
   * @param {number} from
   * @param {number} to the last
   */
  watch(address, width, from, to) {
    return this.order(`watch ${address} ${width} ${from} ${to}`, ({ text }) => numbersAfter(text, 2));
  }

  /**
   * Begins a search, with all addresses.
   * @param {number} width
   * @param {number} place
   */
  start(width, place) {
    return this.order(`start ${width} ${place}`, nothing);
  }

  /**
   * Keeps the addresses with this value.
   * @param {number} place
   * @param {number} value
   */
  is(place, value) {
    return this.order(`is ${place} ${value}`, nothing);
  }

  /**
   * Keeps those whose value is what it was at the place before.
   * @param {number} place
   */
  same(place) {
    return this.order(`same ${place}`, nothing);
  }

  /**
   * Keeps those whose value is another.
   * @param {number} place
   */
  changed(place) {
    return this.order(`changed ${place}`, nothing);
  }

  /**
   * Keeps those whose value is more.
   * @param {number} place
   */
  more(place) {
    return this.order(`more ${place}`, nothing);
  }

  /**
   * Keeps those whose value is less.
   * @param {number} place
   */
  less(place) {
    return this.order(`less ${place}`, nothing);
  }

  /** The addresses that are left. */
  list() {
    return this.order("list", ({ text }) => text.split("\n").slice(1, -1).map(Number));
  }
}
