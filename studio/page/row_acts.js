// What is done to the rows that are selected: by keys, buttons and the clipboard.
import { canBePressed, isPressed, withPressed } from "./cells.js";
import { BadLine, EMPTY, FRAME_LIMIT, inputText, parseInputs, withButton, hasButton } from "./input.js";

export class TooMany extends Error {}

function frames(count) {
  return count === 1 ? "a frame" : `${count} frames`;
}

export class RowActs {
  constructor({ session, player, selection, roll, say }) {
    Object.assign(this, { session, player, selection, roll, say });
    this.copied = "";
  }

  get selected() {
    const [first, end] = this.selection.range;
    return this.session.inputs.slice(first, end);
  }

  // Sets the selected inputs to what they are made.
  replace(label, made) {
    const [first] = this.selection.range;
    const changes = this.selected
      .map((input, at) => ({ kind: "set", at: first + at, input: made(input, at) }))
      .filter(({ at, input }) => inputText(input) !== inputText(this.session.inputs[at]));
    if (!changes.length) return;
    this.session.change(label, changes);
    this.say(`${label}, ${frames(changes.length)}`);
  }

  // Presses what the first selected row lacks; releases where it has it.
  toggleColumn() {
    const column = this.roll.columns[this.selection.column];
    if (!this.selected.length) return;
    if (column.kind === "coordinate") document.querySelector('[data-act="edit-text"]').click();
    else if (canBePressed(column)) this.toggle(column);
  }

  toggle(column) {
    const pressed = !isPressed(this.selected[0], column);
    const label = `${pressed ? "press" : "release"} ${column.name}`;
    this.replace(label, (input) => withPressed(input, column, pressed));
  }

  // A button of the gamepad in whose columns the cursor stands.
  toggleButton(bit, name) {
    if (!this.selected.length) return;
    const { pad = 0 } = this.roll.columns[this.selection.column];
    const pressed = !hasButton(this.selected[0], pad, bit);
    const label = `${pressed ? "press" : "release"} ${name}`;
    this.replace(label, (input) => withButton(input, pad, bit, pressed));
  }

  toggleReset() {
    if (this.selected.length) this.toggle(this.roll.columns.find((column) => column.kind === "reset"));
  }

  // Puts inputs before a frame, as far as there is room.
  insertAt(at, inputs, label) {
    const room = FRAME_LIMIT - this.session.count;
    const fitting = inputs.slice(0, room);
    this.session.change(label, fitting.map((input, number) => ({ kind: "insert", at: at + number, input })));
    this.say(fitting.length < inputs.length ? `a recording has at most ${FRAME_LIMIT} frames` : label);
  }

  insert() {
    const count = this.selection.isWide ? this.selected.length : 1;
    this.insertAt(this.selection.range[0], Array(count).fill(EMPTY), `insert ${frames(count)}`);
  }

  delete(label = "delete") {
    const [first, end] = this.selection.range;
    if (first === end) return;
    const changes = Array.from({ length: end - first }, () => ({ kind: "delete", at: first }));
    this.selection.moveTo(first, false);
    this.session.change(`${label} ${frames(end - first)}`, changes);
    this.say(`${label} ${frames(end - first)}`);
  }

  // ---- clipboard: a line for each input, as an order has them

  get selectedText() {
    return this.selected.map((input) => `${inputText(input)}\n`).join("");
  }

  copyText() {
    this.copied = this.selectedText;
    this.say(`copied ${frames(this.selected.length)}`);
    return this.copied;
  }

  paste(text, isOver) {
    const inputs = this.inputsOfClipboard(text);
    if (!inputs) return;
    const [first] = this.selection.range;
    const label = `paste ${frames(inputs.length)}`;
    if (isOver) this.setFrom(first, inputs, label);
    else this.insertAt(first, inputs, label);
  }

  // Null, and told, where there is none, or a line isn't one: then nothing is pasted.
  inputsOfClipboard(text) {
    try {
      const inputs = parseInputs(text);
      if (inputs.length) return inputs;
      this.say("the clipboard has no inputs");
    } catch (fault) {
      if (!(fault instanceof BadLine)) throw fault;
      this.say(`nothing was pasted: ${fault.message}`);
    }
    return null;
  }

  // Over the rest, and on behind its end.
  setFrom(first, inputs, label) {
    const there = this.session.count - first;
    const fitting = inputs.slice(0, FRAME_LIMIT - first);
    this.session.change(label, fitting.map((input, number) => (
      { kind: number < there ? "set" : "insert", at: first + number, input })));
    this.say(fitting.length < inputs.length ? `a recording has at most ${FRAME_LIMIT} frames` : label);
  }

  // ---- patterns and text

  autofire(on, off) {
    const column = this.roll.columns[this.selection.column];
    this.replace(`autofire ${column.name}`, (input, at) => withPressed(input, column, at % (on + off) < on));
  }

  // The selected inputs become those of the text; more are inserted behind, fewer take the rest out. Nothing
  // is changed where a line isn't an input (a BadLine), or more come than fit (a TooMany).
  setText(text) {
    const inputs = parseInputs(text);
    const [first, end] = this.selection.range;
    const selected = end - first;
    const room = FRAME_LIMIT - this.session.count + selected;
    if (inputs.length > room) {
      throw new TooMany(`${inputs.length} inputs don't fit: there is room for ${room}`);
    }
    const changes = inputs.map((input, number) => (
      { kind: number < selected ? "set" : "insert", at: first + number, input }));
    for (let number = inputs.length; number < selected; number += 1) {
      changes.push({ kind: "delete", at: first + inputs.length });
    }
    this.session.change("inputs as text", changes);
  }
}
