// Memory as hexadecimal, with what has changed since the place before.
import { Refresher } from "./refresher.js";
import { RefusalLine } from "./refusal_line.js";
import { hexadecimal, letter, parseAddress } from "./memory_page.js";

const BYTES = 16; // a row
const ROWS = 24;
const LAST = 65536 - BYTES * ROWS;
const MOVES = { ArrowUp: -1, ArrowDown: 1, PageUp: -ROWS, PageDown: ROWS, Home: -4096, End: 4096 };

export class HexadecimalView {
  constructor({ session, player, pages, say }) {
    Object.assign(this, { session, player, pages, say });
    this.pane = document.getElementById("hexadecimal-pane");
    this.output = document.getElementById("hexadecimal");
    this.field = document.getElementById("hexadecimal-address");
    this.address = 0;
    this.line = new RefusalLine(this.pane);
    this.work = new Refresher(() => this.update(), { pause: 60, tell: (refusal) => this.note(refusal) });
    this.pane.addEventListener("toggle", () => this.work.ask());
    player.addEventListener("shown", () => this.work.ask());
    this.listen();
  }

  listen() {
    document.getElementById("hexadecimal-form").addEventListener("submit", (event) => {
      event.preventDefault();
      const address = parseAddress(this.field.value);
      if (address === null) this.say("an address is a number up to 65535, or 0x and hexadecimal digits");
      else this.moveTo(address - (address % BYTES));
    });
    this.output.addEventListener("wheel", (event) => {
      event.preventDefault();
      this.moveTo(this.address + Math.sign(event.deltaY) * 3 * BYTES);
    });
    this.output.addEventListener("keydown", (event) => {
      if (!(event.key in MOVES) || event.ctrlKey || event.altKey) return;
      event.preventDefault();
      event.stopPropagation();
      this.moveTo(this.address + MOVES[event.key] * BYTES);
    });
  }

  // What was shown before isn't the memory of this place.
  note(refusal) {
    if (refusal) this.output.replaceChildren();
    this.line.show(refusal);
  }

  moveTo(address) {
    this.address = Math.max(0, Math.min(address, LAST));
    this.work.ask();
  }

  async update() {
    const place = this.player.shown;
    if (!this.pane.open || place < 0 || place > this.session.count) return;
    const [before, page] = await Promise.all([this.pages.at(Math.max(0, place - 1)), this.pages.at(place)]);
    const rows = Array.from({ length: ROWS }, (_, row) => this.row(page, before, this.address + row * BYTES));
    this.output.replaceChildren(...rows.flat());
  }

  // A row's parts: what has changed is marked.
  row(page, before, from) {
    const parts = [`${hexadecimal(from, 4)}  `];
    let letters = "";
    for (let address = from; address < from + BYTES; address += 1) {
      const byte = page[address];
      const text = hexadecimal(byte, 2);
      parts.push(byte === before[address] ? text : this.changed(text), " ");
      letters += letter(byte);
    }
    parts.push(` ${letters}\n`);
    return parts;
  }

  changed(text) {
    const mark = document.createElement("mark");
    mark.textContent = text;
    return mark;
  }
}
