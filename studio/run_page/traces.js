// The lines that the cart traced in the whole run, each with a button to its place. They are asked for once
// the pane is open, a stretch at a time, so that what is shown doesn't wait for them.
import { decode } from "../page/connection.js";

const STRETCH = 120; // places
const MOST = 1000; // lines that are shown

export class Traces {
  constructor({ session, goTo }) {
    Object.assign(this, { session, goTo });
    this.pane = document.getElementById("traces-pane");
    this.list = document.getElementById("traces");
    this.text = document.getElementById("traces-text");
    this.lines = 0;
    this.next = 0; // the first place that wasn't asked for
    this.isReading = false;
    this.pane.addEventListener("toggle", () => this.read());
  }

  async read() {
    if (this.isReading) return;
    this.isReading = true;
    while (this.pane.open && this.next <= this.session.count && this.lines < MOST) await this.readStretch();
    this.isReading = false;
    this.tell();
  }

  async readStretch() {
    const last = Math.min(this.next + STRETCH - 1, this.session.count);
    this.text.textContent = `reading places ${this.next} to ${last} of ${this.session.count}`;
    const order = `traces ${this.next} ${last}`;
    await this.session.connection.ask(order, { onPiece: (piece) => this.add(decode(piece)) });
    this.next = last + 1;
  }

  // The text of a place: `frame P`, and a line for each that was traced.
  add(text) {
    const [head, ...lines] = text.trim().split("\n");
    const place = Number(head.split(" ")[1]);
    for (const line of lines.slice(0, MOST - this.lines)) this.list.append(this.item(place, line));
    this.lines = this.list.children.length;
  }

  item(place, line) {
    const item = document.createElement("li");
    const button = document.createElement("button");
    button.textContent = place;
    button.setAttribute("aria-label", `To place ${place}`);
    button.addEventListener("click", () => this.goTo(place));
    const shown = document.createElement("code");
    shown.textContent = line.replace(/^trace /, "");
    item.append(button, shown);
    return item;
  }

  tell() {
    const isWhole = this.next > this.session.count;
    if (this.lines >= MOST) this.text.textContent = `the first ${MOST} lines`;
    else if (isWhole) this.text.textContent = this.lines ? "" : "the cart traces nothing";
    else this.text.textContent = "";
  }
}
