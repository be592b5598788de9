// The piano roll: a row a frame, drawn only where it is seen.
import { rollColumns, widthOf } from "./roll_columns.js";
import { RollPainter, ROW, TITLES } from "./roll_painter.js";

export class Roll {
  constructor(parts) {
    Object.assign(this, parts); // session, player, selection, facts
    this.scroller = document.getElementById("roll-scroll");
    this.height = document.getElementById("roll-height");
    this.canvas = document.getElementById("roll-canvas");
    this.painter = new RollPainter(this.canvas, this);
    this.gamepads = 1;
    this.withMouse = false;
    this.isDrawing = false;
    this.setColumns();
    this.listen();
  }

  listen() {
    this.scroller.addEventListener("scroll", () => this.draw());
    new ResizeObserver(() => this.resize()).observe(this.scroller);
    matchMedia("(prefers-color-scheme: dark)").addEventListener("change", () => this.draw());
    this.facts.addEventListener("change", () => this.draw());
    this.session.addEventListener("kept", () => this.draw());
    this.selection.addEventListener("change", () => this.draw());
    this.session.addEventListener("edited", () => {
      if (this.rows === this.session.count) this.draw();
      else this.resize();
    });
    this.player.addEventListener("place", () => this.reveal(this.player.place));
  }

  setColumns() {
    this.columns = rollColumns(this.gamepads, this.withMouse);
    this.selection.column = Math.min(this.selection.column, this.lastCursorColumn());
    this.resize();
  }

  // Columns with a name are those that a cursor stands in.
  lastCursorColumn() {
    return this.columns.findLastIndex((column) => column.name);
  }

  // There is a row more than frames: where the recording ends.
  resize() {
    this.rows = this.session.count;
    this.height.style.height = `${TITLES + (this.session.count + 1) * ROW}px`;
    this.height.style.width = `${widthOf(this.columns)}px`;
    this.painter.resize(widthOf(this.columns), this.scroller.clientHeight);
    this.draw();
  }

  get rowsSeen() {
    return Math.max(1, Math.floor((this.scroller.clientHeight - TITLES) / ROW));
  }

  get firstRow() {
    return Math.floor(this.scroller.scrollTop / ROW);
  }

  // A row at the edge comes just into sight, one that was far off to the middle.
  reveal(row) {
    const top = row * ROW;
    const seen = this.scroller.clientHeight - TITLES - ROW;
    const offset = top - this.scroller.scrollTop;
    if (offset < -ROW || offset > seen + ROW) this.scroller.scrollTop = top - seen / 2;
    else if (offset < 0) this.scroller.scrollTop = top;
    else if (offset > seen) this.scroller.scrollTop = top - seen;
    this.draw();
  }

  draw() {
    if (this.isDrawing) return;
    this.isDrawing = true;
    requestAnimationFrame(() => {
      this.isDrawing = false;
      this.painter.paint(this.scroller.scrollTop);
      this.facts.see(this.firstRow, this.firstRow + this.rowsSeen);
    });
  }

  // The row and the column at a point of the window.
  at(event) {
    const box = this.canvas.getBoundingClientRect();
    const y = event.clientY - box.top;
    const x = event.clientX - box.left;
    const row = Math.floor((y - TITLES + this.scroller.scrollTop) / ROW);
    const column = this.columns.findLast((candidate) => candidate.x <= x);
    return { row, column, isTitle: y < TITLES };
  }
}
