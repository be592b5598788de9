// The mouse on the piano roll: a click sets or clears a button, a drag does so over rows; on the numbers a
// click goes to the place, and a drag selects.
import { canBePressed, isPressed, withPressed } from "./cells.js";

export class RollPointer {
  constructor(roll) {
    this.roll = roll;
    this.drag = null;
    roll.canvas.addEventListener("pointerdown", (event) => this.down(event));
    roll.canvas.addEventListener("pointermove", (event) => this.move(event));
    roll.canvas.addEventListener("pointerup", () => this.up());
    roll.canvas.addEventListener("pointercancel", () => this.up());
  }

  down(event) {
    const { row, column, isTitle } = this.roll.at(event);
    if (event.button !== 0 || isTitle || !column) return;
    this.roll.canvas.setPointerCapture(event.pointerId);
    if (canBePressed(column)) this.beginPaint(row, column);
    else this.beginSelection(row, event.shiftKey);
  }

  beginPaint(row, column) {
    const { session, selection } = this.roll;
    if (row >= session.count) return;
    const pressed = !isPressed(session.inputs[row], column);
    selection.setColumn(this.roll.columns.indexOf(column));
    session.begin(`${pressed ? "press" : "release"} ${column.name}`);
    this.drag = { column, pressed, last: row };
    this.paint(row, row);
  }

  paint(from, to) {
    const { column, pressed } = this.drag;
    const { session } = this.roll;
    const changes = [];
    for (let at = Math.min(from, to); at <= Math.max(from, to) && at < session.count; at += 1) {
      const input = session.inputs[at];
      if (isPressed(input, column) === pressed) continue;
      changes.push({ kind: "set", at, input: withPressed(input, column, pressed) });
    }
    session.change("", changes);
  }

  beginSelection(row, reaches) {
    this.drag = { column: null };
    this.roll.selection.moveTo(row, reaches);
  }

  // A fast pointer leaves out rows; all up to it are meant.
  move(event) {
    if (!this.drag) return;
    const row = Math.max(0, this.roll.at(event).row);
    if (!this.drag.column) {
      if (row !== this.roll.player.place) this.roll.selection.moveTo(row, true);
    } else if (row !== this.drag.last) {
      this.paint(this.drag.last, row);
      this.drag.last = row;
    }
  }

  up() {
    if (this.drag && this.drag.column) this.roll.session.finish();
    this.drag = null;
  }
}
