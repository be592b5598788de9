// Paints the rows of the piano roll that are seen.
import { isPressed } from "./cells.js";
import { Colors } from "./colors.js";
import { AWAY } from "./input.js";

export const ROW = 18;
export const TITLES = 20;
const LANE_COLORS = ["--pulse-1", "--pulse-2", "--triangle", "--noise"];
const COLORS = ["--paper", "--panel", "--ink", "--quiet", "--line", "--stripe", "--accent", "--pressed",
  "--pressed-ink", "--cursor", "--selected", "--kept", "--doubt", "--warning", ...LANE_COLORS];
const FONT = "12px ui-monospace, monospace";

export class RollPainter {
  constructor(canvas, roll) {
    this.canvas = canvas;
    this.roll = roll;
    this.context = canvas.getContext("2d", { alpha: false });
    this.palette = new Colors(COLORS);
  }

  resize(width, height) {
    const scale = window.devicePixelRatio || 1;
    if (width === this.width && height === this.high && scale === this.scale) return;
    this.scale = scale;
    this.width = width;
    this.high = height;
    this.canvas.width = Math.round(width * scale);
    this.canvas.height = Math.round(height * scale);
    this.canvas.style.width = `${width}px`;
    this.canvas.style.height = `${height}px`;
    this.context.setTransform(scale, 0, 0, scale, 0, 0);
    this.context.font = FONT;
    this.context.textBaseline = "middle";
  }

  box(color, x, y, width, height) {
    this.context.fillStyle = this.colors[color];
    this.context.fillRect(x, y, width, height);
  }

  text(color, text, x, y, align = "left") {
    this.context.fillStyle = this.colors[color];
    this.context.textAlign = align;
    this.context.fillText(text, x, y);
  }

  paint(top) {
    this.colors = this.palette.read();
    this.box("--panel", 0, 0, this.width, this.high);
    this.kept = new Set(this.roll.session.kept);
    const first = Math.floor(top / ROW);
    const last = Math.min(Math.ceil((top + this.high) / ROW), this.roll.session.count);
    for (let row = first; row <= last; row += 1) this.paintRow(row, TITLES + row * ROW - top);
    this.paintTitles();
  }

  paintTitles() {
    this.box("--paper", 0, 0, this.width, TITLES);
    for (const column of this.roll.columns) {
      const middle = column.x + column.width / 2;
      const color = column.kind === "lane" ? LANE_COLORS[column.channel] : "--quiet";
      this.text(color, column.title, middle, TITLES / 2, "center");
    }
    this.box("--line", 0, TITLES - 1, this.width, 1);
  }

  paintRow(row, y) {
    const { session, player, selection } = this.roll;
    const isShown = row === player.place;
    if (isShown) this.box("--cursor", 0, y, this.width, ROW);
    else if (selection.isWide && selection.has(row)) this.box("--selected", 0, y, this.width, ROW);
    else if (row % 10 === 0) this.box("--stripe", 0, y, this.width, ROW);
    const input = session.inputs[row];
    this.roll.columns.forEach((column, at) => {
      this.paintCell(column, row, input, y);
      if (isShown && at === selection.column) this.paintCursor(column, y);
    });
    this.box("--line", 0, y + ROW - 1, this.width, row % 10 === 9 ? 1 : 0.4);
  }

  paintCell(column, row, input, y) {
    if (column.kind === "number") this.paintNumber(row, y, column, input);
    else if (input && column.kind === "lane") this.paintLane(column, row, y);
    else if (input && column.kind === "units") this.paintUnits(column, row, y);
    else if (input && column.kind === "coordinate") this.paintCoordinate(column, input, y);
    else if (input) this.paintButton(column, input, y);
  }

  paintCursor(column, y) {
    this.context.strokeStyle = this.colors["--ink"];
    this.context.lineWidth = 1.5;
    this.context.strokeRect(column.x + 1, y + 1, column.width - 2, ROW - 3);
  }

  // A kept place is green where it is known to be true, and grey where an edit may have changed it.
  paintNumber(row, y, column, input) {
    if (this.kept.has(row)) {
      this.box(row <= this.roll.session.trusted ? "--kept" : "--doubt", 0, y, column.width, ROW - 1);
    }
    const isHeavy = this.roll.facts.isHeavy(row);
    if (isHeavy) this.text("--warning", "!", 3, y + ROW / 2);
    const color = isHeavy ? "--warning" : "--ink";
    this.text(color, input ? String(row) : "end", column.width - 6, y + ROW / 2, "right");
  }

  paintButton(column, input, y) {
    const middle = column.x + column.width / 2;
    if (isPressed(input, column)) {
      const color = column.kind === "reset" ? "--warning" : "--pressed";
      this.box(color, column.x + 1, y + 1, column.width - 2, ROW - 3);
      this.text("--pressed-ink", column.title, middle, y + ROW / 2, "center");
    } else {
      this.box("--line", middle - 1, y + ROW / 2 - 1, 2, 2);
    }
  }

  paintCoordinate(column, input, y) {
    const text = input[column.field] === AWAY ? "·" : String(input[column.field]);
    this.text("--quiet", text, column.x + column.width - 4, y + ROW / 2, "right");
  }

  // A channel's level as a bar from the left; a tone that begins has a head.
  paintLane(column, row, y) {
    const facts = this.roll.facts.of(row);
    if (!facts || !facts.schedule) return;
    const sound = facts.schedule.sounds[column.channel];
    const color = LANE_COLORS[column.channel];
    if (sound) this.box(color, column.x + 2, y, 1 + ((column.width - 5) * sound.level) / 100, ROW - 1);
    if (facts.schedule.tones.some((tone) => tone.channel === column.channel)) {
      this.box(color, column.x + 1, y, column.width - 2, 3);
    }
  }

  paintUnits(column, row, y) {
    const facts = this.roll.facts.of(row);
    if (!facts || facts.units === null) return;
    const isHeavy = this.roll.facts.isHeavy(row);
    if (typeof facts.units === "string") {
      this.text(isHeavy ? "--warning" : "--quiet", facts.units, column.x + 2, y + ROW / 2);
      return;
    }
    const share = Math.min(1, facts.units / this.roll.facts.budget);
    this.box("--stripe", column.x, y + 3, column.width, ROW - 7);
    this.box(isHeavy ? "--warning" : "--accent", column.x, y + 3, Math.max(1, column.width * share), ROW - 7);
  }
}
