// What else is known of the place shown: its state, traces, disk and units.
import { Refresher } from "./refresher.js";
import { RefusalLine } from "./refusal_line.js";
import { hexadecimal, letter } from "./memory_page.js";

const BYTES = 16; // of the disk in a row
const HEAVY_SHOWN = 100;

function diskText(bytes) {
  if (!bytes.length) return "the disk is empty";
  let text = "";
  for (let at = 0; at < bytes.length; at += BYTES) {
    const row = [...bytes.subarray(at, at + BYTES)];
    const numbers = row.map((byte) => hexadecimal(byte, 2)).join(" ");
    text += `${hexadecimal(at, 4)}  ${numbers.padEnd(3 * BYTES)} ${row.map(letter).join("")}\n`;
  }
  return text;
}

export class PlaceTexts {
  constructor({ session, player, facts, selection }) {
    Object.assign(this, { session, player, facts, selection });
    this.stateLine = document.getElementById("state-line");
    this.showState();
    this.showInPane("traces", (place) => this.tracesText(place));
    this.showInPane("disk", (place) => this.diskText(place));
    this.showInPane("units", (place) => this.unitsText(place));
    facts.addEventListener("change", () => this.updateHeavy());
    this.updateHeavy(); // some may be known already
  }

  // Each text has its own work, so that one that is refused leaves the others theirs.
  follow(update, tell) {
    const work = new Refresher(async () => {
      const place = this.player.shown;
      if (place >= 0 && place <= this.session.count) await update(place);
    }, { pause: 100, tell });
    this.player.addEventListener("shown", () => work.ask());
    return work;
  }

  showState() {
    const { session, stateLine } = this;
    this.follow(async (place) => {
      const text = await session.state(place);
      stateLine.textContent = text.slice(0, text.lastIndexOf(" kept"));
      stateLine.classList.toggle("heavy", !text.includes("halt running"));
    }, (refusal) => { if (refusal) stateLine.textContent = refusal.message; });
  }

  // In a pane that is open. What it showed before isn't the text of a place that is refused.
  showInPane(name, textOf) {
    const pane = document.getElementById(`${name}-pane`);
    const output = document.getElementById(name);
    const line = new RefusalLine(pane);
    const work = this.follow(async (place) => {
      if (pane.open) output.textContent = await textOf(place);
    }, (refusal) => {
      if (refusal) output.textContent = "";
      line.show(refusal);
    });
    pane.addEventListener("toggle", () => work.ask());
  }

  async tracesText(place) {
    const text = await this.session.connection.askText(`traces ${place} ${place}`);
    const lines = text.split("\n").slice(1).filter(Boolean).map((line) => line.replace(/^trace /, ""));
    return lines.join("\n") || `nothing was traced in the frame that led to place ${place}`;
  }

  async diskText(place) {
    const pieces = await this.session.askAt(`disk ${place}`, place, { cannotBeRefused: true });
    return diskText(pieces[0] || new Uint8Array(0));
  }

  // Of the frame that led to the place; the roll may know it already.
  async unitsText(place) {
    if (place === 0) return "no frame has led to place 0";
    if (!this.facts.knowsUnits) return "this w4 doesn't know the order units";
    const frame = place - 1;
    const { units, start } = this.facts.of(frame) || (await this.facts.fetchOne(frame));
    const { budget } = this.facts;
    const beside = start === null ? "" : `, its reset ${start}`;
    if (typeof units !== "number") return `frame ${frame}: ${units || "not known"}${beside}`;
    const [took, most] = [units, budget].map((number) => number.toLocaleString("en"));
    return `frame ${frame} took ${took} of ${most} units (${((100 * units) / budget).toFixed(1)} %)${beside}`;
  }

  // The frames near their budget, of those whose units are known.
  updateHeavy() {
    const list = document.getElementById("heavy-frames");
    const heavy = [];
    for (let frame = 0; frame < this.session.count && heavy.length < HEAVY_SHOWN; frame += 1) {
      if (this.facts.isHeavy(frame)) heavy.push(frame);
    }
    list.replaceChildren(...heavy.map((frame) => this.heavyRow(frame)));
  }

  heavyRow(frame) {
    const row = document.createElement("li");
    const button = document.createElement("button");
    button.className = "heavy";
    const { units } = this.facts.of(frame);
    button.textContent = `frame ${frame}: ${typeof units === "number" ? `${units} units` : units}`;
    button.addEventListener("click", () => this.selection.moveTo(frame + 1, false));
    row.append(button);
    return row;
  }
}
