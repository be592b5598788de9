// A strip of the inputs around the place shown, a lane for each button that the run uses. Dragging it goes to
// other places.
import { Colors } from "../page/colors.js";
import { BUTTONS } from "../page/input.js";
import { usedPads } from "./gamepads.js";

const COLORS = ["--line", "--cursor", "--pressed", "--quiet"];
const COLUMN = 4; // pixels of a frame
const LANE = 12;
const LABEL = 30; // pixels of a lane's name
const EDGE = 4;

function lanesOf(inputs) {
  const lanes = usedPads(inputs).flatMap((pad, _, pads) => BUTTONS
    .filter(({ bit }) => inputs.some((input) => input.pads[pad] & bit))
    .map(({ bit, title }) => ({
      title: pads.length > 1 ? `${pad + 1} ${title}` : title,
      isOn: (input) => (input.pads[pad] & bit) !== 0,
    })));
  if (inputs.some(({ mouse }) => mouse)) lanes.push({ title: "mouse", isOn: ({ mouse }) => mouse !== 0 });
  if (inputs.some(({ reset }) => reset)) lanes.push({ title: "reset", isOn: ({ reset }) => reset });
  return lanes;
}

export class Timeline {
  // `goTo` is called with a place.
  constructor(canvas, inputs, goTo) {
    Object.assign(this, { canvas, inputs, goTo });
    this.lanes = lanesOf(inputs);
    this.context = canvas.getContext("2d");
    this.palette = new Colors(COLORS);
    this.place = 0;
    this.listen();
    new ResizeObserver(() => this.resize()).observe(canvas);
    this.resize();
  }

  listen() {
    const { canvas } = this;
    canvas.addEventListener("pointerdown", (event) => {
      canvas.setPointerCapture(event.pointerId);
      this.dragged = { x: event.clientX, place: this.place };
    });
    canvas.addEventListener("pointermove", (event) => {
      if (!this.dragged) return;
      this.goTo(this.dragged.place - Math.round((event.clientX - this.dragged.x) / COLUMN));
    });
    canvas.addEventListener("pointerup", (event) => this.drop(event));
  }

  // A press without a move goes to the frame that was pressed.
  drop(event) {
    if (!this.dragged) return;
    const { x, place } = this.dragged;
    this.dragged = null;
    if (Math.abs(event.clientX - x) >= COLUMN / 2) return;
    const box = this.canvas.getBoundingClientRect();
    this.goTo(place + Math.floor((x - box.left - this.middle) / COLUMN));
  }

  get middle() {
    return LABEL + Math.floor((this.width - LABEL) / 2);
  }

  resize() {
    const scale = window.devicePixelRatio || 1;
    this.width = this.canvas.clientWidth;
    this.height = 2 * EDGE + LANE * Math.max(1, this.lanes.length);
    this.canvas.width = Math.round(this.width * scale);
    this.canvas.height = Math.round(this.height * scale);
    this.context.setTransform(scale, 0, 0, scale, 0, 0);
    this.draw();
  }

  show(place) {
    this.place = place;
    this.draw();
  }

  draw() {
    const { context, width, height } = this;
    this.colors = this.palette.read();
    context.clearRect(0, 0, width, height);
    context.fillStyle = this.colors["--line"];
    for (const x of this.ends()) context.fillRect(x, 0, 1, height);
    context.font = "10px system-ui, sans-serif";
    context.textBaseline = "middle";
    this.lanes.forEach((lane, at) => this.drawLane(lane, EDGE + LANE * at));
    context.fillStyle = this.colors["--cursor"];
    context.fillRect(this.middle - 1, 0, 2, height);
  }

  // Where the run begins and ends.
  ends() {
    return [0, this.inputs.length].map((place) => this.middle + COLUMN * (place - this.place))
      .filter((x) => x >= LABEL && x < this.width);
  }

  drawLane(lane, y) {
    const { context, place } = this;
    const first = Math.max(0, place - Math.floor((this.middle - LABEL) / COLUMN));
    const end = Math.min(this.inputs.length, place + Math.ceil((this.width - this.middle) / COLUMN));
    context.fillStyle = this.colors["--pressed"];
    for (let at = first; at < end; at += 1) {
      const x = this.middle + COLUMN * (at - place);
      if (lane.isOn(this.inputs[at])) context.fillRect(x, y + 1, COLUMN, LANE - 3);
    }
    context.fillStyle = this.colors["--quiet"];
    context.fillText(lane.title, EDGE, y + LANE / 2);
  }
}
