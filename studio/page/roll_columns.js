// The columns of the piano roll, from the left: frame number, buttons, mouse, reset, sound, units.
import { BUTTONS } from "./input.js";
import { CHANNELS } from "./tones.js";

const NUMBER = 62;
const BUTTON = 22;
const COORDINATE = 48;
const LANE = 16;
const UNITS = 46;
const GAP = 8;
const PAD_MARKS = ["", "₂", "₃", "₄"]; // behind a button's sign, which gamepad it is of

// Those that a cursor can stand in have a name.
export function rollColumns(gamepads, withMouse) {
  const columns = [{ kind: "number", title: "frame", width: NUMBER }];
  for (let pad = 0; pad < gamepads; pad += 1) {
    BUTTONS.forEach(({ bit, title, name }, at) => {
      const spoken = pad ? `gamepad ${pad + 1} ${name}` : name;
      const place = { width: BUTTON, gap: at ? 0 : GAP };
      columns.push({ kind: "button", pad, bit, title: title + PAD_MARKS[pad], name: spoken, ...place });
    });
  }
  if (withMouse) columns.push(...mouseColumns());
  columns.push({ kind: "reset", title: "R", name: "reset", width: BUTTON, gap: GAP });
  CHANNELS.forEach((name, channel) => {
    columns.push({ kind: "lane", channel, title: "♪", width: LANE, gap: channel ? 0 : GAP });
  });
  columns.push({ kind: "units", title: "units", width: UNITS, gap: GAP });
  return placed(columns);
}

function mouseColumns() {
  const buttons = [[1, "l", "left"], [4, "m", "middle"], [2, "r", "right"]];
  return [
    { kind: "coordinate", field: "x", title: "x", name: "mouse x", width: COORDINATE, gap: GAP },
    { kind: "coordinate", field: "y", title: "y", name: "mouse y", width: COORDINATE },
    ...buttons.map(([bit, title, name]) => (
      { kind: "mouse", bit, title, name: `mouse ${name}`, width: BUTTON })),
  ];
}

function placed(columns) {
  let x = 0;
  for (const column of columns) {
    x += column.gap || 0;
    column.x = x;
    x += column.width;
  }
  return columns;
}

export function widthOf(columns) {
  const last = columns[columns.length - 1];
  return last.x + last.width + 4;
}
