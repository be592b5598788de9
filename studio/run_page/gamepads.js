// The gamepads that a run uses, each with the buttons that are pressed in the frame that is played next.
import { BUTTONS } from "../page/input.js";

const SVG = "http://www.w3.org/2000/svg";
const SHAPES = { // of each button on a pad of 76 by 32
  16: { path: "M4 12h8v8H4z" }, 32: { path: "M20 12h8v8h-8z" },
  64: { path: "M12 4h8v8h-8z" }, 128: { path: "M12 20h8v8h-8z" },
  1: { circle: [64, 13, 7], letter: "X" }, 2: { circle: [47, 19, 7], letter: "Z" },
};

function shape(name, attributes) {
  const made = document.createElementNS(SVG, name);
  for (const [attribute, value] of Object.entries(attributes)) made.setAttribute(attribute, value);
  return made;
}

function buttonShape({ path, circle }) {
  if (path) return shape("path", { d: path });
  const [cx, cy, r] = circle;
  return shape("circle", { cx, cy, r });
}

// The gamepads, from 0 on, on which something is ever pressed; the first where there is none.
export function usedPads(inputs) {
  const used = [0, 1, 2, 3].filter((pad) => inputs.some((input) => input.pads[pad]));
  return used.length ? used : [0];
}

class Gamepad {
  constructor(pad) {
    this.pad = pad;
    this.picture = shape("svg", { viewBox: "0 0 76 32", "aria-hidden": "true" });
    this.buttons = BUTTONS.map(({ bit }) => this.addButton(bit));
    this.item = document.createElement("li");
    this.item.append(this.picture, `gamepad ${pad + 1}`);
  }

  addButton(bit) {
    const { letter, circle, ...rest } = SHAPES[bit];
    const button = buttonShape({ circle, ...rest });
    this.picture.append(button);
    if (letter) {
      const label = shape("text", { x: circle[0], y: circle[1] + 2 });
      label.textContent = letter;
      this.picture.append(label);
    }
    return { bit, button };
  }

  show(byte) {
    for (const { bit, button } of this.buttons) button.classList.toggle("pressed", (byte & bit) !== 0);
  }
}

export class Gamepads {
  constructor(list, inputs) {
    this.pads = usedPads(inputs).map((pad) => new Gamepad(pad));
    list.replaceChildren(...this.pads.map(({ item }) => item));
  }

  // An input, or nothing at the end.
  show(input) {
    for (const gamepad of this.pads) gamepad.show(input ? input.pads[gamepad.pad] : 0);
  }
}
