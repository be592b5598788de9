// What the players do now: keys for one gamepad, real gamepads, and the mouse over the screen.
import { withPad } from "./input.js";

const KEY_BITS = {
  ArrowLeft: 16, ArrowRight: 32, ArrowUp: 64, ArrowDown: 128,
  KeyX: 1, KeyV: 1, KeyZ: 2, KeyC: 2, KeyN: 2,
};
const STICK = 0.5; // how far a stick is pushed
const SIDE = 160;

function gamepadByte(gamepad) {
  const isDown = (number) => Boolean(gamepad.buttons[number] && gamepad.buttons[number].pressed);
  const [x = 0, y = 0] = gamepad.axes;
  const pressed = [
    [1, isDown(0) || isDown(3)], [2, isDown(1) || isDown(2)],
    [16, isDown(14) || x < -STICK], [32, isDown(15) || x > STICK],
    [64, isDown(12) || y < -STICK], [128, isDown(13) || y > STICK],
  ];
  return pressed.reduce((byte, [bit, isPressed]) => (isPressed ? byte | bit : byte), 0);
}

export class Controllers {
  constructor(screen) {
    this.screen = screen;
    this.keyPad = 0; // the gamepad that keys play
    this.isMouseRecorded = false;
    this.keys = 0;
    this.mouse = { x: 0, y: 0, buttons: 0 };
    this.isListening = false;
    this.listen();
  }

  listen() {
    window.addEventListener("keydown", (event) => this.key(event, true), true);
    window.addEventListener("keyup", (event) => this.key(event, false), true);
    window.addEventListener("blur", () => { this.keys = 0; });
    for (const name of ["pointermove", "pointerdown", "pointerup"]) {
      this.screen.addEventListener(name, (event) => this.pointer(event));
    }
  }

  begin() {
    this.isListening = true;
    this.keys = 0;
  }

  end() {
    this.isListening = false;
  }

  // While recording, a key of the gamepad is nothing else.
  key(event, isDown) {
    const bit = KEY_BITS[event.code];
    if (!this.isListening || !bit || event.ctrlKey || event.altKey || event.metaKey) return;
    this.keys = isDown ? this.keys | bit : this.keys & ~bit;
    event.preventDefault();
    event.stopImmediatePropagation();
  }

  pointer(event) {
    const box = this.screen.getBoundingClientRect();
    this.mouse = {
      x: Math.floor(((event.clientX - box.left) * SIDE) / box.width),
      y: Math.floor(((event.clientY - box.top) * SIDE) / box.height),
      buttons: event.buttons & 7,
    };
  }

  gamepads() {
    return [...navigator.getGamepads()].filter((gamepad) => gamepad && gamepad.connected).slice(0, 4);
  }

  // The input that the players make of one; gamepads that nobody plays stay as they are in it.
  read(input) {
    const bytes = new Map([[this.keyPad, this.keys]]);
    this.gamepads().forEach((gamepad, at) => bytes.set(at, (bytes.get(at) || 0) | gamepadByte(gamepad)));
    let played = input;
    for (const [pad, byte] of bytes) played = withPad(played, pad, byte);
    if (!this.isMouseRecorded) return played;
    return { ...played, x: this.mouse.x, y: this.mouse.y, mouse: this.mouse.buttons };
  }
}
