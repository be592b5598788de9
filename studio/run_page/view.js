// What is shown of the place: fields, bar, time, gamepads and strip.
import { spokenInput } from "../page/input.js";
import { Gamepads } from "./gamepads.js";
import { Timeline } from "./timeline.js";

const FRAMES_A_SECOND = 60;

function element(name) {
  return document.getElementById(name);
}

// Minutes, seconds and hundredths of a place.
function timeText(place) {
  const hundredths = Math.floor((place * 100) / FRAMES_A_SECOND);
  const part = (number) => String(number).padStart(2, "0");
  return `${Math.floor(hundredths / 6000)}:${part(Math.floor(hundredths / 100) % 60)}.${part(hundredths % 100)}`;
}

export class View {
  constructor({ session, player, sound }) {
    Object.assign(this, { session, player, sound });
    this.gamepads = new Gamepads(element("gamepads"), session.inputs);
    this.timeline = new Timeline(element("timeline"), session.inputs, (place) => player.goTo(place));
    element("bar").max = session.count;
    element("places").textContent = session.count;
    this.listen();
    this.showPlace();
    this.showPlaying();
    this.showSound();
  }

  listen() {
    const { player, sound } = this;
    player.addEventListener("place", () => this.showPlace());
    player.addEventListener("playing", () => this.showPlaying());
    sound.addEventListener("change", () => this.showSound());
    element("bar").addEventListener("input", () => player.goTo(Number(element("bar").value)));
    element("screen").addEventListener("click", () => player.toggle());
    element("speed").addEventListener("change", () => player.setSpeed(Number(element("speed").value)));
    const field = element("place");
    field.addEventListener("change", () => this.goToTyped(field.value.trim()));
    field.addEventListener("keydown", (event) => { if (event.key === "Enter") field.blur(); });
  }

  goToTyped(text) {
    if (/^\d+$/.test(text)) this.player.goTo(Number(text));
    this.showPlace();
  }

  showPlace() {
    const { place, isPlaying } = this.player;
    const input = this.session.inputs[place];
    if (document.activeElement !== element("place")) element("place").value = place;
    element("bar").value = place;
    element("bar").setAttribute("aria-valuetext", `place ${place} of ${this.session.count}`);
    element("time").textContent = `${timeText(place)} of ${timeText(this.session.count)}`;
    this.gamepads.show(input);
    this.timeline.show(place);
    // Each place in words would be too much while it plays.
    if (!isPlaying) element("spoken").textContent = input ? `frame ${place}: ${spokenInput(input)}` : "the end";
  }

  showPlaying() {
    const { isPlaying } = this.player;
    element("play-button").textContent = isPlaying ? "Pause" : "Play";
    element("cover").hidden = isPlaying || this.player.place > 0;
    this.showPlace();
  }

  showSound() {
    element("sound-button").setAttribute("aria-pressed", this.sound.isOn);
  }
}
