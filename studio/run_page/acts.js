// All that a run's page can be told to do, each with its keys.
import { download } from "../page/services.js";

const SECOND = 60; // frames
const TENTHS = 10;

function click(name) {
  document.getElementById(name).click();
}

export class RunActs {
  // Parts: session, player, sound, files, screen (its element), say.
  constructor(parts) {
    Object.assign(this, parts);
    this.isLooping = false;
    this.player.addEventListener("playing", () => this.again());
  }

  all() {
    return [...this.places(), ...this.playing(), ...this.others()];
  }

  places() {
    const act = (name, keys, title, run) => ({ group: "Places", name, keys, title, run });
    const { player, session } = this;
    const by = (step) => () => player.goTo(player.place + step);
    const tenths = Array.from({ length: TENTHS }, (_, tenth) => (
      act(`tenth-${tenth}`, [String(tenth)], "", () => player.goTo(Math.floor((session.count * tenth) / TENTHS)))));
    return [
      act("forward", ["ArrowRight", "."], "a frame forward", by(1)),
      act("back", ["ArrowLeft", ","], "a frame back", by(-1)),
      act("second-forward", ["ArrowUp", "PageDown", "Shift+ArrowRight"], "a second forward", by(SECOND)),
      act("second-back", ["ArrowDown", "PageUp", "Shift+ArrowLeft"], "a second back", by(-SECOND)),
      act("first", ["Home"], "to the first place", () => player.goTo(0)),
      act("last", ["End"], "to the last place", () => player.goTo(session.count)),
      act("place", ["G"], "type a place", () => this.typePlace()),
      act("tenths", ["0", "9"], "to the tenth of the run that the digit says", () => {}),
      ...tenths,
    ];
  }

  playing() {
    const act = (name, keys, title, run) => ({ group: "Playing", name, keys, title, run });
    return [
      act("play", ["Space", "K"], "play and pause", () => this.player.toggle()),
      act("faster", ["+", "="], "play faster", () => this.changeSpeed(1)),
      act("slower", ["-"], "play slower", () => this.changeSpeed(-1)),
      act("sound", ["M"], "sound on or off", () => this.sound.turn(!this.sound.isOn)),
      act("loop", ["R"], "play again and again", () => this.loop()),
      act("full", ["F"], "full screen, and back", () => this.toggleFull()),
      act("escape", ["Escape"], "pause", () => this.player.pause()),
    ];
  }

  others() {
    const act = (name, keys, title, run) => ({ group: "Files and page", name, keys, title, run });
    return [
      act("save-recording", ["Shift+S"], "save the recording", () => this.save("recording")),
      act("save-cart", ["Shift+C"], "save the cart", () => this.save("cart")),
      act("theme", ["L"], "light or dark", () => this.changeTheme()),
      act("help", ["?"], "this page", () => document.getElementById("help").showModal()),
    ];
  }

  // ---- what they do

  typePlace() {
    const field = document.getElementById("place");
    field.focus();
    field.select();
  }

  changeSpeed(step) {
    const field = document.getElementById("speed");
    field.selectedIndex = Math.max(0, Math.min(field.selectedIndex + step, field.options.length - 1));
    field.dispatchEvent(new Event("change"));
    this.say(`speed ${field.options[field.selectedIndex].text}`);
  }

  loop() {
    this.isLooping = !this.isLooping;
    document.getElementById("loop-button").setAttribute("aria-pressed", this.isLooping);
    this.say(this.isLooping ? "plays again and again" : "plays once");
  }

  // It has come to its end, and begins anew.
  again() {
    const { player, session } = this;
    if (this.isLooping && !player.isPlaying && session.count && player.place === session.count) player.play();
  }

  toggleFull() {
    if (document.fullscreenElement) document.exitFullscreen();
    else this.screen.parentElement.requestFullscreen().catch((refusal) => this.say(refusal.message));
  }

  save(kind) {
    const { bytes, name } = this.files[kind];
    download(new Blob([bytes], { type: "application/octet-stream" }), name);
    this.say(`${name} is saved by the browser`);
  }

  changeTheme() {
    const root = document.documentElement;
    const isDark = getComputedStyle(root).colorScheme === "dark"
      || (!root.dataset.theme && matchMedia("(prefers-color-scheme: dark)").matches);
    root.dataset.theme = isDark ? "light" : "dark";
    this.redraw();
  }
}
