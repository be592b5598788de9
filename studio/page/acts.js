// All acts of the page, each with its keys, for the dispatch of keys, the buttons and the page of keys.
import { BUTTONS, BadLine, isSame, spokenInput } from "./input.js";
import { TooMany } from "./row_acts.js";
import { request, download } from "./services.js";

const SECOND = 60;
const FILES = { film: "film", wave: "WAV file", recording: "copy", run: "page that plays it" };
const ENDINGS = {
  "video/mp4": ".mp4", "video/webm": ".webm", "image/png": ".png", "audio/wav": ".wav", "text/html": ".html",
  "application/octet-stream": ".copy.w4rec",
};
const SILENT = ": a moving picture for a browser, without sound; with ffmpeg, or in a browser that encodes, it has one";
const BUTTON_KEYS = { 16: ["A"], 32: ["D"], 64: ["W"], 128: ["S"], 1: ["1"], 2: ["2"] };

function focus(name) {
  const field = document.getElementById(name);
  field.focus();
  if (field.select) field.select();
}

function selectLine(area, number) {
  const before = area.value.split("\n").slice(0, number - 1);
  const start = before.reduce((length, line) => length + line.length + 1, 0);
  const end = area.value.indexOf("\n", start);
  area.focus();
  area.setSelectionRange(start, end < 0 ? area.value.length : end);
}

function click(name) {
  document.getElementById(name).click();
}

export class Acts {
  constructor(parts) {
    Object.assign(this, parts);
    this.selection.addEventListener("moved", () => this.sayPlace());
  }

  all() {
    const groups = [this.places, this.recording, this.rows, this.history, this.sounds, this.panes];
    return groups.flatMap((group) => group.call(this));
  }

  places() {
    const act = (name, keys, title, run) => ({ group: "Places", name, keys, title, run });
    const { player, selection, session } = this;
    const by = (step, reaches) => () => this.moveTo(player.place + step, reaches);
    return [
      act("play", ["Space"], "play and pause", () => this.playOrPause()),
      act("forward", ["ArrowDown", "."], "a frame forward", by(1, false)),
      act("back", ["ArrowUp", ","], "a frame back", by(-1, false)),
      act("second-forward", ["PageDown"], "a second forward", by(SECOND, false)),
      act("second-back", ["PageUp"], "a second back", by(-SECOND, false)),
      act("first", ["Home"], "to the first place", () => this.moveTo(0, false)),
      act("last", ["End"], "to the last place", () => this.moveTo(session.count, false)),
      act("change-below", ["Ctrl+ArrowDown"], "on to the next change of inputs", () => this.toChange(1)),
      act("change-above", ["Ctrl+ArrowUp"], "back to the last change of inputs", () => this.toChange(-1)),
      act("place", ["G"], "type a place", () => focus("place")),
      act("faster", ["+", "="], "play faster", () => this.changeSpeed(1)),
      act("slower", ["-"], "play slower", () => this.changeSpeed(-1)),
      act("keep", ["K"], "keep this place's state, or stop keeping it", () => this.keepPlace()),
      act("longer", ["Shift+ArrowDown"], "extend the selection a row down", by(1, true)),
      act("shorter", ["Shift+ArrowUp"], "extend the selection a row up", by(-1, true)),
      act("second-longer", ["Shift+PageDown"], "extend the selection a second down", by(SECOND, true)),
      act("second-shorter", ["Shift+PageUp"], "extend the selection a second up", by(-SECOND, true)),
      act("to-first", ["Shift+Home"], "extend the selection to the first row", () => this.moveTo(0, true)),
      act("to-last", ["Shift+End"], "extend the selection to the last row", () => this.moveTo(session.count, true)),
      act("select-all", ["Ctrl+A"], "select all rows", () => selection.all()),
      act("escape", ["Escape"], "stop recording and playing; leave a field", () => this.escape()),
    ];
  }

  recording() {
    const act = (name, keys, title, run) => ({ group: "Recording live", name, keys, title, run });
    return [
      act("record", ["R"], "record from the place shown, and stop", () => this.recorder.toggle()),
      act("insert-mode", ["Shift+R"], "recording overwrites what follows, or inserts", () => click("insert-mode")),
      act("gamepad", ["Arrows", "X", "Z"], "while recording: the gamepad's cross, buttons 1 and 2", () => {}),
    ];
  }

  rows() {
    const act = (name, keys, title, run) => ({ group: "Rows", name, keys, title, run });
    const { rowActs } = this;
    const buttons = BUTTONS.map(({ bit, name }) => {
      const title = `${name} of the cursor's gamepad`;
      return act(`toggle-${bit}`, BUTTON_KEYS[bit], title, () => rowActs.toggleButton(bit, name));
    });
    return [
      act("left", ["ArrowLeft"], "a column to the left", () => this.moveColumn(-1)),
      act("right", ["ArrowRight"], "a column to the right", () => this.moveColumn(1)),
      act("toggle", ["Enter"], "toggle the column's button in the selected rows", () => rowActs.toggleColumn()),
      ...buttons,
      act("insert-row", ["I", "Insert"], "insert as many empty rows as are selected", () => rowActs.insert()),
      act("delete-rows", ["Delete", "Backspace"], "delete the selected rows", () => rowActs.delete()),
      act("copy", ["Ctrl+C"], "copy the selected rows", () => this.copyByButton()),
      act("cut", ["Ctrl+X"], "cut the selected rows", () => {}),
      act("paste", ["Ctrl+V"], "paste rows before the place shown", () => this.pasteByButton()),
      act("paste-over", ["Ctrl+Shift+V"], "paste rows over those that follow", () => {}),
      act("autofire", ["F"], "autofire over the selected rows", () => this.autofire()),
      act("reset-mark", ["T"], "toggle the reset with which the frame begins", () => rowActs.toggleReset()),
      act("edit-text", ["E"], "edit the selected inputs as text", () => this.editText()),
      act("more-gamepads", ["P"], "show gamepads 1, 1 and 2, and so on", () => this.moreGamepads()),
      act("mouse-columns", ["O"], "show the mouse, and record it", () => click("mouse-columns")),
    ];
  }

  history() {
    const act = (name, keys, title, run) => ({ group: "History and files", name, keys, title, run });
    return [
      act("undo", ["Ctrl+Z"], "undo, without a limit", () => this.step("undo", "undone")),
      act("redo", ["Ctrl+Y", "Ctrl+Shift+Z"], "redo", () => this.step("redo", "done again")),
      act("save", ["Ctrl+S"], "save now; it is also saved at each pause", () => this.session.save()),
      act("branch", ["B"], "make a branch", () => this.openBranches()),
      act("save-recording", ["Shift+S"], "save a copy of the recording", () => this.saveCopy()),
      act("save-film", ["Shift+F"], "save a film of the selected rows, or of all", () => this.saveFilm()),
      act("save-run", ["Shift+P"], "save the run as a page in one file, which plays it", () => this.saveRun()),
    ];
  }

  sounds() {
    const act = (name, keys, title, run) => ({ group: "Sound", name, keys, title, run });
    return [
      act("sound", ["M"], "turn the sound while playing on or off", () => this.sound.turn(!this.sound.isOn)),
      act("hear", ["Shift+H"], "hear the selected rows, or all", () => this.hear()),
      act("save-wave", ["Shift+W"], "save their sound as WAV", () => this.saveWave()),
    ];
  }

  panes() {
    const act = (name, keys, title, run) => ({ group: "Panes", name, keys, title, run });
    return [
      act("watch", ["N"], "a new watch", () => this.openWatches()),
      act("search", ["/"], "search memory", () => this.openPane("search-pane", "start-button")),
      act("hexadecimal", ["H"], "show memory in hexadecimal", () => this.openHexadecimal()),
      act("theme", ["L"], "light or dark", () => click("theme-button")),
      act("help", ["?"], "this page", () => document.getElementById("help").showModal()),
    ];
  }

  // ---- what they do

  moveTo(place, reaches) {
    this.selection.moveTo(place, reaches);
  }

  sayPlace() {
    const { place: now } = this.player;
    const input = this.session.inputs[now];
    const mark = this.facts.isHeavy(now) ? "; near its budget" : "";
    this.say(input ? `frame ${now}: ${spokenInput(input)}${mark}` : `place ${now}, the end`);
  }

  // The nearest row, down or up, whose inputs aren't those of the row above it.
  toChange(step) {
    const { inputs, count } = this.session;
    let at = this.player.place + step;
    while (at > 0 && at < count && isSame(inputs[at], inputs[at - 1])) at += step;
    this.moveTo(Math.max(0, Math.min(at, count)), false);
  }

  moveColumn(step) {
    const { columns } = this.roll;
    let at = this.selection.column + step;
    while (columns[at] && !columns[at].name) at += step;
    if (!columns[at]) return;
    this.selection.setColumn(at);
    this.say(columns[at].name);
  }

  playOrPause() {
    if (this.recorder.isRecording) this.recorder.stop();
    else this.player.toggle();
  }

  escape() {
    this.recorder.stop();
    this.player.pause();
    this.selection.clear();
  }

  changeSpeed(step) {
    const field = document.getElementById("speed");
    const at = Math.max(0, Math.min(field.selectedIndex + step, field.options.length - 1));
    field.selectedIndex = at;
    field.dispatchEvent(new Event("change"));
    this.say(`speed ${field.options[at].text}`);
  }

  async keepPlace() {
    this.say(await this.keeper.toggle(this.player.place));
  }

  step(name, spoken) {
    this.recorder.stop();
    const label = this.session[name]();
    this.say(label === null ? `nothing to ${name}` : `${spoken}: ${label}`);
  }

  moreGamepads() {
    const field = document.getElementById("gamepads");
    field.selectedIndex = (field.selectedIndex + 1) % field.options.length;
    field.dispatchEvent(new Event("change"));
  }

  copyByButton() {
    navigator.clipboard.writeText(this.rowActs.copyText()).catch(() => {});
  }

  async pasteByButton() {
    const text = await navigator.clipboard.readText().catch(() => this.rowActs.copied);
    this.rowActs.paste(text || this.rowActs.copied, false);
  }

  autofire() {
    const column = this.roll.columns[this.selection.column];
    document.getElementById("autofire-text").textContent = `${column.name}, in the selected rows`;
    this.ask("autofire-dialog", () => {
      this.rowActs.autofire(...["frames-on", "frames-off"].map((name) => (
        Math.max(1, Math.floor(Number(document.getElementById(name).value) || 1)))));
    });
  }

  editText() {
    const area = document.getElementById("text-area");
    area.value = this.rowActs.selectedText;
    document.getElementById("text-refusal").textContent = "";
    this.ask("text-dialog", () => this.setText(area));
  }

  // A text that isn't inputs stays in the dialog, with its bad line selected.
  setText(area) {
    try {
      this.rowActs.setText(area.value);
      return true;
    } catch (fault) {
      if (!(fault instanceof BadLine || fault instanceof TooMany)) throw fault;
      document.getElementById("text-refusal").textContent = `nothing was changed: ${fault.message}`;
      if (fault instanceof BadLine) selectLine(area, fault.number);
      return false;
    }
  }

  // The work is done when the form is submitted, so that the next key finds it done: that the dialog has
  // closed is told in a later task. Where the work is false it stays open. The handler takes the place of
  // the last one, which a cancel left.
  ask(name, work) {
    const dialog = document.getElementById(name);
    dialog.querySelector("form").onsubmit = (event) => {
      if (event.submitter.value === "set" && work() === false) event.preventDefault();
    };
    dialog.showModal();
    if (document.activeElement.select && dialog.id !== "text-dialog") document.activeElement.select();
  }

  openPane(pane, field) {
    document.getElementById(pane).open = true;
    focus(field);
  }

  openHexadecimal() {
    this.openPane("hexadecimal-pane", "hexadecimal-address");
  }

  openBranches() {
    this.openPane("branches-pane", "branch-name");
  }

  openWatches() {
    this.openPane("watch-pane", "watch-address");
  }

  // The places of the selected rows, or all where no more than one is selected.
  stretch() {
    if (!this.selection.isWide) return { from: 0, to: this.session.count };
    const [first, end] = this.selection.range;
    return { from: first + 1, to: Math.max(end, first + 1) };
  }

  // A file of the recording's name, with an ending that its type gives.
  async saveAs(kind, query) {
    this.closeFault();
    this.say(`making a ${FILES[kind]}`);
    try {
      await this.session.settled();
      const blob = await request(kind, query, { read: "blob" });
      const name = this.recordingName + ENDINGS[blob.type];
      download(blob, name);
      this.say(`${name} is made${blob.type === "image/png" ? SILENT : ""}`);
    } catch (refusal) {
      this.say(`no ${FILES[kind]} was made`);
      this.fault(refusal.message);
    }
  }

  saveCopy() {
    return this.saveAs("recording", {});
  }

  saveRun() {
    return this.saveAs("run", {});
  }

  saveFilm() {
    return this.saveAs("film", this.stretch());
  }

  saveWave() {
    return this.saveAs("wave", this.stretch());
  }

  async hear() {
    this.player.pause();
    try {
      await this.session.settled();
      await this.sound.hear(await request("wave", this.stretch(), { read: "arrayBuffer" }));
    } catch (refusal) {
      this.fault(refusal.message);
    }
  }
}
