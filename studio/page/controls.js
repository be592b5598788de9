// The fields and buttons around the screen, which show what the parts do and tell them what to do.

const LOOK = 300; // milliseconds between looks whether a picture is late
const RATE_SPAN = 500; // milliseconds over which the rate is counted

export class Controls {
  constructor(parts) {
    Object.assign(this, parts); // session, player, recorder, controllers, sound, roll, selection, say
    this.place = document.getElementById("place");
    this.bar = document.getElementById("bar");
    this.places = document.getElementById("places");
    this.rate = { element: document.getElementById("rate"), time: 0, place: 0 };
    this.listenToFields();
    this.listenToParts();
    this.showPlace();
    setInterval(() => this.showWaiting(), LOOK);
  }

  // Where a picture takes long, how far the program has come.
  showWaiting() {
    const { player } = this;
    const isLate = !player.isPlaying && !player.isFollowing && player.shown !== player.place;
    if (isLate) this.rate.element.textContent = `running frames: ${this.session.trusted} so far`;
    else if (!player.isPlaying) this.rate.element.textContent = "";
  }

  listenToFields() {
    this.place.addEventListener("change", () => this.typePlace());
    this.place.addEventListener("keydown", (event) => { if (event.key === "Enter") this.place.blur(); });
    this.bar.addEventListener("pointerup", () => this.bar.blur());
    this.bar.addEventListener("input", () => this.selection.moveTo(Number(this.bar.value), false));
    this.onChange("speed", (field) => this.player.setSpeed(Number(field.value)));
    this.onChange("gamepads", (field) => this.setGamepads(Number(field.value)));
    this.onChange("key-gamepad", (field) => { this.controllers.keyPad = Number(field.value) - 1; });
    this.onChange("mouse-columns", (field) => this.setMouse(field.checked));
    this.onChange("insert-mode", (field) => this.setInserting(field.checked));
    for (const name of ["gamepadconnected", "gamepaddisconnected"]) {
      window.addEventListener(name, () => this.showControllers());
    }
  }

  onChange(name, work) {
    const field = document.getElementById(name);
    field.addEventListener("change", () => work(field));
  }

  listenToParts() {
    this.player.addEventListener("place", () => this.showPlace());
    this.player.addEventListener("playing", () => this.showPlaying());
    this.session.addEventListener("edited", () => this.showPlace());
    this.recorder.addEventListener("change", () => this.showRecording());
    this.sound.addEventListener("change", () => this.showSound());
    this.selection.addEventListener("change", () => this.showSelection());
    this.session.addEventListener("history", () => this.showHistory());
    this.showHistory();
    this.showControllers();
  }

  typePlace() {
    const number = Number(this.place.value);
    if (/^\d+$/.test(this.place.value.trim())) this.selection.moveTo(number, false);
    this.showPlace();
  }

  setGamepads(count) {
    this.roll.gamepads = count;
    this.roll.setColumns();
  }

  setMouse(isShown) {
    this.controllers.isMouseRecorded = isShown;
    this.roll.withMouse = isShown;
    this.roll.setColumns();
  }

  setInserting(isInserting) {
    this.recorder.isInserting = isInserting;
    this.say(isInserting ? "recording inserts" : "recording overwrites what follows");
  }

  showPlace() {
    const { place } = this.player;
    if (document.activeElement !== this.place) this.place.value = place;
    this.bar.max = this.session.count;
    this.bar.value = place;
    this.places.value = this.session.count;
    this.showRate(place);
  }

  showRate(place) {
    const { rate } = this;
    const now = performance.now();
    if (!this.player.isPlaying || now - rate.time < RATE_SPAN) return;
    const places = (1000 * (place - rate.place)) / (now - rate.time);
    if (rate.time) rate.element.textContent = `${Math.round(places)} a second`;
    Object.assign(rate, { time: now, place });
  }

  showPlaying() {
    document.getElementById("play-button").textContent = this.player.isPlaying ? "Pause" : "Play";
    this.rate.time = 0;
    if (!this.player.isPlaying) this.rate.element.textContent = "";
  }

  showRecording() {
    const button = document.getElementById("record-button");
    button.classList.toggle("on", this.recorder.isRecording);
    button.textContent = this.recorder.isRecording ? "Stop" : "Record";
    if (this.recorder.isRecording) this.say("recording: arrows, X and Z play; Escape stops");
    else this.say(`recorded up to place ${this.player.place}`);
  }

  showSound() {
    document.getElementById("sound-button").setAttribute("aria-pressed", this.sound.isOn);
  }

  showSelection() {
    const [first, end] = this.selection.range;
    const text = this.selection.isWide ? `${end - first} rows, ${first} to ${end - 1}` : "";
    document.getElementById("selection-text").textContent = text;
  }

  showHistory() {
    document.getElementById("undo-button").disabled = !this.session.done.length;
    document.getElementById("redo-button").disabled = !this.session.undone.length;
  }

  showControllers() {
    const count = this.controllers.gamepads().length;
    const text = count === 1 ? "a gamepad is there" : `${count} gamepads are there`;
    document.getElementById("controllers").textContent = count ? text : "";
  }
}
