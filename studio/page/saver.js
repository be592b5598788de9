// Saves: at each pause, after each recording, a while after edits, also while they go on, and when the page
// goes.

const QUIET = 2000; // milliseconds after the last edit
const MOST = 5000; // milliseconds that an edit waits for while others follow, as in a recording
const AGAIN = 10000; // milliseconds after a save that was refused

export class Saver {
  constructor(session, player, recorder, output) {
    this.session = session;
    this.output = output;
    this.timer = null;
    this.firstEdit = null; // when the first one was made since a save was asked for
    session.addEventListener("edited", () => this.noteEdit());
    session.addEventListener("saved", () => this.show());
    session.addEventListener("unsaved", (event) => this.noteUnsaved(event.detail.isRefused));
    player.addEventListener("playing", () => { if (!player.isPlaying) this.saveChanges(); });
    recorder.addEventListener("change", () => { if (!recorder.isRecording) this.saveChanges(); });
    document.addEventListener("visibilitychange", () => { if (document.hidden) this.saveChanges(); });
    window.addEventListener("pagehide", () => this.saveChanges());
  }

  noteEdit() {
    this.show();
    const now = performance.now();
    if (this.firstEdit === null) this.firstEdit = now;
    this.saveIn(Math.min(QUIET, this.firstEdit + MOST - now));
  }

  noteUnsaved(isRefused) {
    this.show();
    this.saveIn(isRefused ? AGAIN : QUIET);
  }

  saveIn(milliseconds) {
    clearTimeout(this.timer);
    this.timer = setTimeout(() => this.saveChanges(), milliseconds);
  }

  saveChanges() {
    this.firstEdit = null;
    if (this.session.isDirty) this.session.save();
  }

  show() {
    if (this.session.isDirty) this.output.textContent = "not saved yet";
    else this.output.textContent = `saved ${new Date().toLocaleTimeString()}`;
  }
}
