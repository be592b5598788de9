// The connection was lost and is there again: this page's copy of the inputs goes on, unless another page had
// the session meanwhile. Then the copy is given to the user as a text, and the session's inputs are read.
import { inputText, isSame } from "./input.js";
import { download } from "./services.js";
import { Refusal } from "./refusals.js";

const OTHERS = "another page had this session meanwhile, and what it left is shown";

// The text of a script that puts the inputs into a recording without frames; the roll pastes it too.
export function scriptOf(inputs) {
  return inputs.map((input, at) => `insert ${at} ${inputText(input)}\n`).join("");
}

function areSame(some, others) {
  return some.length === others.length && some.every((input, at) => isSame(input, others[at]));
}

export class Return {
  constructor({ session, recorder, player, note, fault, recordingName }) {
    Object.assign(this, { session, recorder, player, note, fault });
    this.fileName = `${recordingName}.inputs.txt`;
    const { connection } = session;
    connection.hasCopy = true;
    connection.addEventListener("again", (event) => this.meet(event.detail));
    connection.addEventListener("ended", (event) => this.leave(event.detail));
    window.addEventListener("beforeunload", (event) => {
      if (session.isDirty && !connection.isReady) event.preventDefault(); // the browser asks first
    });
  }

  async meet({ last_page: lastPage }) {
    const { session } = this;
    const { connection } = session;
    try {
      const inputs = await session.readInputs((line) => connection.askFirst(line));
      const isOwn = lastPage === connection.page || areSame(inputs, session.inputs);
      if (isOwn) session.bringUp(inputs);
      else this.giveIn(inputs);
    } catch (refusal) {
      if (!(refusal instanceof Refusal)) throw refusal; // else it is lost once more, and met again
    }
  }

  giveIn(inputs) {
    this.stop();
    this.offer();
    this.session.giveIn(inputs);
    this.note(`${OTHERS}. What this page had is in the file ${this.fileName}, a link beside the buttons: to `
      + "have it back, select all rows, press E, and set that text");
  }

  // Nothing is answered any more, so that edits that weren't saved may be nowhere else.
  leave(why) {
    this.stop();
    if (!this.session.isDirty) return;
    this.offer();
    this.fault(`${why}. The inputs of this page are in the file ${this.fileName}, a link beside the buttons`);
  }

  stop() {
    this.recorder.stop();
    this.player.pause();
  }

  offer() {
    download(new Blob([scriptOf(this.session.inputs)], { type: "text/plain" }), this.fileName);
  }
}
